"""Coverage to the day: the cases of days.tsv through the program, with the rules of the sample library for it."""
from __future__ import annotations

import datetime
import os
from typing import Any

from fixtures import needs
from fixtures import readings
from fixtures.cases import Case
from fixtures.made_versions import HEADER
from fixtures.made_versions import Weeks
from fixtures.made_versions import table

HERE = os.path.dirname(os.path.abspath(__file__))
RULES = "examples/library/lighthouse-society.rules"  # those of docs/RULES.md, with and without a date
ISSN = "2957-1057"
VOLUMES = "rule\nwhen given rft.volume\nlink https://x.example.org/{rft.volume}\n"
LINKS = {f"https://lighthouses.example.org/journals/t{end}": what for end, what in (("?year=", "link"), ("", "title"))}


def cases() -> list[list[str]]:
    with open(f"{HERE}/days.tsv", encoding="utf-8") as file:
        return [line.rstrip("\n").split("\t") for line in file if not line.startswith("#")]


def row(first: str, last: str, embargo: str) -> tuple[str, ...]:
    return ("Lighthouses", ISSN, "", first, last, "https://x.example.org/", "t", embargo, "fulltext", "serial")


def link_of(menu: dict[str, str]) -> str:
    """What a menu of the one target has."""
    link = menu.get("lighthouses", "")
    return LINKS.get(link.partition("=")[0] + "=" if "=" in link else link, "none")


def served(data: bytes, allowed: str = "", rules: str = VOLUMES) -> tuple[list[str], Any]:
    """What a first version says of a table, and its header and rows as they are served."""
    with Weeks() as weeks:
        weeks.deliver("x", data, allowed, rules)
        said = weeks.make()
        return said, weeks.rows("x") if weeks.version else None


class Days(Case):
    """Versions that are made on a day."""

    @needs.program()
    def test_cases(self) -> None:
        """The link for each case, of a version that is made on its day."""
        versions = {}
        with open(RULES, encoding="utf-8") as file:
            rules = file.read()
        try:
            for number, (day, first, last, embargo, date, start, end, expected) in enumerate(cases()):
                key = (day, first, last, embargo)
                if key not in versions:
                    versions[key] = Weeks()
                    versions[key].deliver(
                        "lighthouses",
                        table(row(first, last, embargo)),
                        "date_first_issue_online not a " "date; date_last_issue_online not a date",
                        rules,
                    )
                    said = versions[key].make(datetime.date.fromisoformat(day))
                    self.expect(f"the version of {key}", said[0], "lighthouses: new, 1 row")
                query = f"rft.issn={ISSN}" + (f"&rft.date={date}&x.from={start}&x.to={end}" if date else "")
                case = f"case {number + 1}: {day}, {first} to {last}, {embargo}, {date}"
                self.expect(case, link_of(versions[key].menu(query)), expected)
                filled = f"coverage_from=0&coverage_to=99999999&{query}"
                self.expect(f"{case}, with the cells in the request", link_of(versions[key].menu(filled)), expected)
        finally:
            for version in versions.values():
                version.__exit__()
        self.expect("cases", len(cases()) >= 40)

    @needs.program()
    def test_requests(self) -> None:
        """The program gives each date of the cases the days that they have."""
        with readings.service() as port:
            for date, start, end in sorted({(date, start, end) for *_, date, start, end, _ in cases() if date}):
                pairs = dict(readings.reading_of(port, f"rft_val_fmt=x&rft.date={date}")["pairs"])
                self.expect(f"the days of {date}", (pairs.get("x.from"), pairs.get("x.to")), (start, end))

    @needs.program()
    def test_columns(self) -> None:
        """The two columns are after the table's own, and every cell of them is filled; nothing else changes."""
        short, long = ("A", "2957-1057"), (*row("1995", "", ""), "cell", "too many")
        _, (header, rows) = served(
            table(short, long, row("1990", "2000-02", "")), allowed="rows longer than the header"
        )
        self.expect("the header", header, [*HEADER, "coverage_from", "coverage_to"])
        self.expect("a short row", rows[0], ["A", "2957-1057", *[""] * 8, "0", "99999999"])
        self.expect("a long row", rows[1], [*row("1995", "", ""), "19950101", "99999999", "cell", "too many"])
        self.expect("a row", rows[2], [*row("1990", "2000-02", ""), "19900101", "20000229"])
        with open("update/tables/ANY.tsv", "rb") as file:
            _, (header, rows) = served(file.read())
        self.expect(
            "a table for every request",
            (header[-2:], rows[0][-2:]),
            (["coverage_from", "coverage_to"], ["0", "99999999"]),
        )
        ends = "\ufeff".encode() + table(short).replace(b"\n", b"\r\n\r\n")
        self.expect(
            "other line ends",
            served(ends)[1],
            ([*HEADER, "coverage_from", "coverage_to"], [["A", "2957-1057", *[""] * 8, "0", "99999999"]]),
        )

    @needs.program()
    def test_refused(self) -> None:
        """A table that brings a column of the update's is refused; an embargo of two readings is said and not used."""
        for name in ("coverage_from", "coverage_to"):
            said, _ = served(table((*row("1995", "", ""), "0"), header=(*HEADER, name)))
            self.expect(f"a table with {name}", [line for line in said if f"a column {name}" in line] != [])
            self.expect(f"a table with {name} is left out", said[0], "x: left out, since it has no old files")
        said, (_, rows) = served(table(row("1995", "", ""), row("1996", "", "6 to 12 months"), row("1997", "", "some")))
        expected = ["x: new, 3 rows", '  embargo_info not an embargo 2, first 1 "6 to 12 months": not used']
        self.expect("words", said[:2], expected)
        self.expect(
            "words are not used",
            [cells[-2:] for cells in rows],
            [[f"{year}0101", "99999999"] for year in (1995, 1996, 1997)],
        )

    @needs.program()
    def test_walls(self) -> None:
        """Walls move from day to day without new files; what the input has by then is not read."""
        with Weeks() as weeks:
            weeks.deliver("x", table(row("1995", "", "P6M"), row("2000", "", "")), "rows longer than the header")
            weeks.make(datetime.date(2026, 11, 27))
            self.expect(
                "the first day",
                [cells[-2:] for cells in weeks.rows("x")[1]],
                [["19950101", "20260527"], ["20000101", "99999999"]],
            )
            allowed = weeks.read("allowed.tsv")
            os.mkdir(f"{weeks.version}/changes")
            with open(f"{weeks.version}/changes/x.txt", "w", encoding="utf-8") as file:
                file.write("came")
            weeks.write("x.txt", b"slip")
            weeks.write("targets.tsv", b"slip\n")
            said = weeks.make(datetime.date(2026, 11, 28), walls=True)
            self.expect(
                "the next day",
                [cells[-2:] for cells in weeks.rows("x")[1]],
                [["19950101", "20260528"], ["20000101", "99999999"]],
            )
            self.expect("what is said", said, ["x: moving walls changed"])
            self.expect("numbers of warnings are kept", weeks.read("allowed.tsv"), allowed)
            self.expect("and changes of the week", weeks.read("changes/x.txt"), b"came")
            self.expect("of which there are some", allowed, b"x\trows longer than the header\t0\n")
