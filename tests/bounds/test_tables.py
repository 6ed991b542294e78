"""Tables of targets: how many of their rows may be dropped or reversed, and how large a part may be."""
from __future__ import annotations

import calendar
import datetime

from bounds.refusals import reason
from fixtures.cases import Case
from openlink_update.tables import cells
from openlink_update.tables import coverage
from openlink_update.tables import dropped_rows
from openlink_update.tables import parts
from openlink_update.tables.table import Table

HEADER = ("publication_title", "print_identifier", "online_identifier", "embargo_info")


def number(place: int) -> str:
    """An identifier that no other place has."""
    return f"{place:08}"


class Rows(Case):
    def test_dropped(self) -> None:
        """Two in a hundred, rounded up."""
        row = ["no identifier", "a", "", ""]
        for rows, most in ((100, 2), (101, 3), (50, 1), (1, 1)):
            self.expect(f"{most} of {rows}", dropped_rows.reasons_against([row] * most, rows, ()), [])
            self.expect(f"{most + 1} of {rows}", len(dropped_rows.reasons_against([row] * (most + 1), rows, ())), 1)
        for allowed, most in (("dropped up to 7", 7), ("dropped up to 7%", 70), ("dropped up to 999999999", 999)):
            self.expect(
                allowed,
                [len(dropped_rows.reasons_against([row] * count, 1000, {allowed})) for count in (most, most + 1)],
                [0, 0 if most == 999 else 1],
            )
        for two in (["dropped up to 7", "dropped up to 9"], ["dropped up to 9", "dropped up to 7"]):
            found = dropped_rows.reasons_against([row] * 8, 1000, two)
            self.expect(f"the same of two, whatever their order: {two}", len(found), 1)
        self.expect(
            "ten digits are no limit",
            len(dropped_rows.reasons_against([row] * 21, 1000, {"dropped up to 9999999999"})),
            1,
        )

    def test_days_of_months(self) -> None:
        """The last day of each month, and the day after it, which is as good as none."""
        for year in (1900, 2000, 2023, 2024):
            for month in range(1, 13):
                last = calendar.monthrange(year, month)[1]
                whole = [coverage.day_in(f"{year}-{month:02}{day}", True) for day in ("", f"-{last}", f"-{last + 1}")]
                self.expect(f"{year}-{month:02}", whole, [year * 10000 + month * 100 + last] * 3)

    def test_characters_that_are_shown(self) -> None:
        self.expect("100 of a row", dropped_rows.shown(["x" * 100]), "x" * 100)
        self.expect("101 of a row", dropped_rows.shown(["x" * 100 + "y"]), "x" * 100)
        for text, wanted in (("x" * 40, "x" * 40), ("x" * 40 + "y", "x" * 40)):
            table = Table(HEADER, [["a", "1234-5679", "", text]])
            lines = coverage.served(table, datetime.date(2026, 11, 1))[1]
            self.expect(
                f"{len(text)} of an embargo", lines, [f'embargo_info not an embargo 1, first 0 "{wanted}": not used']
            )

    def test_shortest_identifier_with_words(self) -> None:
        """Ten characters are the least that an ISBN, or a number with a word after it, has."""
        for cell, wanted in (
            ("1234567 E.", "1234567 E."),
            ("12345679 (o)", "12345679"),
            ("0306406152", "9780306406157"),
            ("030640615", "030640615"),
            ("12345679 a", "12345679"),
            ("12345679a", "12345679a"),
        ):
            rows = [[cell]]
            for step in cells.STEPS:
                rows, _ = step(["print_identifier"], rows)
            self.expect(cell, rows, [[wanted]])


class Parts(Case):
    def table(self, rows: int, width: int) -> Table:
        return Table(HEADER, [["x" * width, number(place), "", ""] for place in range(rows)])

    def test_rows(self) -> None:
        for rows, wanted in ((200_000, ["a"]), (200_001, ["a", "a.2"])):
            table = self.table(rows, 1)
            self.expect(f"{rows} rows", list(parts.parts_of("a", table, 1)), wanted)

    def test_bytes(self) -> None:
        """Of the whole table with its header, and of each part of a larger one."""
        table = self.table(16, 1_000_000)
        size = len(table.to_bytes())
        table.rows[0][0] += "x" * (parts._MOST_BYTES - size)
        self.expect("16 MiB", (len(table.to_bytes()), list(parts.parts_of("a", table, 2**24))), (16_777_216, ["a"]))
        table.rows[0][0] += "x"
        found = parts.parts_of("a", table, 2**24 + 1)
        self.expect("and a byte", list(found), ["a", "a.2"])
        sizes = [len(table.of_rows(rows).to_bytes()) for rows in found.values()]
        self.expect(f"each part: {sizes}", all(size <= 2**24 for size in sizes))

    def test_registry(self) -> None:
        self.expect("256 targets", parts.fault_of({"a": 256}, b""), "")
        self.expect("257", parts.fault_of({"a": 256, "b": 1}, b"").startswith("registry.tsv: 257 targets"))
        self.expect("65,536 bytes", parts.fault_of({"a": 1}, bytes(65_536)), "")
        self.expect("65,537", parts.fault_of({"a": 1}, bytes(65_537)).startswith("registry.tsv: 1 targets and 65537"))

    def test_name_of_a_part(self) -> None:
        table = self.table(200_001, 1)
        self.expect("64 bytes", reason(parts.parts_of, "a" * 62, table, 1), "")
        self.expect(
            "65", reason(parts.parts_of, "a" * 63, table, 1), f"it has 2 parts, and the name {'a' * 63}.2 is too long"
        )
        for name, base in (("a.2", "a"), ("a.999", "a"), ("a.1", "a.1"), ("a.1000", "a.1000"), ("a.02", "a.02")):
            self.expect(name, parts.base_of(name), base)
