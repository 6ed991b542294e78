"""Tests of openlink-holdings: each format against its description, and what it says of tables that are written here."""
from __future__ import annotations

import csv
import datetime
import glob
import io
import json
import os
import re
import subprocess
import xml.etree.ElementTree as xml

from fixtures.cases import Case
from fixtures.exported_version import SCHOLAR
from fixtures.exported_version import TARGETS
from fixtures.exported_version import Version
from fixtures.exported_version import row
from fixtures.exported_version import table
from fixtures import library_index
from holdings.formats import DOCTYPE
from holdings.formats import HOLDINGS
from holdings.formats import KBART
from holdings.formats import LINKS
from holdings.formats import MOST_BYTES
from holdings.formats import faults_of
from openlink_update.exports.scholar import items

# The day is 15 July 2026. For each row of a journal: what Google Scholar has to get of it, worked out by hand. None is
# no item; `from` and `to` are year, month, volume and issue.
CASES = [
    ("no bound", row("A"), ("", "", "")),
    (
        "from a day",
        row("A", first="1995-03-01", num_first_vol_online="4", num_first_issue_online="1"),
        ("1995 3 4 1", "", ""),
    ),
    ("a year alone", row("A", first="1995", last="1999", num_last_vol_online="8"), ("1995 - - -", "1999 - 8 -", "")),
    ("a month", row("A", first="2001-11", last="2010-10"), ("2001 11 - -", "2010 10 - -", "")),
    ("no volume", row("A", first="1995", num_first_vol_online="IV"), ("1995 - - -", "", "")),
    ("no date", row("A", first="unknown"), ("", "", "")),
    (
        "an end that is the wall of today",
        row("A", first="1992", last="2025-07", embargo="P1Y"),
        ("1992 - - -", "2025 7 - -", "366"),
    ),
    ("a wall of a year", row("A", first="1992", embargo="P1Y"), ("1992 - - -", "", "366")),
    ("a wall of months", row("A", first="1992", embargo="P6M"), ("1992 - - -", "", "184")),
    ("a wall of days", row("A", embargo="P7D"), ("", "", "7")),
    (
        "an end before the wall",
        row("A", first="1992", last="2010-12-01", embargo="P1Y"),
        ("1992 - - -", "2010 12 - -", "366"),
    ),
    ("a year is no wall", row("A", first="1992", last="2025", embargo="P1Y"), ("1992 - - -", "2025 - - -", "366")),
    ("no day is open", row("A", first="2026-01-01", embargo="P1Y"), None),
    ("the year of the wall is open", row("A", first="2025", embargo="P1Y"), ("2025 - - -", "", "366")),
    ("five years", row("A", first="1990", num_first_vol_online="1", embargo="R5Y"), ("2021 7 - -", "", "")),
    ("five years of three", row("A", first="2023-02", num_first_vol_online="1", embargo="R5Y"), ("2023 2 1 -", "", "")),
    ("ten years without 30 days", row("A", first="1990", embargo="R10Y;P30D"), ("2016 7 - -", "", "30")),
    (
        "five years, of which it began on the first day",
        row("A", first="2021-07-16", num_first_vol_online="3", embargo="R5Y"),
        ("2021 7 3 -", "", ""),
    ),
    ("it began on the last open day", row("A", first="2025-07-15", embargo="P1Y"), ("2025 7 - -", "", "366")),
    ("it began on the day after it", row("A", first="2025-07-16", embargo="P1Y"), None),
    ("five years, and it ended some days before", row("A", first="1990", last="2021-07-15", embargo="R5Y"), None),
    (
        "five years, and it ended on the first day",
        row("A", first="1990", last="2021-07-16", embargo="R5Y"),
        ("2021 7 - -", "2021 7 - -", ""),
    ),
    ("it began in the year of its end", row("A", first="1999-05", last="1999"), ("1999 5 - -", "1999 - - -", "")),
    ("five years, and it ended before", row("A", first="1990", last="2019", embargo="R5Y"), None),
    ("an embargo in words", row("A", first="1990", embargo="6 months"), ("1990 - - -", "", "184")),
    ("words of two readings", row("A", first="1990", embargo="6 to 12 months"), ("1990 - - -", "", "")),
    ("abstracts", row("A", first="1990", coverage_depth="abstracts"), None),
    ("abstracts in capitals", row("A", first="1990", coverage_depth="ABSTRACTS"), None),
    ("print alone", row("A", first="1990", coverage_depth="print"), None),
    ("a volume 0", row("A", first="1995", num_first_vol_online="0"), ("1995 - - -", "", "")),
    ("a volume in other digits", row("A", first="1995", num_first_vol_online="４"), ("1995 - - -", "", "")),
]


def bare(element: xml.Element | None) -> str:
    names = ("year", "month", "volume", "issue")
    return "" if element is None else " ".join(element.findtext(name, "-") for name in names)


def ran(version: Version, *words: str) -> tuple[int, str, str]:
    done = subprocess.run(version.words(*words), capture_output=True, text=True)
    return done.returncode, done.stdout, done.stderr


def sample() -> dict[str, bytes]:
    """Tables of each kind: two parts of one target, and targets that are not full text."""
    return {
        "tidal": table([row("Annals of <i>Tidal</i> Studies", "29010012", "2908-0142", "1995-03-01")], end="\r\n"),
        "tidal.2": table([row('Bays "B" & < C\x0b', "", "2936-0668", "2001")]),
        "plain": table(
            [
                row("=cmd|' /C calc'!A0", "2901-0012", "", "1990", coverage_notes="a note"),
                row("Harbours", "9781234560102", "9781234560874", publication_type="monograph"),
                row("Without a number"),
                row("", "2929-0538"),
                row(" ", "2929-0538"),
            ]
        ),
        "shelves": table([row("Annals of Tidal Studies", "2901-0012", "2908-0142", "1992", "1999")]),
        "every": b"print_identifier\nANY\n",
        "unnamed": table([row("Other", "2943-081X")]),
    }


class Exports(Case):
    """Each format, of versions that are written here."""

    def texts_of(self, version: Version, kind: str, *names: str) -> list[str]:
        """The texts of files that a format writes, in a folder of their own."""
        folder = version.path(kind)
        self.expect(f"{kind} is written", ran(version, kind, folder), (0, "", ""))
        texts = []
        for name in names:
            with open(os.path.join(folder, name), encoding="utf-8", newline="") as file:
                texts.append(file.read())
        return texts

    def document(self, text: str, model: dict[str, str], public: str) -> xml.Element:
        """The root of a document; it has the form that its type asks for."""
        root = xml.fromstring(text.encode())
        self.expect(f"the form of {root.tag}", faults_of(root, model), [])
        self.expect(f"the type of {root.tag}", DOCTYPE.format(root.tag, public) in text)
        return root

    def test_scholar_cases(self) -> None:
        rows = []
        for number, (_, cells, _) in enumerate(CASES):
            rows.append([*cells[:2], f"{3000 + number}-0000", *cells[3:]])
        with Version({"tidal": table(rows)}) as version:
            root = self.document(
                self.texts_of(version, "scholar", "holdings-1.xml")[0], HOLDINGS, "Institutional Holdings"
            )
        for number, (name, _, expected) in enumerate(CASES):
            found = [
                (
                    bare(it.find("coverage/from")),
                    bare(it.find("coverage/to")),
                    it.findtext("coverage/embargo/days_not_available", ""),
                )
                for it in root
                if it.findtext("issn") == f"{3000 + number}-0000"
            ]
            self.expect(f"case {number}: {name}", found, [] if expected is None else [expected])

    def test_scholar_characters(self) -> None:
        """The production Char of XML 1.0: the first and the last character of each of its ranges, and those beside."""
        good = [9, 0xA, 0xD, 0x20, 0xD7FF, 0xE000, 0xFFFD, 0x10000, 0x10FFFF]
        bad = [0, 8, 0xB, 0xC, 0xE, 0x1F, 0xD800, 0xDFFF, 0xFFFE, 0xFFFF]
        rows = [{"publication_title": "A", "print_identifier": "2901-0012"}]
        for number in (*good, *bad):
            [item] = items(rows, f"<{chr(number)}>", datetime.date(2026, 11, 20))
            wanted = chr(number) if number in good else ""
            self.expect(f"U+{number:04X}", re.findall("<comment>(.*)</comment>", item, re.S), [f"&lt;{wanted}&gt;"])

    def test_scholar_numbers(self) -> None:
        """A number that is in both columns, in any form, has one item, and a title no markup."""
        cells = {"publication_title": "Tides &amp;amp; <i>Piers</i>", "print_identifier": "29010012"}
        found = [*items([{**cells, "online_identifier": "2901-0012"}], "Press", datetime.date(2026, 11, 20))]
        titles = [re.findall("<title>(.*)</title><issn>(.*)</issn>", it) for it in found]
        self.expect("the items", titles, [[("Tides &amp; Piers", "2901-0012")]])

    def test_scholar(self) -> None:
        with Version(sample()) as version:
            text = self.texts_of(version, "scholar", "holdings-1.xml")[0]
            root = self.document(text, HOLDINGS, "Institutional Holdings")
            found = [
                (it.get("type"), it.findtext("title"), it.findtext("issn"), it.findtext("coverage/comment"))
                for it in root
            ]
            press = "Tidal\tPress <1>"
            self.expect(
                "journals of full text, by number",
                found,
                [
                    ("electronic", "Annals of Tidal Studies", "2901-0012", press),
                    ("electronic", "Annals of Tidal Studies", "2908-0142", press),
                    ("electronic", 'Bays "B" & < C', "2936-0668", press),
                    ("electronic", "=cmd|' /C calc'!A0", "2901-0012", "=Plain"),
                ],
            )
            self.expect("no links without names", os.listdir(version.path("scholar")), ["holdings-1.xml"])

    def test_links_without_keywords(self) -> None:
        """What the site does not say is left out, without an empty line; one label is that of both links."""
        scholar = {name: value for name, value in SCHOLAR.items() if name not in ("keywords", "otherLabel")}
        with Version(sample(), {**TARGETS, "scholar": scholar}, "#") as version:
            text = self.texts_of(version, "scholar", "links.xml")[0]
        self.expect("keywords", ("<contact>" in text, "keywords" in text), (True, False))
        self.expect("the other label", "<other_link_label>Full text @ Example</other_link_label>" in text)
        self.expect("empty lines", [it for it in text.splitlines() if not it.strip()], [])

    def test_scholar_links(self) -> None:
        for tls, base, scholar in (
            ("#", "http://links.library.example.org", SCHOLAR),
            ("", "https://links.library.example.org", SCHOLAR),
            ("#", "https://find.example.edu", {**SCHOLAR, "base": "https://find.example.edu/"}),
        ):
            with Version(sample(), {**TARGETS, "scholar": scholar}, tls) as version:
                root = self.document(self.texts_of(version, "scholar", "links.xml")[0], LINKS, "Institutional Links")
            found = [(it.tag, it.text) for it in root if it.tag not in ("openurl_option", "electronic_holdings")]
            self.expect(
                f"links to {base}",
                found,
                [
                    ("institution", "Example & Library"),
                    ("keywords", "example, tidal"),
                    ("contact", "links@library.example.org"),
                    ("electronic_link_label", "Full text @ Example"),
                    ("other_link_label", "Find it @ Example"),
                    ("openurl_base", f"{base}/find"),
                    ("patron_ip_range", "192.0.2.0-192.0.2.255"),
                    ("patron_ip_range", "198.51.100.7"),
                ],
            )
            self.expect(
                f"the holdings of {base}",
                [it.text for it in root.iter("url")],
                [f"{base}/export/scholar/holdings-1.xml"],
            )

    def test_scholar_parts(self) -> None:
        """A large library has several files, each below the limit, and every journal once. A smaller one then has
        less."""
        count = 6000
        rows = [row(f"Journal of the number {number}", "", f"{1000 + number}-0000", "1990") for number in range(count)]
        with Version({"tidal": table(rows)}, {**TARGETS, "scholar": SCHOLAR}) as version:
            self.expect("a large library", ran(version, "scholar", version.path("scholar"))[0], 0)
            paths = sorted(glob.glob(version.path("scholar", "holdings-*.xml")))
            sizes = [os.path.getsize(path) for path in paths]
            self.expect(f"the sizes of parts: {sizes}", len(sizes) > 1 and max(sizes) <= MOST_BYTES)
            issns = [it.text for path in paths for it in xml.parse(path).iter("issn")]
            self.expect("every journal once", (len(issns), len(set(issns))), (count, count))
            with open(version.path("scholar", "links.xml")) as file:
                names = re.findall(r"/export/scholar/(holdings-\d+\.xml)</url>", file.read())
            self.expect("links to all parts", names, [os.path.basename(path) for path in paths])
            with open(os.path.join(version.folder, "received/tidal.txt"), "wb") as file:
                file.write(table(rows[:3]))
            self.expect("a smaller library", ran(version, "scholar", version.path("scholar"))[0], 0)
            self.expect("no older part", sorted(os.listdir(version.path("scholar"))), ["holdings-1.xml", "links.xml"])

    def test_kbart(self) -> None:
        with Version(sample()) as version:
            lines = self.texts_of(version, "kbart", "kbart.txt")[0].split("\n")
        cells = [line.split("\t") for line in lines[:-1]]
        self.expect("the columns of KBART, and the provider", cells[0], [*KBART, "provider"])
        self.expect("each row has all columns", {len(it) for it in cells}, {26})
        found = [
            tuple(
                it[KBART.index(name)]
                for name in ("publication_title", "online_identifier", "notes", "date_last_issue_online")
            )
            + (it[-1],)
            for it in cells[1:]
        ]
        self.expect(
            "rows with a title",
            found,
            [
                ("Annals of <i>Tidal</i> Studies", "2908-0142", "", "", "Tidal Press <1>"),
                ('Bays "B" & < C', "2936-0668", "", "", "Tidal Press <1>"),
                ("=cmd|' /C calc'!A0", "", "a note", "", "=Plain"),
                ("Harbours", "9781234560874", "", "", "=Plain"),
                ("Annals of Tidal Studies", "2908-0142", "", "1999", "Shelves"),
                ("Other", "", "", "", "unnamed"),
            ],
        )
        self.expect("the last line ends", lines[-1], "")
        dates = ("", "2025-07", "2024-07")  # with the wall of the day in place of the first one, as it is served
        came, served = (
            [row(f"T{number}", "2901-0012", last=last, embargo="P1Y") for number, last in enumerate(it)]
            for it in (dates, ("2025-07", *dates[1:]))
        )
        with Version({"tidal": table(served)}, received={"tidal": table(came)}) as version:
            cells = [line.split("\t") for line in self.texts_of(version, "kbart", "kbart.txt")[0].split("\n")[1:-1]]
        self.expect("the dates of the provider", [(it[6], it[12]) for it in cells], [(date, "P1Y") for date in dates])

    def test_titles(self) -> None:
        with Version(sample(), write_index=library_index.write_index) as version:
            text = self.texts_of(version, "titles", "titles.tsv")[0]
        self.expect("UTF-8 that a spreadsheet knows", text[:1], "\ufeff")
        found = list(csv.reader(io.StringIO(text[1:]), dialect="excel-tab"))
        self.expect(
            "titles",
            found,
            [
                ["title", "numbers", "coverage", "targets"],
                [
                    "Annals of Tidal Studies",
                    "ISSN 2901-0012; ISSN 2908-0142",
                    "Tidal Press <1>: since 1995-03-01; Shelves: 1992 to 1999",
                    "Tidal Press <1>; Shelves",
                ],
                ['Bays "B" & < C', "ISSN 2936-0668", "Tidal Press <1>: since 2001", "Tidal Press <1>"],
                ["'=cmd|' /C calc'!A0", "ISSN 2901-0012", "'=Plain: since 1990", "'=Plain"],
                ["Other", "ISSN 2943-081X", "unnamed", "unnamed"],
                ["Harbours", "ISBN 9781234560102; ISBN 9781234560874", "'=Plain", "'=Plain"],
            ],
        )

    def test_formulas(self) -> None:
        """No cell begins a formula, or a quotation that hides the cells after it."""
        starts = ("=1", "+1", "-1", "@SUM(A1)", " =1", "＝1", '"=1', "'=1")
        rows = [row(f"{start} T{number}", f"{2000 + number}-0000") for number, start in enumerate(starts)]
        with Version({"tidal": table(rows)}, write_index=library_index.write_index) as version:
            text = self.texts_of(version, "titles", "titles.tsv")[0]
        cells = [cell for cells in csv.reader(io.StringIO(text[1:]), dialect="excel-tab") for cell in cells]
        self.expect("the cells of hostile titles", len(cells), 4 * (1 + len(starts)))
        self.expect("no formula", [cell for cell in cells if cell.lstrip()[:1] in tuple("=+-@＝＋－＠")], [])

    def test_parts(self) -> None:
        """Parts of a target have its label."""
        names = ("tidal", "tidal.2", "tidal.10", "other")
        rows = {name: table([row(f"T{number}", f"{4000 + number}-0000")]) for number, name in enumerate(names)}
        with Version(rows) as version:
            lines = self.texts_of(version, "kbart", "kbart.txt")[0].split("\n")[1:-1]
        press = "Tidal Press <1>"
        self.expect("labels of parts", [line.rpartition("\t")[2] for line in lines], [press, press, press, "other"])

    def test_command(self) -> None:
        with Version(sample(), write_index=library_index.write_index) as version:
            self.expect("an unknown format", ran(version, "marc", version.path("x"))[0], 2)
            self.expect("no folder", ran(version, "kbart")[0], 2)
            open(version.path("file"), "w").close()
            self.expect("a file in place of the folder", ran(version, "kbart", version.path("file"))[0], 4)
            with open(version.targets, "w") as file:
                file.write("{")
            status, _, said = ran(version, "kbart", version.path("x"))
            self.expect(f"a targets.json that is no JSON: {said}", (status, version.targets in said), (4, True))
            self.expect("nothing is written", os.path.exists(version.path("x")), False)
            with open(version.targets, "w") as file:
                json.dump([3], file)
            self.expect("a targets.json that says nothing", ran(version, "kbart", version.path("x"))[0], 0)
            os.unlink(version.site)
            self.expect("no site", ran(version, "kbart", version.path("x")), (0, "", ""))
            os.unlink(os.path.join(version.library, "current"))
            status, _, said = ran(version, "titles", version.path("y"))
            self.expect(f"no version: {said}", (status, "no version is in use" in said), (3, True))
