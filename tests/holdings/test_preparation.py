"""Tables as they come: files of every shape, and the table that is served, both written by hand. In this file | stands
for a tab, and a table of two lines has the header COLUMNS."""
from __future__ import annotations

import gzip
import os
import tempfile
from typing import Any

from fixtures.cases import Case
from holdings.shapes import COLUMNS
from holdings.shapes import COMMAS
from holdings.shapes import FILES
from holdings.shapes import PLAIN
from holdings.shapes import ROW
from holdings.shapes import bytes_of
from holdings.shapes import of_rows
from holdings.shapes import row
from holdings.shapes import tabs
from holdings.shapes import zipped
from openlink_update.input_files import InputFolder
from openlink_update.outcome import Refused
from openlink_update.received import patterns
from openlink_update.tables import dropped_rows
from openlink_update.tables import preparation

# A date as it came, and as it is served.
DATES = {
    "1995": "1995",
    "1995-03": "1995-03",
    "1995-03-01": "1995-03-01",
    "2008-02-29": "2008-02-29",
    "2009-02-29": "2009-02",
    "2010-06-00": "2010-06",
    "2010-04-31": "2010-04",
    "2005-13": "2005",
    "2005-00-00": "2005",
    "2005-03-01T00:00:00": "2005-03-01",
    "2005-03-01 00:00": "2005-03-01",
    "2005/3/1": "2005-03-01",
    "2005.03.01": "2005-03-01",
    "20050301": "2005-03-01",
    "15/12/2004": "2004-12-15",
    "12/15/2004": "2004-12-15",
    "3/1/1995": "1995",
    "1.3.1995": "1995-03-01",
    "01.04.1995": "1995-04-01",
    "1. 4. 1995": "1995-04-01",
    "12.15.1995": "1995-12-15",
    "30.02.1995": "1995-02",
    "01.04.1995 00:00": "1995-04-01",
    "13-3-1995": "1995-03-13",
    "3-4-1995": "1995",
    "13.3.1995": "1995-03-13",
    "3/3/2005": "2005-03-03",
    "30/02/2004": "2004-02",
    "12/2004": "2004-12",
    "15 Dec 2004": "2004-12-15",
    "15-Dec-2004": "2004-12-15",
    "December 15th, 2004": "2004-12-15",
    "Dec 2004": "2004-12",
    "Sept. 2004": "2004-09",
    "Dec 2004.": "2004-12",
    "(15 Dec 2004)": "2004-12-15",
    "[2004-12]": "2004-12",
    "Jan-Feb 2005": "2005",
    "Spring 2005": "2005",
    "c1995": "1995",
    "1995/96": "1995",
    "12112005": "2005",
    "31122005": "2005-12-31",
    "12/31/2004 12:00:00 AM": "2004-12-31",
    "2005-03-01 9:30": "2005-03-01",
    "12/31/2004 9:30PM": "2004-12-31",
    "2005-03-01T00:00:00.000Z": "2005-03-01",
    "2005-03-01T00:00:00+01:00": "2005-03-01",
    "2005-03-01T00:00:00-0500": "2005-03-01",
    "1st March 2005": "2005-03-01",
    "March 2nd, 2005": "2005-03-02",
    "3rd March 2005": "2005-03-03",
    "3-5 March 2005": "2005",
    "2005/123/4": "2005",
    "001/3/2005": "2005",
    "15/12/1400": "1400-12-15",
    "15/12/2099": "2099-12-15",
    "März 2005": "2005",
    # No year, or more than one: left for inspect to complain of.
    "19992004": "19992004",
    "1995-1998": "1995-1998",
    "March 2005-2006": "March 2005-2006",
    "15 March 2005, 2006": "15 March 2005, 2006",
    "200503": "200503",
    "01/02/95": "01/02/95",
    "15/12/1399": "15/12/1399",
    "15/12/2100": "15/12/2100",
    "Dec-04": "Dec-04",
    "01.02.95": "01.02.95",
    "95-02-01": "95-02-01",
    "38412": "38412",
    "-": "-",
    "unknown": "unknown",
    "12 T10:00": "12 T10:00",
    "1995-1998 00:00": "1995-1998 00:00",
}

REFUSED: dict[str, tuple[str | bytes, str]] = {
    "a web page": ("<!DOCTYPE html>\n<title>Log in</title>\n", "a web page, not a table"),
    "a web page after blank lines": ("\n\n <HTML lang=en>\n<body>", "a web page, not a table"),
    "a web page in XML": ('<?xml version="1.0"?>\n<!-- x -->\n<html xmlns="x">', "a web page, not a table"),
    "a web page in a zip": (zipped({"table": "<html>"}), "a web page, not a table"),
    "nothing": ("", "it is empty"),
    "nothing in a gzip": (gzip.compress(b""), "it is empty"),
    "a gzip that is cut short": (gzip.compress(tabs(PLAIN).encode())[:-9], "a gzip file that is cut short or damaged"),
    "a gzip with a wrong byte": (
        gzip.compress(tabs(PLAIN).encode())[:-6] + b"xxxxxx",
        "a gzip file that is cut short or damaged",
    ),
    "a zip that is cut short": (zipped({"table": PLAIN})[:-9], "a zip file that is cut short, damaged or encrypted"),
    "a zip with a member without a name": (
        zipped({"": PLAIN}),
        "a zip file with 0 members: name one by `member PATTERN` in sources.tsv",
    ),
    "a zip with two members": (
        zipped({"a": PLAIN, "b": PLAIN}),
        "a zip file with 2 members: name one by `member PATTERN` in sources.tsv",
    ),
    "a spreadsheet without XML": (
        zipped({"[Content_Types].xml": "x", "xl/workbook.xml": "x"}),
        "a spreadsheet whose XML is cut short or damaged",
    ),
    "UTF-16 that is cut short": (tabs(PLAIN).encode("utf-16")[:-1], "UTF-16 that is cut short or damaged"),
    "UTF-16 without its mark": (
        tabs(PLAIN).encode("utf-16-le"),
        "it has bytes of zero, as UTF-16 has without a byte order mark",
    ),
    "bytes of no encoding": (tabs(PLAIN).encode() + b"\x81\x8d\n", "line 3 is neither UTF-8 nor windows-1252"),
    "a quote that is not closed": (
        COMMAS + '"Tides,2901-0012,,,,\n' + COMMAS.split("\n")[1] + "\n",
        "line 3: quotes that do not match",
    ),
    "a quote within a cell": (
        "above\n" + COMMAS + '"Tides" and more,2901-0012,,,,\n',
        "line 4: quotes that do not match",
    ),
}


def prepare(*files: str | bytes) -> Any:
    """The table and what is said, or the reasons against it."""
    try:
        prepared = preparation.prepare([(f"file {number}", bytes_of(it)) for number, it in enumerate(files, 1)])
        return prepared.table.to_bytes().decode(), prepared.lines
    except Refused as refusal:
        return refusal.reasons


class Preparation(Case):
    """The table of a file, or why there is none."""

    def test_files(self) -> None:
        for name, (came, served, told) in FILES.items():
            self.expect(name, prepare(came), (tabs(served), told))

    def test_sample(self) -> None:
        """The table of the sample library that has to be prepared: windows-1252, commas, and lines above the header."""
        with open("examples/library/OpenShelf_Global_AllTitles_2026-11-01.csv", "rb") as file:
            table, said = prepare(file.read())
        self.expect(
            "what is said of the sample",
            said,
            [
                "not UTF-8, read as windows-1252: 1 line",
                "commas between cells: 4 rows",
                "above the header, left out: 2 lines",
            ],
        )
        self.expect(
            "the first row of the sample",
            table.splitlines()[1].split("\t")[:4],
            ["Études océanographiques ouvertes", "", "2971-1312", "2010-01-15"],
        )

    def test_dates(self) -> None:
        for came, served in DATES.items():
            self.expect(f"the date {came!r}", prepare(of_rows(row(first=came)))[0], tabs(of_rows(row(first=served))))
        changed = [row(first="15 Dec 2004", last="Dec 2005"), row(first="3/1/1995", last="2001")]
        self.expect(
            "what is said of dates",
            prepare(of_rows(*changed))[1],
            ["dates in the standard's form: 2 cells", "dates cut to their year: 1 cell"],
        )

    def test_last_rows(self) -> None:
        """Rows at the end without a number and a third cell are left out, though one is the only row of the file; with
        a third cell they are dropped and listed."""
        header = "publication_title\tprint_identifier\tdate_first_issue_online\ttitle_url\tnotes\n"
        left_out = 'below the table, left out: 1 row, the first "Tides https://x.example.org/"'
        for line, dropped, said in (
            ("Tides\t\t\thttps://x.example.org/\t\n", [], left_out),
            (
                "Tides\t\t\thttps://x.example.org/\tn\n",
                [["no identifier", "Tides", "", "", "https://x.example.org/", "n"]],
                "dropped: 1 row",
            ),
        ):
            prepared = preparation.prepare([("file", (header + line).encode())])
            self.expect(f"{line!r}", (prepared.table.rows, prepared.dropped, prepared.lines), ([], dropped, [said]))

    def test_refused_files(self) -> None:
        for name, (came, reason) in REFUSED.items():
            self.expect(name, prepare(came), [f"file 1: {reason}"])
        self.expect(
            "each file that is refused",
            prepare(PLAIN, "", "<html>"),
            ["file 2: it is empty", "file 3: a web page, not a table"],
        )

    def test_joined_files(self) -> None:
        """Several files: columns are joined by their names."""
        other = 'online_identifier;Shelf;publication_title\n2922-0408;A 7;"Harbours; Piers"\n'
        self.expect(
            "columns in another order",
            prepare(PLAIN, other.replace("Shelf", "shelf;title_id").replace("A 7", "A 7;hel")),
            (
                tabs(f"{COLUMNS}|shelf|title_id\n{ROW}||\nHarbours; Piers||2922-0408||||A 7|hel\n"),
                ["file 2: semicolons between cells: 1 row"],
            ),
        )
        known = "online_identifier;publication_title;title_id\n2922-0408;Harbours;h\n"
        self.expect("which file a line is about", prepare(known, PLAIN)[1], ["file 1: semicolons between cells: 1 row"])
        twice = f"{COLUMNS}|notes|notes\n{ROW}|a|b\n"
        self.expect(
            "a column that each has twice",
            prepare(twice, twice.replace("|a|b", "|c")),
            (tabs(f"{COLUMNS}|notes|notes\n{ROW}|a|b\n{ROW}|c|\n"), []),
        )
        self.expect(
            "cells after the last column",
            prepare(PLAIN, f"{PLAIN[:-1]}|more\n", "title_id\nx\n"),
            (tabs(f"{COLUMNS}|title_id\n{ROW}|\n{ROW}||more\n"), ["dropped: 1 row"]),
        )
        self.expect(
            "of both encodings",
            prepare(of_rows(row("Études")), tabs(of_rows(row("Caf\xe9"))).encode("cp1252"))[0],
            tabs(of_rows(row("Études"), row("Café"))),
        )

    def test_dropped_rows(self) -> None:
        """What is listed of dropped rows, and how many may be."""
        came = of_rows(row(), row("None", "", ""), row("Bad", "soon", ""))
        prepared = preparation.prepare([("file", bytes_of(came))])
        self.expect(
            "they are listed with the reason",
            prepared.dropped_table().decode(),
            tabs(f"reason|{COLUMNS}\nno identifier|{row('None', '', '')}\nno ISSN or ISBN|{row('Bad', 'soon', '')}\n"),
        )
        cases = (
            (2, 100, (), True),
            (3, 100, (), False),
            (1, 36, (), True),
            (2, 36, (), False),
            (1, 1, (), True),
            (3, 101, (), True),
            (40, 100, ("dropped up to 40",), True),
            (41, 100, ("dropped up to 40",), False),
            (7, 100, ("unknown column", "dropped up to 7%"), True),
            (8, 100, ("dropped up to 7%",), False),
            (1, 100, ("dropped up to 0",), False),
            (50, 100, ("rows without an identifier",), False),
        )
        for dropped, rows, allowed, is_allowed in cases:
            made = dropped_rows.reasons_against([["no identifier", "Tides", ""]] * dropped, rows, set(allowed))
            self.expect(f"{dropped} of {rows} dropped, with {allowed}", made == [], is_allowed)
        self.expect(
            "what is said",
            dropped_rows.reasons_against(prepared.dropped, 3, set()),
            [
                "2 of 3 rows dropped, and 1 may be: no identifier: 1, no ISSN or ISBN: 1; to allow it: dropped up to "
                "2; the first: None 1995-03-01 https://press.example.com/ats"
            ],
        )

        self.expect(
            "what is said of one reason",
            dropped_rows.reasons_against([["no ISSN or ISBN", "Tides", "soon"]] * 3, 100, set()),
            [
                "3 of 100 rows dropped, and 2 may be: no ISSN or ISBN: 3; to allow it: dropped up to 3; "
                "the first: Tides soon"
            ],
        )

    def test_shown_rows(self) -> None:
        """What the mail shows of a row has no characters of control, and an end."""
        shown = dropped_rows.shown
        self.expect("a row with commands", shown(["Tides\x1b[2J\x07", "", "\u202e\x85é"]), "Tides?[2J? ??é")
        self.expect("a long row", shown(["x" * 99, "y" * 99]), "x" * 99 + " ")

    def test_patterns(self) -> None:
        """* stands for any text in a name or a folder, and nothing else is special."""
        with tempfile.TemporaryDirectory() as folder:
            for name in (
                "a[1]_2026-01-01.txt",
                "a[1]_2026-02-01.txt",
                "a1_2026-03-01.txt",
                "b/x.txt",
                "c/x.txt",
                ".hidden.txt",
                "d.txt/x",
            ):
                os.makedirs(os.path.dirname(os.path.join(folder, name)), exist_ok=True)
                open(os.path.join(folder, name), "w").close()
            cases = {
                "a[1]_*.txt": "a[1]_2026-02-01.txt",
                "a*.txt": "a1_2026-03-01.txt",
                "*/x.txt": "c/x.txt",
                "*.txt": "a1_2026-03-01.txt",
                "d*.txt": "d*.txt",
                "e*": "e*",
                "a[1]_2026-01-01.txt": "a[1]_2026-01-01.txt",
                "a?_2026-03-01.txt": "a?_2026-03-01.txt",
            }
            for pattern, path in cases.items():
                got = patterns.path_of(os.path.join(folder, pattern), InputFolder(folder).matches)
                self.expect(f"the pattern {pattern}", got, os.path.join(folder, path))

    def test_newest_files(self) -> None:
        """Of several files the newest counts, by the date in its name, then by its name."""
        cases = {
            ("P_2026-11-01.txt", "P_2026-09-30.txt"): "P_2026-11-01.txt",
            ("P_20261101.txt", "P_2026-10-31.txt"): "P_20261101.txt",
            ("a_2026-11-01.txt", "b_2026-11-01.txt"): "b_2026-11-01.txt",
            ("z.txt", "a_2026-11-01.txt"): "a_2026-11-01.txt",
            ("P_1.txt", "P_2.txt"): "P_2.txt",
            ("P_2026-13-01.txt", "O_2025-01-01.txt"): "O_2025-01-01.txt",
            ("P_1120261101.txt", "O_2025-01-01.txt"): "O_2025-01-01.txt",
            ("P_2020-01-01_2026-11-01.txt", "P_2020-01-01_2026-10-01.txt"): "P_2020-01-01_2026-11-01.txt",
            ("P_2025-01-01_2026-11-01.txt", "P_2026-01-01_2026-10-01.txt"): "P_2025-01-01_2026-11-01.txt",
        }
        for names, newest in cases.items():
            for order in (names, names[::-1]):
                self.expect(f"the newest of {order}", patterns.newest(list(order)), newest)
