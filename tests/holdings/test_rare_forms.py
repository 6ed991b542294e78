"""Files, sheets, pages and cells of rare forms: each is read as its kind wants it, or refused with the reason."""
from __future__ import annotations

import datetime
import io
import os
import tempfile
import zipfile
import zlib
from pathlib import Path
from unittest import mock

from bounds.refusals import reason
from fixtures.cases import Case
from fixtures.spreadsheet_files import ODS
from fixtures.spreadsheet_files import archive_of
from fixtures.spreadsheet_files import ods_content
from fixtures.spreadsheet_files import xlsx_members
from openlink_update import disk
from openlink_update.commands import counts
from openlink_update.counts import counter_reports
from openlink_update.counts import log_counts
from openlink_update.counts import log_files
from openlink_update.counts import wanted_titles
from openlink_update.exports import export_files
from openlink_update.exports.site_names import SiteNames
from openlink_update.input_files import InputFolder
from openlink_update.outcome import Unreadable
from openlink_update.received import patterns
from openlink_update.received import reading
from openlink_update.received.reading import Form
from openlink_update.rules import pages
from openlink_update.rules import shipped
from openlink_update.slips import kinds
from openlink_update.slips.material import Material
from openlink_update.slips.material import Pair
from openlink_update.tables import coverage
from openlink_update.tables import preparation
from openlink_update.tables.embargo import Embargo
from openlink_update.tables.table import Table

DAY = datetime.date(2026, 11, 27)
HEAD = ["publication_title", "print_identifier", "online_identifier", "date_first_issue_online"]
ROW = ["Tides", "2901-0012", "", "1995-03-01"]
FIND = {kind.words: kind.find for kind in kinds.KINDS}


def read(data: bytes, is_html: bool = False) -> list[list[str]] | str:
    """The rows of a file, or why it is no table."""
    try:
        return reading.read(data, Form(is_html=is_html)).rows
    except Unreadable as fault:
        return str(fault)


def changed(name: str, old: str, new: str, **how: bool) -> bytes:
    """A workbook of which a member has another text."""
    members = xlsx_members({"Sheet1": [HEAD, ROW]}, **how)
    text = str(members[name])
    assert old in text, (name, old)
    return archive_of({**members, name: text.replace(old, new)})


class Workbooks(Case):
    def test_how_texts_are_spoken(self) -> None:
        """Of a text that cells share, what is beside it in another writing is no part."""
        spoken = "<t>潮</t><rPh sb='0' eb='1'><t>shio</t></rPh><r><t>流</t></r>"
        found = read(changed("xl/sharedStrings.xml", "<t>Tides</t>", spoken))
        self.expect("the text", found, [["潮流", *ROW[1:]]])

    def test_usual_form(self) -> None:
        """A form of its own that is the usual one makes no date of a number."""
        rows = [HEAD, [*ROW[:3], 35000]]
        members = xlsx_members({"Sheet1": rows})
        sheet = str(members["xl/worksheets/sheet1.xml"])
        styles = str(members["xl/styles.xml"]).replace("yyyy", "General")
        with_form = sheet.replace('<c r="D2">', '<c r="D2" s="3">')
        data = archive_of({**members, "xl/worksheets/sheet1.xml": with_form, "xl/styles.xml": styles})
        self.expect("a number, which is the day of a column of dates", read(data), [[*ROW[:3], "1995-10-28"]])
        months = str(members["xl/styles.xml"]).replace("yyyy", "yyyy mm")
        data = archive_of({**members, "xl/worksheets/sheet1.xml": with_form, "xl/styles.xml": months})
        self.expect("a month", read(data), [[*ROW[:3], "1995-10"]])

    def test_hidden_sheets(self) -> None:
        data = archive_of(xlsx_members({"A": [HEAD, ROW], "B": [["x"]]}, hidden=["A", "B"]))
        self.expect("if all are, the first", read(data), [ROW])
        data = changed("xl/workbook.xml", ' r:id="s1"', "")
        self.expect("one that names no part", read(data), "a spreadsheet without a sheet")

    def test_damaged_sheet(self) -> None:
        """Its bytes are seen to be others when it is unpacked."""
        data = io.BytesIO()
        with zipfile.ZipFile(data, "w", zipfile.ZIP_STORED) as archive:
            for name, text in xlsx_members({"Sheet1": [HEAD, ROW]}, is_inline=True).items():
                archive.writestr(zipfile.ZipInfo(name), text)
        spoilt = data.getvalue().replace(b">Tides<", b">Tidal<")
        self.expect("its sum", read(spoilt), "a spreadsheet that is cut short or damaged")


class Documents(Case):
    def of(self, before: str = "", cells: str = "", **members: str) -> list[list[str]] | str:
        content = ods_content({"One": [HEAD, ROW]}, before).replace("</table:table>", f"{cells}</table:table>")
        return read(archive_of({"mimetype": ODS, "content.xml": content, **members}))

    def test_first_day(self) -> None:
        """A null date that is none is as if it were missing."""
        for day in ("1904-01-01", "soon", ""):
            before = (
                f'<table:calculation-settings><table:null-date table:date-value="{day}"/></table:calculation-settings>'
            )
            self.expect(day, self.of(before), [ROW])

    def test_manifest(self) -> None:
        space = "urn:oasis:names:tc:opendocument:xmlns:manifest:1.0"
        entry = '<m:file-entry m:full-path="content.xml"{}</m:file-entry>'
        for name, inside, wanted in (
            ("open", ">", [ROW]),
            ("encrypted", "><m:encryption-data/>", "a spreadsheet with a password: save it without one"),
        ):
            text = f'<m:manifest xmlns:m="{space}">{entry.format(inside)}</m:manifest>'
            self.expect(name, self.of(**{"META-INF/manifest.xml": text}), wanted)

    def test_long_text(self) -> None:
        for count, wanted in ((100_000, None), (100_001, "row 3 has more than 100,000 bytes: is it a table?")):
            cell = f"<table:table-cell><text:p>{'x' * count}</text:p></table:table-cell>"
            found = self.of(cells=f"<table:table-row>{cell}</table:table-row>")
            self.expect(f"{count}", found if isinstance(found, str) else None, wanted)

    def test_another_sheet(self) -> None:
        """A table in a cell is no sheet, and a note in another sheet hides nothing of this one."""
        note = "<office:annotation><text:p>note</text:p></office:annotation>"
        table = "<table:table table:name='Inside'><table:table-row/></table:table>"
        cell = f"<table:table-cell>{note}<text:p>x</text:p>{table}</table:table-cell>"
        row = f"<table:table-row>{cell}</table:table-row>"
        content = ods_content({"One": [], "Two": [HEAD, ROW]}).replace("</table:table>", f"{row}</table:table>", 1)
        data = archive_of({"mimetype": ODS, "content.xml": content})
        for name, wanted in (("Two", [ROW]), ("", [])):
            self.expect(f"{name!r}", reading.read(data, Form(sheet=name)).rows, wanted)

    def test_texts(self) -> None:
        """What is between paragraphs, and a note in one of them, is no text of a cell. A day has no time."""
        note = "<office:annotation><text:p>note</text:p></office:annotation>"
        for name, cell, wanted in (
            ("spaces between elements", "\n <text:p>Piers</text:p>\n", ["Piers"]),
            ("between two", "\n <text:p>Piers</text:p>\n <text:p>and Quays</text:p>\n", ["Piers and Quays"]),
            ("a note in a paragraph", f"<text:p>Piers{note} and Quays</text:p>", ["Piers and Quays"]),
        ):
            found = self.of(cells=f"<table:table-row><table:table-cell>{cell}</table:table-cell></table:table-row>")
            self.expect(name, found[-1], wanted)
        day = "<table:table-cell office:value-type='date' office:date-value='2003-09-15T23:59:58'/>"
        self.expect("a day", self.of(cells=f"<table:table-row>{day}</table:table-row>")[-1], ["2003-09-15"])

    def test_formulas(self) -> None:
        """Of what a formula gives, an error alone is left out, and counted: a number sign and capitals."""
        said = ["with an error of the spreadsheet, left empty: 1 cell"]
        for formula, text, is_error in (
            ("of:=X", "#REF!", True),
            ("of:=X", "#DIV/0!", True),
            ("of:=X", "#N/A", True),
            ("of:=X", "TIDES", False),
            ("of:=X", "#tides", False),
            ("", "#TIDES", False),
        ):
            cell = f"<table:table-cell table:formula='{formula}'><text:p>{text}</text:p></table:table-cell>"
            row = f"<table:table-row>{cell}<table:table-cell><text:p>x</text:p></table:table-cell></table:table-row>"
            content = ods_content({"One": [HEAD, ROW]}).replace("</table:table>", f"{row}</table:table>")
            found = reading.read(archive_of({"mimetype": ODS, "content.xml": content}))
            wanted = ["" if is_error else text, "x"], said if is_error else []
            self.expect(f"{text}, {formula}", (found.rows[-1], found.lines), wanted)

    def test_repeated_cells(self) -> None:
        """A cell is there as often as it says, and once if that is no number."""
        for text, wanted in (("1", 1), ("3", 3), ("x", 1), ("-2", 1), ("", 1)):
            cell = f"<table:table-cell table:number-columns-repeated='{text}'><text:p>x</text:p></table:table-cell>"
            found = self.of(cells=f"<table:table-row>{cell}</table:table-row>")
            self.expect(f"{text!r}", found[-1], ["x"] * wanted)

    def test_numbers_of_rows(self) -> None:
        """Those of the sheet: a row that is repeated is as many, also if it is empty."""
        cell = "<table:table-cell{}><text:p>{}</text:p></table:table-cell>"
        for above, number in (("", 3), (" table:number-rows-repeated='10'", 13)):
            empty = f"<table:table-row{above}><table:table-cell/></table:table-row>" if above else ""
            for made, wanted in (
                (cell.format("", "x" * 100_001), f"row {number} has more than 100,000 bytes: is it a table?"),
                (
                    cell.format("", "ä" * 50_001),
                    f"row {number} has 100,002 bytes, and 100,000 are possible: is it a table of holdings?",
                ),
                (
                    cell.format(" table:number-columns-repeated='501'", "x"),
                    f"row {number} has 501 cells, and a table may have 500 columns",
                ),
            ):
                found = self.of(cells=f"{empty}<table:table-row>{made}</table:table-row>")
                self.expect(f"{wanted[:30]}, {number}", found, wanted)


class Fetched(Case):
    def test_rows(self) -> None:
        """Those below the header, wherever it is; none of a file that has no other row."""
        head, row, comma = "\t".join(HEAD), "\t".join(ROW), ",".join(HEAD)
        line = f"<tr>{''.join(f'<td>{name}' for name in HEAD)}</tr>"
        for name, data, wanted in (
            ("a text", f"{head}\n{row}\n{row}", 2),
            ("lines above", f"Titles\n\n3\n{head}\n{row}\n", 1),
            ("blank lines", f"{head}\n\n{row}\n \t\n", 1),
            ("commas below a line", f"Titles\n{comma}\na,b\n", 1),
            ("a header alone", head, 0),
            ("no header", "a\nb\nc\n", 2),
            ("a sheet", archive_of(xlsx_members({"One": [["Titles"], HEAD, ROW]})), 1),
            ("a sheet without a header", archive_of(xlsx_members({"One": [["a"], ["b"], ["c"]]})), 2),
            ("an empty sheet", archive_of(xlsx_members({"One": []})), 0),
            ("a page", f"<html><table>{line * 3}</table>", 2),
            ("a page with rows above", f"<html><table><tr><td>Titles<td>3</tr>{line * 2}</table>", 1),
            ("a page without a header", "<html><table>" + "<tr><td>a<td>b</tr>" * 3 + "</table>", 2),
            ("a page with a long line", f"<html><table>{line * 3000}</table>", 2999),
        ):
            found = reading.rows_in(data if isinstance(data, bytes) else data.encode(), Form(is_html=True))
            self.expect(name, found, wanted)
        for data in (b"", b" \n\t\n"):
            self.expect(f"{data!r}", reason(reading.rows_in, data, Form()), "empty")


class Pages(Case):
    def page(self, rows: str) -> list[list[str]] | str:
        names = "".join(f"<th>{name}</th>" for name in HEAD)
        return read(f"<html><body><table><tr>{names}</tr>{rows}</table></body></html>".encode(), is_html=True)

    def test_a_cell_outside_of_a_row(self) -> None:
        """It begins one, as browsers have it."""
        cells = "".join(f"<td>{text}</td>" for text in ROW)
        self.expect("the row", self.page(f"{cells}</tr>"), [ROW])

    def test_covered_columns(self) -> None:
        """Cells of the row above may cover as many as a table may have, and none after them."""
        above = "".join(f"<td>{text}</td>" for text in ROW)
        for count, wanted in ((499, None), (500, "row 4 has 501 cells, and a table may have 500 columns")):
            found = self.page(f"<tr>{above}</tr><tr><td colspan={count} rowspan=2>b</tr><tr><td>c</tr>")
            self.expect(f"{count}", found if isinstance(found, str) else None, wanted)


class Cells(Case):
    def test_long_embargoes(self) -> None:
        """Before the first year of the calendar nothing is open."""
        for cell, wanted in (("P2025Y", (1, 11, 27)), ("P2026Y", (1, 1, 1)), ("P9999Y", (1, 1, 1))):
            embargo = Embargo.parse(cell)
            assert embargo
            self.expect(f"the last open day by {cell}", embargo.last_open(DAY), datetime.date(*wanted))

    def test_two_numbers_of_the_other_column(self) -> None:
        head = "\t".join(HEAD)
        for cells, wanted in (
            ("eISSN 2901-0012; eISSN 2908-0142\t", ["", "2901-0012"]),
            ("eISSN 2901-0012; eISSN 2908-0142\t2915-0272", ["2901-0012", "2915-0272"]),
        ):
            data = f"{head}\nTides\t{cells}\t1995\n".encode()
            rows = preparation.prepare([("file", data)]).table.rows
            self.expect(cells, rows[0][1:3], wanted)

    def test_notes_in_two_columns(self) -> None:
        header = ("publication_title", "print_identifier", "notes", "coverage_notes")
        rows = [
            ["Tides", "2901-0012", "Archive", "Embargo of 1 year"],
            ["Piers", "2915-0272", "", "Embargo: 6 months"],
        ]
        found = FIND["embargoes in notes"](Pair(of(Table(header, rows)), None, DAY, lambda _: {}))
        self.expect("both", found and (found.count, found.example), (2, "Archive Embargo of 1 year, Tides"))

    def test_few_volumes(self) -> None:
        """Two cells without a number are no slip, three are one, of each of the four columns."""
        for column in (f"num_{end}_{part}_online" for end in ("first", "last") for part in ("vol", "issue")):
            for count, wanted in ((2, None), (3, 3)):
                rows = [[f"Tides {at}", f"2901-00{at}2", "none"] for at in range(count)]
                table = Table(("publication_title", "print_identifier", column), rows)
                found = FIND["volumes or issues that are no number"](Pair(of(table), None, DAY, lambda _: {}))
                self.expect(f"{count} of {column}", found and found.count, wanted)

    def test_served_rows(self) -> None:
        """The days come after the columns of the table, before cells that have no column. A cell of spaces is no
        embargo, and of others the first is named."""
        columns = ("publication_title", "print_identifier", "date_first_issue_online", "date_last_issue_online")
        rows = [
            ["Tides", "2901-0012", "1995", "", "P6M", "more"],
            ["Piers", "2915-0272"],
            ["Quays", "2922-0408", "1995-03", "1996", "  "],
            ["Locks", "2929-0538", "", "1996-02", "soon"],
            ["Weirs", "2936-0662", "1997", "1996", "later"],
            ["Moles", "2943-081X", "1996-05-01", "1996-05-01"],
        ]
        for has_walls, last in ((True, "2026-05"), (False, "")):
            table, lines = coverage.served(Table((*columns, "embargo_info"), rows), DAY, has_walls)
            wanted = [
                ["Tides", "2901-0012", "1995", last, "P6M", "19950101", "20260527", "more"],
                ["Piers", "2915-0272", "", "", "", "0", "99999999"],
                ["Quays", "2922-0408", "1995-03", "1996", "  ", "19950301", "19961231"],
                ["Locks", "2929-0538", "", "1996-02", "soon", "0", "19960229"],
                ["Weirs", "2936-0662", "1997", "1996", "later", "99999999", "0"],
                ["Moles", "2943-081X", "1996-05-01", "1996-05-01", "", "19960501", "19960501"],
            ]
            self.expect(f"rows, {has_walls}", table.rows, wanted)
            self.expect(f"lines, {has_walls}", lines, ['embargo_info not an embargo 2, first 3 "soon": not used'])

    def test_an_embargo_without_a_last_date(self) -> None:
        """A table that has no column for it gets the days alone."""
        table, lines = coverage.served(Table(("print_identifier", "embargo_info"), [["2901-0012", "P6M"]]), DAY)
        self.expect("the row", (table.rows, lines), ([["2901-0012", "P6M", "0", "20260527"]], []))

    def test_columns_that_the_update_writes(self) -> None:
        said = "it has a column {}, which only the update may write"
        for names in (("coverage_from",), ("coverage_to",), ("coverage_from", "coverage_to")):
            found = reason(coverage.served, Table(("publication_title", *names), []), DAY)
            self.expect(f"{names}", found, "; ".join(map(said.format, names)))

    def test_no_columns(self) -> None:
        """A table that has none, as of an empty file, gets none."""
        self.expect("coverage", coverage.served(Table((), []), DAY), (Table((), []), []))
        self.expect("pages", pages.added(Table((), [])), Table((), []))


def of(table: Table) -> Material:
    return Material(table, [], [], len(table.rows), None, "", "")


class Logs(Case):
    def test_after_two_hyphens(self) -> None:
        """Names of files follow."""
        self.expect("a file", counts._parse(["--format", "json", "--", "a.log"]).logs, ["a.log"])

    def test_standard_input(self) -> None:
        with mock.patch("sys.stdin", io.TextIOWrapper(io.BytesIO(b"a\nb\n"))):
            found = [(log.name, log.read(10)) for log in log_files.open_logs([])]
        self.expect("it is read", found, [("standard input", b"a\nb\n")])

    def test_parts_of_a_log(self) -> None:
        """A log is read in parts of the size that is asked for, and up to where it breaks off."""
        short = io.BytesIO(b"0123456789")
        log = log_files.LogFile("log", lambda size: short.read(min(size, 3)))
        self.expect("parts", [log.read(4), log.read(4), log.read(4), log.read(4)], [b"0123", b"4567", b"89", b""])
        for fault, said in (
            (OSError(5, "Input/output error"), "Input/output error"),
            (EOFError("the end"), "gzip: the end"),
            (zlib.error("invalid stored block"), "gzip: invalid stored block"),
        ):
            log = log_files.LogFile("log", mock.Mock(side_effect=[b"ab", fault]))
            self.expect(f"{fault!r}", (log.read(9), log.fault, log.read(9)), (b"ab", said, b""))

    def test_numbers_of_titles(self) -> None:
        """An ISSN, or an ISBN of thirteen digits with either beginning; no other text, and no ISBN of ten."""
        good, bad = ("2943-081X", "9780306406157", "9791234567896"), (
            "2943-081x",
            "2943081X",
            "0306406152",
            "9771234567896",
        )
        for number in (*good, *bad):
            line, followed = f"2026-11 {number} 2003\n".encode(), f"2026-11 target=press {number}\n".encode()
            logged = log_counts.counts_of([io.BytesIO(line + followed)])
            wanted = wanted_titles.wanted_in([io.BytesIO(line)])
            found = [name for _, kind, name, _ in logged.rows() if kind in ("asked in vain", "followed title")]
            self.expect(number, found, [f"press {number}", number] if number in good else [])
            self.expect(f"{number}: asked in vain", list(wanted.pairs), [(number, "2003")] if number in good else [])

    def test_order_of_titles_in_vain(self) -> None:
        """Those with the most requests first, and of as many the lower number."""
        lines = b"".join(b"2026-11 %b -\n" % it for it in (b"2915-0272", b"2908-0142", b"2901-0012", b"2915-0272"))
        rows = wanted_titles.rows_of(wanted_titles.wanted_in([io.BytesIO(lines)]), Path("/nonexistent"))
        self.expect("rows", [row[:2] for row in rows], [(2, "2915-0272"), (1, "2901-0012"), (1, "2908-0142")])

    def test_blank_lines(self) -> None:
        wanted = wanted_titles.wanted_in(
            [io.BytesIO(b"2026-11 2901-0012 2003\n  \n\n \t\n2026-11 2901-0012 2003\nx\n")]
        )
        self.expect("of titles in vain", (wanted.lines, wanted.unread, wanted.pairs.total()), (3, 1, 2))
        logged = log_counts.counts_of([io.BytesIO(b"\n  \nodd\n\n2026-11 2901-0012 2003\n")])
        self.expect("of a log", (logged.lines, logged.unread), (2, 1))
        report = (
            b"Report_Name,Title Master Report\nReport_ID,TR\nRelease,5\n\n"
            b"Title,Print_ISSN,Metric_Type,Nov-2026\nTides,2901-0012,Total_Item_Requests,3\n,,,\n\n"
            b"Piers,2915-0272,Total_Item_Requests,4\n"
        )
        titles = [(it.title, it.numbers, it.requests.total()) for it in counter_reports.titles_in(report)]
        self.expect("of a report", titles, [("Tides", ("2901-0012",), 3), ("Piers", ("2915-0272",), 4)])

    def test_encodings_of_a_report(self) -> None:
        """UTF-8, with and without a mark, and both orders of UTF-16 with a mark."""
        report = (
            "Report_Name,Title Master Report\nReport_ID,TR\nRelease,5\n\n"
            "Title,Print_ISSN,Metric_Type,Nov-2026\nÉtudes,2901-0012,Total_Item_Requests,3\n"
        )
        for encoding, mark in (
            ("utf-8", b""),
            ("utf-8", b"\xef\xbb\xbf"),
            ("utf-16-le", b"\xff\xfe"),
            ("utf-16-be", b"\xfe\xff"),
        ):
            data = mark + report.encode(encoding)
            self.expect(f"{encoding}, {mark!r}: it is one", counter_reports.is_report(data), True)
            titles = [(it.title, it.requests.total()) for it in counter_reports.titles_in(data)]
            self.expect(f"{encoding}, {mark!r}", titles, [("Études", 3)])


class Files(Case):
    def test_newest(self) -> None:
        """By the last date in the name, then by the name, then by the path; of each pair the second is the newer."""
        for older, newer in (
            ("a_20260101.txt", "a_20261101.txt"),
            ("b_20261101.txt", "a_2026-11-02.txt"),
            ("a_20270101_20250101.txt", "a_20200101_20260101.txt"),
            ("b_20271399.txt", "a_20260101.txt"),
            ("b_20270229.txt", "a_20260101.txt"),
            ("b_920270101.txt", "a_20260101.txt"),
            ("b_202701019.txt", "a_20260101.txt"),
            ("b_2027-0101.txt", "a_20260101.txt"),
            ("20270101/a_20250101.txt", "20200101/a_20260101.txt"),
            ("y/a_20260101.txt", "x/b_20260101.txt"),
            ("x/a_20260101.txt", "y/a_20260101.txt"),
            ("a.txt", "b.txt"),
        ):
            found = {patterns.newest(pair) for pair in ((older, newer), (newer, older))}
            self.expect(f"{older}, {newer}", found, {newer})

    def test_rules_that_cannot_be_listed(self) -> None:
        with tempfile.TemporaryDirectory() as folder:
            with mock.patch.object(shipped, "PROVIDERS", Path(folder, "none")):
                said = shipped.fault_of("press", InputFolder(folder))
            self.expect("what is said", said, f"no rules are provider:press: {folder}/none has those that ship")

    def test_names_that_cannot_be_read(self) -> None:
        with tempfile.TemporaryDirectory() as folder:
            names = SiteNames(Path(folder, "targets.json"))
            said = f"{folder}/targets.json: No such file or directory"
            self.expect("what is said", (names.fault, names.label("press")), (said, "press"))

    def test_parts_that_are_left(self) -> None:
        """Of an export into a folder, parts that it no longer has go; other files of the folder stay."""
        with tempfile.TemporaryDirectory() as folder:
            for name in (
                "holdings-1.xml",
                "holdings-2.xml",
                "holdings-12.xml",
                "holdings-x.xml",
                "notes.txt",
                "holdings-3.xml.old",
            ):
                Path(folder, name).write_text("old", encoding="utf-8")
            site = mock.Mock(base="https://links.example.org")
            export_files._write_items(["<item/>\n"], site, SiteNames(None), Path(folder))
            self.expect(
                "what is there",
                sorted(os.listdir(folder)),
                ["holdings-1.xml", "holdings-3.xml.old", "holdings-x.xml", "notes.txt"],
            )
            self.expect("the part", "<item/>" in Path(folder, "holdings-1.xml").read_text(encoding="utf-8"))

    def test_a_disk_that_fails(self) -> None:
        with mock.patch.object(disk, "_LIBC") as libc, mock.patch("ctypes.get_errno", return_value=5):
            libc.syncfs.return_value = -1
            said = ""
            try:
                disk.sync_disk(Path("/"))
            except OSError as fault:
                said = f"{fault.filename}: {fault.strerror}"
        self.expect("what is said", said, f"/: {os.strerror(5)}")
