"""Spreadsheets, web pages and the names of columns: how large, how deep and how long what comes may be."""
from __future__ import annotations

import io
import zipfile
from unittest import mock

from bounds.refusals import reason
from fixtures.cases import Case
from fixtures.spreadsheet_files import Cell
from fixtures.spreadsheet_files import MAIN
from fixtures.spreadsheet_files import archive_of
from fixtures.spreadsheet_files import ods
from fixtures.spreadsheet_files import xlsx
from fixtures.spreadsheet_files import xlsx_members
from openlink_update import target_options
from openlink_update.received import column_names
from openlink_update.received import limits
from openlink_update.received import sheets
from openlink_update.received import spreadsheets
from openlink_update.received import web_tables
from openlink_update.received import workbooks
from openlink_update.received import xml_parts
from openlink_update.received.packages import Package
from openlink_update.received.sheets import Sheet
from openlink_update.tables import dropped_rows
from openlink_update.tables import embargo_words
from openlink_update.tables import preparation
from openlink_update.tables.table import Table
from openlink_update.target_options import Options

NAMES = ["publication_title", "print_identifier", "online_identifier"]
HEAD = "\t".join(NAMES)
TABLE = f"<table><tr><th>{'<th>'.join(NAMES)}</tr><tr><td>Tides<td>2901-0012<td></tr></table>"


class Nothing:
    """Takes a part, and does nothing with it."""

    def start(self, name: str, attributes: dict[str, str]) -> None:
        ...

    def end(self, name: str) -> None:
        ...

    def text(self, text: str) -> None:
        ...


def rows_of(data: bytes, cell: str = "") -> list[list[str]]:
    return preparation.prepare([("file", data)], target_options.parse(cell)[0]).table.rows


class Parts(Case):
    def test_depth(self) -> None:
        says = "a spreadsheet whose XML is nested more than 64 deep"
        for count, wanted in ((64, ""), (65, says)):
            data = b"<a>" * count + b"</a>" * count
            self.expect(str(count), reason(xml_parts.read, [data], Nothing()), wanted)

    def test_elements(self) -> None:
        self.expect("the limit", xml_parts._MOST_ELEMENTS, 30_000_000)
        says = "a spreadsheet with more than 7 elements in its XML: is it a table?"
        with mock.patch.object(xml_parts, "_MOST_ELEMENTS", 7):
            for count, wanted in ((7, ""), (8, says)):
                data = b"<a>" + b"<b/>" * (count - 1) + b"</a>"
                self.expect(str(count), reason(xml_parts.read, [data], Nothing()), wanted)

    def test_tag(self) -> None:
        says = "a spreadsheet with more than 1,048,576 bytes in a tag of its XML"
        for more, wanted in ((0, ""), (1, says)):
            data = b"<a b='" + b"x" * (2**20 - 6 + more)
            self.expect(f"2**20 and {more}", reason(xml_parts.read, [data, b"'/>"], Nothing()), wanted)
            data = b"<!--" + b"x" * (2**20 - 4 + more)
            self.expect(f"a comment, {more}", reason(xml_parts.read, [data, b"--><a/>"], Nothing()), wanted)


class Packages(Case):
    """The members of a spreadsheet."""

    def test_bytes(self) -> None:
        """Those of all that are read count."""
        data = archive_of({"a": "x" * 600, "b": "x" * 400, "c": "x"})
        said = "more than 256 MB when unpacked: ask the provider for smaller files"
        with mock.patch.object(limits, "_MOST_BYTES", 1000), zipfile.ZipFile(io.BytesIO(data)) as archive:
            package = Package(archive)
            for name, wanted in (("a", ""), ("b", ""), ("c", said)):
                self.expect(name, reason(lambda: list(package.chunks(name))), wanted)

    def test_packing(self) -> None:
        for method, wanted in (
            (zipfile.ZIP_STORED, ""),
            (zipfile.ZIP_DEFLATED, ""),
            (zipfile.ZIP_BZIP2, "a spreadsheet packed in a way that none is: save it again"),
        ):
            data = io.BytesIO()
            with zipfile.ZipFile(data, "w", method) as archive:
                for name, text in xlsx_members({"Sheet1": [NAMES, ["Tides", "2901-0012"]]}).items():
                    archive.writestr(name, text)
            self.expect(f"method {method}", reason(spreadsheets.sheet_of, data.getvalue(), ""), wanted)


class Rows(Case):
    def test_cells(self) -> None:
        self.expect("the limit", sheets._MOST_CELLS, 30_000_000)
        says = "a sheet with more than 1,000 cells: is it a table of holdings?"
        with mock.patch.object(sheets, "_MOST_CELLS", 1000):
            for count, wanted in ((200, ""), (201, says)):
                self.expect(f"{count} rows of 5", reason(Sheet().add, ["x"] * 5, 1, count), wanted)
                sheet = Sheet()
                sheet.add(["x"] * 5, 1, 100)
                self.expect(f"{count}, 100 at first", reason(sheet.add, ["x"] * 5, 101, count - 100), wanted)

    def test_columns(self) -> None:
        for place, wanted in (("SF2", ""), ("SG2", "row 2 has 501 cells, and a table may have 500 columns")):
            text = f'<row/><row><c r="{place}"><v>1</v></c></row>'
            part = f'<worksheet xmlns="{MAIN}"><sheetData>{text}</sheetData></worksheet>'.encode()
            self.expect(place, reason(xml_parts.read, [part], workbooks._Rows(Sheet(), [], [])), wanted)
        for count, wanted in ((500, ""), (501, "row 7 has 501 cells, and a table may have 500 columns")):
            self.expect(f"{count} cells", reason(Sheet().add, ["x"] * count, 7), wanted)

    def test_rows(self) -> None:
        says = "it has 2,000,001 rows, and a table may have 2,000,000: is it a table of holdings?"
        self.expect("2,000,000", reason(Sheet().add, ["x"], 1, 2_000_000), "")
        self.expect("2,000,001", reason(Sheet().add, ["x"], 1, 2_000_001), says)
        sheet = Sheet()
        with mock.patch.object(limits, "_MOST_LINES", 3):
            for number, wanted in ((1, ""), (2, ""), (3, ""), (4, "it has 4 rows")):
                self.expect(f"{number} of 3", reason(sheet.add, ["x"], number)[: len("it has 4 rows")], wanted)

    def test_bytes_of_a_row(self) -> None:
        says = "row 7 has 100,{:03} bytes, and 100,000 are possible: is it a table of holdings?"
        for letter, count, wanted in (
            ("x", 100_000, ""),
            ("x", 100_001, says.format(1)),
            ("ä", 50_000, ""),
            ("ä", 50_001, says.format(2)),
            ("😀", 25_000, ""),
            ("😀", 25_001, says.format(4)),
        ):
            self.expect(f"{count} of {letter}", reason(Sheet().add, [letter * count], 7), wanted)
        self.expect("with what separates cells", reason(Sheet().add, ["x" * 50_000] * 2, 7), says.format(1))

    def test_texts(self) -> None:
        self.expect("the limit", workbooks._MOST_TEXTS, 4_000_000)
        says = "a spreadsheet with more than 3 texts: is it a table of holdings?"
        with mock.patch.object(workbooks, "_MOST_TEXTS", 3):
            for count, wanted in ((3, ""), (4, says)):
                part = f'<sst xmlns="{MAIN}">{"<si><t>x</t></si>" * count}</sst>'.encode()
                self.expect(str(count), reason(xml_parts.read, [part], workbooks._Texts()), wanted)

    def test_spaces(self) -> None:
        for count, wanted in ((100, 100), (101, 100)):
            text = f'<table:table-cell><text:p>A<text:s text:c="{count}"/>B</text:p></table:table-cell>'
            rows = rows_of(ods([NAMES, [Cell(text), "2901-0012"]]))
            self.expect(str(count), rows[0][0], f"A{' ' * wanted}B")

    def test_digits(self) -> None:
        """A whole number of 15 digits is one; people see a longer one with an exponent."""
        self.expect("15", sheets.number_of("9" * 15), "9" * 15)
        self.expect("16", sheets.number_of("1234567890123456"), "1.23456789012346e+15")
        for count, wanted in ((30, "2000-01-01"), (31, "36526")):
            text = "36526." + "0" * (count - 6)
            self.expect(f"a day of {count}", sheets.day_of(text, sheets.FROM_1900, 10), wanted)


class Pages(Case):
    def page(self, text: str) -> str:
        return reason(web_tables.sheet_of, text)

    def test_bytes(self) -> None:
        self.expect("the limit", web_tables._MOST_BYTES, 67_108_864)
        with mock.patch.object(web_tables, "_MOST_BYTES", 1000):
            for count, wanted in ((1000, ""), (1001, "a web page of more than 64 MB")):
                self.expect(str(count), self.page(TABLE.ljust(count)), wanted)

    def test_tag(self) -> None:
        says = "a web page whose tags do not end"
        for count, wanted in ((20_000, ""), (20_001, says)):
            for quote in ("'", ""):
                tag = f"<b c={quote}{'x' * (count - 6 - 2 * len(quote))}{quote}>"
                self.expect(f"{len(tag)}, {quote}", self.page(tag + TABLE), wanted)

    def test_open_quotes(self) -> None:
        with mock.patch.object(web_tables, "_MOST_TAG", 100):
            for count, wanted in ((1000, ""), (1001, "a web page whose tags do not end")):
                self.expect(str(count), self.page(("<b '>" + "x" * 100) * count + TABLE), wanted)

    def test_table(self) -> None:
        for rows, cells, wanted in (
            (2, 2, ""),
            (1, 2, "a web page without a table"),
            (2, 1, "a web page without a table"),
        ):
            self.expect(f"{rows}, {cells}", self.page(f"<table>{('<tr>' + '<td>x' * cells) * rows}</table>"), wanted)

    def test_depth(self) -> None:
        for count, wanted in ((63, ""), (64, "a web page with tables more than 64 deep")):
            self.expect(f"{count} and one", self.page("<table><tr><td>" * count + TABLE), wanted)


class Members(Case):
    """A .zip of several members, of which one is the table."""

    def test_number(self) -> None:
        for others, wanted in (
            (19, ""),
            (20, "file: a zip file with 21 members: name one by `member PATTERN` in sources.tsv"),
        ):
            members = {f"{number}.txt": "x" for number in range(others)} | {"t.txt": f"{HEAD}\nTides\t2901-0012\t\n"}
            self.expect(f"{others} and one", reason(rows_of, archive_of(members)), wanted)

    def test_beginning(self) -> None:
        """The header is in the first 40,000 bytes."""
        for end, wanted in (
            (40_000, ""),
            (40_001, "file: a zip file with 2 members: name one by `member PATTERN` in sources.tsv"),
        ):
            text = "x" * (end - len(HEAD) - 1) + f"\n{HEAD}\nTides\t2901-0012\t\n"
            self.expect(str(end), reason(rows_of, archive_of({"a.txt": "x", "t.txt": text})), wanted)


class Names(Case):
    def test_own(self) -> None:
        for count, wanted in ((60, True), (61, False), (0, False)):
            self.expect(str(count), column_names.is_known("x_" + "a" * count), wanted)

    def test_shown(self) -> None:
        for count, wanted in ((30, '"n"'), (31, "and 1 more")):
            self.expect(str(count), column_names.shown(["n"] * count).split(", ")[-1], wanted)
        for count, wanted in ((40, f'"{"n" * 40}"'), (41, f'"{"n" * 40}.."')):
            self.expect(f"{count} letters", column_names.shown(["n" * count]), wanted)


class Lines(Case):
    def test_numbers(self) -> None:
        cases = {
            "least 999999999 rows": "",
            "least 1000000000 rows": "least: a number of rows must follow, such as 500 rows",
            f"filter {'a' * 64}": "",
            f"filter {'a' * 65}": "filter: the name of a file in the folder of filters must follow",
            f"proxy https://{'a' * 253}/": "",
            f"proxy https://{'a' * 254}/": "proxy: an address that begins with https:// and a host must follow",
            "proxy https://a:12345/": "",
            "proxy https://a:123456/": "proxy: an address that begins with https:// and a host must follow",
            f"proxy https://a/{'b' * 500}": "",
            f"proxy https://a/{'b' * 501}": "proxy: an address that begins with https:// and a host must follow",
            f"columns {'a' * 100}": f"columns: not NAME=NAME: {'a' * 100}",
            f"columns {'a' * 101}": f"columns: not NAME=NAME: {'a' * 100}..",
        }
        for cell, wanted in cases.items():
            self.expect(cell[:40], reason(target_options.parse, cell), wanted)
        self.expect("options", Options(), target_options.NONE)


class Cells(Case):
    def test_rows_below(self) -> None:
        for count, left in ((10, 1), (11, 2)):
            rows = [["Tides", "2901-0012", ""], *[["x"]] * count]
            dropped_rows.without_footer(NAMES, rows)
            self.expect(f"{count} rows", len(rows), left)
        for name, row, left in (
            ("two cells", ["a", "b", ""], 1),
            ("three cells", ["a", "b", "c"], 2),
            ("four digits", ["a", "2026"], 1),
            ("five digits", ["a", "20261"], 2),
        ):
            rows = [["Tides", "2901-0012", ""], list(row)]
            dropped_rows.without_footer(NAMES, rows)
            self.expect(name, len(rows), left)

    def test_answers_all(self) -> None:
        for place, wanted in ((10, True), (11, False)):
            rows = [["a", "2901-0012", ""]] * (place - 1) + [["a", "ANY", ""]]
            self.expect(f"in row {place}", dropped_rows.answers_all(Table(tuple(NAMES), rows)), wanted)

    def test_embargo(self) -> None:
        for cell, wanted in (
            ("99999 days", "P99999D"),
            ("100000 days", "100000 days"),
            ("14285 weeks", "P99995D"),
            ("14286 weeks", "14286 weeks"),
            ("6 months".ljust(60), "P6M"),
            ("6 months".ljust(61), "6 months".ljust(61)),
        ):
            self.expect(repr(cell), embargo_words.standard(cell), wanted)

    def test_two_numbers(self) -> None:
        for cell, wanted in (
            ("29010012,29080142", ["29010012", "29080142"]),
            (f"2901-0012 ({'x' * 177}), 2908-0142", ["2901-0012", "2908-0142"]),
        ):
            for more in (cell, cell.replace("x)", "xx)")):
                row = rows_of(f"{HEAD}\nTides\t{more}\t\n".encode(), "dropped up to 9")
                is_read = len(more) <= 200
                self.expect(f"{len(more)}", row[0][1:] if row else [], wanted if is_read else [])

    def test_zeros(self) -> None:
        """By hand: of 0001-0782 the sum is 1*5 + 7*3 + 8*2 + 2 = 44; of 0000-1104 it is 1*4 + 1*3 + 4 = 11."""
        for cell, wanted in (("10782", "0001-0782"), ("1104", "1104")):
            rows = rows_of(f"{HEAD}\nTides\t{cell}\t2908-0142\n".encode())
            self.expect(cell, rows[0][1], wanted)

    def test_order_of_dates(self) -> None:
        head = f"{HEAD}\tdate_first_issue_online"
        for other, wanted in (
            ("12/13/1996", "1995-03-04"),
            ("13/12/1996", "1995-04-03"),
            ("31/12/1996", "1995-04-03"),
            ("32/12/1996", "1995"),
            ("12/12/1996", "1995"),
            ("0/12/1996", "1995"),
        ):
            rows = f"{head}\nTides\t2901-0012\t\t3/4/1995\nPiers\t2915-0272\t\t{other}\n"
            self.expect(other, rows_of(rows.encode())[0][3], wanted)
        self.expect(
            "a spreadsheet's",
            rows_of(xlsx([head.split("\t"), ["Tides", "2901-0012", "", "13/4/1995"]]))[0][3],
            "1995-04-13",
        )
