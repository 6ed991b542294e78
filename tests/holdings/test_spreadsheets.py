"""Spreadsheets as tables: which sheet and which cells are read, and each way in which one is refused. Whoever sends one
may have written its XML by hand."""
from __future__ import annotations

import datetime
import io
import zipfile
from unittest import mock

from fixtures import spreadsheet_files
from fixtures.cases import Case
from fixtures.spreadsheet_files import Cell
from fixtures.spreadsheet_files import MAIN
from fixtures.spreadsheet_files import ODS
from fixtures.spreadsheet_files import archive_of
from fixtures.spreadsheet_files import ods
from fixtures.spreadsheet_files import ods_content
from fixtures.spreadsheet_files import xlsx
from fixtures.spreadsheet_files import xlsx_members
from holdings.measured import MOST_MB
from holdings.measured import prepared as measured
from openlink_update.outcome import Refused
from openlink_update.outcome import Unreadable
from openlink_update.received import archives
from openlink_update.received import sheets
from openlink_update.tables import preparation
from openlink_update.target_options import Options

HEAD = ["publication_title", "print_identifier", "online_identifier", "date_first_issue_online"]
ROW = ["Tides", "2901-0012", "", "1995"]
ROWS = [HEAD, ROW]
SERVED = [ROW]
DAMAGED = "a spreadsheet whose XML is cut short or damaged"
SPACE = f'xmlns="{MAIN}"'


def read(data: bytes, options: Options = Options()) -> list[list[str]] | str:
    """The rows of a spreadsheet, or why there are none."""
    try:
        return preparation.prepare([("file", data)], options).table.rows
    except Refused as refusal:
        return refusal.reasons[0].removeprefix("file: ")


def said(data: bytes) -> list[str]:
    return preparation.prepare([("file", data)]).lines


def changed(name: str, old: str, new: str, members: dict[str, str | bytes] | None = None) -> bytes:
    """A workbook of which a member has other text."""
    members = members or xlsx_members({"Sheet1": ROWS}, is_inline=True)
    text = members[name]
    assert isinstance(text, str) and old in text, (name, old)
    return archive_of({**members, name: text.replace(old, new)})


def of_sheet(cells: str, shared: str = "<si><t>Tides</t></si>") -> bytes:
    """A workbook whose second row is written by hand."""
    members = xlsx_members({"Sheet1": ROWS}, is_inline=True)
    text = str(members["xl/worksheets/sheet1.xml"])
    text = text.replace("</sheetData>", f"{cells}</sheetData>")
    links = str(members["xl/_rels/workbook.xml.rels"]).replace(
        "</Relationships>", '<Relationship Id="sh" Type="x/sharedStrings" Target="/xl/shared.xml"/></Relationships>'
    )
    more = {"xl/worksheets/sheet1.xml": text, "xl/shared.xml": f"<sst {SPACE}>{shared}</sst>"}
    return archive_of({**members, **more, "xl/_rels/workbook.xml.rels": links})


def of_document(rows: str, before: str = "", name: str = "One") -> bytes:
    """An Open Document whose rows below the header are written by hand."""
    content = ods_content({name: ROWS}, before).replace("</table:table>", f"{rows}</table:table>")
    return archive_of({"mimetype": ODS, "content.xml": content})


class Sheets(Case):
    """Which sheet is read."""

    def test_kinds(self) -> None:
        for name, data in (
            ("shared texts", xlsx(ROWS)),
            ("texts in cells", xlsx(ROWS, is_inline=True)),
            ("the strict form", xlsx(ROWS, is_strict=True)),
            ("an Open Document", ods(ROWS)),
            ("in a zip beside a text", archive_of({"list.xlsx": xlsx(ROWS), "readme.txt": b"read me"})),
        ):
            self.expect(name, read(data), SERVED)
        members = xlsx_members({"Sheet1": ROWS}, is_inline=True)
        text = str(members["xl/worksheets/sheet1.xml"])
        text = text.replace("<", "<m:").replace("<m:/", "</m:").replace(SPACE, f'xmlns:m="{MAIN}"')
        self.expect("a prefix", read(archive_of({**members, "xl/worksheets/sheet1.xml": text})), SERVED)

    def test_names(self) -> None:
        other = [HEAD, ["Piers", "2915-0272", "", "2001"]]
        sheets = {"About": [["nothing"]], "A; B": other, 'Say "x"': ROWS}
        for kind, data in (
            ("xlsx", archive_of(xlsx_members(sheets))),
            ("ods", archive_of({"mimetype": ODS, "content.xml": ods_content(sheets)})),
        ):
            self.expect(f"a name, {kind}", read(data, Options(sheet="A; B")), [other[1]])
            self.expect(f"quotes, {kind}", read(data, Options(sheet='Say "x"')), SERVED)
            got = read(data, Options(sheet="Titles"))
            self.expect(f"a missing one, {kind}", got, 'no sheet "Titles"; it has: "About", "A; B", "Say "x"')
        spaces = archive_of(xlsx_members({"About": [["x"]], " Titles ": ROWS}))
        for name in ("Titles", " Titles", " Titles "):
            self.expect(f"spaces around {name!r}", read(spaces, Options(sheet=name)), SERVED)
        hidden = archive_of(xlsx_members({"Lists": [["x"]], "Titles": ROWS}, hidden=["Lists"]))
        self.expect("the first that people see", read(hidden), SERVED)
        members = xlsx_members({"Lists": [["x"]], "Titles": ROWS}, hidden=["Lists"])
        text = str(members["xl/workbook.xml"]).replace('"hidden"', '"veryHidden"')
        self.expect("beside one that no menu shows", read(archive_of({**members, "xl/workbook.xml": text})), SERVED)
        unsafe = archive_of(xlsx_members({"a\u202eb\u0085c" + "x" * 99: ROWS}))
        self.expect("an unsafe name", read(unsafe, Options(sheet="b")), f'no sheet "b"; it has: "a?b?c{"x" * 35}.."')


    def test_other_parts(self) -> None:
        """A workbook names its properties too, and has sheets of charts, which are no tables."""
        other = '<Relationship Id="r0" Type="x/extended-properties" Target="docProps/app.xml"/><Relationship Id="r1"'
        self.expect("properties", read(changed("_rels/.rels", '<Relationship Id="r1"', other)), SERVED)
        chart = '<Relationship Id="s0" Type="x/chartsheet" Target="worksheets/chart1.xml"/></Relationships>'
        members = xlsx_members({"Sheet1": ROWS}, is_inline=True)
        links = str(members["xl/_rels/workbook.xml.rels"]).replace("</Relationships>", chart)
        both = {**members, "xl/_rels/workbook.xml.rels": links, "xl/worksheets/chart1.xml": "<chartsheet/>"}
        sheets = '<sheets><sheet name="Chart" sheetId="7" r:id="s0"/>'
        self.expect("a chart before the sheet", read(changed("xl/workbook.xml", "<sheets>", sheets, both)), SERVED)


class Cells(Case):
    """What is read of a cell."""

    def test_workbook(self) -> None:
        for name, cell, wanted in (
            ("a shared text", '<c t="s"><v>0</v></c>', "Tides"),
            ("a text in parts", '<c t="inlineStr"><is><r><t>Ti</t></r><r><t>des</t></r></is></c>', "Tides"),
            ("how it is spoken", '<c t="inlineStr"><is><t>潮</t><rPh sb="0" eb="1"><t>shio</t></rPh></is></c>', "潮"),
            ("a formula", '<c t="str"><f>A1&amp;"x"</f><v>Tides</v></c>', "Tides"),
            ("a formula without its value", "<c><f>NOW()</f></c>", ""),
            ("a whole number", "<c><v>1995</v></c>", "1995"),
            ("a whole number as a float", "<c><v>1995.0</v></c>", "1995"),
            ("with an exponent", "<c><v>9.7803064061569995E+12</v></c>", "9780306406157"),
            ("a fraction", "<c><v>0.30000000000000004</v></c>", "0.3"),
            ("a number without end", "<c><v>1e999</v></c>", "inf"),
            ("words as a number", "<c><v>no number</v></c>", "no number"),
            ("in two lines", "<c><v>no&#10;number</v></c>", "no number"),
            ("true", '<c t="b"><v>1</v></c>', "TRUE"),
            ("true as a word", '<c t="b"><v>true</v></c>', "TRUE"),
            ("true between spaces", '<c t="b"><v> 1 </v></c>', "TRUE"),
            ("a date of its own kind", '<c t="d"><v>2005-03-01T00:00:00</v></c>', "2005-03-01T00:00:00"),
            ("other ends of lines", '<c t="inlineStr"><is><t>A&#133;B&#8232;C&#8233;D</t></is></c>', "A B C D"),
            ("an escaped character in small letters", '<c t="str"><v>A_x00e9_</v></c>', "Aé"),
            ("false", '<c t="b"><v>0</v></c>', "FALSE"),
            ("false as a word", '<c t="b"><v>false</v></c>', "FALSE"),
            ("lines and tabs", '<c t="inlineStr"><is><t>Tides&#10;and&#9;Piers</t></is></c>', "Tides and Piers"),
            ("an escaped character", '<c t="str"><v>A_x0041__x000D_B_x005F_x</v></c>', "AA B_x"),
            ("half a character", '<c t="str"><v>A_xD800_B</v></c>', "A�B"),
        ):
            placed = cell.replace("<c", '<c r="A3"', 1)
            got = read(of_sheet(f'<row><c r="B3" t="str"><v>2915-0272</v></c>{placed}</row>'))
            self.expect(name, got[1][0] if isinstance(got, list) else got, wanted)

    def test_errors(self) -> None:
        row = '<row><c t="e"><v>#N/A</v></c><c t="str"><v>2915-0272</v></c></row>'
        self.expect("it is empty", read(of_sheet(row)), [ROW, ["", "2915-0272"]])
        self.expect("it is said", said(of_sheet(row)), ["with an error of the spreadsheet, left empty: 1 cell"])
        cell = (
            '<table:table-cell table:formula="of:=X" '
            'office:value-type="string"><text:p>#REF!</text:p></table:table-cell>'
        )
        number = '<table:table-cell office:value-type="string"><text:p>2915-0272</text:p></table:table-cell>'
        document = of_document(f"<table:table-row>{cell}{number}</table:table-row>")
        self.expect("of a document", read(document), [ROW, ["", "2915-0272"]])

    def test_places(self) -> None:
        """A cell is in the column that it names, or after the one before."""
        row = (
            '<row><c r="B9" t="str"><v>2915-0272</v></c><c t="str"><v>x</v></c><c r="A9" t="str"><v>Piers</v></c></row>'
        )
        small = '<row><c r="b9" t="str"><v>2915-0272</v></c><c r="a9" t="str"><v>Piers</v></c></row>'
        self.expect("in small letters", read(of_sheet(small)), [ROW, ["Piers", "2915-0272"]])
        self.expect("in another order", read(of_sheet(row)), [ROW, ["Piers", "2915-0272", "x"]])
        for place in ("1", "Ä1", "$A$1", "A-1"):
            got = read(of_sheet(f'<row><c r="{place}"><v>1</v></c></row>'))
            self.expect(f"in {place}", got, "row 3 has a cell in no column")

    def test_documents(self) -> None:
        text = "<table:table-cell office:value-type='string'>{}</table:table-cell>"
        number = text.format("<text:p>2915-0272</text:p>")
        for name, cell, wanted in (
            ("two paragraphs", text.format("<text:p>Tides</text:p><text:p>and Piers</text:p>"), "Tides and Piers"),
            (
                "spaces",
                text.format("<text:p>A<text:s text:c='3'/>B<text:tab/>C<text:line-break/>D</text:p>"),
                "A   B C D",
            ),
            ("parts", text.format("<text:p>Ti<text:span>de</text:span>s</text:p>"), "Tides"),
            (
                "a note",
                text.format("<office:annotation><text:p>note</text:p></office:annotation><text:p>Tides</text:p>"),
                "Tides",
            ),
            (
                "a number",
                "<table:table-cell office:value-type='float' office:value='1234.0'><text:p>1,234</text:p><"
                "/table:table-cell>",
                "1234",
            ),
            (
                "an ISBN as a number",
                "<table:table-cell office:value-type='float' office:value='9780306406157'/>",
                "9780306406157",
            ),
            (
                "a table in it",
                text.format(
                    "<text:p>Tides</text:p><table:table><table:table-row><table:table-cell><text:p>x</text:p><"
                    "/table:table-cell></table:table-row></table:table>"
                ),
                "Tides",
            ),
            ("a covered one", "<table:covered-table-cell/>", ""),
        ):
            got = read(of_document(f"<table:table-row>{cell}{number}</table:table-row>"))
            self.expect(name, got[1][0] if isinstance(got, list) else got, wanted)

    def test_repeated(self) -> None:
        """Empty cells and rows cost nothing, however often they are repeated; others count."""
        empty = '<table:table-cell table:number-columns-repeated="{}"/>'
        row = '<table:table-row table:number-rows-repeated="{}">{}</table:table-row>'
        text = '<table:table-cell table:number-columns-repeated="{}"><text:p>x</text:p></table:table-cell>'
        many = "1000000000000"
        self.expect("empty cells", read(of_document(row.format(1, empty.format(many)))), SERVED)
        self.expect("empty rows", read(of_document(row.format(many, empty.format(5)))), SERVED)
        wide = read(of_document(row.format(1, empty.format(1_000_000) + text.format(1))))
        self.expect("a cell after them", wide, "row 3 has 1,000,001 cells, and a table may have 500 columns")
        self.expect(
            "others",
            read(of_document(row.format(1, text.format(1_000_000)))),
            "row 3 has 1,000,000 cells, and a table may have 500 columns",
        )
        cells = "".join(text.format(1).replace(">x<", f">{it}<") for it in ("Piers", "2915-0272", "y", "2001"))
        two = read(of_document(row.format(2, cells)), Options(columns=(("online_identifier", "-"),)))
        self.expect("without a column", two, [[*ROW[:2], ROW[3]], ["Piers", "2915-0272", "2001"]])
        long, megabytes = measured(of_document(row.format(1_999_990, text.format(500))))
        self.expect("rows", long, ["file: a sheet with more than 30,000,000 cells: is it a table of holdings?"])
        self.expect(f"they take {megabytes} MB", 0 < megabytes <= MOST_MB)

    def test_exponents(self) -> None:
        """A whole number of at most fifteen digits is written out. A spreadsheet shows no more digits of another."""
        for cell, wanted in (
            ("9.99999999999999E+14", "999999999999999"),
            ("-2.5E+1", "-25"),
            ("-0.0", "0"),
            ("1E+15", "1e+15"),
            ("-1E+15", "-1e+15"),
            ("１９９５", "1995"),
            ("1.23456789012345678E+17", "1.23456789012346e+17"),
            ("2.50", "2.5"),
        ):
            self.expect(cell, sheets.number_of(cell), wanted)


class Dates(Case):
    def test_day_numbers(self) -> None:
        """By hand: day 1 is 1 January 1900, day 61 is 1 March; 60 is a day that there was not."""
        for value, is_1904, wanted in (
            (Cell("1", form=1), False, "1900-01-01"),
            (Cell("59", form=1), False, "1900-02-28"),
            (Cell("60", form=1), False, "1900-02"),
            (Cell("61", form=1), False, "1900-03-01"),
            (Cell("36526", form=1), False, "2000-01-01"),
            (Cell("36526.75", form=1), False, "2000-01-01"),
            (Cell("0", form=1), True, "1904-01-01"),
            (Cell("59", form=1), True, "1904-02-29"),
            (Cell("60", form=1), True, "1904-03-01"),
            (Cell("35064", form=1), True, "2000-01-01"),
            (Cell("36526", form=2), False, "2000-01"),
            (Cell("36526", form=3), False, "2000"),
            (Cell("36526", form=4), False, "2000-01-01"),
            (Cell("1995", form=len(spreadsheet_files.FORMS)), False, "1995"),  # the file has no such form
            (Cell("1995", form=10**12), False, "1995"),
            (Cell("soon", form=1), False, "soon"),
            (36526, False, "2000-01-01"),
            (36526.75, False, "2000-01-01"),
            (1995, False, "1995"),
            (1400, False, "1400"),
            (1399, False, "1903-10-30"),
            (2100, False, "2100"),
            (2101, False, "1905-10-01"),
            ("36526", False, "36526"),
            (Cell("109574", form=1), False, "2199-12-31"),
            (Cell("109575", form=1), False, "109575"),
            (Cell("9999999", form=1), False, "9999999"),
            (Cell("-5", form=1), False, "-5"),
            (datetime.date(1987, 6, 5), True, "1987-06-05"),
        ):
            data = xlsx([HEAD, ["Tides", "2901-0012", "", value]], is_1904=is_1904)
            self.expect(f"{value}, {is_1904}", read(data), [["Tides", "2901-0012", "", wanted]])

    def test_forms_that_no_file_defines(self) -> None:
        """Those of days by ECMA-376, 18.8.30, of all languages and of those of East Asia, and that of a month. Without
        one of them, 2000 is a year."""
        forms = dict.fromkeys((14, 15, 16, 22, *range(27, 32), *range(34, 37), *range(50, 59)), "1905-06-22")
        for form, wanted in {**forms, 17: "1905-06"}.items():
            with mock.patch.object(spreadsheet_files, "FORMS", ("0", str(form))):
                data = xlsx([HEAD, ["Tides", "2901-0012", "", Cell("2000", form=1)]])
            self.expect(f"form {form}", read(data), [["Tides", "2901-0012", "", wanted]])

    def test_own_forms(self) -> None:
        """By ECMA-376, 18.8.31: a form has sections, of which the first is for numbers above zero, and letters in
        quotes, in brackets and after a backslash, an underscore or an asterisk stand for no part of a date."""
        for form, wanted in (
            ("yyyy\\-mm\\-dd", "1905-06-22"),
            ("D.M.YY", "1905-06-22"),
            ("[$-409]mmmm\\ yyyy;@", "1905-06"),
            ("MMM YYYY", "1905-06"),
            ("yyyy", "1905"),
            *((it, "2000") for it in ('0"d"', "0\\d", "0_d", "0*d", "[Red]0", "0;d", "GENERAL", "[h]:mm", "mm:ss")),
        ):
            with mock.patch.object(spreadsheet_files, "OWN_FORMS", {"165": form}):
                data = xlsx([HEAD, ["Tides", "2901-0012", "", Cell("2000", form=3)]])
            self.expect(form, read(data), [["Tides", "2901-0012", "", wanted]])

    def test_form_of_a_number_that_is_known(self) -> None:
        """What the file says of it counts."""
        with mock.patch.object(spreadsheet_files, "OWN_FORMS", {"14": "yyyy"}):
            data = xlsx([HEAD, ["Tides", "2901-0012", "", Cell("2000", form=1)]])
        self.expect("14 as a year", read(data), [["Tides", "2901-0012", "", "1905"]])

    def test_forms_that_are_none(self) -> None:
        """A number with one of them is a number."""
        row = '<row><c t="str"><v>Piers</v></c><c t="str"><v>2915-0272</v></c><c/><c s="{}"><v>1995</v></c></row>'
        wanted = [ROW, ["Piers", "2915-0272", "", "1995"]]
        for form in ("²", "9" * 5000, "-1", "x"):
            self.expect(f"{form[:5]}", read(of_sheet(row.format(form))), wanted)
            text = f'numFmtId="{form}"/><xf numFmtId="0"'
            self.expect(f"{form[:5]} in a list", read(changed("xl/styles.xml", 'numFmtId="0"', text)), SERVED)

    def test_first_day_of_a_workbook(self) -> None:
        """An attribute that is true is so in both ways that XML has to write it."""
        members = xlsx_members({"Sheet1": [HEAD, [*ROW[:3], 35064]]})
        for value, wanted in (
            ("1", "2000-01-01"),
            ("true", "2000-01-01"),
            ("0", "1995-12-31"),
            ("false", "1995-12-31"),
        ):
            text = str(members["xl/workbook.xml"]).replace("<sheets", f'<workbookPr date1904="{value}"/><sheets', 1)
            data = archive_of({**members, "xl/workbook.xml": text})
            self.expect(value, read(data), [[*ROW[:3], wanted]])

    def test_other_columns(self) -> None:
        """A number in a column without dates stays one."""
        head = [*HEAD, "num_first_vol_online"]
        data = xlsx([head, [*ROW, 36526]])
        self.expect("a volume", read(data), [[*ROW, "36526"]])

    def test_documents(self) -> None:
        before = (
            '<table:calculation-settings><table:null-date table:date-value="1904-01-01"/></table:calculation-settings>'
        )
        content = ods_content({"A": [HEAD, ["Tides", "2901-0012", "", 35064]]}, before)
        data = archive_of({"mimetype": ODS, "content.xml": content})
        self.expect("its first day", read(data), [["Tides", "2901-0012", "", "2000-01-01"]])
        self.expect("a date", read(ods([HEAD, [*ROW[:3], datetime.date(2003, 9, 15)]])), [[*ROW[:3], "2003-09-15"]])
        timed = ods([HEAD, [*ROW[:3], datetime.datetime(2003, 9, 15, 23, 59, 58)]])
        self.expect("a date with a time", read(timed), [[*ROW[:3], "2003-09-15"]])


class Zeros(Case):
    """Numbers that lost zeros get them back where the check digit fits. By hand: 0317-8471 has 0*8 + 3*7 + 1*6 + 7*5 +
    8*4 + 4*3 + 7*2 + 1 = 121 = 11 * 11; 0028-0836 has 2*6 + 8*5 + 8*3 + 3*2 + 6 = 88; 0306406152 has 132 = 12 * 11."""

    def test_numbers(self) -> None:
        for cell, wanted in (
            (3178471, "0317-8471"),
            (280836, "0028-0836"),
            (306406152, "9780306406157"),
            (3178472, "3178472"),
            (29010012, "29010012"),
            ("٣١٧٨٤٧١", "٣١٧٨٤٧١"),
        ):
            rows = read(xlsx([HEAD, ["Tides", cell, "2908-0142", "1995"]]))
            self.expect(str(cell), rows[0][1] if isinstance(rows, list) else rows, wanted)

    def test_other_numbers(self) -> None:
        """A column of the provider's own numbers gets none, although one in eleven would fit."""
        rows = [["T", number, "2908-0142", "1995"] for number in (3178471, 3178472, 3178473)]
        got = read(xlsx([HEAD, *rows]))
        self.expect("they stay", [row[1] for row in got if isinstance(row, list)], ["3178471", "3178472", "3178473"])
        self.expect(
            "one of two",
            [row[1] for row in read(xlsx([HEAD, *rows[:2]])) if isinstance(row, list)],
            ["0317-8471", "3178472"],
        )


class Refusals(Case):
    def test_files(self) -> None:
        encrypted = bytearray(xlsx(ROWS))
        for at in (encrypted.find(b"xl/worksheets") - 24, encrypted.rfind(b"xl/worksheets") - 38):
            encrypted[at] |= 1
        old = b"\xd0\xcf\x11\xe0\xa1\xb1\x1a\xe1" + bytes(500)
        password = "a spreadsheet with a password: save it without one"
        manifest = (
            '<m:manifest xmlns:m="urn:oasis:names:tc:opendocument:xmlns:manifest:1.0"><m:encryption-data/></m:manifest>'
        )
        content = ods_content({"One": ROWS})
        cases: dict[str, tuple[bytes, str]] = {
            "the old form": (old, "a spreadsheet in the old form, .xls: save it as .xlsx, .ods or text with tabs"),
            "the old form beside a text in a zip": (
                archive_of({"readme.txt": "read me", "list.xls": old}),
                "a spreadsheet in the old form, .xls: save it as .xlsx, .ods or text with tabs",
            ),
            "a password": (old + "EncryptedPackage".encode("utf-16-le"), password),
            "an encrypted member": (bytes(encrypted), password),
            "an encrypted document": (
                archive_of({"mimetype": ODS, "content.xml": content, "META-INF/manifest.xml": manifest}),
                password,
            ),
            "binary": (
                changed("_rels/.rels", "xl/workbook.xml", "xl/workbook.bin"),
                "a spreadsheet in binary form, .xlsb: save it as .xlsx, .ods or text with tabs",
            ),
            "a letter": (
                archive_of({"[Content_Types].xml": "<a/>", "word/document.xml": "<a/>"}),
                "a file of an office program without a workbook: is it a table?",
            ),
            "no sheet": (changed("xl/workbook.xml", "<sheet ", "<other "), "a spreadsheet without a sheet"),
            "cut short": (xlsx(ROWS)[:-30], "a zip file that is cut short, damaged or encrypted"),
            "XML that is cut short": (changed("xl/worksheets/sheet1.xml", "</worksheet>", ""), DAMAGED),
            "an unknown encoding": (
                changed("xl/worksheets/sheet1.xml", "<worksheet", '<?xml version="1.0" encoding="klingon"?><worksheet'),
                DAMAGED,
            ),
            "an encoding that the parser lacks": (
                changed(
                    "xl/worksheets/sheet1.xml", "<worksheet", '<?xml version="1.0" encoding="shift_jis"?><worksheet'
                ),
                DAMAGED,
            ),
            "XML of 2003": (
                b'<?xml version="1.0"?>\n<Workbook xmlns="urn:schemas-microsoft-com:office:spreadsheet"/>\n',
                "XML, not a table: save it as .xlsx, .ods or text with tabs",
            ),
            "nothing in it": (xlsx([[]]), "it is empty"),
        }
        for name, (data, wanted) in cases.items():
            self.expect(name, read(data), wanted)

    def test_paths(self) -> None:
        """Only members of the spreadsheet are read, whatever path it names."""
        lacks = "a spreadsheet that lacks a sheet which it names"
        for target, wanted in (
            ("../../../../etc/passwd", lacks),
            ("/etc/passwd", lacks),
            ("file:///etc/passwd", lacks),
            ("https://example.com/sheet1.xml", lacks),
            ("worksheets/../worksheets/./sheet1.xml", SERVED),
            ("/xl/worksheets/sheet1.xml", SERVED),
        ):
            self.expect(target, read(changed("xl/_rels/workbook.xml.rels", "worksheets/sheet1.xml", target)), wanted)
        outside = changed(
            "xl/_rels/workbook.xml.rels", 'Target="worksheets', 'TargetMode="External" Target="worksheets'
        )
        self.expect("outside", read(outside), "a spreadsheet without a sheet")
        other = '<o:Relationship xmlns:o="urn:other" Id="s1" Type="x/worksheet" Target="other.xml"/></Relationships>'
        self.expect("another element", read(changed("xl/_rels/workbook.xml.rels", "</Relationships>", other)), SERVED)

    def test_cells_without_places(self) -> None:
        """Each is in the column after the one before it."""
        texts = "".join(f'<c t="inlineStr"><is><t>{text}</t></is></c>' for text in ("Quays", "2922-0408"))
        self.expect("two", read(of_sheet(f"<row>{texts}</row>"))[-1], ["Quays", "2922-0408"])
        first, second = texts.replace("><c ", ">\n<c ").split("\n")
        for empty in ("<c/>", "<c s='1'></c>", "<c><f>NOW()</f></c>"):
            found = read(of_sheet(f"<row>{first}{empty}{second}{empty}</row>"))
            self.expect(f"an empty one between: {empty}", found[-1], ["Quays", "", "2922-0408"])
        self.expect("an empty one first", read(of_sheet(f"<row><c/>{second}</row>"))[-1], ["", "2922-0408"])
        begun = first.replace("<c ", '<c r="A3" ')
        placed = read(of_sheet(f'<row><c r="B3"/>{second}{begun}</row>'))
        self.expect("after an empty one with a place", placed[-1], ["Quays", "", "2922-0408"])
        wide = read(of_sheet(f"<row>{'<c><v>1</v></c>' * 501}</row>"))
        self.expect("501", wide, f"row {len(ROWS) + 1} has 501 cells, and a table may have 500 columns")

    def test_numbers_of_rows(self) -> None:
        """Those of the sheet, which has no empty rows; a row without a number is the one after the row before it."""
        wrong = '<row{}><c t="s"><v>7</v></c></row>'
        row = '<row{}><c t="str"><v>Piers</v></c></row>'
        for rows, number in (
            (wrong.format(' r="9"'), "9"),
            (wrong.format(' r="1048576"'), "1,048,576"),
            (row.format(' r="9"') + wrong.format(""), "10"),
            (row.format("") + wrong.format(""), "4"),
            (wrong.format(' r="²"'), "3"),
            (wrong.format(f' r="{"9" * 5000}"'), "999,999,999"),
        ):
            self.expect(rows[:40], read(of_sheet(rows)), f"row {number} has a text that the spreadsheet lacks")

    def test_entities(self) -> None:
        says = "a spreadsheet with a document type in its XML, which none needs"
        laughs = '<!DOCTYPE a [<!ENTITY a "ha">' + "".join(
            f'<!ENTITY {chr(98 + number)} "{f"&{chr(97 + number)};" * 10}">' for number in range(9)
        )
        for name, kind in (
            ("many laughs", f"{laughs}]>"),
            ("a file", '<!DOCTYPE a [<!ENTITY b SYSTEM "file:///etc/passwd">]>'),
            ("another machine", '<!DOCTYPE a SYSTEM "http://example.com/a.dtd">'),
            ("a parameter", '<!DOCTYPE a [<!ENTITY % p SYSTEM "file:///etc/passwd"> %p;]>'),
        ):
            for member in ("xl/worksheets/sheet1.xml", "xl/workbook.xml", "xl/styles.xml", "_rels/.rels"):
                members = xlsx_members({"Sheet1": ROWS}, is_inline=True)
                members[member] = kind + str(members[member])
                self.expect(f"{name}, {member}", read(archive_of(members)), says)
            content = kind + ods_content({"One": ROWS})
            self.expect(f"{name}, a document", read(archive_of({"mimetype": ODS, "content.xml": content})), says)

    def test_shared_texts(self) -> None:
        lacks = "row 3 has a text that the spreadsheet lacks"
        for number in ("1", "-1", "x", "9" * 5000, "0.5"):
            self.expect(f"{number[:5]}", read(of_sheet(f'<row><c t="s"><v>{number}</v></c></row>')), lacks)

    def test_long_texts(self) -> None:
        shared = f"<si><t>{'x' * 200_000}</t></si>"
        cell = '<row><c t="s"><v>0</v></c></row>'
        self.expect("one that is not used", read(of_sheet("", shared)), SERVED)
        self.expect(
            "shared",
            read(of_sheet(cell, shared)),
            "row 3 has 100,001 bytes, and 100,000 are possible: is it a table of holdings?",
        )
        several = "".join(f"<si><t>{letter * 60_000}</t></si>" for letter in "abc")
        cells = "".join(f'<row><c t="s"><v>{number}</v></c><c><v>29010012</v></c></row>' for number in range(3))
        wanted = [ROW, *([letter * 60_000, "29010012"] for letter in "abc")]
        self.expect("each shared one counts alone", read(of_sheet(cells, several)), wanted)
        cells = "".join(f'<row><c t="str"><v>{it * 60_000}</v></c><c><v>29010012</v></c></row>' for it in "abc")
        self.expect("each row counts alone", read(of_sheet(cells)), wanted)
        own = f'<row><c t="str"><v>{"x" * 200_000}</v></c></row>'
        self.expect("its own", read(of_sheet(own)), "row 3 has more than 100,000 bytes: is it a table?")

    def test_bombs(self) -> None:
        """Small files that are large when they are unpacked, or nested deeply."""
        sheet = io.BytesIO()
        with zipfile.ZipFile(sheet, "w", zipfile.ZIP_DEFLATED) as archive:
            for name, content in xlsx_members({"Sheet1": ROWS}, is_inline=True).items():
                if name != "xl/worksheets/sheet1.xml":
                    archive.writestr(name, content)
            with archive.open("xl/worksheets/sheet1.xml", "w") as member:
                member.write(f"<worksheet {SPACE}><sheetData>".encode())
                for _ in range(300):
                    member.write(b"x" * 2**20)
        large, megabytes = measured(sheet.getvalue())
        self.expect(
            "300 MB of text", large, ["file: more than 256 MB when unpacked: ask the provider for smaller files"]
        )
        self.expect(f"they take {megabytes} MB", 0 < megabytes <= MOST_MB)
        deep = of_sheet("<a>" * 2_000_000)
        self.expect("a deep one", read(deep), "a spreadsheet whose XML is nested more than 64 deep")
        long = of_sheet(f"<a b='{'x' * 40_000_000}'/>")
        found, megabytes = measured(long)
        self.expect(
            "a long attribute", found, ["file: a spreadsheet with more than 1,048,576 bytes in a tag of its XML"]
        )
        self.expect(f"it takes {megabytes} MB", 0 < megabytes <= MOST_MB)

    def test_million_texts(self) -> None:
        found, megabytes = measured(of_sheet("", "<si><t>ab</t></si>" * 1_000_000))
        self.expect("they are read", found, [])
        self.expect(f"they take {megabytes} MB", 0 < megabytes <= MOST_MB)

    def test_members(self) -> None:
        members = {f"{number}": b"" for number in range(10_001)}
        try:
            archives.is_spreadsheet(archive_of({**members}))
            got = ""
        except Unreadable as fault:
            got = str(fault)
        self.expect("too many", got, "a zip file with more than 10,000 members: pack the table alone")
