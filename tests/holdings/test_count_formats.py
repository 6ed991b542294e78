"""The formats of openlink-counts, the cost of a followed link, and COUNTER reports beside the links that were followed.
Texts of strangers stay in their cells."""
from __future__ import annotations

import csv
import gzip
import io
import json
import os
import signal
import subprocess
import tempfile
import zipfile
from collections.abc import Callable
from decimal import Decimal
from pathlib import Path
from xml.etree import ElementTree

from fixtures.cases import Case
from openlink_update.counts import costs
from openlink_update.counts import counter_reports
from openlink_update.counts import side_by_side
from openlink_update.outcome import Unreadable

LOG = """\
2026-10-31T09:42:47+00:00 200 GET /find 0.017 found=1/3 targets=tidal-press,catalogue from=info:sid/google
2026-10-31T09:42:48+00:00 200 POST /find.json 0.009 found=0/2 targets=catalogue from=
2026-10-31T09:42:49+00:00 302 GET /go 0.009 found=2/2 targets=tidal-press from=info:sid/google
2026-10-31T09:42:51+00:00 503 GET /find 0.404 found= targets= from=info:sid/google
2026-11-01T09:42:54+00:00 200 GET /find.json 0.012 found=1/1 targets=tidal-press from=info:sid/openlink:probe
"""
FOLLOWED = """\
2026-10 target=tidal-press 2901-0012
2026-10 target=tidal-press 2908-0142
2026-11 target=tidal-press 2908-0142
2026-11 target=catalogue 9780306406157
2026-11 target=catalogue -
"""
WANTED = "2026-10 3006-1962 1951\n2026-10 3006-1962 -\n"
MONTHS = [
    ["2026-10", 3, 2, 1, 0, 0, 3, 2, 1],
    ["2026-11", 0, 0, 0, 0, 1, 3, 0, 0],
]
DATA = {
    "months": (
        "month|requests|with full text|without full text|without a link|probes|followed|asked in vain|errors",
        MONTHS,
    ),
    "sources": (
        "month|source|requests|with full text|without full text",
        [["2026-10", "info:sid/google", 2, 2, 0], ["2026-10", "(none)", 1, 0, 1]],
    ),
    "targets": (
        "month|target|shown|followed",
        [
            ["2026-10", "catalogue", 2, 0],
            ["2026-10", "tidal-press", 1, 3],
            ["2026-11", "catalogue", 0, 2],
            ["2026-11", "tidal-press", 0, 1],
        ],
    ),
    "followed": (
        "month|target|number|followed",
        [
            ["2026-10", "tidal-press", "2901-0012", 1],
            ["2026-10", "tidal-press", "2908-0142", 1],
            ["2026-11", "catalogue", "-", 1],
            ["2026-11", "catalogue", "9780306406157", 1],
            ["2026-11", "tidal-press", "2908-0142", 1],
        ],
    ),
    "errors": ("month|status|errors", [["2026-10", 503, 1]]),
    "asked in vain": ("month|number|requests", [["2026-10", "3006-1962", 2]]),
}
COSTS = "target\tyear\tsum\n# a comment\n\ntidal-press\t2026\t100.00\ncatalogue\t2026\t7\nother\t2025\t3.5\n"
COST_TABLE = """\
year|target|sum|months|followed|cost of a followed link
2025|other|3.5|0|0|
2026|catalogue|7|2|2|3.50
2026|tidal-press|100.00|2|4|25.00
""".replace(
    "|", "\t"
)
HEAD = """\
Report_Name,Title Master Report
Report_ID,TR
Release,5
Institution_Name,"Library, of a Coast"
Metric_Types,
Reporting_Period,Begin_Date=2026-10-01; End_Date=2026-11-30
Created,2026-12-01T00:00:00Z

"""
COLUMNS = (
    "Title,Publisher,Platform,DOI,ISBN,Print_ISSN,Online_ISSN,Data_Type,YOP,Access_Type,Metric_Type,"
    "Reporting_Period_Total,Oct-2026,Nov-2026\n"
)
ANNALS = '"=HYPERLINK(""https://evil.example"")",Tidal,Tidal,,,2901-0012,2908-0142,Journal,{},Controlled,{},{},{},{}\n'
REPORT = (
    HEAD
    + COLUMNS
    + ANNALS.format(2025, "Unique_Item_Requests", 9, 5, 4)
    + ANNALS.format(2026, "Unique_Item_Requests", 2, 2, "")
    + ANNALS.format(2026, "Total_Item_Requests", 12, 8, 4)
    + ANNALS.format(2026, "Total_Item_Investigations", 99, 90, 9)
    + "Harbours,Tidal,Tidal,,978-0-306-40615-7,,,Book,2001,Controlled,Unique_Item_Requests,1,1,0\n"
)
BESIDE = """\
month|number|title|followed|Unique_Item_Requests|Total_Item_Requests
2026-10|2908-0142|"'=HYPERLINK(""https://evil.example"")"|2|7|8
2026-10|9780306406157|Harbours|0|1|0
2026-11|2908-0142|"'=HYPERLINK(""https://evil.example"")"|1|4|4
2026-11|9780306406157|Harbours|1|0|0
""".replace(
    "|", "\t"
)
# What is no report or no file of costs, and what is said of it.
WRONG_REPORTS = [
    ("", "line 1: no COUNTER report: Report_ID or Release is missing"),
    ("<html>\n", "line 1: no COUNTER report: Report_ID or Release is missing"),
    ("Report_ID,TR\n", "line 1: no COUNTER report: Report_ID or Release is missing"),
    ("Release,5\n", "line 1: no COUNTER report: Report_ID or Release is missing"),
    (REPORT.replace("Report_ID,TR", "Report_ID,PR"), "Report_ID: not a report of titles (TR): PR"),
    (REPORT.replace("Release,5", "Release,4"), "Release: not Release 5: 4"),
    (HEAD + COLUMNS.replace("Oct-2026,Nov-2026", "Total"), "line 9: no column of a month, such as Jan-2026"),
    (HEAD + COLUMNS.replace("Nov-2026", "2026-10"), "line 9: two columns of one month"),
    (REPORT.replace("Metric_Type,", "Metric,"), "no line with the columns Title and Metric_Type within the first 50"),
    (REPORT.replace(",5,4\n", ",five,4\n"), "line 10: not a number in 2026-10: five"),
    (REPORT.replace(",5,4\n", ",5,-4\n"), "line 10: not a number in 2026-11: -4"),
    (
        REPORT.replace("ISBN,Print_ISSN,Online_ISSN", "a,b,c"),
        "line 9: none of the columns Online_ISSN, Print_ISSN, ISBN",
    ),
    (REPORT.replace("Tidal,Tidal", 'Ti"dal",Tidal', 1) + '"open', "line 15: unexpected end of data"),
    (REPORT.replace("Unique_Item_Requests,1,1,0", ",1,1,0"), "line 14: no Metric_Type"),
    (REPORT + "\0", "it has bytes of zero"),
    (REPORT.replace("Harbours", "\udcff"), "neither UTF-8 nor UTF-16"),
]
WRONG_COSTS = [
    ("tidal-press 2026 100\n", "line 1: not a target, a year and a sum with tabs between them"),
    ("tidal-press\t2026\t1,000.00\n", "line 1: not a sum as 1250.00: 1,000.00"),
    ("tidal-press\t26\t1\n", "line 1: not a year: 26"),
    ("=a\t2026\t1\n", "line 1: not the name of a target: =a"),
    ("a\t2026\t1\nb\t2026\t1\n\na\t2026\t2\n", "line 4: a 2026 a second time"),
    ("a\t2026\t1\x1b[2J\n", "line 1: not a sum as 1250.00: 1?[2J"),
    ("\udcff\t2026\t1\n", "not UTF-8"),
]
_MAIN = "{http://schemas.openxmlformats.org/spreadsheetml/2006/main}"
_OF_PACKAGES = "{http://schemas.openxmlformats.org/package/2006/content-types}"
_KIND = "application/vnd.openxmlformats-officedocument.spreadsheetml"


def sheets_of(data: bytes) -> dict[str, list[list[str | int | float | None]]]:
    """The rows of each sheet, by its name; a cell that is a formula is an error."""
    with zipfile.ZipFile(io.BytesIO(data)) as archive:
        book = ElementTree.fromstring(archive.read("xl/workbook.xml"))
        names = [it.get("name") or "" for it in book.iter(f"{_MAIN}sheet")]
        texts = [archive.read(f"xl/worksheets/sheet{number}.xml") for number in range(1, len(names) + 1)]
        for part in archive.namelist():
            ElementTree.fromstring(archive.read(part))
        types = ElementTree.fromstring(archive.read("[Content_Types].xml")).iter(f"{_OF_PACKAGES}Override")
        found = {it.get("PartName"): it.get("ContentType") for it in types}
    sheets = {f"/xl/worksheets/sheet{number}.xml": f"{_KIND}.worksheet+xml" for number in range(1, len(names) + 1)}
    assert found == {"/xl/workbook.xml": f"{_KIND}.sheet.main+xml", **sheets}, found
    return {name: rows_of(text) for name, text in zip(names, texts)}


def rows_of(sheet: bytes) -> list[list[str | int | float | None]]:
    return [[cell_of(it) for it in row] for row in ElementTree.fromstring(sheet).iter(f"{_MAIN}row")]


def cell_of(cell: ElementTree.Element) -> str | int | float | None:
    assert cell.find(f"{_MAIN}f") is None, "a formula"
    if cell.get("t") == "inlineStr":
        return "".join(cell.itertext())
    value = cell.findtext(f"{_MAIN}v")
    return None if value is None else float(value) if "." in value else int(value)


class CountsCase(Case):
    """Runs openlink-counts on files in a folder."""

    def setUp(self) -> None:
        room = tempfile.TemporaryDirectory()
        self.addCleanup(room.cleanup)
        self.folder = Path(room.name)
        self.logs = [self.write("log", LOG), self.write("followed", FOLLOWED), self.write("wanted", WANTED)]

    def write(self, name: str, text: str) -> str:
        path = self.folder / name
        path.write_bytes(text.encode("utf-8", "surrogateescape"))
        return str(path)

    def counted(self, *words: str) -> tuple[int, bytes, str]:
        done = subprocess.run(["update/counts", *words], capture_output=True, stdin=subprocess.DEVNULL)
        return done.returncode, done.stdout, done.stderr.decode()

    def text(self, *words: str) -> tuple[int, str, str]:
        status, data, said = self.counted(*words)
        return status, data.decode(), said.replace(f"{self.folder}/", "")


class Formats(CountsCase):
    def test_json(self) -> None:
        status, text, said = self.text("--format", "json", *self.logs)
        self.expect("the end", (status, said), (0, ""))
        data = json.loads(text)
        self.expect("tables", list(data), list(DATA))
        for name, (columns, rows) in DATA.items():
            self.expect(name, data[name], [dict(zip(columns.split("|"), row)) for row in rows])

    def test_xlsx(self) -> None:
        status, data, said = self.counted("--format", "xlsx", *self.logs)
        self.expect("the end", (status, said), (0, ""))
        wanted = {name: [columns.split("|"), *rows] for name, (columns, rows) in DATA.items()}
        self.expect("the sheets", sheets_of(data), wanted)
        with zipfile.ZipFile(io.BytesIO(data)) as archive:
            sheet = ElementTree.fromstring(archive.read("xl/worksheets/sheet1.xml"))
        pane = {"ySplit": "1", "topLeftCell": "A2", "activePane": "bottomLeft", "state": "frozen"}
        self.expect("the first row stays in sight", [it.attrib for it in sheet.iter(f"{_MAIN}pane")], [pane])
        again = self.counted("--format", "xlsx", *self.logs)[1]
        self.expect("the same bytes", data == again)

    def test_tsv(self) -> None:
        plain = self.text(*self.logs)
        self.expect("it is what is printed without a format", self.text("--format", "tsv", *self.logs), plain)
        lines = plain[1].splitlines()
        for line in ("2026-10|requests||3", "2026-10|followed|tidal-press|3", "2026-11|followed title|catalogue -|1"):
            self.expect(line, line.replace("|", "\t") in lines)
        self.expect("asked in vain", "2026-10\tasked in vain\t3006-1962\t2" in lines)
        empty = self.write("empty", "")
        self.expect("an empty log", self.text(empty), (0, "month\tcounted\tname\tnumber\n", ""))
        odd = self.write("odd", "odd\n")
        self.expect("no line of a log", self.text(odd)[::2], (1, "openlink-counts: 1 of 1 lines have another form\n"))

    def test_terminal(self) -> None:
        """A spreadsheet is bytes that a terminal would run as commands."""
        master, slave = os.openpty()
        with open(master, "rb"), open(slave, "wb") as terminal:
            words = ["update/counts", "--format", "xlsx", *self.logs]
            done = subprocess.run(words, stdout=terminal, stderr=subprocess.PIPE, text=True)
        said = "openlink-counts: a spreadsheet is not written to a terminal\n"
        self.expect("it is said", (done.returncode, done.stderr), (2, said))

    def test_arguments(self) -> None:
        for words in (
            ["--format"],
            ["--format", "ods"],
            ["--format", "json", "--format", "json"],
            ["--cost", "a", "--cost", "b"],
            ["--cost", ""],
            ["--counter", "", self.logs[0]],
            ["--cost", "a", "--counter", "b"],
            ["--format", "tsv", "--cost", "a", "--counter", "b"],
            ["--wanted", "--format", "json"],
            ["--index", "a"],
            ["--wanted", "--index", "a", "--index", "b"],
            [self.logs[0], "--format", "json"],
            ["--format=json"],
        ):
            status, text, said = self.text(*words)
            self.expect(f"{words}", (status, text, said[:22]), (2, "", "usage: openlink-counts"))
        self.expect("the end of options", self.text("--", *self.logs), self.text(*self.logs))
        for option in "--cost", "--counter":
            said = "openlink-counts: none: cannot be read\n"
            self.expect(f"{option}: no file", self.text(option, f"{self.folder}/none", *self.logs), (3, "", said))


class Costs(CountsCase):
    def test_cost(self) -> None:
        costs = self.write("costs", COSTS)
        self.expect("a table", self.text("--cost", costs, *self.logs), (0, COST_TABLE, ""))
        data = json.loads(self.text("--format", "json", "--cost", costs, *self.logs)[1])
        self.expect("data", [list(row.values()) for row in data["cost"]], [
            ["2025", "other", 3.5, 0, 0, None],
            ["2026", "catalogue", 7, 2, 2, 3.5],
            ["2026", "tidal-press", 100, 2, 4, 25],
        ])  # fmt: skip
        rows = sheets_of(self.counted("--format", "xlsx", "--cost", costs, *self.logs)[1])["cost"]
        self.expect("a sheet", rows[1:], [
            ["2025", "other", 3.5, 0, 0, None],
            ["2026", "catalogue", 7, 2, 2, 3.5],
            ["2026", "tidal-press", 100, 2, 4, 25],
        ])  # fmt: skip

    def test_wrong_files(self) -> None:
        for text, wanted in WRONG_COSTS:
            costs = self.write("costs", text)
            status, _, said = self.text("--cost", costs, *self.logs)
            self.expect(text[:20], (status, said), (3, f"openlink-counts: costs: {wanted}\n"))

    def test_years(self) -> None:
        """A link counts for the year in which it was followed."""
        log = self.write("years", "2025-12 target=a -\n2026-01 target=a -\n2026-01 target=a -\n")
        lines = self.text("--cost", self.write("costs", "a\t2025\t6\na\t2026\t6\n"), log)[1].splitlines()
        self.expect("costs", lines[1:], ["2025\ta\t6\t1\t1\t6.00", "2026\ta\t6\t1\t2\t3.00"])


class Sums(Case):
    """Costs without a run of the command."""

    def test_names_of_columns(self) -> None:
        """The first line may have them, in any case; a later one may not."""
        sums = {("a", "2026"): Decimal("1.50")}
        for head in ("target\tyear\tsum", "Target\tYEAR\t Sum "):
            self.expect(head, costs.costs_in(f"{head}\r\na\t2026\t1.50\r\n".encode()), sums)
        self.expect(
            "a later line", refused(costs.costs_in, "a\t2026\t1\ntarget\tyear\tsum\n"), "line 2: not a year: year"
        )

    def test_months(self) -> None:
        """All months count that the logs have of a year, also those in which nobody followed a link."""
        rows = [("2026-01", "requests", "", 5), ("2026-02", "followed", "a", 2), ("2025-12", "followed", "a", 1)]
        table = costs.cost_table({("a", "2026"): Decimal(6)}, rows)
        self.expect("two months", table.rows, [("2026", "a", Decimal(6), 2, 2, Decimal("3.00"))])


class Titles(Case):
    """Reports without a run of the command."""

    def test_forms(self) -> None:
        """The views of the report of titles, and months in both forms."""
        for name in ("TR", "TR_B1", "TR_B2", "TR_B3", "TR_J1", "TR_J2", "TR_J3", "TR_J4"):
            found = counter_reports.titles_in(REPORT.replace("Report_ID,TR", f"Report_ID,{name}").encode())
            self.expect(name, [it.title for it in found][1:], ["Harbours"])
        for name in ("TR_J5", "TR_B0", "TR_", "xTR", "DR"):
            text = REPORT.replace("Report_ID,TR", f"Report_ID,{name}")
            said = f"Report_ID: not a report of titles (TR): {name}"
            self.expect(name, refused(counter_reports.titles_in, text), said)
        names = "Jan Feb Mar Apr May Jun Jul Aug Sep Oct Nov Dec".split()
        for number, name in enumerate(names, 1):
            for cell in (f"{name}-2025", f"2025-{number:02}"):
                found = counter_reports.titles_in(REPORT.replace("Oct-2026", cell).encode())
                months = {month for month, _ in found[0].requests}
                self.expect(cell, months, {f"2025-{number:02}", "2026-11"})
        for cell in ("2025-00", "2025-13", "oct-2025", "Okt-2025", "Oct-25"):
            found = counter_reports.titles_in(REPORT.replace("Oct-2026", cell).encode())
            self.expect(cell, {month for month, _ in found[0].requests}, {"2026-11"})

    def test_encodings(self) -> None:
        """UTF-16 with its mark, whichever byte is first."""
        plain = counter_reports.titles_in(REPORT.encode())
        for encoding in ("utf-16-le", "utf-16-be"):
            data = f"\ufeff{REPORT}".encode(encoding)
            self.expect(encoding, (counter_reports.is_report(data), counter_reports.titles_in(data)), (True, plain))

    def test_separators(self) -> None:
        """The first line has what separates cells, whatever the cells of the head have."""
        plain = counter_reports.titles_in(REPORT.encode())
        rows = list(csv.reader(io.StringIO(REPORT.replace("Library, of a Coast", "," * 300 + ";" * 300))))
        for separator in "\t", ",", ";":
            text = io.StringIO()
            csv.writer(text, delimiter=separator).writerows(rows)
            self.expect(repr(separator), counter_reports.titles_in(text.getvalue().encode()), plain)

    def test_columns(self) -> None:
        said = "no line with the columns Title and Metric_Type within the first 50"
        for old in ("Title,Publisher", "Access_Type,Metric_Type"):
            text = REPORT.replace(old, old.replace("Title", "Name").replace("Metric_Type", "Metric"))
            self.expect(f"without one of {old}", refused(counter_reports.titles_in, text), said)

    def test_cells(self) -> None:
        """A short row has no requests in the months that it lacks, and nothing is kept of a month without requests."""
        head = "Report_ID,TR\nRelease,5\n\nTitle,ISBN,Print_ISSN,Metric_Type,Oct-2026,Nov-2026\n"
        for row, numbers, months in (
            ("A,,2901-0012,Unique_Item_Requests,5", ("2901-0012",), {"2026-10": 5}),
            ("A,,2901-0012,Unique_Item_Requests,0,5", ("2901-0012",), {"2026-11": 5}),
            ("A,,2901-0012,Unique_Item_Requests,,", ("2901-0012",), {}),
            (" A , , 29010012 , Unique_Item_Requests , 5 , 6 ", ("2901-0012",), {"2026-10": 5, "2026-11": 6}),
            ("A,0-306-40615-2,,Unique_Item_Requests,5", ("9780306406157",), {"2026-10": 5}),
        ):
            (found,) = counter_reports.titles_in(f"{head}{row}\n".encode())
            counted = {month: times for (month, _), times in found.requests.items()}
            self.expect(row, (found.title, found.numbers, counted), ("A", numbers, months))

    def test_order(self) -> None:
        """By month, then by number, then by title."""
        head = "Report_ID,TR\nRelease,5\n\nTitle,Print_ISSN,Metric_Type,Oct-2026,Nov-2026\n"
        cells = (("C", "2908-0142"), ("B", ""), ("A", ""), ("D", "2901-0012"))
        rows = "".join(f"{title},{number},Unique_Item_Requests,1,1\n" for title, number in cells)
        table = side_by_side.table_of([counter_reports.titles_in((head + rows).encode())], [])
        found = [(row[0], row[2]) for row in table.rows]
        self.expect("rows", found, [(month, title) for month in ("2026-10", "2026-11") for title in "ABDC"])

    def test_several_titles(self) -> None:
        """Titles without a number are those of one name; what joins two titles is a number of either."""
        rows = "One,,,Unique_Item_Requests,1\nTwo,,,Unique_Item_Requests,2\nOne,,,Unique_Item_Requests,4\n"
        head = "Report_ID,TR\nRelease,5\n\nTitle,Print_ISSN,Online_ISSN,Metric_Type,Oct-2026\n"
        found = counter_reports.titles_in((head + rows).encode())
        self.expect("by their names", [(it.title, it.requests.total()) for it in found], [("One", 5), ("Two", 2)])
        one = "A,2901-0012,,Unique_Item_Requests,1\n"
        both = "A,2901-0012,2908-0142,Unique_Item_Requests,2\n"
        other = "A,,2908-0142,Unique_Item_Requests,4\n"
        for order in ((one, both, other), (other, both, one)):
            reports = [counter_reports.titles_in((head + row).encode()) for row in order]
            table = side_by_side.table_of(reports, [("2026-10", "followed title", "press 2908-0142", 8)])
            self.expect(f"{order}", [row[3:] for row in table.rows], [(8, 7, 0)])


def refused(read: Callable[[bytes], object], text: str) -> str:
    """Why bytes are no file of their kind; '' if they are."""
    try:
        read(text.encode())
    except Unreadable as fault:
        return str(fault)
    return ""


class Reports(CountsCase):
    def test_beside(self) -> None:
        report = self.write("report.csv", REPORT)
        self.expect("a table", self.text("--counter", report, *self.logs), (0, BESIDE, ""))
        self.expect("a report among the logs", self.text("--counter", report, *self.logs, report), (0, BESIDE, ""))
        for name, text in self.forms():
            other = self.write(name, text)
            self.expect(name, self.text("--counter", other, *self.logs), (0, BESIDE, ""))
        data = json.loads(self.text("--format", "json", "--counter", report, *self.logs)[1])
        first = data["COUNTER"][0]
        self.expect("data", first["title"], '=HYPERLINK("https://evil.example")')
        sheet = sheets_of(self.counted("--format", "xlsx", "--counter", report, *self.logs)[1])["COUNTER"]
        self.expect("a sheet", sheet[1], ["2026-10", "2908-0142", '=HYPERLINK("https://evil.example")', 2, 7, 8])

    def forms(self) -> list[tuple[str, str]]:
        """The report with other separators, marks and line ends, and months as of Release 5.1."""
        rows = list(csv.reader(io.StringIO(REPORT)))
        texts = [("mark.csv", "\ufeff" + REPORT), ("ends.csv", REPORT.replace("\n", "\r\n"))]
        for name, separator in ("tabs.tsv", "\t"), ("semicolons.csv", ";"):
            buffer = io.StringIO()
            csv.writer(buffer, delimiter=separator).writerows(rows)
            texts.append((name, buffer.getvalue()))
        texts.append(("release.csv", REPORT.replace("Release,5", "Release,5.1").replace("Oct-2026", "2026-10", 1)))
        texts.append(("view.csv", REPORT.replace("Report_ID,TR", "Report_ID,TR_J1")))
        return texts

    def test_several(self) -> None:
        """Titles that share a number are one, whatever report has them; a report that is given twice counts once."""
        report = self.write("report.csv", REPORT)
        other = self.write(
            "other.csv", HEAD + COLUMNS + ANNALS.replace("2908-0142", "").format(1, "Unique_Item_Requests", 3, 3, 0)
        )
        status, text, said = self.text("--counter", report, "--counter", other, *self.logs)
        self.expect("the end", (status, said), (0, ""))
        self.expect("the sum", text.splitlines()[1].split("\t")[3:], ["2", "10", "8"])
        same = self.write("same.csv", REPORT)
        got = self.text("--counter", report, "--counter", same, *self.logs)
        self.expect("twice", got, (3, BESIDE, "openlink-counts: same.csv: the same report as report.csv\n"))
        self.expect("once as a log", self.text("--counter", report, *self.logs, same), got)

    def test_hostile_titles(self) -> None:
        """No title breaks out of its cell."""
        title = "</t></is></c><c><f>1+1</f></c>&amp;\x01\u202e"
        report = self.write("report.csv", REPORT.replace("Harbours", title))
        sheet = sheets_of(self.counted("--format", "xlsx", "--counter", report, *self.logs)[1])["COUNTER"]
        self.expect("a sheet", sheet[2][2], "</t></is></c><c><f>1+1</f></c>&amp;??")
        data = json.loads(self.text("--format", "json", "--counter", report, *self.logs)[1])
        self.expect("data", data["COUNTER"][1]["title"], title)

    def test_titles_of_no_report(self) -> None:
        report = self.write("report.csv", HEAD + COLUMNS)
        lines = self.text("--counter", report, *self.logs)[1].splitlines()[1:]
        self.expect("each number", lines, [
            "2026-10\t2901-0012\t\t1\t\t", "2026-10\t2908-0142\t\t1\t\t", "2026-11\t2908-0142\t\t1\t\t",
            "2026-11\t9780306406157\t\t1\t\t",
        ])  # fmt: skip

    def test_wrong_files(self) -> None:
        good = self.write("good.csv", REPORT)
        for text, wanted in WRONG_REPORTS:
            wrong = self.write("wrong", text)
            status, shown, said = self.text("--counter", wrong, "--counter", good, *self.logs)
            self.expect(wanted, (status, said), (3, f"openlink-counts: wrong: {wanted}\n"))
            self.expect(f"{wanted}: the other one is read", shown, BESIDE)


class Files(CountsCase):
    def test_compressed_files_that_break_off(self) -> None:
        """All that can be read of them counts."""
        data = gzip.compress(LOG.encode() * 2000)
        path = self.folder / "log.gz"
        path.write_bytes(data[:-8])
        status, text, said = self.text(str(path))
        self.expect("the status", status, 3)
        self.expect("what it says", said.startswith("openlink-counts: log.gz: gzip: "))
        self.expect("the lines", "2026-10\trequests\t\t6000" in text.splitlines())
        path.write_bytes(LOG.encode())
        self.expect("no gzip at all", self.text(str(path))[0], 3)

    def test_nobody_reads(self) -> None:
        """As other commands before `head`, it ends without a word."""
        reads, writes = os.pipe()
        os.close(reads)
        with open(writes, "wb") as pipe:
            done = subprocess.run(["update/counts", *self.logs], stdout=pipe, stderr=subprocess.PIPE, text=True)
        self.expect("its end", (done.returncode, done.stderr), (-signal.SIGPIPE, ""))

    def test_full_disk(self) -> None:
        with open("/dev/full", "wb") as full:
            done = subprocess.run(["update/counts", *self.logs], stdout=full, stderr=subprocess.PIPE, text=True)
        said = "openlink-counts: standard output: No space left on device\n"
        self.expect("it is said", (done.returncode, done.stderr), (3, said))
