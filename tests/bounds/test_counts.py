"""What openlink-counts reads of logs, of files of costs and of COUNTER reports, and how much it keeps and writes."""
from __future__ import annotations

import hashlib
import io
import tempfile
import zipfile
from collections.abc import Iterable
from pathlib import Path
from unittest import mock

from bounds.refusals import reason
from fixtures.cases import Case
from openlink_update.counts import counter_reports
from openlink_update.counts import costs
from openlink_update.counts import log_counts
from openlink_update.counts import wanted_titles
from openlink_update.counts import workbook
from openlink_update.counts.count_tables import CountTable
from openlink_update.counts.counter_reports import titles_in

LINE = "{}-01T00:00:01+00:00 200 GET /find 0.017 found=1/1 targets={} from={}\n"
HEAD = "Report_Name,Title Master Report\nReport_ID,TR\nRelease,5\n"
COLUMNS = "Title,Print_ISSN,Metric_Type,Jan-2026,Feb-2026\n"
ROW = "{},{},Unique_Item_Requests,{},\n"
MONTH = "2026-10"


def counted(lines: Iterable[str]) -> log_counts.Counts:
    return log_counts.counts_of([io.BytesIO("".join(lines).encode())])


def named(counts: log_counts.Counts, kind: str) -> dict[str, int]:
    return {name: number for _, its, name, number in counts.rows() if its == kind}


def report(*rows: str) -> bytes:
    return "".join([HEAD, COLUMNS, *rows]).encode()


class Logs(Case):
    def test_line(self) -> None:
        """Of a line that has not ended after a block, this many bytes are kept."""
        kept = list(log_counts.blocks_of(io.BytesIO(b"a\n" + b"x" * 2**22)))
        self.expect("what is kept", [len(block) < 2**20 + 2**17 for block in kept[1:]], [True])
        with mock.patch.object(log_counts, "_BLOCK", 2**16):
            for count, wanted in ((2**17, 2**17), (2**17 + 1, 2**17)):
                self.expect(f"{count}", sum(map(len, log_counts.blocks_of(io.BytesIO(b"x" * count)))), wanted)

    def test_held_back(self) -> None:
        """So much is counted later, so that equal lines are judged once."""
        forms = LINE.format(MONTH, "a", "{}"), f"{MONTH} target=a{{}} -\n"
        for form in forms:
            for count, is_held_back in ((40_000, True), (40_001, False)):
                counts = log_counts.Counts()
                counts.add("".join(map(form.format, range(count))).encode())
                held_back = len(counts._heads) + len(counts._whole_lines)
                self.expect(f"{form}: {count}", held_back, count if is_held_back else 0)
        line = LINE.format(MONTH, "a", "b").encode()
        for more, is_held_back in ((0, True), (1, False)):
            counts = log_counts.Counts()
            counts.add(line + b"x" * (2**24 + more - len(line)))
            self.expect(f"{more} beyond", bool(counts._heads), is_held_back)

    def test_months(self) -> None:
        for count, wanted in ((1200, 0), (1201, 1)):
            months = (f"{1000 + number // 12}-{number % 12 + 1:02}" for number in range(count))
            counts = counted(LINE.format(month, "a", "b") for month in months)
            self.expect(f"{count}", (counts.unread, len({row[0] for row in counts.rows()})), (wanted, 1200))

    def test_sources(self) -> None:
        for count, others in ((10_000, 0), (10_001, 1)):
            counts = counted(LINE.format(MONTH, "a", source) for source in range(count))
            self.expect(f"{count} of a month", named(counts, "source").get(log_counts.OTHERS, 0), others)
        with mock.patch.object(log_counts, "_MOST_SOURCES", 10**9):
            for count, others in ((60_000, 0), (60_001, 1)):
                counts = counted(LINE.format(MONTH, "a", source) for source in range(count))
                self.expect(f"{count} in all", named(counts, "source").get(log_counts.OTHERS, 0), others)

    def test_names_in_all(self) -> None:
        forms = {
            "shown": (50_000, lambda it: LINE.format(MONTH, it, "b")),
            "followed": (50_000, lambda it: f"{MONTH} target={it} -\n"),
            "followed title": (60_000, lambda it: f"{MONTH} target=a 978{it:010}\n"),
            "asked in vain": (60_000, lambda it: f"{MONTH} 978{it:010} -\n"),
        }
        for kind, (most, form) in forms.items():
            for more in 0, 1:
                counts = counted(map(form, range(most + more)))
                self.expect(f"{kind}: {more}", named(counts, kind).get(log_counts.OTHERS, 0), more)

    def test_names(self) -> None:
        for count, is_kept in ((100, True), (101, False)):
            counts = counted([LINE.format(MONTH, "t" * count, "a")])
            self.expect(f"a target of {count}", "t" * count in named(counts, "shown"), is_kept)
            counts = counted([LINE.format(MONTH, "a", "s" * count)])
            self.expect(
                f"a source of {count}", ("s" * count in named(counts, "source"), counts.unread), (is_kept, not is_kept)
            )
            counts = counted([f"{MONTH} target={'t' * count} -\n"])
            self.expect(f"a target of {count}, followed", counts.unread, not is_kept)


class Wanted(Case):
    def test_pairs(self) -> None:
        """Beyond it, the half that was asked for most often stays."""
        for count, wanted in ((200_000, 200_000), (200_001, 100_000)):
            lines = [f"{MONTH} 3000-0001 2024\n" * 3, *(f"{MONTH} 978{it:010} -\n" for it in range(count - 1))]
            wanted_of = wanted_titles.wanted_in([io.BytesIO("".join(lines).encode())])
            self.expect(f"{count}", (len(wanted_of.pairs), wanted_of.pairs["3000-0001", "2024"]), (wanted, 3))

    def test_numbers(self) -> None:
        """The titles of this many numbers are looked up, and this many titles are shown."""
        for count in 1000, 1001:
            lines = "".join(f"{MONTH} 978{it:010} -\n" for it in range(count))
            wanted = wanted_titles.wanted_in([io.BytesIO(lines.encode())])
            with mock.patch.object(wanted_titles, "_title_of", side_effect=lambda number, _: (number, "")) as look:
                rows = wanted_titles.rows_of(wanted, Path("/none"))
            self.expect(f"{count}", (look.call_count, len(rows)), (1000, 100))

    def test_index(self) -> None:
        number = "3000-0001"
        with tempfile.TemporaryDirectory() as folder:
            bucket = Path(folder, "keys", hashlib.md5(number.encode()).hexdigest()[:3])
            bucket.parent.mkdir()
            for length, wanted in ((500, "t" * 500), (501, "t" * 500 + "..")):
                bucket.write_text(f"{number}\tj\t{'t' * length}\t{number}\n")
                self.expect(f"a title of {length}", wanted_titles._title_of(number, Path(folder)), (number, wanted))
            line = f"{number}\tj\tt\t{number}"
            for more, wanted in ((0, "t"), (1, "")):
                bucket.write_text("x" * (2**24 + more - len(line) - 1) + "\n" + line)
                title = wanted_titles._title_of(number, Path(folder))
                self.expect(f"{more} beyond", title[0] == number, not more)


class Costs(Case):
    def test_bytes(self) -> None:
        for count, wanted in ((2**20, ""), (2**20 + 1, "more than 1,048,576 bytes")):
            self.expect(f"{count}", reason(costs.costs_in, b"#" * count), wanted)

    def test_cells(self) -> None:
        wrong = "line 1: not {}: {}"
        for line, wanted in (
            ("a" * 100 + "\t2026\t1", ""),
            ("a" * 101 + "\t2026\t1", wrong.format("the name of a target", "a" * 60 + "..")),
            ("a\t2026\t" + "1" * 12 + ".11", ""),
            ("a\t2026\t" + "1" * 13, wrong.format("a sum as 1250.00", "1" * 13)),
            ("a\t2026\t1.111", wrong.format("a sum as 1250.00", "1.111")),
            ("a\t" + "y" * 60 + "\t1", wrong.format("a year", "y" * 60)),
        ):
            self.expect(line[:20], reason(costs.costs_in, line.encode()), wanted)


class Reports(Case):
    def test_start(self) -> None:
        for count, wanted in ((200, True), (201, False)):
            start = b"Report_Name,"
            self.expect(f"{count}", counter_reports.is_report(b" " * (count - len(start)) + start), wanted)

    def test_bytes(self) -> None:
        data = report("#" * 100)
        with mock.patch.object(counter_reports, "_text_of", return_value=report().decode()):
            for count, wanted in ((2**26, ""), (2**26 + 1, "more than 67,108,864 bytes")):
                self.expect(f"{count}", reason(titles_in, data.ljust(count)), wanted)

    def test_rows(self) -> None:
        """Also those of another metric, which are soonest read."""
        row = "a,2901-0012,Total_Item_Investigations,1,\n"
        for count, wanted in ((500_000, ""), (500_001, "line 500005: more than 500,000 rows")):
            self.expect(f"{count}", reason(titles_in, report(row * count)), wanted)

    def test_titles(self) -> None:
        said = "line {}: more titles and months than are read"
        for count, wanted in ((100_000, ""), (100_001, said.format(100_005))):
            rows = (ROW.format(f"t{it}", "", 1) for it in range(count))
            self.expect(f"{count} titles", reason(titles_in, report(*rows)), wanted)
        months = ",".join(f"Jan-{1900 + it}" for it in range(100))
        head = f"{HEAD}Title,Print_ISSN,Metric_Type,{months}\n"
        for count, wanted in ((10_000, ""), (10_001, said.format(10_005))):
            rows = (f"t{it},,Unique_Item_Requests,{'1,' * 99}1\n" for it in range(count))
            self.expect(f"{count} titles of 100 months", reason(titles_in, "".join([head, *rows]).encode()), wanted)

    def test_columns(self) -> None:
        for count, wanted in ((200, ""), (201, "line 5: more than 200 cells")):
            row = ROW.format("a", "", 1).strip() + "," * (count - 5) + "\n"
            self.expect(f"{count}", reason(titles_in, report(row)), wanted)

    def test_head(self) -> None:
        said = "no line with the columns Title and Metric_Type within the first 50"
        for count, wanted in ((50, ""), (51, said)):
            data = HEAD + "\n" * (count - 4) + COLUMNS
            self.expect(f"line {count}", reason(titles_in, data.encode()), wanted)

    def test_cells(self) -> None:
        for length, wanted in ((500, 500), (501, 500)):
            self.expect(
                f"a title of {length}", len(titles_in(report(ROW.format("t" * length, "", 1)))[0].title), wanted
            )
        said = "line 5: not a number in 2026-01: {}"
        for cell, wrong in (("9" * 12, ""), ("9" * 13, "9" * 13), ("x" * 60, "x" * 60), ("x" * 61, "x" * 60 + "..")):
            told = reason(titles_in, report(ROW.format("a", "", cell)))
            self.expect(cell, told, said.format(wrong) if wrong else "")


class Workbooks(Case):
    def test_rows(self) -> None:
        for more in 0, 1:
            sheet = workbook._sheet(CountTable("a", ("b",), [()] * (2**20 - 1 + more)))
            self.expect(f"{more} beyond", sum(text.startswith("<row>") for text in sheet), 2**20)

    def test_characters(self) -> None:
        for count, wanted in ((32_000, "x" * 32_000), (32_001, "x" * 32_000 + "..")):
            self.expect(f"{count}", f">{wanted}<" in workbook._cell("x" * count))
        for count in 31, 32:
            file = io.BytesIO()
            workbook.write([CountTable("n" * count, ("a",), [])], file)
            with zipfile.ZipFile(file) as archive:
                self.expect(f"a name of {count}", b'name="' + b"n" * 31 + b'"' in archive.read("xl/workbook.xml"))
