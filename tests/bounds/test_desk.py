"""The numbers that bound the desk's pages and the records of runs: the last good value of each, and the next one."""
from __future__ import annotations

import itertools
import json
import time
from collections.abc import Callable
from collections.abc import Iterable
from pathlib import Path
from unittest import mock

from desk.made_desk import LINE
from desk.made_desk import MadeDesk
from desk.made_desk import NOW
from desk.made_desk import PROGRAM
from desk.made_desk import RULES
from desk.made_desk import record
from fixtures.cases import Case
from openlink_update import run_notes
from openlink_update import run_records
from openlink_update.counts.log_counts import Row
from openlink_update.desk import charts
from openlink_update.desk import lint_lines
from openlink_update.desk import logs
from openlink_update.desk import months
from openlink_update.desk import targets
from openlink_update.desk import titles_page
from openlink_update.desk import week
from openlink_update.desk import words_in
from openlink_update.desk import year
from openlink_update.desk.collection import Collection
from openlink_update.desk.collection import Decade
from openlink_update.desk.collection import Holdings
from openlink_update.run_notes import ProbeResult
from openlink_update.run_notes import TargetState
from openlink_update.versions import library as libraries
from openlink_update.versions.program import Program

ENGLISH = words_in.languages_of(["en"])[0]


def week_of(records: list[run_records.RunRecord], found: Iterable[targets.Target] = ()) -> week.Week:
    return week.week_of(records, list(found), NOW, ENGLISH)


def month(number: int) -> str:
    return f"{2000 + number // 12}-{number % 12 + 1:02}"


class Weeks(Case):
    def expect_both(self, name: str, most: int, numbers: Callable[[int], int]) -> None:
        """What a page has of as many as it may, and of one more."""
        self.expect(name, (numbers(most), numbers(most + 1)), (most, most))

    def test_week(self) -> None:
        def kept(count: int) -> week.Week:
            return week_of([record(targets=tuple(TargetState(f"t{it}", "kept") for it in range(count)))])

        self.expect_both("what needs her first", 40, lambda count: len(kept(count).first))
        self.expect("others", (kept(40).others, kept(41).others), (0, 1))

        def lines(count: int) -> int:
            state = TargetState("t", "kept", lines=tuple(map(str, range(count))))
            return len(week_of([record(targets=(state,))]).rows[0].lines)

        self.expect_both("lines of a target", 8, lines)
        probes = [ProbeResult(it, "q", "t", True) for it in range(201)]
        self.expect_both("probes", 200, lambda count: len(week_of([record(probes=tuple(probes[:count]))]).probes))
        self.expect_both("fetches", 300, lambda count: len(week_of([record(fetches=(("f", "l"),) * count)]).fetches))
        self.expect_both("runs", 12, lambda count: len(week_of([record()] * count).runs))
        slip = targets.Slip("t", "words", 1, 1, "x")

        def slips(count: int) -> int:
            target = targets.Target("t", ("t",), 1, "", "", (), (slip,) * count)
            return len(week_of([record()], [target]).rows[0].slips)

        self.expect_both("slips of a target", 20, slips)
        days = [[it.text for it in week_of([record(0, f"202611{day}T053000Z")]).first] for day in (20, 19)]
        self.expect("days", days, [[], ["No update has ended well for 10 days."]])

    def test_year(self) -> None:
        def of(*rows: Row) -> year._Year:
            found = year.year_of(rows)
            assert found is not None
            return found

        def by_month(count: int) -> year._Year:
            return of(*((month(it), "requests", "", 1) for it in range(count)))

        mixed = of(*(("2026-" + it, "requests", "", 1) for it in ("03", "01", "12", "02")))
        order = ["2026-01", "2026-02", "2026-03", "2026-12"]
        self.expect("months in any order", [it.name for it in mixed.last.months], order)
        self.expect(
            "months", [(len(by_month(it).last.months), len(by_month(it).years)) for it in (12, 13)], [(12, 0), (12, 1)]
        )
        self.expect_both("years", 10, lambda count: len(by_month(12 + count * 12).years))

        def names(count: int) -> year._Names:
            return of(*(("2026-11", "source", f"s{it:03}", 1) for it in range(count))).sources

        self.expect_both("names", 20, lambda count: len(names(count).rows))
        self.expect("more names", (names(20).more, names(21).more), (0, 1))
        self.expect_both("bars", 10, lambda count: len(names(count).chart.bars))
        label = [charts.rows([charts.Pair("x" * count, 1)]).labels[0].text for count in (40, 41)]
        self.expect("a label", label, ["x" * 40, "x" * 40 + ".."])


class Titles(Case):
    def test_bars(self) -> None:
        for count, wanted in ((20, 20), (21, 20)):
            each = tuple(Holdings(f"t{it:02}", 9, 0, (), ()) for it in range(count))
            chart = titles_page.titles_of(Collection(9, each, ())).chart
            self.expect(f"{count} targets", len(chart.bars), wanted)
        for count, wanted in ((12, 12), (13, 12)):
            decades = tuple(Decade(1800 + 10 * it, 1) for it in range(count))
            shown = titles_page.titles_of(Collection(1, (), decades))
            self.expect(f"{count} decades", (len(shown.decades_chart.bars), len(shown.decades)), (wanted, count))
            years = [it.text for it in shown.decades_chart.labels if len(it.text) == 4]
            newest = [1800 + 10 * it for it in range(count)][-wanted:]
            self.expect("the newest, each second one with its year", years, list(map(str, newest[::2])))


class State(Case):
    def counted(self, desk: MadeDesk) -> months.Months:
        found = months.of(desk.before, logs.folders_of([desk.logs / "openlink.log"]))
        desk.before = desk.top / "state"
        desk.before.mkdir(exist_ok=True)
        found.write(desk.before)
        return found

    def test_names_of_a_month(self) -> None:
        for name, most, at in (("that is over", 300, 1), ("of the last two", 5000, 4)):
            for beyond in (0, 1):
                with MadeDesk() as desk:
                    lines = [
                        LINE.format(month=month(it), found="1/1", targets="t", source="s")
                        for it in range(6)
                        if it != at
                    ]
                    lines += [
                        LINE.format(month=month(at), found="1/1", targets="t", source=f"s{it}")
                        for it in range(most + beyond)
                    ]
                    desk.log("openlink.log.1", lines, 1)
                    rows = [row for row in self.counted(desk).stored if row[:2] == (month(at), "source")]
                    self.expect(
                        f"a month {name}, {most + beyond}",
                        (len(rows), "(others)" in {row[2] for row in rows}),
                        (most + beyond, bool(beyond)),
                    )

    def test_months(self) -> None:
        for count in (120, 121):
            with MadeDesk() as desk:
                lines = [LINE.format(month=month(it), found="1/1", targets="t", source="s") for it in range(count)]
                desk.log("openlink.log.1", lines, 1)
                self.expect(f"{count} months", len({row[0] for row in self.counted(desk).stored}), 120)

    def test_files(self) -> None:
        """The files of a log that are looked at, and those that are remembered."""
        with MadeDesk() as desk:
            for number in range(1001):
                desk.log(f"openlink.log.{number:04}", [], number)
            self.expect("1,001 files", len(self.counted(desk).counted), 1000)
            (desk.logs / "openlink.log.1000").unlink()
            desk.before.joinpath("counted.tsv").write_text("")
            self.expect("1,000 files", len(self.counted(desk).counted), 1000)
            for known in (1999, 2000):
                desk.before.joinpath("counted.tsv").write_text("other\t1\n" * known)
                found = self.counted(desk).counted
                self.expect(f"{known} files before", (len(found), found[-1][0]), (2000, "openlink.log"))
        self.expect("a number of a file", [logs._is_of(f"x.log.{'1' * it}", "x.log") for it in (10, 11)], [True, False])

    def test_sizes_of_state(self) -> None:
        """What is read of files that the desk has stored, with numbers that a test can write."""
        with MadeDesk() as desk:
            desk.before.mkdir()
            line = "2026-01\trequests\t\t1\n"
            for most, wanted in ((len(line) * 3, 3), (len(line) * 3 - 4, 2)):
                (desk.before / "months.tsv").write_text(line * 3)
                with mock.patch.object(months, "_MOST_BYTES", most):
                    self.expect(f"{most} bytes of months", months.of(desk.before, []).stored[0][3], wanted)
            text = "t\tkey\tline 1\nt\tkey\tline 2\n"
            (desk.before / "lint.tsv").write_text(text)
            for most, wanted in ((len(text), 2), (text.index("\tline 2"), 1)):
                with mock.patch.object(lint_lines, "_MOST_BYTES", most):
                    self.expect(
                        f"{most} bytes of lint", len(lint_lines._read(desk.before / "lint.tsv")["t"].lines), wanted
                    )


class Versions(Case):
    def test_slips(self) -> None:
        with MadeDesk() as desk:
            desk.add_target("t")
            for count in (1000, 1001):
                desk.write("slips.tsv", "t\twords\t1\t1\tx\n" * count)
                self.expect(f"{count} slips", len(targets.targets_in(desk.version)[0].slips), 1000)
            desk.write("slips.tsv", "".join(f"t\twords\t1\t1\t{'x' * it}\n" for it in (120, 121)))
            examples = [len(it.example) for it in targets.targets_in(desk.version)[0].slips]
            self.expect("examples", examples, [120, 122])
            line = "t\twords\t1\t1\tx\n"
            desk.write("slips.tsv", line * 3)
            for most, wanted in ((len(line) * 3, 3), (len(line) * 3 - 3, 2)):
                with mock.patch.object(targets, "_MOST_BYTES", most):
                    self.expect(f"{most} bytes", len(targets.targets_in(desk.version)[0].slips), wanted)

    def test_names_and_rows(self) -> None:
        with MadeDesk() as desk:
            for name in ("x" * 64, "y" * 65):
                desk.add_target(name, rows=3)
            found = targets.targets_in(desk.version)
            self.expect("names", [it.name for it in found], ["x" * 64])
            with mock.patch.object(targets, "_BLOCK", 7):
                self.expect("rows in small blocks", targets.targets_in(desk.version)[0].rows, 3)

    def test_lint(self) -> None:
        with MadeDesk() as desk:
            desk.add_target("t")
            [target] = targets.targets_in(desk.version)
            for count in (200, 201):
                desk.program.write_text(f"#!/bin/sh\nseq -f 'odd %g' {count}\nexit 1\n")
                said = lint_lines.LintLines(desk.before, Program(str(desk.program), desk.version)).of(target)
                self.expect(f"{count} lines", len(said), 200)
            desk.program.write_text(PROGRAM)
            for seconds, wanted in ((299, 1), (301, 0)):
                lint = lint_lines.LintLines(desk.before, Program(str(desk.program), desk.version))
                with mock.patch.object(time, "monotonic", return_value=time.monotonic() + seconds):
                    self.expect(f"after {seconds} seconds", len(lint.of(target)), wanted)
            rules = RULES.splitlines() * 2
            beside = lint_lines.beside(
                rules, ["rule 2, guard 2: x", "rule 2, link: x", "rule 1 always", "rule 1234567 x", "x"]
            )
            self.expect(
                "places",
                beside,
                ({6: ["rule 2, guard 2: x"], 7: ["rule 2, link: x"], 0: ["rule 1 always"]}, ["rule 1234567 x", "x"]),
            )


class Records(Case):
    def made(self, folder: Path, *notes: tuple[str, str]) -> run_records.RunRecord:
        recorder = run_records.Recorder("update")
        for kind, text in notes:
            recorder.add(kind, text)
        recorder.write(libraries.Library(folder), 0)
        return run_records.records_in(folder)[0]

    def test_notes(self) -> None:
        with MadeDesk() as desk:
            for count, wanted in ((5000, 5000), (5001, 5000)):
                self.expect(f"{count} notes", len(self.made(desk.top, *[("line", "x")] * count).lines), wanted)
            for size, wanted in ((2_000_000, 2), (2_000_001, 1)):
                record = self.made(desk.top, ("line", "x"), ("line", "y" * (size - 1)))
                self.expect(f"{size} characters", len(record.lines), wanted)

    def test_texts(self) -> None:
        heard: list[str] = []
        run_notes.hear(lambda _, text: heard.append(text))
        for size in (300, 301):
            run_notes.note_fetch("x" * size, "line")
        for size in (300, 301):  # four bytes each: with forty lines too much, with twenty not
            run_notes.note_target(TargetState("t", "kept", lines=("\U0001f600" * size,) * 40))
        run_notes.hear(None)
        self.expect("characters", [json.loads(it)[0] for it in heard[:2]], ["x" * 300, "x" * 300 + ".."])
        self.expect("lines", [len(json.loads(it)["lines"]) for it in heard[2:]], [21, 21])
        self.expect("bytes", max(len(it.encode()) for it in heard) <= 30_000)

    def test_bytes_of_notes(self) -> None:
        heard: list[str] = []
        run_notes.hear(lambda _, text: heard.append(text))
        run_notes.note_target(TargetState("t", "kept", lines=("x",) * 40))
        with mock.patch.object(run_notes, "_MOST_BYTES", len(heard[0])):
            run_notes.note_target(TargetState("t", "kept", lines=("x",) * 40))
        with mock.patch.object(run_notes, "_MOST_BYTES", len(heard[0]) - 1):
            run_notes.note_target(TargetState("t", "kept", lines=("x",) * 40))
        run_notes.hear(None)
        self.expect("lines", [len(json.loads(it)["lines"]) for it in heard], [40, 40, 21])

    def test_files(self) -> None:
        with MadeDesk() as desk:
            folder = desk.top / "runs"
            folder.mkdir()
            stamps = [f"2026{number // 28 + 1:02}{number % 28 + 1:02}T000000Z" for number in range(101)]
            for stamp in stamps:
                (folder / f"{stamp}.walls.json").write_text(json.dumps({"work": "walls", "begun": stamp}))
            self.expect("101 records", len(run_records.records_in(desk.top)), 100)
            (folder / f"{stamps[0]}.walls.json").unlink()
            self.expect("100 records", len(run_records.records_in(desk.top)), 100)
            for stamp, work in itertools.product(stamps[:13], ["update"]):
                (folder / f"{stamp}.{work}.json").write_text("{}")
            self.made(desk.top)
            self.expect("kept", len(list(folder.glob("*.update.json"))), 12)
            for size in (10, 11):
                (folder / f"20270101T000000Z.{'w' * size}.json").write_text(
                    '{"work": "w", "begun": "20260101T000000Z"}'
                )
            names = [record.work for record in run_records.records_in(desk.top)]
            self.expect("names of work", names.count("w"), 1)

    def test_size(self) -> None:
        with MadeDesk() as desk:
            (desk.top / "runs").mkdir()
            text = '{"work": "w", "begun": "20260101T000000Z"}'
            (desk.top / "runs/20260101T000000Z.update.json").write_text(text)
            for most, wanted in ((len(text), 1), (len(text) - 1, 0)):
                with mock.patch.object(run_records, "_MOST_BYTES", most):
                    self.expect(f"{most} bytes", len(run_records.records_in(desk.top)), wanted)
