"""Parts of the desk that depend on what a version lacks, on the program, or on the language of a page."""
from __future__ import annotations

import dataclasses
import json
import tempfile
from pathlib import Path
from unittest import mock

from desk.made_desk import MadeDesk
from desk.made_desk import NOW
from desk.made_desk import record
from fixtures.cases import Case
from openlink_update.counts import log_counts
from openlink_update.desk import lint_lines
from openlink_update.desk import logs
from openlink_update.desk import site_files
from openlink_update.desk import targets
from openlink_update.desk import titles_page
from openlink_update.desk import words_in
from openlink_update.desk.collection import Collection
from openlink_update.desk.collection import Holdings
from openlink_update.desk.targets import Slip
from openlink_update.desk.targets import Target
from openlink_update.desk.week import week_of
from openlink_update.desk.year import year_of
from openlink_update.outcome import DEVICE
from openlink_update.outcome import Failure
from openlink_update.outcome import Refused
from openlink_update.run_notes import ProbeResult
from openlink_update.run_notes import TargetState
from openlink_update.versions.program import Program

PARTS = ("press", "press.2", "press.3")
ENGLISH = words_in.languages_of(["en"])[0]
ENDED = "The last update ended with status {}."


class Saying(Program):
    """A program that rejects one part of a table, fails at another, and warns at a third."""

    def run(self, *words: str, most: int = 0) -> tuple[int, str]:
        if words[2] == "tables/press.txt":
            raise Refused(["table: TooLong at row 2"])
        if words[2] == "tables/press.2.txt":
            raise Failure("openlink lint: no end after 600 seconds", DEVICE)
        return 1, "rule 1 is never reached\nrules 1\n"


class Lint(Case):
    def test_what_the_program_says(self) -> None:
        """Its lines of all parts, whichever way it ends; nothing of a target whose rules are a code file."""
        with tempfile.TemporaryDirectory() as folder:
            lines = lint_lines.LintLines(Path(folder), Saying("none", folder))
            target = Target("press", PARTS, 3, "", "sum", (), ())
            self.expect("without rules", lines.of(target), ())
            Path(folder, "received").mkdir()
            Path(folder, "received/press.rules").write_text("rule\nlink https://e.org/\n", encoding="utf-8")
            said = ("table: TooLong at row 2", "openlink lint: no end after 600 seconds", "rule 1 is never reached")
            self.expect("with rules", lines.of(target), said)

    def test_places_of_lines(self) -> None:
        """Each line of lint is beside the rule, the guard or the link that it is about."""
        rules = ["rule", "when given title_id", "when given rft.volume", "link https://e.org/{a}", "rule", "link x"]
        about = {
            0: ["rule 1 is never reached"],
            2: ["rule 1, guard 2: unknown name rft.volume"],
            3: ["rule 1, link: unknown name a", "rule 1, link: a host"],
            5: ["rule 2, link: no host"],
        }
        others = ["rules 2", "rule 3, link: unknown name b", "rule 1, guard 3: unknown name c"]
        said = [line for lines in about.values() for line in lines] + others
        self.expect("places, and the others", lint_lines.beside(rules, said), (about, others))

    def test_what_is_kept(self) -> None:
        """The program is asked once for the same files, also where it says nothing, and again for others."""
        target = Target("press", PARTS[:1], 3, "", "sum", (), ())
        with tempfile.TemporaryDirectory() as folder:
            Path(folder, "received").mkdir()
            rules = Path(folder, "received/press.rules")
            for text, lines in (("", ()), ("rule 1 is never reached\n", ("rule 1 is never reached",))):
                rules.write_text(f"rule\nlink https://e.org/{len(text)}\n", encoding="utf-8")
                asked = list[int]()
                for table, wanted in (("sum", 1), ("sum", 1), ("other", 2)):
                    with mock.patch.object(Program, "run", side_effect=[(int(text != ""), text)]) as run:
                        found = lint_lines.LintLines(Path(folder), Program("none", folder))
                        said = found.of(dataclasses.replace(target, sum=table))
                        found.write(Path(folder))
                    asked.append(run.call_count)
                    self.expect(f"{text!r} of {table}", (said, sum(asked)), (lines, wanted))


class Versions(Case):
    def test_a_table_that_is_gone(self) -> None:
        with tempfile.TemporaryDirectory() as folder:
            Path(folder, "registry.tsv").write_text("press\tcode/press.olk\ttables/press.txt\n", encoding="utf-8")
            found = targets.targets_in(Path(folder))
        self.expect("its rows", [(it.name, it.rows, it.day, it.slips) for it in found], [("press", 0, "", ())])

    def test_targets(self) -> None:
        """A target has the rows of all its parts, its newest table, and no slips of another."""
        with MadeDesk() as desk:
            for name, rows in (("press", 3), ("press.2", 2), ("press-two", 4)):
                desk.add_target(name, rows)
            desk.write("slips.tsv", "press-two\tno first date\t1\t4\tAnnals\n")
            desk.write("earlier.tsv", "press\tabc\t2026-11-02\npress\tdef\t2026-11-23\n")
            found = [(it.parts, it.rows, it.day, it.sum, len(it.slips)) for it in targets.targets_in(desk.version)]
        wanted = [(("press", "press.2"), 5, "2026-11-23", "def", 0), (("press-two",), 4, "", "", 1)]
        self.expect("targets", found, wanted)

    def test_a_folder_of_logs_that_is_gone(self) -> None:
        folder = logs.LogFolder(Path("/nonexistent"), ["openlink.log"])
        self.expect("its files", list(logs.files_of(folder, "openlink.log")), [])


class Weeks(Case):
    def test_how_updates_ended(self) -> None:
        """One that kept old files ended well; if none did, the days since the first one count."""
        old = "No update has ended well for 13 days."
        for name, records, wanted in (
            ("old files", [record(1, "20261128T040000Z"), record(0, "20261101T040000Z")], []),
            ("a bad one", [record(2, "20261128T040000Z"), record(1, "20261127T040000Z")], [ENDED.format(2)]),
            ("none", [record(3, "20261128T040000Z"), record(4, "20261116T040000Z")], [ENDED.format(3), old]),
        ):
            self.expect(name, [it.text for it in week_of(records, (), NOW, ENGLISH).first], wanted)
        lines = tuple(map(str, range(9)))
        self.expect("its last lines", week_of([record(3, lines=lines)], (), NOW, ENGLISH).first[0].lines, lines[1:])

    def test_order(self) -> None:
        """What needs her is first; then the targets of the version, with its rows, and those that it does not have."""
        states = (
            TargetState("gone", "gone", 3),
            TargetState("good", "changed", 5),
            TargetState("bad", "kept", 2, lines=("bad: kept its old rules and table", "  why")),
            TargetState("none", "left out", lines=("none: left out", "  why not")),
        )
        probes = (ProbeResult(1, "issn=1", "good", True), ProbeResult(2, "issn=2", "bad", False))
        fetches = (
            ("a.txt", "kept the old file: x"),
            ("b.txt", "not fetched, and there is no old file: y"),
            ("c.txt", "new"),
        )
        own = [Target(name, (name,), rows, "", "sum", (), ()) for name, rows in (("good", 7), ("bad", 9))]
        week = week_of([record(1, targets=states, probes=probes, fetches=fetches)], own, NOW, ENGLISH)
        self.expect(
            "rows", [(it.name, it.rows) for it in week.rows], [("bad", 9), ("none", 0), ("good", 7), ("gone", 3)]
        )
        self.expect("probes", [it.number for it in week.probes], [2, 1])
        first = [
            ("bad", ("why",)),
            ("none", ("why not",)),
            ("", ("bad",)),
            ("", ("kept the old file: x",)),
            ("", ("not fetched, and there is no old file: y",)),
        ]
        self.expect("what needs her", [(it.target, it.lines) for it in week.first], first)

    def test_states(self) -> None:
        """What each state is called, and what needs her of it; a target of no update has none."""
        for state, text, first in (
            ("new", "new", []),
            ("changed", "changed", []),
            ("kept", "old table kept", ["press kept its old table."]),
            ("unchanged", "unchanged", []),
            ("left out", "left out", ["press was left out."]),
            ("gone", "no longer in the list", []),
        ):
            week = week_of([record(targets=(TargetState("press", state),))], (), NOW, ENGLISH)
            found = [it.state for it in week.rows], [it.text for it in week.first]
            self.expect(state, found, ([text], first))
        slips = (Slip("press", "no first date", 17, 1234, "Annals"),)
        week = week_of([record()], [Target("press", ("press",), 1234, "", "sum", (), slips)], NOW, ENGLISH)
        self.expect("none", [it.state for it in week.rows], ["unknown"])
        self.expect("its slips", week.first[0].lines, ("no first date: 17 / 1234: Annals",))


class Years(Case):
    def test_labels(self) -> None:
        """Below the first month and each January is its year. If they are too near each other, January has it alone."""
        for months, wanted in (
            (("2025-11", "2025-12", "2026-01"), ["11", "12", "01", "2026"]),
            (("2025-10", "2025-11", "2025-12", "2026-01"), ["10", "2025", "11", "12", "01", "2026"]),
            (("2026-02", "2026-03"), ["02", "2026", "03"]),
        ):
            found = year_of([(month, log_counts.REQUESTS, "", 7) for month in months])
            labels = [it.text for it in found.last.chart.labels if it.anchor == "middle"] if found else []
            self.expect(" ".join(months), labels, wanted)

    def test_years(self) -> None:
        """The last twelve months; earlier years, the newest first; and a year is named once below the columns."""
        months = [f"2024-{it:02}" for it in range(1, 13)] + [f"2025-{it:02}" for it in range(1, 13)]
        for count, years, named in ((24, ["2024"], ["2025"]), (13, ["2024"], ["2025"]), (12, [], ["2025"])):
            found = year_of([(month, "requests", "", 3) for month in [*months, "2026-01", "2026-02"][24 - count : 24]])
            self.expect(f"{count} months", found and [it.name for it in found.years], years)
            names = [it.text for it in found.last.chart.labels if it.text in ("2024", "2025")] if found else []
            self.expect(f"{count} months: the years", names, named)
        found = year_of([(month, "requests", "", 3) for month in [*months, "2026-01"]])
        self.expect("two years", found and [it.name for it in found.years], ["2025", "2024"])
        near = year_of([(month, "requests", "", 3) for month in ("2025-12", "2026-01", "2026-02")])
        names = [it.text for it in near.last.chart.labels if it.text in ("2025", "2026")] if near else []
        self.expect("January beside the first month", names, ["2026"])
        self.expect("nothing was counted", year_of([]), None)

    def test_counts_of_a_month(self) -> None:
        """Each number is of its kind, and a column has the requests without full text on those with it."""
        numbers = (("requests", 11), ("without full text", 5), ("without a link", 3), ("errors", 2))
        found = year_of([("2026-01", kind, "", number) for kind, number in numbers])
        assert found is not None
        [month] = found.last.months
        self.expect("without", (month.requests, month.without, month.without_link, month.errors), (11, 5, 3, 2))
        self.expect("with full text", month.with_full_text, 6)
        first, second = found.last.chart.bars
        shown = (first.part, second.part, round(first.height / second.height, 2))
        self.expect("the column", shown, ("a", "b", 1.2))

    def test_lists(self) -> None:
        """The names of each list, with both numbers, of the last twelve months alone."""
        months = [f"2025-{it:02}" for it in range(1, 13)] + ["2026-01"]
        rows = [(month, "requests", "", 9) for month in months]
        for month in ("2025-01", "2025-02", "2026-01"):
            rows += [(month, "source", "WOS", 4), (month, "source without full text", "WOS", 1)]
            rows += [(month, "shown", "press", 3), (month, "followed", "press", 2)]
            rows.append((month, "asked in vain", "2901-0012", 5))
        found = year_of(rows)
        assert found is not None
        for name, names, row, label in (
            ("sources", found.sources, ("WOS", 8, 2), "8 · 2"),
            ("targets", found.targets, ("press", 6, 4), "6 · 4"),
            ("in vain", found.vain, ("2901-0012", 10, 0), "10"),
        ):
            shown = names.rows, [(it.text, it.anchor) for it in names.chart.labels]
            self.expect(name, shown, ((row,), [(row[0], "start"), (label, "end")]))

    def test_names(self) -> None:
        """The greatest first; of equal ones that with more of the second number, and then by name."""
        rows = [("2026-01", "source", name, 2) for name in "dcba"] + [("2026-01", "source", "e", 3)]
        rows.append(("2026-01", "source without full text", "c", 1))
        found = year_of([*rows, ("2026-01", "requests", "", 11), ("2026-01", "without full text", "", 1)])
        self.expect("sources", found and [it[0] for it in found.sources.rows], list("ecabd"))
        self.expect("with full text", found and found.last.months[0].with_full_text, 10)


class Titles(Case):
    def test_chart(self) -> None:
        """A bar for the titles of each target, the greatest first, and one for those that it alone has."""
        targets = Holdings("one", 20, 5, (), ()), Holdings("two", 40, 10, (), ())
        chart = titles_page.titles_of(Collection(60, targets, ())).chart
        self.expect("labels", [it.text for it in chart.labels], ["two", "40 · 10", "one", "20 · 5"])
        widths = [(it.part, chart.width / it.width) for it in chart.bars]
        self.expect("bars", widths, [("a", 1), ("b", 4), ("a", 2), ("b", 8)])


class Texts(Case):
    def test_moments(self) -> None:
        for stamp, text in (("20261129T053007Z", "2026-11-29 05:30"), ("", ""), ("soon", "")):
            self.expect(stamp, site_files._moment(stamp), text)

    def test_names_by_language(self) -> None:
        """That of the page's language, or else the first one; a site of another form has none."""
        german, english = words_in.languages_of(["de", "en"])
        for name, wanted in (
            ({"de": "Bibliothek", "fr": "Bibliothèque"}, ("Bibliothek", "Bibliothek")),
            ({"fr": "Bibliothèque", "en": "Library"}, ("Bibliothèque", "Library")),
            ("Library", ("Library", "Library")),
            ("L" * 100, ("L" * 100, "L" * 100)),
            ("L" * 101, ("L" * 100 + "..", "L" * 100 + "..")),
            ({}, ("", "")),
            (7, ("", "")),
        ):
            site = json.loads(json.dumps({"words": {"library": name}}))
            found = site_files._name_of(site, german), site_files._name_of(site, english)
            self.expect(f"{name}", found, wanted)
        self.expect("no words", site_files._name_of({"words": []}, german), "")
        self.expect("languages of another form", site_files._languages_in({"languages": "de"}), [])
