"""The record of each run, in the folder `runs` of the library: what became of each target, and of the run; that
strangers' texts stay texts; and that a record that cannot be written, or is damaged, stops nothing."""
from __future__ import annotations

import json
import os
from pathlib import Path
from typing import Any
from unittest import mock

from fixtures import needs
from fixtures.cases import Case
from fixtures.fetch_input import TABLE
from fixtures.updates import Library

from openlink_update import run_notes
from openlink_update import run_records
from openlink_update.run_records import Recorder
from openlink_update.versions import library as libraries

HOSTILE = 'a\x1b[31m\u202e<script>\n"}],' + "\U0001f600" * 10_000


def records(library: Library) -> list[dict[str, Any]]:
    """Those of a library as they are on the disk, the oldest first."""
    folder = Path(library.library, "runs")
    return [json.loads((folder / name).read_text("utf-8")) for name in sorted(os.listdir(folder))]


def states(record: dict[str, Any]) -> dict[str, tuple[str, int, int, int]]:
    return {it["name"]: (it["state"], it["rows"], it["added"], it["gone"]) for it in record["targets"]}


def made(folder: Path, *notes: tuple[str, str]) -> run_records.RunRecord:
    """The record of a run with these notes, as it is read."""
    recorder = Recorder("update")
    for kind, text in notes:
        recorder.add(kind, text)
    recorder.write(libraries.Library(folder), 1)
    return run_records.records_in(folder)[0]


class RunRecords(Case):
    @needs.program()
    def test_states_of_targets(self) -> None:
        with Library() as library:
            library.write("good.txt", TABLE)
            library.write("bad.txt", TABLE)
            library.targets = {"good": ("good.txt", ""), "bad": ("bad.txt", ""), "none": ("none.txt", "")}
            library.write_targets()
            self.expect("the first run", library.update()[0], 1)
            lines = TABLE.splitlines(keepends=True)
            library.write("good.txt", b"".join([*lines, lines[1].replace(b"2901-0012", b"2929-0538")]))
            library.write("bad.txt", b"<!DOCTYPE html><html></html>")
            library.write_targets()
            self.expect("the second run", library.update()[0], 1)
            library.write("bad.txt", TABLE)
            del library.targets["none"]
            library.write_targets()
            self.expect("the third run", library.update()[0], 0)
            del library.targets["bad"]
            library.write_targets()
            self.expect("the fourth run", library.update()[0], 0)
            found = records(library)
            self.expect(
                "the records",
                [(it["work"], it["status"]) for it in found],
                [("update", 1), ("update", 1), ("update", 0), ("update", 0)],
            )
            self.expect(
                "new",
                states(found[0]),
                {"good": ("new", 2, 0, 0), "bad": ("new", 2, 0, 0), "none": ("left out", 0, 0, 0)},
            )
            self.expect(
                "kept",
                states(found[1]),
                {"good": ("changed", 3, 1, 0), "bad": ("kept", 2, 0, 0), "none": ("left out", 0, 0, 0)},
            )
            self.expect("as before", states(found[2]), {"good": ("unchanged", 3, 0, 0), "bad": ("unchanged", 2, 0, 0)})
            self.expect("gone", states(found[3])["bad"], ("gone", 0, 0, 0))
            reasons = next(it["lines"] for it in found[1]["targets"] if it["name"] == "bad")
            self.expect("the reason", "a web page, not a table" in " ".join(reasons), True)
            self.expect("the version", found[3]["version"], os.path.basename(os.readlink(f"{library.library}/current")))
            self.expect("the last line", f"{found[3]['version']} is in use" in found[3]["lines"], True)

    @needs.program()
    def test_record_that_cannot_be_written(self) -> None:
        """A file in place of the folder, as on a disk without room for it: the run ends as without it."""
        with Library() as library:
            library.write("good.txt", TABLE)
            library.targets = {"good": ("good.txt", "")}
            library.write_targets()
            Path(library.library, "runs").write_text("")
            status, printed = library.update()
            self.expect(
                "the run", (status, f"no record of this run: {library.library}/runs: File exists" in printed), (0, True)
            )
            self.expect("the version", library.served("registry.tsv") is None, False)
            os.unlink(f"{library.library}/runs")
            os.mkdir(f"{library.library}/runs")
            Path(library.library, "runs/20260101T000000Z.update.json").write_text('{"begun": [[[[')
            self.expect("beside a damaged one", library.update()[0], 0)
            self.expect(
                "trials have none", (library.update("--dry-run")[0], len(os.listdir(f"{library.library}/runs"))), (0, 2)
            )

    def test_last_twelve_of_a_kind(self) -> None:
        with Library() as library:
            folder = Path(library.library)
            (folder / "runs").mkdir()
            for day in range(10, 28):
                for work in ("update", "walls"):
                    text = json.dumps({"work": work, "begun": f"202601{day}T000000Z"})
                    (folder / f"runs/202601{day}T000000Z.{work}.json").write_text(text)
            (folder / "runs/20260101T000000Z.update.json.new").write_text("{")
            made(folder)
            names = os.listdir(folder / "runs")
            self.expect("of updates", sum(name.endswith(".update.json") for name in names), 12)
            self.expect("of walls, which another run keeps", sum(name.endswith(".walls.json") for name in names), 18)
            self.expect("unfinished ones", [name for name in names if name.endswith(".new")], [])
            self.expect("the newest first", run_records.records_in(folder)[1].begun, "20260127T000000Z")

    def test_texts_of_strangers(self) -> None:
        """Each is one line without controls, and no note has a form that ends the run."""
        with Library() as library:
            state = run_notes.TargetState("x", run_notes.KEPT, 1, 2, 3, (HOSTILE,) * 100)
            heard: list[tuple[str, str]] = []
            run_notes.hear(lambda kind, text: heard.append((kind, text)))
            run_notes.note_target(state)
            run_notes.note_fetch(HOSTILE, HOSTILE)
            run_notes.note_probe(run_notes.ProbeResult(7, HOSTILE, HOSTILE, True))
            run_notes.hear(None)
            broken = [
                (kind, text)
                for kind in ("target", "fetch", "probe", "line", "other")
                for text in ("", "[", "null", "7", "[" * 5000, '{"name": 7}', '{"state": "new"}', "[[]]")
            ]
            record = made(Path(library.library), ("line", HOSTILE), *broken, *heard)
            texts = [*record.lines, *record.targets[0].lines, *record.fetches[-1], record.probes[0].query]
            self.expect(
                "a target",
                (len(record.targets), record.targets[0].state, len(record.targets[0].lines)),
                (1, "kept", 21),
            )
            self.expect("texts", len(texts) > 12, True)
            self.expect("controls", [it for it in texts if not it.isprintable()], [])
            self.expect("their length", max(map(len, texts)) <= 502, True)
            size = max(len(text.encode()) for _, text in heard)
            self.expect("a note is shorter than a message", size < 2**15, True)

    def test_what_a_record_has(self) -> None:
        """States that there are, and probes that are said to hold; a target with few lines has just these."""
        states = [{"name": "a", "state": "odd"}, {"name": "b", "state": "left out", "lines": ["one", 7, "two"]}]
        probes = [{"number": 1, "query": "q", "holds": it} for it in (True, False, "yes", 1, None)]
        heard: list[tuple[str, str]] = []
        run_notes.hear(lambda kind, text: heard.append((kind, text)))
        run_notes.note_target(run_notes.TargetState("c", run_notes.NEW, lines=("x", "y")))
        run_notes.hear(None)
        notes = [("target", json.dumps(it)) for it in states] + [("probe", json.dumps(it)) for it in probes]
        with Library() as library:
            record = made(Path(library.library), *notes, *heard)
        self.expect(
            "targets", [(it.name, it.lines) for it in record.targets], [("b", ("one", "two")), ("c", ("x", "y"))]
        )
        self.expect("probes", [it.holds for it in record.probes], [True, False, False, False, False])

    def test_how_it_is_written(self) -> None:
        """It is on the disk before it has its name, which is that of the next second if one has it; and the user who
        writes the desk reads it, whatever the umask is."""
        steps: list[tuple[str, str]] = []
        rename = os.rename

        def renamed(old: Path, new: Path) -> None:
            steps.append(("rename", new.name))
            rename(old, new)

        self.addCleanup(os.umask, os.umask(0o077))
        with Library() as library, mock.patch.object(run_records, "_now", return_value="20251231T235959Z"):
            with mock.patch.object(run_records, "sync", lambda path: steps.append(("sync", path.name))):
                with mock.patch.object(os, "rename", renamed):
                    made(Path(library.library))
                    first, steps[:] = [*steps], []
                    made(Path(library.library))
            paths = sorted(Path(library.library, "runs").iterdir())
            names = ["20251231T235959Z.update.json", "20260101T000000Z.update.json"]
            for name, found in zip(names, (first, steps)):
                self.expect(name, found, [("sync", f"{name}.new"), ("rename", name), ("sync", "runs")])
            self.expect("their names", [path.name for path in paths], names)
            self.expect("their modes", [path.stat().st_mode & 0o777 for path in paths], [0o644] * 2)

    def test_many_notes(self) -> None:
        """A run that says too much has a record of bounded size."""
        with Library() as library:
            record = made(Path(library.library), *[("line", f"{number} {'y' * 490}") for number in range(20_000)])
            self.expect("lines", 1000 < len(record.lines) <= 5000, True)
            [path] = Path(library.library, "runs").iterdir()
            self.expect("bytes", path.stat().st_size < 16 * 2**20, True)
