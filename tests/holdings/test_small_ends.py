"""How small parts of the update end where something is missing, damaged or too long."""
from __future__ import annotations

import contextlib
import datetime
import io
import json
import os
import resource
import subprocess
import tempfile
import zipfile
from collections.abc import Callable
from pathlib import Path
from unittest import mock

from bounds.refusals import reason
from fixtures.cases import Case
from openlink_update import children
from openlink_update import library_run
from openlink_update import run_notes
from openlink_update import shown_text
from openlink_update import update_options
from openlink_update import weekly_run
from openlink_update.commands import update
from openlink_update.counts.log_files import LogFile
from openlink_update.fetch.fetch_folder import FetchFolder
from openlink_update.input_files import InputFolder
from openlink_update.outcome import Failure
from openlink_update.outcome import Interrupted
from openlink_update.outcome import Refused
from openlink_update.machines import library_updates
from openlink_update.received import archives
from openlink_update.received import headers
from openlink_update.received import reading
from openlink_update.rights import filters
from openlink_update.rights import handover
from openlink_update.root_folder import RootFolder
from openlink_update.run_notes import ProbeResult
from openlink_update.run_notes import TargetState
from openlink_update.run_records import Recorder
from openlink_update.run_records import records_in
from openlink_update.site import targets_file
from openlink_update.site.front_door import Site
from openlink_update.tables.table import Table
from openlink_update.versions import making
from openlink_update.versions import same_files
from openlink_update.versions import served
from openlink_update.versions import target_files
from openlink_update.versions import target_list
from openlink_update.versions.judging import Judge
from openlink_update.versions.library import Library
from openlink_update.versions.program import Program
from openlink_update.versions.target_files import TargetFiles
from openlink_update.versions.target_list import Target

OLD, NEW = "20261122T000000Z", "20261129T000000Z"
DAY = datetime.date(2026, 11, 27)


def printed_by(call: Callable[[], object]) -> str:
    printed = io.StringIO()
    with contextlib.redirect_stdout(printed):
        call()
    return printed.getvalue()


class FolderCase(Case):
    def setUp(self) -> None:
        room = tempfile.TemporaryDirectory()
        self.addCleanup(room.cleanup)
        self.folder = Path(room.name)

    def write(self, name: str, data: bytes) -> Path:
        path = self.folder / name
        path.parent.mkdir(parents=True, exist_ok=True)
        path.write_bytes(data)
        return path


class Children(Case):
    def test_one_that_does_not_end(self) -> None:
        """It has ten seconds after it was asked to."""
        child = mock.Mock(poll=lambda: None)
        child.wait.side_effect = [subprocess.TimeoutExpired("x", 10), -9]
        children.stop(child)
        calls = [name for name, _, _ in child.method_calls]
        self.expect("what is done", calls, ["terminate", "wait", "kill", "wait"])
        self.expect("the seconds", child.wait.call_args_list[0].args, (10,))

    def test_one_that_has_ended(self) -> None:
        """That it takes no input is seen by its status, and not by the one who gives it."""
        child = mock.Mock()
        child.stdin.write.side_effect = BrokenPipeError
        children.write(child, b"text")
        self.expect("what was given", child.stdin.write.call_args.args, (b"text",))
        ended = mock.Mock(poll=lambda: 0)
        children.stop(ended)
        self.expect("nobody ends it again", ended.method_calls, [])


class Lists(FolderCase):
    def said(self, text: bytes) -> str:
        self.write("targets.tsv", text)
        return reason(target_list.read, InputFolder(self.folder)).removeprefix(f"{self.folder}/targets.tsv: ")

    def test_targets(self) -> None:
        self.expect("another encoding", self.said(b"a\tr\tt\xff\n"), "not UTF-8")
        self.expect("no table", self.said(b"a\tr\t;\n"), "line 1: no table")
        self.expect("none", self.said(b"# a\n"), "0 targets, and 1 to 256 are possible")

    def test_groups(self) -> None:
        """What is wrong with rules is said elsewhere: a target whose rules cannot be read has no group."""
        self.write("good.rules", b"# group: In the library\nrule\nlink https://e.org/\n")
        self.write("targets.tsv", b"a\tgood.rules\tt\nb\tnone.rules\tt\nc\tcode.olk\tt\n")
        groups = target_list.groups_of(target_list.read(InputFolder(self.folder)))
        self.expect("groups", groups, {"a": "In the library"})

    def test_site_files(self) -> None:
        good = self.write("good.json", b'{"groups": [{"name": "A"}]}')
        bad = self.write("bad.json", b'{"groups": []}')
        for paths, wanted in (([good], (0, "ok\n")), ([good, bad], (1, f"{bad}: groups is not a list of groups\n"))):
            words, found = list(map(str, paths)), list[int]()
            text = printed_by(lambda: found.append(targets_file.main(words)))
            self.expect(f"{len(paths)} files", (found[0], text), wanted)

    def test_names_for_others(self) -> None:
        """A week says that the targets.json of its site cannot be read, and one that can be read is not mentioned."""
        self.write("version/registry.tsv", b"")
        self.write("good.json", b"{}")
        maker = mock.Mock(titles=[], prepared_parts=lambda: [])
        said = "the lists for others name targets without labels: "
        for name, wanted in (
            ("none.json", f"{said}{self.folder}/none.json: No such file or directory\n"),
            ("good.json", ""),
        ):
            run = weekly_run.Run.__new__(weekly_run.Run)
            run.names_file, run._site = mock.Mock(path_in=lambda _: str(self.folder / name)), Site("/nonexistent")
            text = printed_by(lambda: run._export(maker, self.folder / "version"))
            self.expect(name, text, wanted)


class Libraries(Case):
    def test_none_named(self) -> None:
        """An update without names is of the one library alone, which several do not have."""
        told = "this machine has several libraries: name some, or --all"
        for name, has_one_alone, names, wanted in (
            ("one alone", True, [], ""),
            ("several", False, ["east"], told),
            ("both", True, ["east"], ""),
            ("none", False, [], ""),
        ):
            libraries = mock.Mock(has_one_alone=lambda: has_one_alone, names=lambda: names)
            self.expect(name, reason(update._update_several, update_options.parse([]), libraries), wanted)

    def test_reports_of_the_last_time(self) -> None:
        """They are removed before the first update begins; the library alone has none."""
        with tempfile.TemporaryDirectory() as folder:
            file, left = Path(folder, "east"), list[bool]()
            file.touch()

            def update_one(*_: object) -> int:
                left.append(file.exists())
                return 0

            updates = library_updates.Updates(mock.Mock(path=lambda name, _: Path(folder, name)), [])
            parts = {"_options_of_sharing": lambda _: [], "_update": update_one}
            with mock.patch.multiple(updates, **parts), mock.patch.object(library_updates, "raise_signals"):
                status = updates.run([library_updates.ALONE, "east"], False)
            self.expect("the status, and whether it is there", (status, left), (0, [False, False]))

    def test_greatest_status(self) -> None:
        """That of the fetch counts too, if there is one."""
        for fetched, statuses, wanted in ((1, [0, 0], 1), (0, [3, 0], 3), (0, [0, 4, 1], 4), (4, [0, 1], 4)):
            updates = library_updates.Updates(mock.Mock(), [])
            parts = {"_options_of_sharing": lambda _: [], "_fetch": lambda: fetched}
            with mock.patch.multiple(updates, _update=mock.Mock(side_effect=statuses * 2), **parts):
                with mock.patch.object(library_updates, "raise_signals") as signals:
                    names = [f"l{number}" for number in range(len(statuses))]
                    found = updates.run(names, True), updates.run(names, False)
            self.expect(f"{fetched} and {statuses}", found, (wanted, max(statuses)))
            self.expect("signals end each run", signals.call_count, 2)

    def test_report_of_an_update_that_is_killed(self) -> None:
        """It says so until the update has ended."""
        with tempfile.TemporaryDirectory() as folder:
            path = Path(folder, "east/report")
            path.parent.mkdir()
            path.write_text("0\nall is new\n")
            updates, found = (
                library_updates.Updates(mock.Mock(path=lambda *parts: Path(folder, *parts)), []),
                list[str](),
            )

            def run(_: list[str], lines: list[str]) -> tuple[int, str]:
                found.append(path.read_text())
                lines.append("nothing new\n")
                return 1, "1"

            with mock.patch.object(updates, "_child", run):
                printed_by(lambda: updates._update("east", []))
            self.expect("meanwhile, and then", (found, path.read_text()), (["KILL\n"], "1\nnothing new\n"))

    def test_interrupted(self) -> None:
        """A signal between two updates ends the run, and no other update begins."""
        updates, begun = library_updates.Updates(mock.Mock(), []), list[str]()

        def update_one(name: str, _: object) -> int:
            begun.append(name)
            raise Interrupted("SIGTERM")

        parts = {"_options_of_sharing": lambda _: [], "_update": update_one}
        with mock.patch.multiple(updates, **parts), mock.patch.object(library_updates, "raise_signals"):
            with contextlib.redirect_stderr(io.StringIO()) as said:
                status = updates.run(["east", "west"], False)
        self.expect("the status, and what has begun", (status, begun), (3, ["east"]))
        self.expect("what is said", said.getvalue(), "openlink-update: ended by SIGTERM\n")

    def test_no_room_to_share(self) -> None:
        """Each library prepares its own tables then."""
        updates, found = library_updates.Updates(mock.Mock(), []), list[list[str]]()
        full = OSError(28, "No space left on device")
        with contextlib.ExitStack() as stack, mock.patch("tempfile.TemporaryDirectory", side_effect=full):
            said = printed_by(lambda: found.append(updates._options_of_sharing(stack)))
        self.expect("the options of an update", found, [[]])
        self.expect("what is said", said, "shared tables are prepared for each library: No space left on device\n")

    def test_no_process(self) -> None:
        """An update that cannot be started is an error of its library, whose report says how it ended."""
        with tempfile.TemporaryDirectory() as folder:
            libraries = mock.Mock(path=lambda *parts: Path(folder, *parts), folder=Path(folder), machine=Path("m.conf"))
            Path(folder, "east").mkdir()
            updates, found = library_updates.Updates(libraries, []), list[int]()
            few, said = OSError(11, "Resource temporarily unavailable"), io.StringIO()
            with mock.patch.object(children, "start", side_effect=few), contextlib.redirect_stderr(said):
                printed_by(lambda: found.append(updates._update("east", [])))
            self.expect("the status", found, [4])
            self.expect("what is said", said.getvalue(), "openlink-update: update: Resource temporarily unavailable\n")
            self.expect("the report", Path(folder, "east/report").read_text(), "4\n")

    def test_no_report(self) -> None:
        """A report that cannot be written does not end the run."""
        with tempfile.TemporaryDirectory() as folder:
            updates = library_updates.Updates(mock.Mock(path=lambda *parts: Path(folder, *parts)), [])
            with contextlib.redirect_stderr(io.StringIO()) as said:
                updates._write_report("gone", "0", [])
            wanted = f"openlink-update: {folder}/gone/report: No such file or directory\n"
            self.expect("what is said", said.getvalue(), wanted)


class Runs(Case):
    def test_what_ends_one(self) -> None:
        """Whatever it is, a bug of the package too, the run has a status and says why."""
        options = update_options.parse(["--library", "/l"])
        for fault, wanted in (
            (Interrupted("SIGTERM"), (3, "ended by SIGTERM", True)),
            (Failure("there is no version in use"), (3, "there is no version in use", False)),
            (OSError(28, "No space left on device", "/l/versions"), (4, "/l/versions: No space left on device", False)),
            (OSError(5, "Input/output error"), (4, "/l: Input/output error", False)),
            (ValueError("no number"), (4, "ValueError: no number", False)),
            (KeyError("press"), (4, "KeyError: 'press'", False)),
            (RecursionError("too deep"), (4, "RecursionError: too deep", False)),
        ):
            with mock.patch.object(library_run, "_work", side_effect=fault), mock.patch.object(
                library_run, "ignore_signals"
            ) as ignored:
                end = library_run._end_of(mock.Mock(), options)
            self.expect(f"{fault!r}", (end.status, end.fault, end.is_by_signal), wanted)
            self.expect(f"{fault!r}: no signal ends how it goes back", ignored.call_count, 1)


class Notes(Case):
    def heard(self, call: Callable[[], object]) -> list[dict[str, object]]:
        """What a run notes."""
        notes: list[dict[str, object]] = []
        run_notes.hear(lambda kind, text: notes.append(json.loads(text)))
        self.addCleanup(run_notes.hear, None)
        call()
        return notes

    def test_long_targets(self) -> None:
        """As many lines as there is room for: 40, 20, 10 or none."""
        for character, wanted in (("x", 40), ("é", 40), ("\U0001f600", 20)):
            state = TargetState("press", "kept", lines=(character * 300,) * 41)
            lines = self.heard(lambda: run_notes.note_target(state))[0]["lines"]
            assert isinstance(lines, list)
            self.expect(f"lines of {character}", (len(lines), lines[-1]), (wanted + 1, f".. {41 - wanted} more"))
        state = TargetState("\U0001f600" * 7500, "kept", lines=("x",))
        self.expect("a long name", self.heard(lambda: run_notes.note_target(state))[0]["lines"], [".. 1 more"])

    def test_long_probes(self) -> None:
        found = self.heard(lambda: run_notes.note_probe(ProbeResult(3, "q" * 301, "t" * 300, True)))
        self.expect("cut", found, [{"number": 3, "query": f"{'q' * 300}..", "targets": "t" * 300, "holds": True}])

    def test_nobody_reads(self) -> None:
        """A stream that is closed is not written to again."""
        closed = mock.Mock()
        closed.write.side_effect = BrokenPipeError
        with mock.patch("sys.stdout", closed):
            shown_text.report("one")
            shown_text.report("two")
        self.expect("how often it was tried", closed.write.call_count, 1)
        with mock.patch("sys.stdout", io.StringIO()):
            shown_text.prepare_streams()  # it has no encoding, so nothing is to be done
        stream = io.TextIOWrapper(io.BytesIO(), "ascii")
        with mock.patch("sys.stdout", stream):
            shown_text.prepare_streams()
            shown_text.report("é")
        self.expect("a letter that it lacks", stream.buffer.getvalue(), b"\\xe9\n")  # type: ignore[attr-defined]


class Records(FolderCase):
    def test_no_room(self) -> None:
        library = Library(self.folder)
        self.write("runs", b"")
        said = printed_by(lambda: Recorder("update").write(library, 0))
        self.expect("what is said", said, f"no record of this run: {self.folder}/runs: File exists\n")

    def test_no_version(self) -> None:
        """A run that left none in use has a record too."""
        Recorder("update").write(Library(self.folder), 4)
        self.expect("the record", [(it.status, it.version) for it in records_in(self.folder)], [(4, "")])
        (data,) = (self.folder / "runs").glob("*.json")
        self.expect("its version", json.loads(data.read_bytes())["version"], "")

    def test_a_link_that_is_wrong(self) -> None:
        """The run has said so; its record has no version."""
        (self.folder / "current").symlink_to("elsewhere")
        Recorder("update").write(Library(self.folder), 3)
        self.expect(
            "the record", [(it.work, it.status, it.version) for it in records_in(self.folder)], [("update", 3, "")]
        )

    def test_damaged_records(self) -> None:
        for number, data in enumerate((b"{", b"[" * 100_000, b'"text"', b"\xff")):
            self.write(f"runs/2026112{number}T000000Z.update.json", data)
        self.expect("none counts", records_in(self.folder), [])


class Versions(FolderCase):
    def test_back_without_a_version(self) -> None:
        library = Library(self.folder)
        library.remember(None)
        self.expect("none before", (library.is_unsettled(), library.version_of("before")), (True, None))
        library.move_back(None)
        self.expect("none in use", library.current(), None)

    def test_back_without_room_for_a_link(self) -> None:
        """The link that names the version before is there already, and becomes the one in use."""
        library = Library(self.folder)
        for stamp in (OLD, NEW):
            library.version(stamp).mkdir(parents=True)
        library.move(NEW)
        library.remember(OLD)
        with mock.patch("os.symlink", side_effect=OSError(28, "No space left on device")):
            library.move_back(OLD)
        self.expect("in use", (library.current(), library.is_unsettled()), (OLD, False))

    def test_files_of_two_versions(self) -> None:
        """A file with the same bytes becomes a link to the older one. Others stay, and so does one for which there is
        no link."""
        older, newer = self.folder / OLD, self.folder / NEW
        full = OSError(31, "Too many links")
        for name, before, after, fault, is_one in (
            ("the same", b"row\n", b"row\n", None, True),
            ("as long", b"row\n", b"low\n", None, False),
            ("longer", b"row\n", b"rows\n", None, False),
            ("empty", b"", b"", None, False),
            ("no link is left", b"row\n", b"row\n", full, False),
        ):
            one = self.write(f"{OLD}/tables/{name}.txt", before)
            other = self.write(f"{NEW}/tables/{name}.txt", after)
            with mock.patch("os.link", side_effect=fault) if fault else contextlib.nullcontext():
                same_files.link(newer, older, [])
            self.expect(name, (other.samefile(one), other.read_bytes()), (is_one, after))
            other.unlink()

    def test_same_bytes(self) -> None:
        """Of two files neither may have more."""
        for one, other, wanted in (
            (b"", b"", True),
            (b"ab", b"ab", True),
            (b"ab", b"ac", False),
            (b"ab", b"abc", False),
            (b"abc", b"ab", False),
            (b"", b"a", False),
            (b"a" * making._PART, b"a" * making._PART, True),
            (b"a" * making._PART, b"a" * making._PART + b"b", False),
        ):
            self.write("other", other)
            found = making._has_bytes_of(self.write("one", one), RootFolder(self.folder), "other")
            self.expect(f"{len(one)} and {len(other)} bytes", found, wanted)

    def test_what_two_versions_have(self) -> None:
        """They serve the same if each list, table and code has the same bytes, and so has what was received."""
        lists = "registry allowed hosts undated abbreviations options slips slip_limits".split()
        files = ["code/a.olk", "tables/a.txt", "received/a.rules", "received/a.txt"]
        for name in (*(f"{it}.tsv" for it in lists), "index/format", *files):
            for stamp in (OLD, NEW):
                self.write(f"{stamp}/{name}", b"same\n")
        one, other = self.folder / NEW, self.folder / OLD
        self.expect("the same", making.is_same(one, other))
        for name in (*(f"{it}.tsv" for it in lists), "index/format", *files):
            for version in (one, other):
                (version / name).write_bytes(b"other\n")
                self.expect(f"another {name} of {version.name}", making.is_same(one, other), False)
                (version / name).write_bytes(b"same\n")
        for name in ("tables/a.2.txt", "code/b.olk", "received/a.txt.2"):
            (one / name).touch()
            self.expect(f"one more, {name}", making.is_same(one, other), False)
            (one / name).unlink()
        (other / "undated.tsv").unlink()
        self.expect("a version of before", making.is_same(one, other), False)

    def test_order_of_files(self) -> None:
        """The files of a table in the order of the list, the tenth after the second, and none of another target."""
        names = [
            "a.txt.10",
            "a.txt.2",
            "a.txt",
            "a.txt.filtered",
            "a.txt.2.filtered",
            "a.txt.x",
            "a.b.txt",
            "b.txt",
            "xa.txt",
        ]
        for name in ("a.rules", *names):
            self.write(f"received/{name}", name.encode())
        self.expect("names", target_files.received_names(self.folder, "a"), ["a.txt", "a.txt.2", "a.txt.10"])
        found = target_files.files_in(target_files.received_in(self.folder), "a")
        self.expect("files", found and found.tables, (b"a.txt", b"a.txt.2", b"a.txt.10"))

    def test_tables_that_differ(self) -> None:
        tables = served.Tables(self.folder, DAY)
        (self.folder / "tables").mkdir()
        table = Table(("publication_title", "print_identifier"), [["Tides", "2901-0012"]])
        target = Target("press", "r", ("t",), frozenset())
        self.expect("it is good", tables.put(target, table), [])
        self.expect("a version without it", tables.is_same("press", self.folder / "none"), False)
        self.expect("the same", tables.is_same("press", self.folder))

    def test_tables_that_cannot_be_prepared(self) -> None:
        """An older version has a table that this release refuses: it has no rows, and its rules are still known."""
        files = TargetFiles(b"rule\n", (b"\0\n",), False, ("press.txt",))
        with self.assertRaises(Refused):
            files.prepared
        it = files.material
        found = it.table.columns, it.table.rows, it.dropped, it.reversed, it.count, it.rules, it.proxy, it.unended
        self.expect("what slips are looked for in", found, ((), [], [], [], 0, b"rule\n", "", ""))
        self.expect("the table", (files.table_or_empty.columns, files.table_or_empty.rows), ((), []))

    def test_files_that_a_command_rejects(self) -> None:
        """They are a reason, and no warning."""

        class Refusing(Program):
            def run(self, *words: str, most: int = 0) -> tuple[int, str]:
                raise Refused([f"{words[0]}: TooLong at row 2"])

        self.expect("several, as one text", str(Refused(["one", "another"])), "one; another")
        judge, reasons = Judge(self.folder, None, Refusing("none", self.folder), DAY), list[str]()
        self.expect("warnings", judge._lines("press.txt", reasons, "inspect", "tables/press.txt"), [])
        self.expect("reasons", reasons, ["press.txt: inspect: TooLong at row 2"])

    def test_a_folder_that_is_gone(self) -> None:
        said = ""
        try:
            handover.take(self.folder / "none", 61184)
        except OSError as fault:
            said = str(fault.strerror)
        self.expect("what is raised", said, "No such file or directory")

    def test_a_folder_that_cannot_be_opened(self) -> None:
        """Its files would stay those of the user, so it is an error."""
        (self.folder / "tables").mkdir()
        opened, said = os.open, ""

        def few(path: str, *rest: int, **how: int) -> int:
            if path == "tables":
                raise OSError(24, "Too many open files")
            return opened(path, *rest, **how)

        with mock.patch.multiple(os, open=few, fchown=mock.DEFAULT, fchmod=mock.DEFAULT):
            try:
                handover.take(self.folder, os.geteuid())
            except OSError as fault:
                said = str(fault.strerror)
        self.expect("what is raised", said, "Too many open files")


class Received(FolderCase):
    def test_members_of_archives(self) -> None:
        """Of several members the one that begins like a table counts, if it is packed in the usual way."""
        table = b"publication_title\tprint_identifier\tonline_identifier\n"
        for packing, wanted in ((zipfile.ZIP_DEFLATED, table), (zipfile.ZIP_BZIP2, "a zip file with 2 members: name ")):
            written = io.BytesIO()
            with zipfile.ZipFile(written, "w") as archive:
                archive.writestr("readme.txt", b"read me", zipfile.ZIP_STORED)
                archive.writestr("a.txt", table, packing)
            found: list[object] = []
            said = reason(lambda: found.append(archives.opened(written.getvalue(), is_table=table.__eq__)[0]))
            got = found[0] if found else said[: len("a zip file with 2 members: name ")]
            self.expect(f"packing {packing}", got, wanted)
        spoilt = written.getvalue().replace(b"read me", b"real me")
        said = reason(archives.opened, spoilt, "*", lambda data: data == b"read me")
        self.expect("one that is damaged", said.startswith("a zip file with 2 members: name "))
        written = io.BytesIO()
        with zipfile.ZipFile(written, "w") as archive:
            archive.writestr("readme.txt", b"read me")
            archive.writestr("a.txt", table + b"Tides\t2901-0012\t\n")
        spoilt = written.getvalue().replace(b"read me", b"real me")
        self.expect("beside a table", reading.read(spoilt).rows, [["Tides", "2901-0012", ""]])

    def test_rows_without_names(self) -> None:
        self.expect("no row", reason(headers.table_of_rows, []), "it is empty")
        parsed = headers.table_of_rows([["a", "b"], ["1", "2"]])
        self.expect("rows", (parsed.columns, parsed.rows), (["a", "b"], [["1", "2"]]))

    def test_logs_that_cannot_be_read(self) -> None:
        def read(size: int) -> bytes:
            raise OSError(5, "Input/output error")

        log = LogFile("a.log", read)
        self.expect("what it gives, and why", (log.read(10), log.fault), (b"", "Input/output error"))

    def test_what_an_earlier_release_has_left(self) -> None:
        """What it remembered below the input is taken; its other files are removed, and those of others stay."""
        for name in ("state.json", "lock", "7"):
            self.write(f"input/.fetch/{name}", b"{}")
        folder = FetchFolder(InputFolder(self.folder / "input"))
        self.expect("what is remembered", folder.state(), b"{}")
        self.expect("what is left", os.listdir(self.folder / "input"), [])
        self.write("other/.fetch/own.txt", b"")
        FetchFolder(InputFolder(self.folder / "other"))
        self.expect("a file of others", os.listdir(self.folder / "other/.fetch"), ["own.txt"])

    def test_most_bytes_of_a_child(self) -> None:
        """A child writes no longer files than it may, nor than the machine allows."""
        _, hard = resource.getrlimit(resource.RLIMIT_FSIZE)
        for most, limit, wanted in ((4096, hard, 4096), (4096, 8192, 4096), (8192, 4096, 4096)):
            with mock.patch.object(resource, "getrlimit", return_value=(limit, limit)):
                child = children.start(["cat", "/proc/self/limits"], self.folder, most, stdout=subprocess.PIPE)
            lines = child.communicate()[0].decode().splitlines()
            found = [line.split()[3] for line in lines if line.startswith("Max file size")]
            self.expect(f"{most} of {limit}", found, [str(wanted)])

    def test_what_a_filter_may_take(self) -> None:
        found = filters.limits_in(self.folder)
        self.expect("memory and disk", (found.memory, found.disk, found.folders), (2**30, 2**30, (self.folder,)))
