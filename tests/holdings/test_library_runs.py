"""The run of one library: what it does before and after its work, in which order, and how it ends."""
from __future__ import annotations

import contextlib
import io
import os
import stat
import tempfile
from collections.abc import Callable
from pathlib import Path
from unittest import mock

from fixtures.cases import Case
from openlink_update import COMMANDS
from openlink_update import library_run
from openlink_update import update_options
from openlink_update.fetch import fetching
from openlink_update.input_files import InputFolder
from openlink_update.library_run import _End
from openlink_update.library_sandbox import sandbox_of
from openlink_update.outcome import Failure
from openlink_update.places import PROVIDERS
from openlink_update.rights import sandbox
from openlink_update.rights.limits import Exceeded
from openlink_update.rights.limits import Limits
from openlink_update.site.front_door import Site
from openlink_update.versions.library import Library

OLDEST, OLD, NEW, NEWER = "20261115T000000Z", "20261122T000000Z", "20261125T000000Z", "20261129T000000Z"


class LibraryCase(Case):
    def setUp(self) -> None:
        room = tempfile.TemporaryDirectory()
        self.addCleanup(room.cleanup)
        self.folder = Path(room.name)
        for stamp in (OLDEST, OLD, NEW, NEWER):
            (self.folder / "versions" / stamp).mkdir(parents=True)
        self.library = Library(self.folder)
        self.library.move(NEW)
        self.steps: list[object] = []
        self.run_of_week = mock.Mock(library=self.library)
        self.run_of_week.processes = mock.Mock(ports=[215], restarted=[])
        self.run_of_week.update.side_effect = self.update
        self.run_of_week.move_walls.side_effect = lambda _: self.steps.append("walls") or 0
        self.run_of_week.go_back.side_effect = self.go_back
        self.run_of_week.processes.wait_for_all.side_effect = lambda: self.steps.append("wait")
        self.status, self.is_settled = 0, True
        for name in ("raise_signals", "ignore_signals"):
            patch = mock.patch.object(library_run, name)
            patch.start()
            self.addCleanup(patch.stop)

    def update(self, _: InputFolder, most: int, is_trial: bool) -> int:
        self.steps.append(("update", most, is_trial))
        return self.status

    def go_back(self, ports: list[int]) -> None:
        self.steps.append(("back", self.library.version_of("before"), [*ports]))
        if self.is_settled:
            self.library.settle()

    def options(self, *words: str) -> update_options.Options:
        return update_options.parse(["--library", str(self.folder), *words])

    def said(self, call: Callable[[], object]) -> tuple[object, str]:
        """What a call returns and prints, or the failure in which it ends."""
        printed = io.StringIO()
        with contextlib.redirect_stdout(printed), contextlib.redirect_stderr(printed):
            try:
                found = call()
            except Failure as failure:
                found = f"Failure: {failure}"
        return found, printed.getvalue().replace(str(self.folder), "FOLDER")

    def worked(self, *words: str) -> tuple[object, str, list[object]]:
        self.steps = []
        found, said = self.said(lambda: library_run._work(self.run_of_week, self.options(*words)))
        return found, said, self.steps

    def versions(self) -> list[str]:
        return sorted(os.listdir(self.folder / "versions"))


class Rights(LibraryCase):
    def test_limits(self) -> None:
        """What a step may take, the folders that count for its disk, and what its user has to read."""
        site, folder, modules = (self.folder / name for name in ("site.conf", "input", "js"))
        site.write_text(f"js_path {modules};\nset $openlink_disk 20m;\n")
        modules.mkdir()
        words = ("--minutes", "10", "--memory", "500", "--program", "/bin/sh", "--site", str(site))
        with mock.patch.object(sandbox, "of") as of:
            sandbox_of(self.options(*words), self.library, Site(site), folder)
        folders = (self.folder / "versions", folder, self.folder / "input.fetch")
        limits = Limits(600, 500 * 2**20, 20 * 2**20, folders, f"$openlink_disk in {site}")
        place, library, found, needed = of.call_args.args
        self.expect("limits", (place, library, found), (self.folder, self.folder, limits))
        self.expect("files", needed, [self.folder, COMMANDS, PROVIDERS, Path("/bin/sh"), modules])


class Work(LibraryCase):
    def test_after_a_run_that_was_killed(self) -> None:
        """It goes back once each process answers, and then works; a trial changes nothing."""
        said = "the last run was killed while it restarted processes: going back first\n"
        self.library.remember(OLD)
        self.expect("a trial", self.worked("--dry-run"), (0, "", [("update", 4, True)]))
        self.expect("nothing is settled by it", self.library.is_unsettled(), True)
        steps = ["wait", ("back", OLD, [215]), ("update", 4, False)]
        self.expect("an update", self.worked(), (0, said, steps))

    def test_versions_after_the_one_in_use(self) -> None:
        """A run went back from them; a trial leaves them."""
        every = [OLDEST, OLD, NEW, NEWER]
        (self.folder / "versions" / f"{NEWER}.new").mkdir()
        self.worked("--dry-run")
        self.expect("after a trial", self.versions(), every)
        for words in ((), ("--walls",)):
            (self.folder / "versions" / NEWER).mkdir(exist_ok=True)
            self.worked(*words)
            self.expect(f"after {words}", self.versions(), every[:3])

    def test_time_of_an_update(self) -> None:
        """It is written after each update that ends, for the health page, and for all to read."""
        path = self.folder / "updated"
        self.addCleanup(os.umask, os.umask(0o077))
        for words, is_written in ((("--dry-run",), False), (("--walls",), False), ((), True)):
            self.worked(*words)
            self.expect(f"after {words}", path.exists(), is_written)
        self.expect("its mode", stat.S_IMODE(path.stat().st_mode), 0o644)
        path.unlink()
        self.status = 1
        self.expect("files that were kept", (self.worked()[0], path.exists()), (1, True))
        path.unlink()
        self.run_of_week.update.side_effect = Failure("1 of 2 probes differ")
        self.expect("one that fails", (self.worked()[0], path.exists()), ("Failure: 1 of 2 probes differ", False))

    def test_fetches(self) -> None:
        """A file that was not fetched makes the status 1 at least."""
        for status, is_fetched, wanted in ((0, True, 0), (0, False, 1), (1, True, 1), (1, False, 1)):
            self.status = status
            with mock.patch.object(library_run, "_fetch", return_value=is_fetched) as fetch:
                found = self.worked("--fetch")[0], self.worked()[0]
            self.expect(f"{status} and {is_fetched}", (found, fetch.call_count), ((wanted, status), 1))

    def test_back(self) -> None:
        """To the version before the one in use, and no other."""
        self.expect("back", self.worked("--back"), (0, "", [("back", OLD, [215])]))
        self.is_settled = False
        self.expect("a process that fails", self.worked("--back")[::2], (3, [("back", OLD, [215])]))
        self.library.settle()
        self.library.move_back(OLDEST)
        said = "Failure: there is no version before the one in use"
        self.expect("the oldest", self.worked("--back"), (said, "", []))


class Versions(LibraryCase):
    def test_names_of_one_second(self) -> None:
        """Each version is after all others, however many are made in a second."""
        stamps = list[str]()
        for _ in range(3):
            stamps.append(self.library.begin())
            self.library.complete(stamps[-1])
        self.expect("their order", [NEWER, *stamps], sorted({NEWER, *stamps}))
        self.expect("the versions", self.library.versions()[-3:], stamps)

    def test_links(self) -> None:
        """A link leads to a version that is there, or to none."""
        for text, wanted in (
            ("none", None),
            (f"versions/{OLD}", OLD),
            ("versions/20260101T000000Z", "Failure"),
            ("versions/20261322T000000Z", "Failure"),
            (OLD, "Failure"),
            (f"versions/../versions/{OLD}", "Failure"),
            ("/etc", "Failure"),
        ):
            (self.folder / "before").unlink(missing_ok=True)
            (self.folder / "before").symlink_to(text)
            found = self.said(lambda: self.library.version_of("before"))[0]
            said = f"Failure: {self.folder}/before is a link to {text}, which is no folder versions/STAMP"
            self.expect(text, found, said if wanted == "Failure" else wanted)

    def test_what_is_unfinished(self) -> None:
        """Only what a run may have left is removed; a version that goes is none before it is gone."""
        for name in (f"{NEWER}.new", "notes.new", f"{NEWER}.sent"):
            (self.folder / "versions" / name).mkdir()
        self.library.clear()
        self.expect("what is left", self.versions(), [OLDEST, OLD, NEW, NEWER, f"{NEWER}.sent", "notes.new"])
        with mock.patch("shutil.rmtree", side_effect=OSError(5, "Input/output error")):
            with self.assertRaises(OSError):
                self.library.remove(OLD)
        self.expect("a version that is half gone", self.library.versions(), [OLDEST, NEW, NEWER])

    def test_how_many_are_kept(self) -> None:
        for most, wanted in ((5, [OLDEST, OLD, NEW, NEWER]), (3, [OLD, NEW, NEWER]), (2, [NEW, NEWER])):
            self.library.remove_old(most)
            self.expect(f"{most}", self.library.versions(), wanted)


class Inputs(LibraryCase):
    def test_folders(self) -> None:
        """Beside its own, a library may use what libraries share, and what root allows it."""
        allowed = self.folder / "input.folders"
        allowed.write_text("/srv/tables\nrelative\n", encoding="utf-8")
        allowed.chmod(0o644)
        shared = [str(self.folder / "shared"), "/etc/openlink/shared"]
        own = str(self.folder / "input")
        for words, wanted, said in (
            ((), [own, *shared, "/srv/tables"], "FOLDER/input.folders: line 2: not the absolute path of a folder\n"),
            (("--input", "/other"), ["/other", *shared], ""),
            (("--input", "/other", "--among", "/all"), ["/other", "/all/shared", shared[1]], ""),
        ):
            found = list[InputFolder]()
            printed = self.said(lambda: found.append(library_run._input_of(self.options(*words), self.library)))[1]
            self.expect(f"{words}", ([str(root.path) for root in found[0].folders()], printed), (wanted, said))


class Fetches(LibraryCase):
    def fetched(self, end: object) -> tuple[object, str]:
        (self.folder / "input").mkdir(exist_ok=True)
        folder = InputFolder(self.folder / "input")
        with mock.patch.object(fetching, "fetch", side_effect=[end]) as fetch:
            found = self.said(lambda: library_run._fetch(folder, mock.Mock()))
        self.expect("it is asked for if there is a list", fetch.called, folder.exists("sources.tsv"))
        return found

    def test_ends(self) -> None:
        """The update is made in any case."""
        self.expect("no list", self.fetched(0), (True, ""))
        (self.folder / "input/sources.tsv").touch()
        for end, wanted in (
            (0, (True, "")),
            (1, (False, "")),
            (4, (False, "")),
            (
                Exceeded("no end within 90 minutes, so it was ended"),
                "the fetch was ended: no end within 90 minutes, so it was ended\n",
            ),
            (Failure("no curl on this machine"), "nothing was fetched: no curl on this machine\n"),
            (OSError(28, "No space left on device", "/l/x"), "nothing was fetched: /l/x: No space left on device\n"),
        ):
            self.expect(f"{end!r}", self.fetched(end), wanted if isinstance(wanted, tuple) else (False, wanted))


class Ends(LibraryCase):
    def settled(self, *words: str) -> tuple[object, str]:
        self.steps = []
        return self.said(lambda: library_run._settle(self.run_of_week, self.options(*words), 4, "no room"))

    def test_faults(self) -> None:
        """After processes were restarted a run goes back, by those first; before, nothing has changed."""
        self.expect("before", self.settled(), (4, f"openlink-update: no room\n{NEW} stays in use\n"))
        self.expect("nothing is removed", (self.steps, self.versions()[-1]), ([], NEWER))
        self.run_of_week.processes.restarted = [216]
        self.library.remember(OLD)
        self.expect("a trial", self.settled("--dry-run"), (4, f"openlink-update: no room\n{NEW} stays in use\n"))
        self.is_settled = False
        self.expect("processes that fail", self.settled(), (3, "openlink-update: no room\n"))
        self.expect("what it keeps then", (self.steps, self.versions()[-1]), ([("back", OLD, [216])], NEWER))
        self.is_settled = True
        self.expect("after", self.settled(), (3, "openlink-update: no room\n"))
        self.expect("what it removes", (self.steps, self.versions()[-1]), ([("back", OLD, [216])], NEW))

    def ended(self, end: _End, *words: str, is_down: bool = False) -> tuple[object, str, list[object], int]:
        """The status of a run that ends so, what is said, whether the desk is written, and how many records it has."""
        self.steps = []
        self.run_of_week.processes.is_down.return_value = is_down

        def write_desk(*_: object) -> None:
            self.library.lock().close()  # another run may begin
            self.steps.append("desk")

        with contextlib.ExitStack() as stack:
            for module, name, by in (
                (library_run, "Site", mock.Mock(return_value=mock.Mock(ports=[215]))),
                (library_run, "sandbox_of", mock.Mock()),
                (library_run, "Run", mock.Mock(return_value=self.run_of_week)),
                (library_run, "_end_of", lambda *_: end),
                (library_run.writing, "write", write_desk),
            ):
                stack.enter_context(mock.patch.object(module, name, by))
            found, said = self.said(lambda: library_run.update(self.options(*words)))
        records = list((self.folder / "runs").glob("*")) if (self.folder / "runs").exists() else []
        for path in records:
            path.unlink()
        return found, said, self.steps, len(records)

    def test_what_comes_last(self) -> None:
        """The record, and the desk once the library is free; after a signal no desk, and after a trial neither."""
        down = "openlink-update: no process answers: ports 215\n"
        stays = f"{NEW} stays in use\n"
        signal = "openlink-update: ended by SIGTERM\n"
        for name, found, wanted in (
            ("all is new", self.ended(_End(0)), (0, "", ["desk"], 1)),
            ("files that were kept", self.ended(_End(1)), (1, "", ["desk"], 1)),
            ("no process answers", self.ended(_End(0), is_down=True), (4, down, ["desk"], 1)),
            ("a fault", self.ended(_End(4, "no room")), (4, f"openlink-update: no room\n{stays}", ["desk"], 1)),
            ("a signal", self.ended(_End(3, "ended by SIGTERM", True)), (3, signal + stays, [], 1)),
            ("a trial", self.ended(_End(0), "--dry-run"), (0, "", [], 0)),
            ("a trial beside no process", self.ended(_End(0), "--dry-run", is_down=True), (0, "", [], 0)),
        ):
            self.expect(name, found, wanted)

    def test_what_is_cleared(self) -> None:
        (self.folder / "trial").mkdir()
        (self.folder / "current.new").symlink_to("none")
        self.ended(_End(0))
        names = sorted(os.listdir(self.folder))
        self.expect("what is left", names, ["current", "lock", "runs", "versions"])

    def test_two_runs(self) -> None:
        lock = self.library.lock()
        said = "Failure: FOLDER/lock: another run has not ended"
        found = self.ended(_End(0))
        self.expect("the second one", (str(found[0]).replace(str(self.folder), "FOLDER"), found[2:]), (said, ([], 0)))
        lock.close()
