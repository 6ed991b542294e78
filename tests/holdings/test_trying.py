"""How a run tries a version beside the one in use, and goes back: with stand-ins for the program, the front door and
the processes, so that only what the run itself decides is tried."""
from __future__ import annotations

import contextlib
import io
import json
import tempfile
import types
from collections.abc import Callable
from collections.abc import Sequence
from pathlib import Path
from unittest import mock

from fixtures.cases import Case
from openlink_update import run_notes
from openlink_update import weekly_run
from openlink_update.input_files import InputFolder
from openlink_update.outcome import Failure
from openlink_update.site import probes as site_probes
from openlink_update.site.probes import Probe
from openlink_update.site.probing import Difference
from openlink_update.site.probing import Probes
from openlink_update.versions.library import Library
from openlink_update.versions.target_list import Target
from openlink_update.weekly_run import Run

OLD, NEW = "20261122T000000Z", "20261129T000000Z"
Menus = dict[str, dict[str, str]]  # by query: the links


class Door:
    """Its addresses name what they lead to."""

    def __init__(self) -> None:
        self.doors: list[tuple[list[int], str, str]] = []
        self.is_open = False

    def add_door(self, ports: Sequence[int], version: Path, targets: str) -> str:
        self.doors.append(([*ports], version.name, targets))
        return version.name

    def start(self) -> None:
        self.is_open = True


class RunCase(Case):
    def setUp(self) -> None:
        room = tempfile.TemporaryDirectory()
        self.addCleanup(room.cleanup)
        self.folder = Path(room.name)
        self.run_of_week = Run.__new__(Run)
        self.run_of_week.library, self.run_of_week._program = Library(self.folder), "openlink"
        self.processes = self.run_of_week.processes = mock.Mock(ports=[215, 216])
        self.names_file = mock.Mock(path_in=lambda version: f"{version.name}/targets.json")
        self.run_of_week.names_file = self.names_file

    def said(self, call: Callable[[], object]) -> tuple[object, str]:
        printed = io.StringIO()
        with contextlib.redirect_stdout(printed):
            try:
                found = call()
            except Failure as failure:
                found = f"Failure: {failure}"
        return found, printed.getvalue().replace(str(self.folder), "FOLDER")


class Trying(RunCase):
    def setUp(self) -> None:
        super().setUp()
        self.menus: dict[str, Menus] = {}  # by version
        self.served = ""  # the version that a process serves
        self.door = Door()
        for module, name, by in (
            (weekly_run, "Trial", self.trial),
            (site_probes, "links", self.links),
            (site_probes, "differences_of", self.differences_of),
        ):
            patch = mock.patch.object(module, name, by)
            patch.start()
            self.addCleanup(patch.stop)

    @contextlib.contextmanager
    def trial(self, program: str, version: Path, port: int):  # type: ignore[no-untyped-def]
        if version.name not in self.menus:
            raise Failure(f"{version.name} cannot be served")
        self.served = version.name
        yield
        self.served = ""

    def links(self, door: str, query: str) -> dict[str, str]:
        self.expect(f"what {door} asks is served", self.served, door)
        return self.menus[door].get(query, {})

    def differences_of(self, menu: dict[str, str] | None, reports: str, probe: Probe) -> list[str]:
        self.expect("what is asked for reports", reports, self.served)
        names = {*(menu or {})} ^ {*probe.targets}
        return [f"  other: {name}" for name in sorted(names)]

    def tried(self, text: str, old: str | None = OLD, tries_all: bool = True) -> tuple[object, str]:
        """What is said of a trial with these probes, and the links that it returns."""
        (self.folder / "probes.tsv").write_text(text, encoding="utf-8")
        probes = Probes(InputFolder(self.folder), "probes.tsv")
        unfinished = self.folder / "versions" / f"{NEW}.new"
        found, said = self.said(lambda: self.run_of_week.try_version(probes, self.door, unfinished, old, tries_all))
        if isinstance(found, weekly_run._Trials):
            self.expect("the door of the processes", found.running, "current")
            return found.links, said
        return found, said

    def test_what_holds(self) -> None:
        """Links that readers gain, lose, or that lead elsewhere are said."""
        self.menus = {OLD: {"a=1": {"x": "1", "y": "2"}}, f"{NEW}.new": {"a=1": {"x": "3", "z": "4"}}}
        lines = "FOLDER/probes.tsv:1: a=1\n  gains z 4\n  loses y 2\n  x 1 is now 3\n"
        self.expect("links", self.tried("a=1\tx z\n"), ([{"x": "3", "z": "4"}], lines))
        doors = [(ports, name, targets) for ports, name, targets in self.door.doors]
        port = doors[0][0]
        new = f"{NEW}.new"
        wanted = [
            (port, new, f"{new}/targets.json"),
            ([215, 216], "current", f"{new}/targets.json"),
            (port, OLD, f"{OLD}/targets.json"),
        ]
        self.expect("doors", (doors, self.door.is_open), (wanted, True))

    def test_what_differs(self) -> None:
        self.menus = {OLD: {"a=1": {"x": "1"}, "a=2": {}}, f"{NEW}.new": {"a=1": {}, "a=2": {}}}
        lines = (
            "FOLDER/probes.tsv:1: a=1\n  loses x 1\nFOLDER/probes.tsv:1: a=1\n  other: x\n"
            "FOLDER/probes.tsv:2: a=2\n  other: y\n  the version in use differs too\n"
        )
        found = self.tried("a=1\tx\na=2\ty\na=3\tnone\n")
        self.expect("two", found, ("Failure: 2 of 3 probes differ with the new version", lines))

    def test_probes_of_new_files(self) -> None:
        """Where not all are tried, those are left out that do not hold in the version in use."""
        self.menus = {OLD: {"a=1": {"x": "1"}}, f"{NEW}.new": {"a=1": {"x": "1"}}}
        line = "not tried, since they differ with the version in use too: probes 2, 3\n"
        text = "a=1\tx\na=2\ty\na=3\tz\n"
        self.expect("two of them", self.tried(text, tries_all=False), ([{"x": "1"}], line))
        self.expect("none", self.tried("a=1\tx\n", tries_all=False), ([{"x": "1"}], ""))

    def test_version_that_cannot_be_served(self) -> None:
        self.menus = {f"{NEW}.new": {"a=1": {"x": "1"}}}
        line = f"the links of the version in use are not known: {OLD} cannot be served\n"
        self.expect("the one in use", self.tried("a=1\tx\n"), ([{"x": "1"}], line))
        self.expect("none is in use", self.tried("a=1\tx\n", old=None), ([{"x": "1"}], ""))
        self.menus = {OLD: {}}
        self.expect("the new one", self.tried("a=1\tnone\n"), (f"Failure: {NEW}.new cannot be served", ""))

    def test_no_probes(self) -> None:
        """The new version is loaded all the same."""
        unfinished = self.folder / f"{NEW}.new"
        for menus, wanted in (({unfinished.name: {}}, None), ({}, f"Failure: {NEW}.new cannot be served")):
            self.menus = menus  # type: ignore[assignment]
            found = self.said(lambda: self.run_of_week.try_version(mock.Mock(), None, unfinished, OLD, True))
            self.expect(f"{wanted}", found, (wanted, ""))


class NextVersions(RunCase):
    """What is done with a version once it is made."""

    def setUp(self) -> None:
        super().setUp()
        (self.folder / "versions" / OLD).mkdir(parents=True)
        (self.folder / "versions" / OLD / "registry.tsv").touch()
        self.library = self.run_of_week.library
        self.library.move(OLD)
        self.steps: list[str] = []

    def made(self, word: str, is_trial: bool = False, fault: str = "") -> tuple[object, str]:
        """The status of a run whose version is this, and what is said; or the failure."""

        def use(attempt: weekly_run.Attempt) -> None:
            self.steps.append(f"tried beside {attempt.old}, {attempt.tries_all}")
            self.expect("a trial", attempt.is_trial, is_trial)
            if fault:
                raise Failure(fault)
            if not is_trial:
                attempt.put_in_use()

        def remove() -> None:
            self.steps.append(f"removed, {'unsettled' if self.library.is_unsettled() else 'settled'}")

        self.library.clear()
        run, self.steps = self.run_of_week, []
        run.others = None
        plan = weekly_run._Plan(InputFolder(self.folder), mock.Mock(), remove, is_trial, True)
        with mock.patch.multiple(run, create=True, _made=lambda *_: word, try_and_use=use):
            with mock.patch.object(weekly_run, "ignore_signals", lambda: self.steps.append("signals wait")):
                with mock.patch.object(weekly_run, "names_in", return_value=["press"]):
                    return self.said(lambda: run._next_version(plan))

    def test_one_that_is_new(self) -> None:
        """Files that were bad make the status 1. What a signal may end is over before anything is removed."""
        for more, status in (("", 0), ("; old files of a kept", 1), ("; c left out", 1)):
            old = self.library.current()
            found, said = self.made(f"new{more}")
            self.expect(f"its end{more}", (found, said), (status, f"{self.library.current()} is in use{more}\n"))
            self.expect("it is another one", old == self.library.current(), False)
            self.expect("steps", self.steps, [f"tried beside {old}, True", "signals wait", "removed, settled"])

    def test_one_that_is_the_same(self) -> None:
        for word, status, said in (
            ("same", 0, "nothing new: {} stays in use\n"),
            ("same; old files of a kept", 1, "nothing new: {} stays in use; old files of a kept\n"),
            ("no walls of months or days", 0, "no walls of months or days: {} stays in use\n"),
        ):
            self.expect(word, self.made(word), (status, said.format(OLD)))
            self.expect("steps", (self.steps, self.library.current()), ([], OLD))

    def test_a_trial(self) -> None:
        for more, status in (("", 0), ("; c left out", 1)):
            said = f"a trial: nothing was put in use{more}\n"
            self.expect(f"its end{more}", self.made(f"new{more}", is_trial=True), (status, said))
            self.expect("steps", (self.steps, self.library.current()), ([f"tried beside {OLD}, True"], OLD))

    def test_one_that_does_not_hold(self) -> None:
        found = self.made("new", fault="1 of 2 probes differ at the ports")
        self.expect("its end", found, ("Failure: 1 of 2 probes differ at the ports", ""))
        self.expect("steps", (self.steps, self.library.current()), ([f"tried beside {OLD}, True"], OLD))

    def test_order_of_use(self) -> None:
        """Whatever ends the run meanwhile, the next one finds the way back; the site is read again last."""
        steps: list[str] = []

        def note(step: str) -> Callable[..., None]:
            return lambda *_: steps.append(f"{step}: {self.library.version_of('before')}, {self.library.current()}")

        (self.folder / "versions" / NEW).mkdir()
        (self.folder / "versions" / NEW / "registry.tsv").write_text("press\tcode/press.olk\ttables/press.txt\n")
        self.processes.restart_all.side_effect = note("restart")
        self.processes.reload_site.side_effect = note("reload")
        move = self.library.move
        with mock.patch.object(self.library, "move", lambda stamp: (note("move")(), move(stamp))):
            self.run_of_week.put_in_use(NEW, OLD)
        wanted = [f"move: {OLD}, {OLD}", f"restart: {OLD}, {NEW}", f"reload: {OLD}, {NEW}"]
        self.expect("steps", steps, wanted)
        self.expect("targets", self.processes.restart_all.call_args.args, (["press"],))


class GoingBack(RunCase):
    def setUp(self) -> None:
        super().setUp()
        for stamp in (OLD, NEW):
            folder = self.folder / "versions" / stamp
            folder.mkdir(parents=True)
            (folder / "registry.tsv").write_text("press\tcode/press.olk\ttables/press.txt\n", encoding="utf-8")
        patch = mock.patch.object(weekly_run, "ignore_signals")
        patch.start()
        self.addCleanup(patch.stop)

    def back(self, ports: list[int], failing: Sequence[int] = (), before: str | None = OLD) -> tuple[str, list[int]]:
        """What is said, and the ports that were restarted."""
        library, asked = self.run_of_week.library, list[int]()
        (self.folder / "before").unlink(missing_ok=True)
        (self.folder / "current").unlink(missing_ok=True)
        library.move(NEW)
        library.remember(before)

        def restart(port: int, names: list[str]) -> None:
            self.expect("the targets that it must have", names, ["press"])
            asked.append(port)
            if port in failing:
                raise Failure(f"port {port} does not answer")

        self.processes.restart_one = restart
        said = self.said(lambda: self.run_of_week.go_back(ports))[1]
        self.expect("the version in use", library.current(), before)
        return said, asked

    def test_ports(self) -> None:
        """Those that were restarted first, and then the others, unless one fails."""
        done = f"{OLD} is in use again\n"
        self.expect("both", self.back([216]), (done, [216, 215]))
        self.expect("it is settled", self.run_of_week.library.is_unsettled(), False)
        self.expect("none", self.back([]), (done, []))
        said = f"{OLD} again: port 216 does not answer\n"
        self.expect("the first fails", self.back([216], failing=[216]), (said, [216]))
        self.expect("it is not settled", self.run_of_week.library.is_unsettled(), True)
        self.expect("two of two", self.back([216, 215], failing=[216]), (said, [216, 215]))

    def test_site(self) -> None:
        """nginx reads targets.json again, if it goes with the version."""
        self.names_file.is_served.return_value = False
        self.back([215])
        self.expect("it does not", self.processes.reload_site.called, False)
        self.names_file.is_served.return_value = True
        self.processes.reload_site.side_effect = Failure("nginx: status 1, no message")
        self.expect("it fails", self.back([215])[0], f"{OLD} again: nginx: status 1, no message\n")
        self.expect("it is not settled", self.run_of_week.library.is_unsettled(), True)

    def test_no_version(self) -> None:
        self.expect("what is said", self.back([215], before=None), ("no version is in use\n", []))


class Said(RunCase):
    def test_notes_of_probes(self) -> None:
        """The record has each probe, and whether it holds."""
        (self.folder / "probes.tsv").write_text("a=1\tx y\n\na=2\tnone\n", encoding="utf-8")
        probes, heard = Probes(InputFolder(self.folder), "probes.tsv"), list[object]()
        run_notes.hear(lambda kind, text: heard.append((kind, *json.loads(text).values())))
        try:
            weekly_run._note_probes(probes, [Difference(probes.list[0], ["  other: x"])])
        finally:
            run_notes.hear(None)
        self.expect("notes", heard, [("probe", 1, "a=1", "x y", False), ("probe", 3, "a=2", "", True)])

    def test_bad_files(self) -> None:
        for kept, left_out, wanted in (
            ([], [], ""),
            (["a", "b"], [], "; old files of a, b kept"),
            ([], ["c"], "; c left out"),
            (["a"], ["c"], "; old files of a kept; c left out"),
        ):
            maker = types.SimpleNamespace(kept=kept, left_out=left_out)
            self.expect(wanted, weekly_run._bad_files(maker), wanted)  # type: ignore[arg-type]

    def test_files_that_no_target_has(self) -> None:
        folder = InputFolder(self.folder)
        targets = [Target("a", str(self.folder / "a.rules"), (str(self.folder / "a*.txt"),), frozenset())]
        self.expect("no list", weekly_run._unused(folder, targets), [])
        lines = "".join(f"{name}\thttps://e.org/{name}\n" for name in ("a1.txt", "a.rules", "b.txt", "c/a.txt"))
        (self.folder / "sources.tsv").write_text(lines, encoding="utf-8")
        said = f"{self.folder}/sources.tsv: fetched, and no target has it: b.txt, c/a.txt"
        self.expect("two of four", weekly_run._unused(folder, targets), [said])
        (self.folder / "sources.tsv").unlink()
        (self.folder / "sources.tsv").mkdir()
        self.expect("a folder", weekly_run._unused(folder, targets), [f"{self.folder}/sources.tsv: Is a directory"])
