"""One run: makes the next version, tries it, puts it in use, and goes back to the version before if something fails."""
import contextlib
import dataclasses
import datetime
import functools
import os
from collections.abc import Callable, Sequence
from pathlib import Path

from openlink_update import children, run_notes
from openlink_update.exports import export_files
from openlink_update.fetch import sources
from openlink_update.index import abbreviations
from openlink_update.input_files import InputFolder
from openlink_update.outcome import ALL_NEW, DEVICE, KEPT, Failure, Unreadable, ignore_signals
from openlink_update.received import archives
from openlink_update.rights import filters, handover
from openlink_update.rights.lent_files import Lent
from openlink_update.rights.sandbox import Job, Parent, Sandbox, input_by
from openlink_update.run_notes import ProbeResult
from openlink_update.shown_text import report
from openlink_update.site import targets_file
from openlink_update.site.front_door import FrontDoor, Site
from openlink_update.site.names_file import NAME, NamesFile
from openlink_update.site.probing import Difference, Probes, Trial
from openlink_update.site.processes import Processes
from openlink_update.tables import coverage, parts
from openlink_update.update_options import Options
from openlink_update.versions import making, same_files, shared_tables, target_files, target_list
from openlink_update.versions.library import Library
from openlink_update.versions.making import Maker
from openlink_update.versions.program import Program
from openlink_update.versions.served import names_in, path_of
from openlink_update.versions.target_list import Target


_NEW, _SAME, _NO_WALLS = "new", "same", "no walls of months or days"


@dataclasses.dataclass(frozen=True)
class _Trials:
    """What the new version showed: its links for each probe; and the door by which the ports are asked for the same."""

    running: str
    links: list[dict[str, str]]


@dataclasses.dataclass(frozen=True)
class _Plan:
    """How a version is made of an input, and what is removed once it is in use. A trial puts none in use. If it does
    not try all probes, it tries those that hold in the version in use."""

    folder: InputFolder
    make: Callable[[Maker, InputFolder], str]
    remove: Callable[[], None]
    is_trial: bool
    tries_all: bool


@dataclasses.dataclass(frozen=True)
class Attempt:
    """A version that is tried with the probes of a file in a folder, the stamp of the one in use, and what puts the new
    one in its place."""

    folder: InputFolder
    probes: str
    version: Path
    old: str | None
    tries_all: bool
    is_trial: bool
    put_in_use: Callable[[], None]


class Run:
    def __init__(
        self, library: Library, site: Site, options: Options, sandbox: Sandbox, others: Sequence[Path] | None = None
    ) -> None:
        """`sandbox` is that of the library's user; `others` has the versions in use of the machine's other libraries,
        if it has several."""
        self.library, self.sandbox, self.others = library, sandbox, others
        self._of_all: Sandbox | None = None  # that of the user who prepares what is shared
        self._of_filters: Sandbox | None = None  # that of the user who runs filters
        self._among = options.among or options.library
        self.processes = Processes(site.ports, options.restart, options.reload, options.seconds)
        self._program, self._site = options.program, site
        self.names_file = NamesFile(site, library.path("current"))

    def update(self, folder: InputFolder, most: int, is_trial: bool) -> int:
        """Makes a version from a folder and, unless it is only a trial, puts it in use. Returns the exit status."""

        def make(maker: Maker, folder: InputFolder) -> str:
            targets = target_list.read(folder)
            names = [target.name for target in targets]
            groups = target_list.groups_of(targets)
            pairs, faults = abbreviations.read(folder)
            for line in (*self.names_file.differences(names, folder, groups), *_unused(folder, targets), *faults):
                report(line)
            maker.make(targets, self._site.has_list, pairs)
            return _NEW

        return self._next_version(_Plan(folder, make, lambda: self.library.remove_old(most), is_trial, tries_all=True))

    def move_walls(self, folder: InputFolder) -> int:
        """Makes a version from the files of the one in use, whose walls have moved, and puts it in its place, or four
        days would push out the versions of the weeks before. Probes that may be for new files, since they do not hold
        now, are not tried. Returns the exit status."""
        old = self.library.current()
        if old is None:
            raise Failure("there is no version in use")
        in_use = self.library.version(old)

        def make(maker: Maker, _: InputFolder) -> str:
            if not self._has_walls(in_use):
                return _NO_WALLS
            maker.move_walls(self._site.has_list)
            return _NEW

        remove = functools.partial(self.library.remove, old)
        return self._next_version(_Plan(folder, make, remove, is_trial=False, tries_all=False))

    @staticmethod
    def _has_walls(version: Path) -> bool:
        return any(coverage.has_walls((version / path_of(name)).read_bytes()) for name in names_in(version))

    def _next_version(self, plan: "_Plan") -> int:
        """Makes a version, tries the probes, and puts it in use. Then it removes what the plan says. Returns the exit
        status."""
        library = self.library
        old = library.current()
        new = library.begin()
        unfinished, older = library.version(f"{new}.new"), library.version(old) if old else None
        outcome, bad, rest = self._made(plan, unfinished, older).partition(";")
        status, end = KEPT if bad else ALL_NEW, bad + rest
        if outcome in (_NO_WALLS, _SAME):
            what = "nothing new" if outcome == _SAME else _NO_WALLS
            report(f"{what}: {old} stays in use{end}")
            return status
        if self.others is not None:
            same_files.link(unfinished, older, self.others)

        def complete() -> None:
            library.complete(new)
            self.put_in_use(new, old)

        input_probes = plan.folder, "probes.tsv"
        self.try_and_use(Attempt(*input_probes, unfinished, old, plan.tries_all, plan.is_trial, complete))
        if plan.is_trial:
            report(f"a trial: nothing was put in use{end}")
            return status
        ignore_signals()
        library.settle()
        plan.remove()
        report(f"{new} is in use{end}")
        return status

    def _made(self, plan: "_Plan", unfinished: Path, older: Path | None) -> str:
        """Makes a version as the library's user. Returns a word, and what became of targets whose files were bad."""
        received = [Lent(target_files.received_in(older))] if older else []
        inputs = [Lent(root, frozenset({sources.SECRETS})) for root in plan.folder.folders()]
        self.sandbox.own(unfinished)

        def work(parent: Parent) -> str:
            return self._make(plan, unfinished, older, parent)

        lent, filtered = (*received, *inputs), functools.partial(self._filtered, plan.folder)
        job = Job(work, (unfinished,), lent, has_network=False, shared=self._shared_table, filtered=filtered)
        text = self.sandbox.run(job)
        if self.sandbox.number is not None and text.startswith(_NEW):
            handover.take(unfinished, self.sandbox.number)
            _check_sizes(unfinished)
        return text

    def _shared_table(self, files: shared_tables.Files) -> int | None:
        """A descriptor of what is prepared of a table that several libraries serve."""
        if shared_tables.folder is None:
            return None
        if self._of_all is None:
            self._of_all = self.sandbox.other(self.library.folder.parent, "shared")
        return shared_tables.for_library(files, self._of_all)

    def _filtered(self, folder: InputFolder, name: str, data: bytes) -> bytes:
        """What a filter of the library gives for the bytes of a file. Unreadable if root has not allowed it, or if it
        fails."""
        program, place = filters.program_of(folder, name), filters.Place(self.library.path("filter"))
        limits = filters.limits_in(place.folder)
        if self._of_filters is None and self.sandbox.number is not None:
            self._of_filters = self.sandbox.other(Path(self._among), f"{self.library.folder} filter", limits)
        elif self._of_filters is None and os.geteuid() == 0:
            raise Unreadable("no user is free who could run it, and root does not")
        return filters.filtered(place, program, data, self._of_filters or Sandbox(None, limits))

    def _make(self, plan: "_Plan", unfinished: Path, older: Path | None, parent: Parent) -> str:
        folder, received = input_by(parent, plan.folder), None
        if self.sandbox.number is not None:
            shared_tables.asked = parent.prepared
        Probes(folder, "probes.tsv")  # a line that is wrong is said before the work begins
        if older:
            received = parent.lent(target_files.received_in(older))
        program = Program(self._program, unfinished)
        maker = Maker(unfinished, older, program, datetime.date.today(), report, received, parent.filtered)
        word = plan.make(maker, folder)
        if word == _NO_WALLS:
            return word
        self._add_names(maker, folder if plan.tries_all else None, unfinished, older)
        is_same = older and making.is_same(unfinished, older, received)
        if older and is_same and self.names_file.is_same(unfinished, older):
            return _SAME + _bad_files(maker)
        maker.make_index(self._site.has_list)
        self._export(maker, unfinished)
        maker.remove_prepared()
        return word + _bad_files(maker)

    def try_and_use(self, attempt: "Attempt") -> None:
        """Tries a version with the probes as the library's user, puts it in use, and tries it again. A Failure says
        what differs."""
        trial = self.library.path("trial")
        if self.sandbox.number is not None:
            trial.mkdir()
            self.sandbox.own(trial)

        def work(parent: Parent) -> str:
            probes = Probes(input_by(parent, attempt.folder), attempt.probes)
            with self.front_door(probes) as door:
                trials = self.try_version(probes, door, attempt.version, attempt.old, attempt.tries_all)
                if not attempt.is_trial:
                    parent.pause()
                    self.try_again(probes, trials)
            return ""

        lent = [Lent(root, frozenset({sources.SECRETS})) for root in attempt.folder.folders()]
        self.sandbox.run(Job(work, (trial,), tuple(lent), attempt.put_in_use))

    def put_in_use(self, new: str, old: str | None) -> None:
        """Moves the link from the old version to a complete one, and restarts the processes."""
        self.library.remember(old)
        self.library.move(new)
        self.processes.restart_all(names_in(self.library.version(new)))
        self.reload_site()

    def _add_names(self, maker: Maker, folder: InputFolder | None, unfinished: Path, older: Path | None) -> None:
        """Puts targets.json in the version, if the input has one."""
        addition = self.names_file.add(unfinished, folder, older)
        for line in addition.lines:
            report(line)
        if addition.is_older:
            maker.kept.append(NAME)

    def _export(self, maker: Maker, version: Path) -> None:
        """Writes the version's holdings for others."""
        path = self.names_file.path_in(version)
        targets = Path(path) if path else None
        fault = export_files.make(version, maker.prepared_parts(), maker.titles, self._site, targets)
        if fault:
            report(f"the lists for others name targets without labels: {fault}")

    def reload_site(self) -> None:
        """Has nginx read targets.json again, if it is that of the version in use."""
        if self.names_file.is_served():
            self.processes.reload_site()

    def front_door(self, probes: Probes) -> "contextlib.AbstractContextManager[FrontDoor | None]":
        """The front door for the probes; none is needed if there are no probes."""
        if not probes.list:
            report(f"{probes.path}: no probes, so no link was tried")
            return contextlib.nullcontext()
        return FrontDoor(self._site, self.library.path("trial"))

    def try_version(
        self, probes: Probes, door: FrontDoor | None, unfinished: Path, old: str | None, tries_all: bool
    ) -> _Trials | None:
        """Loads the new version and resolves the probes, if there are some. A Failure says which differ."""
        port = children.free_port()
        if not door:
            with Trial(self._program, unfinished, port):
                return None
        targets = self.names_file.path_in(unfinished)
        trial = door.add_door([port], unfinished, targets)
        running = door.add_door(self.processes.ports, self.library.path("current"), targets)
        older = None
        if old:
            version = self.library.version(old)
            older = door.add_door([port], version, self.names_file.path_in(version))
        door.start()
        before = self._links_before(probes, older, port, old)
        if before is not None and not tries_all:
            before, others = probes.keep_those_that_hold(before)
            if others:
                report(f"not tried, since they differ with the version in use too: probes {', '.join(others)}")
        with Trial(self._program, unfinished, port):
            differing, links = probes.tried(trial)
        _note_probes(probes, differing)
        if before is not None:
            for line in probes.changes(before, links):
                report(line)
        if differing:
            self._say_differences(probes, differing, before)
            raise Failure(f"{len(differing)} of {len(probes.list)} probes differ with the new version")
        return _Trials(running, links)

    def _links_before(
        self, probes: Probes, door: str | None, port: int, old: str | None
    ) -> list[dict[str, str]] | None:
        """The links that the version in use has for each probe, or None if it cannot be served."""
        if old is None or door is None:
            return None
        try:
            with Trial(self._program, self.library.version(old), port):
                return probes.links(door)
        except Failure as failure:
            report(f"the links of the version in use are not known: {failure}")
            return None

    @staticmethod
    def _say_differences(
        probes: Probes, differing: list[Difference], before: list[dict[str, str]] | None = None
    ) -> None:
        for difference in differing:
            probe = difference.probe
            report(f"{probes.path}:{probe.number}: {probe.query}")
            for line in difference.lines:
                report(line)
            if before is not None and set(before[probes.list.index(probe)]) != set(probe.targets):
                report("  the version in use differs too")

    def try_again(self, probes: Probes, trials: _Trials | None) -> None:
        """Resolves the probes through the ports. A Failure says which differ now."""
        if not probes.list or not trials:
            return
        differing = probes.differences(trials.running)
        if differing:
            self._say_differences(probes, differing)
            raise Failure(f"{len(differing)} of {len(probes.list)} probes differ at the ports")
        if probes.links(trials.running) != trials.links:
            raise Failure("the processes at the ports have other links than the new version")
        report(f"{len(probes.list)} probes hold" if len(probes.list) != 1 else "1 probe holds")

    def go_back(self, ports: list[int]) -> None:
        """Serves the version that `before` names, at these ports, and then at the others: a process that has ended in
        the meantime may have started with the new version. What fails is said, and does not stop it, nor do signals."""
        ignore_signals()
        stamp = self.library.version_of("before")
        self.library.move_back(stamp)
        is_well = True
        if stamp:
            is_well = self._restart(stamp, ports)
            try:
                self.reload_site()
            except Failure as failure:
                is_well = False
                report(f"{stamp} again: {failure}")
        if is_well:
            self.library.settle()
            report(f"{stamp} is in use again" if stamp else "no version is in use")

    def _restart(self, stamp: str, ports: list[int]) -> bool:
        """Whether all processes serve a version again: those at these ports first, and then the others."""
        is_well = True
        others = [port for port in self.processes.ports if port not in ports] if ports else []
        for port in [*ports, *others]:
            if port in others and not is_well:
                break  # if restarts fail, the other processes are left as they are
            try:
                self.processes.restart_one(port, names_in(self.library.version(stamp)))
            except Failure as failure:
                is_well = False
                report(f"{stamp} again: {failure}")
        return is_well


def _check_sizes(version: Path) -> None:
    """A Failure if root or nginx would have to read too much of what a library's user has made."""
    for name, most in (("registry.tsv", parts.MOST_REGISTRY_BYTES), (NAME, targets_file.MOST_BYTES)):
        if (version / name).exists() and (version / name).stat().st_size > most:
            raise Failure(f"{version / name}: more than {most:,} bytes", DEVICE)


def _note_probes(probes: Probes, differing: list[Difference]) -> None:
    bad = [difference.probe for difference in differing]
    for probe in probes.list:
        run_notes.note_probe(ProbeResult(probe.number, probe.query, " ".join(probe.targets), probe not in bad))


def _bad_files(maker: Maker) -> str:
    """What became of targets whose files were bad, after a semicolon; nothing if all were good."""
    kept = f"; old files of {', '.join(maker.kept)} kept" if maker.kept else ""
    return kept + (f"; {', '.join(maker.left_out)} left out" if maker.left_out else "")


def _unused(folder: InputFolder, targets: list[Target]) -> list[str]:
    """A line for files that a folder's list fetches and no target has, as after a slip in a name."""
    try:
        fetched = sources.read(folder)[0] if folder.exists(sources.LIST) else []
    except OSError as fault:
        return [f"{fault.filename or folder.place(sources.LIST)}: {fault.strerror}"]
    patterns = [path for target in targets for path in (*target.tables, target.rules)]
    files = [source.file for source in fetched]
    unused = [file for file in files if not any(archives.fits(str(folder.place(file)), each) for each in patterns)]
    return [f"{folder.place(sources.LIST)}: fetched, and no target has it: {', '.join(unused)}"] if unused else []
