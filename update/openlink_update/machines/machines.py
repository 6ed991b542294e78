"""Several machines with the same libraries. One of them, the maker, makes the versions and sends them to the others,
one machine after the other; each tries a version with the probes before its readers get it.

In the folder of a machine (/etc/openlink) are

    delivery     the name of the last delivery of which it has everything: the time at which it was made, in UTC; on the
                 maker, then the libraries with their versions
    drain        while the balancer sends it no readers: the time at which that ends, or nothing if it has no end

and in that of a library

    probes.tsv             the probes that hold in the version that its first line names
    sending/               files of the front door that tries them; the next delivery removes it
    versions/STAMP.sent/   a version that is being sent, and
    versions/STAMP.probes  its probes

The other machine carries out the requests of taking.py alone, whatever the key of this one asks for.

A delivery is named once every machine was tried. Those that missed a part of it keep the older name, which the balancer
sees (front_door/health.js), and get what they miss with the next delivery or with --send."""
import dataclasses
import fcntl
import os
import selectors
import shlex
import shutil
import subprocess
import time
from collections.abc import Callable, Iterator, Sequence
from pathlib import Path
from typing import IO

from openlink_update import children
from openlink_update.disk import text_in, write
from openlink_update.fetch.sources import SECRETS
from openlink_update.input_files import InputFolder
from openlink_update.library_sandbox import sandbox_of
from openlink_update.machines.libraries import ALONE, PROBES, SHARED, SITE, Libraries
from openlink_update.outcome import ALL_NEW, KEPT, Failure, reset_signals
from openlink_update.rights.lent_files import Lent
from openlink_update.rights.sandbox import Job, Parent, input_by
from openlink_update.root_folder import RootFolder
from openlink_update.shown_text import line_of, report
from openlink_update.site.front_door import FrontDoor, Site
from openlink_update.site.names_file import NamesFile
from openlink_update.site.probing import Probes
from openlink_update.update_options import Options
from openlink_update.versions.library import Library, is_stamp, stamp_after

SECONDS_TO_ASK, _SECONDS_TO_SEND, _SECONDS_TO_RECEIVE = 60, 3600, 3600
MOST_BYTES = 4 * 2**20  # that another machine may print
_OF = "# hold in "
_FORCED = 'restrict,command="openlink-update --take"'
# Of an input. Secrets stay here: another machine that has some loses them, since it fetches nothing.
_NOT_SENT = (f"--filter=hide {SECRETS}",)


def run(words: Sequence[str | Path], seconds: float) -> str:
    """What a command prints. A Failure says why it did not succeed."""
    name = os.path.basename(words[0])
    try:
        child = children.start(words, ".", stdout=subprocess.PIPE, stderr=subprocess.PIPE)
        streams = [stream for stream in (child.stdout, child.stderr) if stream]
        try:
            output, errors = _read(child, streams, seconds)
        finally:
            children.stop(child)
            for stream in streams:
                stream.close()
    except OSError as fault:
        raise Failure(f"{name}: {fault.strerror}") from fault
    except subprocess.TimeoutExpired as fault:
        raise Failure(f"{name}: no end after {seconds:g} seconds") from fault
    except OverflowError as fault:
        raise Failure(f"{name}: it prints more than {MOST_BYTES:,} bytes") from fault
    if child.returncode != 0:
        lines = (output + errors).strip().splitlines()[-12:]
        raise Failure("\n  ".join(map(line_of, lines)) or f"{name}: status {child.returncode}")
    return output


def _read(child: "subprocess.Popen[bytes]", streams: list[IO[bytes]], seconds: float) -> list[str]:
    """The texts that a child prints until it ends. TimeoutExpired or OverflowError if they are too late or too long:
    another machine may be in the hands of others."""
    end, texts = time.monotonic() + seconds, {stream.fileno(): b"" for stream in streams}
    with selectors.DefaultSelector() as selector:
        for number in texts:
            selector.register(number, selectors.EVENT_READ)
        while selector.get_map():
            if time.monotonic() > end:
                raise subprocess.TimeoutExpired(child.args, seconds)
            for key, _ in selector.select(max(end - time.monotonic(), 0)):
                part = os.read(key.fd, 65536)
                texts[key.fd] += part
                if not part:
                    selector.unregister(key.fd)
            if sum(map(len, texts.values())) > MOST_BYTES:
                raise OverflowError
    child.wait(max(end - time.monotonic(), 0))
    return [text.decode("utf-8", "replace") for text in texts.values()]


@dataclasses.dataclass(frozen=True)
class _Sendable:
    """A library of this machine, with a version in use that no run is about to leave."""

    name: str
    library: Library
    stamp: str
    site: Site
    input: Path

    def keep_probes(self, options: Options) -> None:
        """Writes the probes that hold in the version in use: the input may have some for files that are not yet in
        use."""
        path, head = self.library.path(PROBES), f"{_OF}{self.stamp}\n"
        if text_in(path).startswith(head):
            return
        folder, found = self.library.path("sending"), InputFolder(self.input)
        shutil.rmtree(folder, ignore_errors=True)
        folder.mkdir()
        box = sandbox_of(options, self.library, self.site, self.input)
        box.own(folder)

        def work(parent: Parent) -> str:
            lines = self._probes_that_hold(input_by(parent, found), folder / "door")
            (folder / PROBES).write_text(head + "".join(lines), encoding="utf-8")
            return ""

        box.run(Job(work, (folder,), tuple(Lent(root, frozenset({SECRETS})) for root in found.folders())))
        with RootFolder(folder).open((PROBES,)) as file:
            write(path, file.read().decode("utf-8", "replace"))
        shutil.rmtree(folder)

    def _probes_that_hold(self, found: InputFolder, folder: Path) -> Iterator[str]:
        """Yields the lines of the probes of an input that hold in the version in use."""
        current, probes = self.library.path("current"), Probes(found, PROBES)
        if probes.list:
            with FrontDoor(self.site, folder) as door:
                running = door.add_door(self.site.ports, current, NamesFile(self.site, current).path_in(current))
                door.start()
                probes.keep_those_that_hold(probes.links(running))
        return (f"{probe.query}\t{' '.join(probe.targets) or 'none'}\n" for probe in probes.list)


def _sendable(options: Options) -> list[_Sendable]:
    """The libraries that this machine can send."""
    libraries = Libraries(options.library, options.site)
    every = []
    if libraries.has_one_alone() or options.input:
        every.append(_sendable_of(ALONE, options.library, Site(options.site), options.input))
    for name in libraries.names():
        every.append(_sendable_of(name, libraries.path(name), Site(libraries.path(name, SITE), options.site)))
    return [sendable for sendable in every if sendable]


def _sendable_of(name: str, folder: Path, site: Site, input: Path | None = None) -> _Sendable | None:
    """The library in a folder, or None if it has no version in use, or a run is about to leave it."""
    library = Library(folder)
    stamp = library.current()
    if not stamp or library.is_unsettled():
        return None
    return _Sendable(name, library, stamp, site, input or library.path("input"))


@dataclasses.dataclass(eq=False)
class Machine:
    """Another machine. `folder` is that of its libraries, and `drained` the seconds until it has no readers."""

    host: str
    shell: str
    there: str
    folder: Path
    drained: float
    delivery: str = ""
    has_free_key: bool = False  # whether the maker's key may do there what it likes
    stamps: dict[str, str] = dataclasses.field(default_factory=dict)  # of the versions in use, by library

    def request(self, *words: str, seconds: float = SECONDS_TO_ASK) -> str:
        """Has it carry out a request of taking.py. Returns what it prints."""
        return run([*shlex.split(self.shell), self.host, f"{self._take()} {shlex.join(words)}"], seconds)

    def _take(self) -> str:
        return shlex.join([*shlex.split(self.there), "--take"])

    def ask(self) -> None:
        """Asks for its delivery and the versions in use. What is no name of one counts as none."""
        self.delivery, self.has_free_key, self.stamps = "", False, {}
        for line in self.request("state").splitlines():
            name, _, text = line.partition(" ")
            stamp = text.removeprefix("versions/")
            if (name, text) == ("key", "free"):
                self.has_free_key = True
            if not is_stamp(stamp):
                continue
            if name == "delivery" and stamp == text:
                self.delivery = stamp
            elif stamp != text:
                self.stamps[name] = stamp

    def bring(self, lacking: list[_Sendable]) -> None:
        """Brings the versions that it lacks, while it has no readers, and the files that libraries share. A Failure has
        what it says."""
        for sendable in lacking:
            self._send(sendable)
        self.request("drain")
        time.sleep(self.drained)
        faults = []
        for sendable in lacking:
            try:
                self._receive(sendable)
            except Failure as failure:
                faults.append(str(failure))
        self.request("end-drain")
        if (self.folder / SHARED).is_dir():
            self._copy(f"{self.folder / SHARED}/", f"{SHARED}/", *_NOT_SENT)
        if faults:
            raise Failure("\n".join(faults))

    def name_delivery(self, stamp: str) -> None:
        self.request("name", stamp)

    def _copy(self, source: str, target: str, *options: str) -> None:
        """Copies folders and plain files to a place below its folder of libraries."""
        words = ["rsync", "-rt", "--delete", "--mkpath", "--timeout=60", f"--rsync-path={self._take()} rsync"]
        words += ["-e", self.shell, *options]
        run([*words, source, f"{self.host}:{target}"], _SECONDS_TO_SEND)

    def _send(self, sendable: _Sendable) -> None:
        """Sends a version and its probes, which changes nothing for readers."""
        name, stamp = sendable.name, sendable.stamp
        bases = [stamp] + ([self.stamps[name]] if name in self.stamps else [])
        to = f"{name}/versions/{stamp}"
        self._copy(f"{sendable.library.version(stamp)}/", f"{to}.sent/", *(f"--link-dest=../{it}" for it in bases))
        self._copy(str(sendable.library.path(PROBES)), f"{to}.probes")

    def _receive(self, sendable: _Sendable) -> None:
        """Has it put a version in use, and then sends the input, from which it could make versions itself."""
        self.request("drain")
        name = sendable.name
        self.request("receive", name, sendable.stamp, seconds=_SECONDS_TO_RECEIVE)
        report(f"{self.host}: {'' if name == ALONE else f'{name}: '}{sendable.stamp} is in use")
        if os.path.isdir(sendable.input):
            self._copy(f"{sendable.input}/", f"{name}/input/", *_NOT_SENT)


class Delivery:
    """What this machine sends to others."""

    def __init__(self, options: Options) -> None:
        self._path, self._options = options.library / "delivery", options

    def run(self) -> int:
        """Brings each machine what it lacks, and names the delivery. Returns the exit status."""
        options, folder = self._options, Path(os.path.abspath(self._options.library))
        with open(f"{self._path}.lock", "a") as lock:
            fcntl.flock(lock, fcntl.LOCK_EX)
            libraries = _sendable(options)
            for sendable in libraries:
                sendable.keep_probes(options)
            machines = [Machine(host, options.shell, options.there, folder, options.drained) for host in options.to]
            complete = [
                machine
                for machine in machines
                if does(machine, lambda each: self.complete(each, libraries, not options.send))
            ]
            versions = "".join(f"{sendable.name} {sendable.stamp}\n" for sendable in libraries)
            named = self._name(complete, versions)
        missed = [machine.host for machine in machines if machine not in named]
        if missed:
            report(f"missed by {', '.join(missed)}, which get no readers until they have it")
        return KEPT if missed else ALL_NEW

    @staticmethod
    def complete(machine: Machine, libraries: list[_Sendable], is_told: bool = False) -> None:
        """Sends a machine the versions that it lacks. Says whether the key may do too much there, if that is told."""
        machine.ask()
        if machine.has_free_key and is_told:
            report(f"{machine.host}: the key may run any command there: write {_FORCED} before it in authorized_keys")
        lacking = [sendable for sendable in libraries if machine.stamps.get(sendable.name) != sendable.stamp]
        if lacking:
            machine.bring(lacking)

    def _name(self, machines: list[Machine], versions: str) -> list[Machine]:
        """Tells the machines that have all versions the name of the delivery, a new one if the versions are new. Then
        this machine has it, whose health page tells the balancer. Returns the machines that have it."""
        named, _, before = text_in(self._path).partition("\n")
        is_old = before == versions and is_stamp(named)
        older = filter(is_stamp, [named, *(machine.delivery for machine in machines)])
        stamp = named if is_old else stamp_after(older)
        having = [
            machine
            for machine in machines
            if machine.delivery == stamp or does(machine, lambda each: each.name_delivery(stamp))
        ]
        if stamp != named:
            write(self._path, f"{stamp}\n{versions}")
            report(f"delivery {stamp}: {', '.join(['this machine', *(machine.host for machine in having)])}")
        return having


def does(machine: Machine, step: Callable[[Machine], None]) -> bool:
    """Whether a step with a machine succeeds. Whatever goes wrong is the fault of this machine alone."""
    try:
        step(machine)
        return True
    except Failure as failure:
        report(f"{machine.host}: {failure}")
    except Exception as error:
        report(f"{machine.host}: {type(error).__name__}: {line_of(str(error))}")
    return False


def deliver(options: Options, status: int) -> int:
    """Sends what is in use to the machines of --to, however the updates have ended. Returns the exit status of the
    whole run. A signal may end it at any time: what is half sent is not used."""
    if not options.to:
        return status
    reset_signals()
    try:
        sent = Delivery(options).run()
    except Failure as failure:
        report(f"nothing was sent: {failure}", "stderr")
        sent = failure.status
    return max(status, sent)
