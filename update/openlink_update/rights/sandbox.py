"""Runs a function as the user of a library, in a process of its own and within limits. What runs as root stays beside:
it lends files, watches the limits, and takes one text as the result.

Where the update does not run as root there is no other user, and the function is called as it is."""
import contextlib
import dataclasses
import gc
import os
import select
import signal
import socket
import stat
import sys
import time
from collections.abc import Callable, Iterator, Sequence
from pathlib import Path
from typing import BinaryIO, Protocol

from openlink_update import run_notes
from openlink_update.input_files import InputFolder
from openlink_update.outcome import DEVICE, Failure, Unreadable, reset_signals
from openlink_update.rights import library_user
from openlink_update.rights.lent_files import MOST_MESSAGE, Lender, Lent, LentFolder
from openlink_update.rights.library_user import LibraryUser
from openlink_update.rights.limits import DiskLimit, Limits
from openlink_update.root_folder import MOST_BYTES, RootFolder
from openlink_update.shown_text import line_of, report

_MOST_RESULT = 30_000  # characters
_SHARE = 20  # of the time, one part may go to looking at the disk
_SECONDS_TO_SEND, _PAUSE_TO_END = 10, 0.01  # for a child to take a reply, or to end
_MOST_FILES = 100  # of a table that is shared
_RESULT, _FAULT, _PAUSE, _SHARED, _GO, _NOTE = b"R", b"F", b"P", b"S", b"G", b"N"
_FILTERED, _REFUSED = b"L", b"X"


class Parent(Protocol):
    """What a function that is run so has of the process that runs it."""

    def lent(self, root: RootFolder) -> RootFolder:
        """A folder whose files it may read by the rights of that process."""

    def pause(self) -> None:
        """Waits until that process has done its part."""

    def prepared(self, files: Sequence[tuple[str, bytes]]) -> bytes | None:
        """What that process has of a table that is shared."""

    def filtered(self, name: str, data: bytes) -> bytes:
        """What a filter gives for the bytes of a file. Unreadable says why it gives nothing."""


_Work = Callable[[Parent], str]


def input_by(parent: Parent, folder: InputFolder) -> InputFolder:
    """An input folder whose files are lent."""
    return folder.by([parent.lent(root) for root in folder.folders()])


def _nothing() -> None:
    """The part of a process that has none."""


def _none(_: Sequence[tuple[str, bytes]]) -> int | None:
    """The descriptor of a table where none is shared."""
    return None


def no_filter(name: str, data: bytes) -> bytes:
    """What a filter gives where none may run."""
    raise Unreadable("none may run here")


@dataclasses.dataclass(frozen=True)
class Job:
    """What is run, the folders that it writes to, and those that are lent; what root does when the function pauses,
    whether it may use the network, and how root finds a shared table, and has a filter run."""

    work: _Work
    written: tuple[Path, ...] = ()
    lent: tuple[Lent, ...] = ()
    at_pause: Callable[[], None] = _nothing
    has_network: bool = True
    shared: Callable[[Sequence[tuple[str, bytes]]], int | None] = _none
    filtered: Callable[[str, bytes], bytes] = no_filter


class _Itself:
    """The process itself, where there is no other user."""

    def __init__(self, job: Job) -> None:
        self._job = job

    def lent(self, root: RootFolder) -> RootFolder:
        return root

    def pause(self) -> None:
        self._job.at_pause()

    def prepared(self, files: Sequence[tuple[str, bytes]]) -> bytes | None:
        return None

    def filtered(self, name: str, data: bytes) -> bytes:
        return self._job.filtered(name, data)


class _Root:
    """The process of root, for the child."""

    def __init__(self, job: Job, peer: socket.socket) -> None:
        self._job, self._peer = job, peer

    def lent(self, root: RootFolder) -> RootFolder:
        for number, lent in enumerate(self._job.lent):
            if lent.root.path == root.path:
                return LentFolder(root.path, number, self._peer)
        return root

    def pause(self) -> None:
        self._peer.send(_PAUSE)
        if self._peer.recv(1) != _GO:
            raise Failure("the run has ended", DEVICE)

    def prepared(self, files: Sequence[tuple[str, bytes]]) -> bytes | None:
        if len(files) > _MOST_FILES or sum(len(data) for _, data in files) > MOST_BYTES:
            return None
        with contextlib.ExitStack() as stack:
            copies = [stack.enter_context(_copy_of(data)) for _, data in files]
            names = os.fsencode("\0".join(path for path, _ in files))
            socket.send_fds(self._peer, [_SHARED + names], [copy.fileno() for copy in copies])
            reply, lent, _, _ = socket.recv_fds(self._peer, MOST_MESSAGE, 1)
        if not reply:
            raise Failure("the run has ended", DEVICE)
        for descriptor in lent:
            with open(descriptor, "rb") as file:
                return file.read()
        return None

    def filtered(self, name: str, data: bytes) -> bytes:
        with _copy_of(data) as copy:
            socket.send_fds(self._peer, [_FILTERED + name.encode()], [copy.fileno()])
            reply, lent, _, _ = socket.recv_fds(self._peer, MOST_MESSAGE, 1)
        if not reply:
            raise Failure("the run has ended", DEVICE)
        for descriptor in lent:
            with open(descriptor, "rb") as file:
                file.seek(0)
                return file.read()
        raise Unreadable(reply[1:].decode("utf-8", "replace"))


def _copy_of(data: bytes) -> BinaryIO:
    """A file in memory with these bytes."""
    file = open(os.memfd_create("openlink"), "w+b")
    file.write(data)
    file.flush()
    return file


class Sandbox:
    def __init__(self, user: LibraryUser | None, limits: Limits) -> None:
        """Without a user, functions are called as they are."""
        self._user, self._limits = user, limits

    def own(self, folder: Path) -> None:
        """Gives a folder to the user, who writes in it."""
        if self._user:
            os.chown(folder, self._user.number, self._user.number)

    def longer(self, times: int) -> "Sandbox":
        """The same, with several times the time."""
        return Sandbox(self._user, dataclasses.replace(self._limits, seconds=self._limits.seconds * times))

    def other(self, folder: Path, name: str, limits: Limits | None = None) -> "Sandbox":
        """That of another user, with the same limits unless others are given. A Failure if none is free."""
        user = library_user.claim(folder, name)
        if user is None:
            raise Failure("no user is free", DEVICE)
        return Sandbox(user, limits or self._limits)

    @property
    def number(self) -> int | None:
        return self._user.number if self._user else None

    def run(self, job: Job) -> str:
        """The text that the function returns. A Failure says what ended it."""
        if self._user is None:
            return job.work(_Itself(job))
        ours, theirs = socket.socketpair(socket.AF_UNIX, socket.SOCK_SEQPACKET)
        parent, child = os.getpid(), os.fork()
        if child == 0:
            _be_child(self._user, self._limits, job, theirs, parent)
        theirs.close()
        ours.settimeout(_SECONDS_TO_SEND)
        try:
            return self._served(job, ours, child)
        finally:
            ours.close()
            self._user.end_all()
            with contextlib.suppress(ChildProcessError):
                os.waitpid(child, 0)

    def _served(self, job: Job, peer: socket.socket, child: int) -> str:
        """Does what the child asks for until it has a result."""
        lender, clock = Lender(job.lent), _Clock(time.monotonic() + self._limits.seconds)
        disk = DiskLimit(self._limits, job.written)
        for _ in _moments(peer, clock, disk):
            message, sent = _received(peer)
            try:
                match message[:1]:
                    case b"":
                        raise self._fault_of(child)
                    case kind if kind == _RESULT:
                        return message[1:].decode("utf-8", "replace")
                    case kind if kind == _FAULT:
                        raise _failure_of(message[1:], self._limits)
                    case kind if kind == _PAUSE:
                        begun = time.monotonic()
                        job.at_pause()
                        clock.end += time.monotonic() - begun  # the restarts of processes have limits of their own
                        _send(peer, _GO)
                    case kind if kind == _NOTE:
                        note, _, text = message[1:].decode("utf-8", "replace").partition("\0")
                        run_notes.note(note, text)
                    case kind if kind == _SHARED:
                        files = _files_of(message[1:], sent)
                        found = job.shared(files) if files else None
                        _send(peer, _GO, [] if found is None else [found])
                    case kind if kind == _FILTERED:
                        begun = time.monotonic()
                        _send(peer, *_filtered_by(job, message[1:], sent))
                        clock.end += time.monotonic() - begun  # a filter has limits of its own
                    case _:
                        _send(peer, *lender.answer(message, sent))
            finally:
                _close(sent)
        raise disk.fault() or self._limits.out_of_time()

    def _fault_of(self, child: int) -> Failure:
        """Why a child has ended without a result, or says nothing more."""
        end = time.monotonic() + _SECONDS_TO_SEND
        while not (ended := os.waitpid(child, os.WNOHANG))[0]:
            if time.monotonic() > end:
                return Failure("it says nothing more, so it was ended", DEVICE)
            time.sleep(_PAUSE_TO_END)
        code = os.waitstatus_to_exitcode(ended[1])
        what = f"the signal {signal.Signals(-code).name}" if code < 0 else f"status {code}"
        return Failure(f"it was ended by {what}", DEVICE)


def _files_of(names: bytes, descriptors: Sequence[int]) -> list[tuple[str, bytes]]:
    """The files of a table that a child has sent; none if they are no files, or too large together. Their bytes are
    not looked at."""
    states = [os.fstat(descriptor) for descriptor in descriptors]
    if not all(stat.S_ISREG(it.st_mode) for it in states) or sum(it.st_size for it in states) > MOST_BYTES:
        return []
    found = []
    for name, descriptor, state in zip(os.fsdecode(names).split("\0"), descriptors, states):
        with open(os.dup(descriptor), "rb") as file:
            file.seek(0)
            found.append((name, file.read(state.st_size)))
    return found


def _filtered_by(job: Job, name: bytes, sent: Sequence[int]) -> tuple[bytes, list[int]]:
    """The reply to a child that has sent a file to be filtered. Nothing of its bytes is looked at."""
    files = _files_of(name, sent)
    try:
        if len(files) != 1:
            raise Unreadable("no file came to be filtered")
        with _copy_of(job.filtered(*files[0])) as copy:
            return _GO, [os.dup(copy.fileno())]
    except Unreadable as fault:
        text = str(fault)
    except OSError as fault:
        text = f"{fault.filename or 'a file'}: {fault.strerror}"
    return _REFUSED + line_of(text).encode("utf-8", "replace"), []


def _received(peer: socket.socket) -> tuple[bytes, list[int]]:
    """A message and its descriptors; nothing if the child has ended."""
    try:
        message, sent, _, _ = socket.recv_fds(peer, MOST_MESSAGE, _MOST_FILES)
    except ConnectionError:
        return b"", []
    return message, sent


def _send(peer: socket.socket, message: bytes, lent: Sequence[int] = ()) -> None:
    """Sends a message with descriptors, which are closed here. A Failure if the child does not take it in time. That it
    has ended is seen by its next message."""
    try:
        socket.send_fds(peer, [message], lent)
    except TimeoutError as fault:
        raise Failure("it does not take the replies that it asks for, so it was ended", DEVICE) from fault
    except ConnectionError:
        pass
    finally:
        _close(lent)


def _close(descriptors: Sequence[int]) -> None:
    for descriptor in descriptors:
        os.close(descriptor)


@dataclasses.dataclass
class _Clock:
    """When the time of a child is over."""

    end: float


def _moments(peer: socket.socket, clock: _Clock, disk: DiskLimit) -> Iterator[None]:
    """Yields when the child has sent something, until the time is over or the disk has too much."""
    look_at = time.monotonic()
    while time.monotonic() < clock.end:
        if time.monotonic() >= look_at:
            started = time.monotonic()
            if disk.fault():
                return
            look_at = time.monotonic() + max(1, (time.monotonic() - started) * _SHARE)
        if select.select([peer], [], [], max(min(clock.end, look_at) - time.monotonic(), 0))[0]:
            yield


def _failure_of(message: bytes, limits: Limits) -> Failure:
    """The Failure in a message of a child: a digit, and a text, which is not trusted."""
    if message == b"memory":
        return limits.out_of_memory()
    status = int(message[:1]) if message[:1] in (b"2", b"3", b"4") else DEVICE
    lines = message[1:].decode("utf-8", "replace").split("\n")
    return Failure("\n".join(map(line_of, lines)), status)


def _ignore(_: "sys.UnraisableHookArgs") -> None:
    """Prints nothing."""


def _be_child(user: LibraryUser, limits: Limits, job: Job, peer: socket.socket, parent: int) -> None:
    """What the child does, until it ends."""
    try:
        close_network = None if job.has_network else _closing_network()  # a user without rights may load no module
        reset_signals()
        sys.unraisablehook = _ignore  # out of memory, it would print parts of lines
        gc.freeze()  # or a file that its parent has left could be closed here, by a number that is another's then
        os.setsid()
        null = os.open(os.devnull, os.O_RDONLY)
        os.dup2(null, 0)
        os.closerange(3, peer.fileno())
        os.closerange(peer.fileno() + 1, os.sysconf("SC_OPEN_MAX"))
        with contextlib.suppress(OSError), open("/proc/self/oom_score_adj", "w", encoding="ascii") as file:
            file.write("1000")  # if memory runs out, the kernel ends it before its parent
        limits.apply()
        user.become(parent)
        if close_network is not None:
            close_network()
        run_notes.hear(lambda kind, text: _pass_on(peer, kind, text))
        peer.send(_message_of(job.work, _Root(job, peer)))
    finally:
        os._exit(0)


def _closing_network() -> Callable[[], None]:
    """What closes the network for this process. No fetch loads it."""
    from openlink_update.rights import network_filter

    return network_filter.close


def _pass_on(peer: socket.socket, kind: str, text: str) -> None:
    """Tells root a note, as far as a message has room for it. That it cannot be told is no error of the work."""
    with contextlib.suppress(OSError):
        peer.send((_NOTE + f"{kind}\0{text}".encode("utf-8", "replace"))[: MOST_MESSAGE // 2])


def _message_of(work: _Work, root: _Root) -> bytes:
    """What the child says at its end."""
    try:
        return _RESULT + work(root)[:_MOST_RESULT].encode("utf-8", "replace")
    except MemoryError:
        return _FAULT + b"memory"
    except Failure as failure:
        status, text = failure.status, str(failure)
    except OSError as fault:
        status, text = DEVICE, f"{fault.filename or 'a file'}: {fault.strerror}"
    except Exception as fault:  # a bug in the package: the version before is to be served then too
        status, text = DEVICE, f"{type(fault).__name__}: {fault}"
    return _FAULT + f"{status}{text[:_MOST_RESULT]}".encode("utf-8", "replace")


def of(folder: Path, library: Path, limits: Limits, paths: Sequence[Path]) -> Sandbox:
    """That of the library in a folder, whose user is one of those that another folder keeps apart. Its functions run
    with the rights of this process, and a line says so, if root cannot give them up, or if the user could not read one
    of these paths."""
    if os.geteuid() != 0:
        return Sandbox(None, limits)
    user = library_user.claim(folder, str(library))
    given = filter(None, [os.environ.get("CURL_CA_BUNDLE"), os.environ.get("SSL_CERT_FILE")])
    needed = [*paths, *map(Path, (sys.executable, os.path.dirname(os.__file__), *given))]
    if user is None:
        fault = f"no user is free, or {folder / library_user.LOCK} cannot be written"
    else:
        fault = user.fault([path for path in needed if path.exists()])
    if fault:
        if user:
            user.release()
        report(f"files of providers are read with the rights of root: {fault}")
    return Sandbox(None if fault else user, limits)
