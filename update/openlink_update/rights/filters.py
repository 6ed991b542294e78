"""Programs of a library that change the files of a target before they are prepared. One is a file in the folder
`filters` of the input, which root has allowed by its name in a list beside the input. It reads a file as it
came, and writes what is prepared in its place:

    LIBRARY/filter/program, data    the program, and the file, which root puts there for it
    LIBRARY/filter/out, err         what it writes, and complains of
    LIBRARY/filter/empty/           the folder in which it runs, and the only one that it may write in

It runs as a user of its own, without the network and with hardly a file of the machine, so that neither the bytes of a
provider nor a mistake in it reach another target. Its failure is that of its target."""
import dataclasses
import os
import resource
import signal
import subprocess
from collections.abc import Callable
from pathlib import Path

from openlink_update.allowed_folders import lines_of_root
from openlink_update.input_files import InputFolder
from openlink_update.outcome import Failure, Unreadable
from openlink_update.rights import closed_files, network_filter
from openlink_update.rights.limits import Limits
from openlink_update.rights.sandbox import Job, Parent, Sandbox
from openlink_update.shown_text import line_of

_FOLDER = "filters"  # of an input
_ALLOWED = ".filters"  # after the path of an input: the list of those that root allows
_MB = 2**20
_MOST_SECONDS = 300
_MORE_SECONDS = 30  # after which root ends it, if its own process does not
_MOST_MEMORY = 1024 * _MB
_MOST_PROCESSES = 64
_MOST_GIVEN = 256 * _MB  # bytes that it writes, as a file that comes may have
_MOST_DISK = 1024 * _MB  # bytes in its folder
_MOST_COMPLAINT = 4096  # bytes of what it complains of, of which the first line is said
_MOST_CHARACTERS = 200
_OWN_FOLDER, _OF_ROOT, _PROGRAM, _READ, _WRITTEN = 0o700, 0o711, 0o550, 0o440, 0o620
_PATH = "/usr/local/bin:/usr/bin:/bin"


def limits_in(folder: Path) -> Limits:
    """What a filter may take."""
    return Limits(_MOST_SECONDS + _MORE_SECONDS, _MOST_MEMORY, _MOST_DISK, (folder,), line="", owner="it")


def program_of(folder: InputFolder, name: str) -> bytes:
    """The bytes of a filter. Unreadable if root has not allowed it, or if it is no file."""
    path = folder.beside(_ALLOWED)
    lines, faults = lines_of_root(path)
    if faults:
        raise Unreadable(faults[0])
    if [name] not in ([cell.strip() for cell in line.cells] for line in lines):
        raise Unreadable(f"not allowed: as root, name it in {path}")
    try:
        return folder.read(f"{_FOLDER}/{name}")
    except OSError as fault:
        raise Unreadable(f"{fault.filename or name}: {fault.strerror}") from fault


@dataclasses.dataclass(frozen=True)
class Place:
    """The folder of a run of a filter."""

    folder: Path

    @property
    def empty(self) -> Path:
        return self.folder / "empty"

    def prepare(self, program: bytes, data: bytes, number: int | None) -> None:
        """Puts everything there for the user with a number."""
        self.remove()
        self.folder.mkdir(_OF_ROOT)
        self.empty.mkdir(_OWN_FOLDER)
        for name, content, mode in (
            ("program", program, _PROGRAM),
            ("data", data, _READ),
            ("out", b"", _WRITTEN),
            ("err", b"", _WRITTEN),
        ):
            path = self.folder / name
            path.write_bytes(content)
            path.chmod(mode)
            if number is not None:
                os.chown(path, 0, number)
        if number is not None:
            os.chown(self.empty, number, number)

    def remove(self) -> None:
        """Removes it. What a filter has left may be deeper than Python can go."""
        subprocess.run(["rm", "-rf", "--", self.folder], check=False, stderr=subprocess.DEVNULL)

    def given(self) -> bytes:
        return (self.folder / "out").read_bytes()

    def complaint(self) -> str:
        """The first line of what it complained of, for a line of the mail."""
        with (self.folder / "err").open("rb") as file:
            lines = file.read(_MOST_COMPLAINT).decode("utf-8", "replace").splitlines()
        first = next(filter(str.strip, lines), "")
        return f": {line_of(first, _MOST_CHARACTERS)}" if first else ""

    def run(self, parent: Parent) -> str:
        """Runs the program, as the user. Returns how it ended; '' if all is well."""
        environment = {"PATH": _PATH, "LANG": "C.UTF-8", "HOME": str(self.empty), "TMPDIR": str(self.empty)}
        paths = (self.folder / name for name in ("data", "out", "err"))
        opened = [os.open(path, mode) for path, mode in zip(paths, (os.O_RDONLY, os.O_WRONLY, os.O_WRONLY))]
        try:
            child = subprocess.Popen(
                [self.folder / "program"],
                stdin=opened[0],
                stdout=opened[1],
                stderr=opened[2],
                cwd=self.empty,
                env=environment,
                start_new_session=True,
                preexec_fn=self._close,
            )
        except (OSError, subprocess.SubprocessError) as fault:
            why = fault.strerror if isinstance(fault, OSError) else "the kernel cannot close files to it (Landlock)"
            return f"it cannot be started: {why}"
        finally:
            for descriptor in opened:
                os.close(descriptor)
        try:
            code = child.wait(_MOST_SECONDS)
        except subprocess.TimeoutExpired:
            return f"no end within {_MOST_SECONDS // 60} minutes"
        finally:
            _end(child)
        return _how(code)

    def _close(self) -> None:
        """Before the program begins: sets its limits, and closes the network and files."""
        for kind, most in (
            (resource.RLIMIT_FSIZE, _MOST_GIVEN + 1),
            (resource.RLIMIT_NPROC, _MOST_PROCESSES),
            (resource.RLIMIT_AS, _MOST_MEMORY),
            (resource.RLIMIT_CORE, 0),
        ):
            hard = resource.getrlimit(kind)[1]
            most = most if hard == resource.RLIM_INFINITY else min(most, hard)
            resource.setrlimit(kind, (most, most))
        network_filter.close()
        closed_files.close([self.folder / "program"], self.empty)


def _end(child: "subprocess.Popen[bytes]") -> None:
    """Ends a child and those that it started in its session; the others end with its user."""
    try:
        os.killpg(child.pid, signal.SIGKILL)
    except ProcessLookupError:
        pass
    child.wait()


def _how(code: int) -> str:
    if code < 0:
        return f"ended by {signal.Signals(-code).name}"
    return f"status {code}" if code else ""


def filtered(place: Place, program: bytes, data: bytes, user: Sandbox) -> bytes:
    """What a program gives for the bytes of a file. Unreadable if it fails, or gives nothing or too much."""
    try:
        place.prepare(program, data, user.number)
        fault = user.run(Job(place.run, (place.empty,), has_network=False))
        given = place.given()
        if len(given) > _MOST_GIVEN:
            raise Unreadable(f"it gave more than {_MOST_GIVEN // _MB} MB")
        if fault:
            raise Unreadable(f"{fault}{place.complaint()}")
        if not given.strip():
            raise Unreadable(f"it gave nothing{place.complaint()}")
        return given
    except Failure as failure:
        raise Unreadable(str(failure)) from failure
    except OSError as fault_of_disk:
        raise Unreadable(f"{fault_of_disk.filename or place.folder}: {fault_of_disk.strerror}") from fault_of_disk
    finally:
        place.remove()


Filter = Callable[[str, bytes], bytes]  # by the name of a filter and the bytes of a file: what it gives
