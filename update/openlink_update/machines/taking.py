"""What the maker's key may do on another machine: openlink-update --take. In authorized_keys it is the command of the
key, so sshd runs it in place of whatever the maker asks for, and gives it that text in the environment. A request is

    state                  prints what this machine has
    drain, end-drain       takes the readers away, and gives them back
    name STAMP             names the delivery
    receive NAME STAMP     puts in use the version that was sent to the library; `.` is the one of a machine alone
    rsync --server ..      writes a version, its probes, an input or the shared files

and nothing else. All paths are below the folder of the libraries. rsync makes folders and plain files of this user: no
links, devices, owners or rights that go beyond the umask."""
import dataclasses
import datetime
import os
import re
import shlex

from openlink_update.disk import text_in, write
from openlink_update.machines.libraries import ALONE, SHARED, is_name
from openlink_update.outcome import USAGE, Failure
from openlink_update.shown_text import report
from openlink_update.update_options import Options
from openlink_update.versions.library import STAMP, Library, is_stamp

_WORD, _REQUEST = "--take", "SSH_ORIGINAL_COMMAND"
_DRAINED = datetime.timedelta(minutes=20)  # it ends by itself, if the run is killed
_RSYNC = ("rsync", "--server")
_OF_RSYNC = re.compile(r"-(?:rt|tr)e[0-9]*\.[A-Za-z]*|--delete|--mkpath|--timeout=60|--link-dest=\.\./[0-9TZ]+")
_PLACE = re.compile(r"(\.|[^/]*)/(?:input/|versions/([^/.]*)(?:\.sent/|\.probes))")


def take(options: Options) -> Options | None:
    """Carries out a request. Returns the options of the run that it needs, if it needs one."""
    is_forced = not options.take
    match _requested() if is_forced else options.take:
        case ["state"]:
            _print_state(options, is_forced)
        case ["drain"]:
            _drain(Library(options.library))
        case ["end-drain"]:
            _end_drain(Library(options.library))
        case ["name", stamp] if is_stamp(stamp):
            write(Library(options.library).path("delivery"), f"{stamp}\n")
        case ["receive", name, stamp] if is_stamp(stamp) and _is_library(name):
            names = [] if name == ALONE else [name]
            return dataclasses.replace(options, take=None, receive=stamp, names=names)
        case [*words] if _is_rsync(words):
            os.chdir(options.library)
            os.execvp(words[0], words)
        case words:
            raise Failure(f"--take: this is not for a delivery: {shlex.join(words or [])}", USAGE)
    return None


def _requested() -> list[str]:
    """What the maker asks for, which sshd leaves in the environment. The command itself is not the maker's choice."""
    try:
        words = shlex.split(os.environ.get(_REQUEST, ""))
    except ValueError:
        words = []
    return words[words.index(_WORD) + 1 :] if _WORD in words else words


def _is_library(name: str) -> bool:
    return name == ALONE or is_name(name)


def _is_rsync(words: list[str]) -> bool:
    """Whether this is rsync, as a delivery needs it there: with these options, from nothing, to a place of a
    library."""
    if tuple(words[:2]) != _RSYNC or words[-2:-1] != ["."]:
        return False
    options = shlex.join(words[2:-2]).replace("--link-dest ", "--link-dest=").split(" ")
    return all(map(_OF_RSYNC.fullmatch, options)) and _is_place(words[-1])


def _is_place(path: str) -> bool:
    if path == f"{SHARED}/":
        return True
    found = _PLACE.fullmatch(path)
    return found is not None and _is_library(found[1]) and (found[2] is None or is_stamp(found[2]))


def _print_state(options: Options, is_forced: bool) -> None:
    """The delivery, the version in use of each library, and whether the key may do something else too. A library whose
    last run was killed has no version."""
    report(f"key {'forced' if is_forced else 'free'}")
    folder = options.library
    delivery = text_in(folder / "delivery").partition("\n")[0]
    if delivery:
        report(f"delivery {delivery}")
    for name in (ALONE, *filter(is_name, sorted(os.listdir(folder)))):
        library = Library(folder / name)
        if library.path("current").is_symlink() and not library.is_unsettled():
            report(f"{name} {os.readlink(library.path('current'))}")


def _drain(library: Library) -> None:
    """An empty file is the operator's, and stays."""
    path = library.path("drain")
    if not path.exists() or text_in(path):
        end = datetime.datetime.now(datetime.timezone.utc) + _DRAINED
        write(path, f"{end.strftime(STAMP)}\n")


def _end_drain(library: Library) -> None:
    path = library.path("drain")
    if text_in(path):
        path.unlink()
