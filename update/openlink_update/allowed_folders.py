"""The other folders of which an input may name files, for example /etc/openlink/input.folders: an absolute path a line.
Only root can allow them, so only a file that nobody else could have written counts. Empty lines and those that begin
with
# are skipped."""
import os
import stat
from pathlib import Path

from openlink_update.input_files import Line, lines_in

_MOST_BYTES = 65_536
_FILE = os.O_RDONLY | os.O_NOFOLLOW | os.O_NONBLOCK | os.O_NOCTTY


def lines_of_root(path: Path) -> tuple[list[Line], list[str]]:
    """The lines of a list that only root could have written, none if there is no list, and why it is not used."""
    try:
        with open(os.open(path, _FILE), "rb") as file:
            if not _is_of_root(os.fstat(file.fileno())):
                return [], [f"{path}: not used, since others may have written it: chown root, chmod 644"]
            data = file.read(_MOST_BYTES + 1)
            if len(data) > _MOST_BYTES:
                return [], [f"{path}: not used: more than {_MOST_BYTES:,} bytes"]
            return list(lines_in(data)), []
    except FileNotFoundError:
        return [], []
    except OSError as fault:
        return [], [f"{path}: not used: {fault.strerror}"]
    except UnicodeDecodeError:
        return [], [f"{path}: not used: not UTF-8"]


def read(path: Path) -> tuple[list[Path], list[str]]:
    """The folders of a list, none if there is no list, and a line for each error in it."""
    lines, faults = lines_of_root(path)
    folders = list[Path]()
    for line in lines:
        folder = line.cells[0].strip()
        if len(line.cells) == 1 and os.path.isabs(folder):
            folders.append(Path(os.path.normpath(folder)))
        else:
            faults.append(f"{path}: line {line.number}: not the absolute path of a folder")
    return folders, faults


def _is_of_root(status: os.stat_result) -> bool:
    """Whether a file is one that only root could have written, or the user of this run, if that is another."""
    is_own = status.st_uid in (0, os.geteuid())
    return is_own and stat.S_ISREG(status.st_mode) and status.st_nlink == 1 and not status.st_mode & 0o022
