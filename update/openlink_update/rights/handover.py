"""Root takes over what a library's user has made, once no process of that user lives: only folders and plain files that
belong to the user and have one name. Nothing of their content is read."""
import os
import stat
from pathlib import Path

from openlink_update.outcome import DEVICE, Failure
from openlink_update.shown_text import line_of

_FOLDER, _FILE, _OF_ROOT, _OF_OTHERS = 0o755, 0o644, 0o600, 0o044


def _check(status: os.stat_result, path: str, number: int, is_kind: bool) -> None:
    if not is_kind or status.st_uid != number or stat.S_ISREG(status.st_mode) and status.st_nlink != 1:
        raise Failure(f"{line_of(path)}: not a file or folder that this run has made", DEVICE)


def take(folder: Path, number: int) -> None:
    """Takes a folder that the user with this number has filled. All may read its files but those that only the user
    could, which only root may. A Failure names what cannot be taken."""
    for path, folders, files, opened in os.fwalk(folder, onerror=_raise):
        for name in folders:
            status = os.stat(name, dir_fd=opened, follow_symlinks=False)
            _check(status, os.path.join(path, name), number, stat.S_ISDIR(status.st_mode))
        for name in files:
            status = os.stat(name, dir_fd=opened, follow_symlinks=False)
            _check(status, os.path.join(path, name), number, stat.S_ISREG(status.st_mode))
            os.chown(name, 0, 0, dir_fd=opened, follow_symlinks=False)
            os.chmod(name, _FILE if status.st_mode & _OF_OTHERS else _OF_ROOT, dir_fd=opened)
        os.fchown(opened, 0, 0)
        os.fchmod(opened, _FOLDER)


def _raise(fault: OSError) -> None:
    raise fault
