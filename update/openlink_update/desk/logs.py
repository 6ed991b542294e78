"""The logs of one library, which only root may open. A file that was rotated is known again by the time at which it was
last written, which its name and its compression do not change."""
import errno
import gzip
import io
import os
import re
import stat
from collections.abc import Iterator, Sequence
from pathlib import Path
from typing import TYPE_CHECKING, BinaryIO

from openlink_update.root_folder import RootFolder, Unusable

if TYPE_CHECKING:
    from _typeshed import WriteableBuffer

_SUFFIX = re.compile(r"([.-]\d{1,10})?(\.gz)?", re.A)
_MOST_FILES = 1000  # of one log


def _is_of(name: str, log: str) -> bool:
    """Whether a name is that of a log, or of one of its rotated files."""
    return name.startswith(log) and _SUFFIX.fullmatch(name.removeprefix(log)) is not None


class LogFolder(RootFolder):
    """A folder with logs, of which those with some names and their rotated files are read, however large they are."""

    def __init__(self, path: Path, logs: Sequence[str]) -> None:
        super().__init__(path)
        self._logs = tuple(logs)

    def file(self, parts: Sequence[str]) -> int:
        if len(parts) != 1 or not any(_is_of(parts[0], log) for log in self._logs):
            raise PermissionError(errno.EACCES, os.strerror(errno.EACCES), str(self.place(parts)))
        file = os.open(self.path / parts[0], os.O_RDONLY | os.O_NOFOLLOW | os.O_NONBLOCK | os.O_NOCTTY)
        if not stat.S_ISREG(os.fstat(file).st_mode):
            os.close(file)
            raise Unusable(errno.EINVAL, "not a regular file", str(self.place(parts)))
        return file


def folders_of(paths: Sequence[Path]) -> list[tuple[LogFolder, list[str]]]:
    """The folders of logs, each with the names of those in it."""
    names: dict[Path, list[str]] = {}
    for path in paths:
        names.setdefault(path.parent, []).append(path.name)
    return [(LogFolder(folder, logs), logs) for folder, logs in names.items()]


class _Plain(io.RawIOBase):
    """What a compressed file holds."""

    def __init__(self, file: BinaryIO) -> None:
        self._file = gzip.GzipFile(fileobj=file)

    def readable(self) -> bool:
        return True

    def readinto(self, buffer: "WriteableBuffer") -> int:
        return self._file.readinto(buffer)


def files_of(folder: RootFolder, log: str) -> Iterator[tuple[str, str, BinaryIO]]:
    """Yields the files of a log, each open once, with its name and the time that it is known by. What cannot be opened
    is left out."""
    try:
        names = sorted(name for name in folder.names() if _is_of(name, log))
    except OSError:
        return
    for name in names[:_MOST_FILES]:
        try:
            descriptor = folder.file((name,))
        except OSError:
            continue
        with open(descriptor, "rb") as file:
            mark = str(int(os.fstat(descriptor).st_mtime))
            if name.endswith(".gz"):
                yield name, mark, io.BufferedReader(_Plain(file))
            else:
                yield name, mark, file
