"""The one door for the files of an input folder: by it the update and the fetch open whatever they read or write there.
A name is that of a file below the folder, or an absolute path below it or one of some other folders, such as the one
that several libraries share. Neither `..` nor a link leads out of them: others than root write in these folders, and
the update may read what they may not.

Lists have a line for each entry, with tabs between its cells. Empty lines and those that begin with # are skipped. The
lists of a version are read by the same function."""
import dataclasses
import errno
import os
from collections.abc import Callable, Iterable, Iterator, Sequence
from pathlib import Path
from typing import BinaryIO

from openlink_update.outcome import DEVICE, Failure
from openlink_update.root_folder import MOST_BYTES, RootFolder, Unusable

ALLOWED = ".folders"  # after the path of an input folder: the list of other folders that root allows it


@dataclasses.dataclass(frozen=True)
class Line:
    number: int
    cells: list[str]


def lines_in(data: bytes, encoding: str = "utf-8-sig") -> Iterator[Line]:
    """Yields the lines of a list that are not skipped. UnicodeDecodeError if it has another encoding."""
    for number, line in enumerate(data.decode(encoding).split("\n"), 1):
        if line.strip() and not line.startswith("#"):
            yield Line(number, line.rstrip("\r").split("\t"))


def cells_in(path: Path, width: int) -> Iterator[list[str]]:
    """Yields the cells of each line of a list that the update wrote, in which each line has this number of them. A
    Failure names a line that has another."""
    try:
        for line in lines_in(path.read_bytes()):
            if len(line.cells) != width:
                raise Failure(f"{path}: line {line.number}: not {width} cells with tabs between them", DEVICE)
            yield line.cells
    except UnicodeDecodeError as fault:
        raise Failure(f"{path}: not UTF-8", DEVICE) from fault


@dataclasses.dataclass(frozen=True)
class InputFile:
    """The bytes of a file, and what the system said of it before they were read."""

    path: Path
    data: bytes
    mark: os.stat_result
    status: Callable[[], os.stat_result]  # what it says now

    def is_changed(self) -> bool:
        """Whether the file was written to since, and not replaced by another."""
        try:
            now = self.status()
        except OSError:
            return False
        times = [(status.st_size, status.st_mtime_ns) for status in (self.mark, now)]
        return os.path.samestat(self.mark, now) and times[0] != times[1]


class InputFolder:
    def __init__(self, path: str | Path, others: Iterable[Path] = ()) -> None:
        """`others` are the folders of which an absolute path may name a file too."""
        self.path = Path(os.path.abspath(path))
        self._own = RootFolder(self.path)
        self._roots = [self._own, *map(RootFolder, others)]

    def folders(self) -> Sequence[RootFolder]:
        """The folder itself, and the others."""
        return self._roots

    def by(self, folders: Sequence[RootFolder]) -> "InputFolder":
        """The same, whose files are opened by these in place of its own ones."""
        other = InputFolder(self.path)
        other._own, other._roots = folders[0], [*folders]
        return other

    def place(self, *names: str | Path) -> Path:
        return self.path.joinpath(*names)

    def beside(self, suffix: str) -> Path:
        """The path of what belongs to the folder, and stands outside of it: its own one with a suffix."""
        return Path(f"{self.path}{suffix}")

    def _located(self, name: str | Path) -> tuple[RootFolder, tuple[str, ...]]:
        """The folder that has a file, and the components of its path below that. Unusable if none may have it."""
        path = Path("/", os.path.normpath(self.place(name)).lstrip("/"))
        for root in self._roots:
            if path.is_relative_to(root.path):
                return root, path.relative_to(root.path).parts
        text = f"outside of the input: copy it into {self.path}, or as root name its folder in {self.beside(ALLOWED)}"
        raise Unusable(errno.EXDEV, text, str(path))

    def open(self, name: str | Path) -> BinaryIO:
        root, parts = self._located(name)
        return root.open(parts)

    def read(self, name: str | Path, most: int = MOST_BYTES) -> bytes:
        """The bytes of a file, not more than `most`."""
        with self.open(name) as file:
            return file.read(most)

    def file(self, name: str) -> InputFile:
        with self.open(name) as file:
            mark, data = os.fstat(file.fileno()), file.read(MOST_BYTES)
        return InputFile(self.place(name), data, mark, lambda: self.status(name))

    def lines(self, name: str, encoding: str = "utf-8-sig") -> Iterator[Line]:
        return lines_in(self.read(name), encoding)

    def exists(self, name: str) -> bool:
        """Whether there is anything of this name, even if it cannot be read."""
        try:
            self.status(name)
        except OSError:
            return False
        return True

    def status(self, name: str) -> os.stat_result:
        root, parts = self._located(name)
        return root.status(parts)

    def matches(self, pattern: str) -> list[str]:
        """The files that a path with * names, and links, which cannot be read."""
        root, parts = self._located(pattern)
        return list(map(str, root.matches(parts)))

    def replace(self, name: str, data: bytes, mode: int = 0o644) -> None:
        """Gives a file of the folder these bytes, which are on the disk before it gets them by a rename."""
        self._own.replace(self._parts_of(name), data, mode)

    def remove(self, name: str | Path) -> None:
        """Removes a file of the folder, or a folder that is empty, if it exists."""
        self._own.remove(self._parts_of(name))

    def _parts_of(self, name: str | Path) -> tuple[str, ...]:
        """The components of a path below the folder itself."""
        root, parts = self._located(name)
        if root is not self._own or not parts:
            raise Unusable(errno.EXDEV, "not below the input", str(self.place(name)))
        return parts
