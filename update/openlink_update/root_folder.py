"""A folder in which others may write. Each component of a path below it is opened in the one before, so that neither a
link nor a folder that is renamed meanwhile leads out of it. Files are regular, and have at most MOST_BYTES. A path has
the components below the folder, none of which is `..`."""
import contextlib
import errno
import fnmatch
import glob
import os
import stat
from collections.abc import Callable, Iterator, Sequence
from pathlib import Path
from typing import BinaryIO, TypeVar

_T = TypeVar("_T")
_MOST_MB = 256
MOST_BYTES = _MOST_MB * 2**20  # of a file
_UNFINISHED = ".openlink.new"  # a file that gets its name by a rename
_FOLDER = os.O_RDONLY | os.O_DIRECTORY | os.O_NOFOLLOW
# A pipe that nobody writes to is opened at once, and then refused.
_FILE = os.O_RDONLY | os.O_NOFOLLOW | os.O_NONBLOCK | os.O_NOCTTY
_ENTRY = os.O_PATH | os.O_NOFOLLOW
_NEW = os.O_WRONLY | os.O_CREAT | os.O_EXCL | os.O_NOFOLLOW


class Unusable(OSError):
    """A path or a file that no input may have. Its text says what to do instead."""


def _is_link(name: str, folder: int) -> bool:
    try:
        return stat.S_ISLNK(os.lstat(name, dir_fd=folder).st_mode)
    except OSError:
        return False


def _fault_in(file: int, path: Path) -> OSError | None:
    """Why an open file cannot be used."""
    status = os.fstat(file)
    if stat.S_ISDIR(status.st_mode):
        return IsADirectoryError(errno.EISDIR, os.strerror(errno.EISDIR), str(path))
    if not stat.S_ISREG(status.st_mode):
        return Unusable(errno.EINVAL, "not a regular file", str(path))
    if status.st_size > MOST_BYTES:
        return Unusable(errno.EFBIG, f"more than {_MOST_MB} MB", str(path))
    return None


def _used(descriptor: int, use: Callable[[int], _T]) -> _T:
    """What an open descriptor tells, which is closed then."""
    try:
        return use(descriptor)
    finally:
        os.close(descriptor)


class RootFolder:
    def __init__(self, path: Path) -> None:
        """The path itself may have links: whoever names the folder is trusted."""
        self.path = path

    def place(self, parts: Sequence[str]) -> Path:
        return self.path.joinpath(*parts)

    @contextlib.contextmanager
    def _faults(self, parts: Sequence[str]) -> Iterator[None]:
        """Errors name the whole path."""
        try:
            yield
        except Unusable:
            raise
        except ValueError as fault:
            raise Unusable(errno.EINVAL, "not a name of a file", str(self.place(parts))) from fault
        except OSError as fault:
            raise OSError(fault.errno, fault.strerror, str(self.place(parts))) from fault

    def _opened(self, parts: Sequence[str], flags: int, above: int) -> int:
        """Opens the last component of a path in the folder above it. Unusable if it is a link."""
        try:
            return os.open(parts[-1], flags, dir_fd=above)
        except OSError as fault:
            if fault.errno in (errno.ELOOP, errno.ENOTDIR) and _is_link(parts[-1], above):
                text = f"{'/'.join(parts)} is a link, and none is followed: put what it leads to in its place"
                raise Unusable(errno.ELOOP, text, str(self.place(parts))) from fault
            raise

    @contextlib.contextmanager
    def _parent(self, parts: Sequence[str], makes: bool = False) -> Iterator[int]:
        """The folder of a path while it is open, as a descriptor. `makes` makes folders that do not exist."""
        with self._faults(parts):
            folder = os.open(self.path, os.O_RDONLY | os.O_DIRECTORY)
            try:
                for number, part in enumerate(parts[:-1], 1):
                    if makes:
                        with contextlib.suppress(FileExistsError):
                            os.mkdir(part, dir_fd=folder)
                    above, folder = folder, self._opened(parts[:number], _FOLDER, folder)
                    os.close(above)
                yield folder
            finally:
                os.close(folder)

    def file(self, parts: Sequence[str]) -> int:
        """A descriptor of a file to read. Unusable if it is not regular, or too large."""
        with self._parent(parts) as folder:
            file = self._opened(parts or ["."], _FILE, folder)
        fault = _fault_in(file, self.place(parts))
        if fault:
            os.close(file)
            raise fault
        return file

    def entry(self, parts: Sequence[str]) -> int:
        """A descriptor of a file, or of a link itself, which tells what the system says of it, and nothing else."""
        with self._parent(parts) as folder:
            return os.open(parts[-1] if parts else ".", _ENTRY, dir_fd=folder)

    def listing(self, parts: Sequence[str]) -> int:
        """A descriptor of a folder, which tells the names in it."""
        with self._parent((*parts, "")) as folder:
            return os.dup(folder)

    def open(self, parts: Sequence[str]) -> BinaryIO:
        return open(self.file(parts), "rb")

    def status(self, parts: Sequence[str]) -> os.stat_result:
        """What the system says of a file, or of a link itself."""
        return _used(self.entry(parts), os.fstat)

    def names(self, parts: Sequence[str] = ()) -> list[str]:
        """The names in a folder."""
        return _used(self.listing(parts), os.listdir)

    def matches(self, parts: Sequence[str]) -> list[Path]:
        """The paths that a path with * names: those of files, and of links, which cannot be read."""
        found: list[tuple[str, ...]] = [()]
        for number, part in enumerate(parts, 1):
            has_kind = self._may_be_file if number == len(parts) else self._may_be_folder
            paths = [(*above, name) for above in found for name in self._fitting(above, part)]
            found = list(filter(has_kind, paths))
        return [self.place(path) for path in found]

    def _may_be_file(self, path: Sequence[str]) -> bool:
        kind = self.status(path).st_mode
        return stat.S_ISREG(kind) or stat.S_ISLNK(kind)

    def _may_be_folder(self, path: Sequence[str]) -> bool:
        """Whether a path is that of a folder, or of a link to one, which is refused when it is opened."""
        kind = self.status(path).st_mode
        return stat.S_ISDIR(kind) or stat.S_ISLNK(kind) and self.place(path).is_dir()

    def _fitting(self, above: Sequence[str], pattern: str) -> list[str]:
        """The names in a folder that fit a component with *; hidden ones, only if it begins with a dot."""
        with self._faults((*above, pattern)):
            names = self.names(above)
        escaped = "*".join(map(glob.escape, pattern.split("*")))
        return [
            name for name in names if fnmatch.fnmatchcase(name, escaped) and name.startswith(".") <= (pattern[0] == ".")
        ]

    def replace(self, parts: Sequence[str], data: bytes, mode: int) -> None:
        """Gives a file these bytes, which are on the disk before it gets them by a rename."""
        with self._parent(parts, makes=True) as folder:
            with contextlib.suppress(FileNotFoundError):
                os.unlink(_UNFINISHED, dir_fd=folder)
            try:
                with open(os.open(_UNFINISHED, _NEW, 0o600, dir_fd=folder), "wb") as file:
                    file.write(data)
                    file.flush()
                    os.fchmod(file.fileno(), mode)
                    os.fsync(file.fileno())
                os.rename(_UNFINISHED, parts[-1], src_dir_fd=folder, dst_dir_fd=folder)
            except BaseException:
                with contextlib.suppress(FileNotFoundError):
                    os.unlink(_UNFINISHED, dir_fd=folder)
                raise
            os.fsync(folder)

    def remove(self, parts: Sequence[str]) -> None:
        """Removes a file, or a folder that is empty, if it exists."""
        with contextlib.suppress(FileNotFoundError), self._parent(parts) as folder:
            try:
                os.unlink(parts[-1], dir_fd=folder)
            except IsADirectoryError:
                os.rmdir(parts[-1], dir_fd=folder)
