"""Files of a version that the one before or another library's has too: they become links to one file, so that their
bytes are on the disk once. No file of a version is ever written to again, so none can change through another name."""
import collections
import filecmp
import itertools
import os
import stat
from collections.abc import Iterable, Iterator
from pathlib import Path

_SHARED = ("received", "tables")  # what other libraries may have too


def files_below(version: str | Path, *parts: str) -> Iterator[str]:
    """The paths of all files in a version, or in some of its folders, relative to it."""
    for part in parts or ("",):
        for folder, _, names in os.walk(os.path.join(version, part)):
            for name in names:
                yield os.path.relpath(os.path.join(folder, name), version)


def _size_of(path: Path) -> int | None:
    """The size of a regular file that is not empty; None otherwise."""
    try:
        return (path.stat().st_size or None) if path.is_file() else None
    except OSError:
        return None


def link(version: str | Path, older: str | Path | None, others: Iterable[str | Path]) -> None:
    """Links the files of a version that is being made: those of targets to other libraries' versions, and all to the
    same names in the one before (None: there is none). Where no link can be made, the file stays as it is."""
    by_size: dict[tuple[str, int], list[Path]] = collections.defaultdict(list)  # by the folder in the version, too
    for other, part in itertools.product(map(Path, others), _SHARED):
        for name in files_below(other, part):
            size = _size_of(other / name)
            if size is not None:
                by_size[part, size].append(other / name)
    for name in files_below(version):
        path = Path(version, name)
        size = _size_of(path)
        if size is None:
            continue
        same = list(by_size[name.split(os.sep)[0], size])  # one file has one mode, and the folders have others
        if older and _size_of(Path(older, name)) == size:
            same.append(Path(older, name))
        any(_replace(path, other) for other in same)


def _replace(path: Path, other: Path) -> bool:
    """Replaces a file by a link to another that has the same bytes. Returns whether both are one file now."""
    try:
        if path.samefile(other):
            return True
        if not filecmp.cmp(path, other, shallow=False):
            return False
        # An earlier release let everybody read what was received.
        os.chmod(other, stat.S_IMODE(path.stat().st_mode & other.stat().st_mode))
        os.link(other, f"{path}.link")
        os.replace(f"{path}.link", path)
        return True
    except OSError:
        return False
