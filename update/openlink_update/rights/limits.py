"""The limits of what a library's user may take: time, memory, processes, and bytes on the disk. So a library that takes
too much ends alone, and the next one of the machine has its turn."""
import dataclasses
import os
import resource
from collections.abc import Iterable, Iterator
from pathlib import Path

from openlink_update.outcome import DEVICE, Failure

MINUTES = 45  # for each of its steps: making a version, and trying it; the fetch has twice as many
MEMORY_MB = 3584  # of a process, below what the units allow all processes
_MOST_PROCESSES = 256
_MB = 2**20
_BLOCK = 512  # bytes, in which the system counts
_MOST_ADDED = 20 * 2**30  # bytes that a step may add, if the site has no line for the library


class Exceeded(Failure):
    """A step has ended because it went beyond one of its limits."""

    def __init__(self, text: str) -> None:
        super().__init__(text, DEVICE)


@dataclasses.dataclass(frozen=True)
class Limits:
    seconds: float = MINUTES * 60
    memory: int = MEMORY_MB * _MB
    disk: int | None = None  # bytes of the library's folders, if its site has a line
    folders: tuple[Path, ...] = ()  # that these are in
    line: str = "$openlink_disk"  # where the site says so; "" if nothing does
    owner: str = "the library"

    def apply(self) -> None:
        """Sets those that the system keeps, for this process and its children."""
        for number, most in (
            (resource.RLIMIT_AS, self.memory),
            (resource.RLIMIT_NPROC, _MOST_PROCESSES),
            (resource.RLIMIT_CORE, 0),
        ):
            hard = resource.getrlimit(number)[1]
            most = most if hard == resource.RLIM_INFINITY else min(most, hard)
            resource.setrlimit(number, (most, most))

    def out_of_time(self) -> Exceeded:
        return Exceeded(f"no end within {self.seconds / 60:g} minutes, so it was ended")

    def out_of_memory(self) -> Exceeded:
        return Exceeded(f"it needs more than {self.memory // _MB:,} MB of memory: --memory allows more")


def _entries_below(folder: str | Path) -> Iterator[os.stat_result]:
    waiting = [os.fspath(folder)]
    while waiting:
        try:
            with os.scandir(waiting.pop()) as entries:
                for entry in entries:
                    yield entry.stat(follow_symlinks=False)
                    if entry.is_dir(follow_symlinks=False):
                        waiting.append(entry.path)
        except OSError:
            continue  # it is gone


def _bytes_in(folders: Iterable[Path]) -> int:
    """The bytes of all files below folders, while others may write there. One with several names counts once."""
    sizes: dict[tuple[int, int], int] = {}
    for folder in folders:
        for status in _entries_below(folder):
            sizes[status.st_dev, status.st_ino] = status.st_blocks * _BLOCK
    return sum(sizes.values())


class DiskLimit:
    """The limit of the disk, while a step writes to some folders."""

    def __init__(self, limits: Limits, written: tuple[Path, ...]) -> None:
        self._limits, self._written = limits, written
        begun = _bytes_in(written)
        others = max(_bytes_in(limits.folders) - begun, 0)
        self._most = begun + _MOST_ADDED if limits.disk is None else limits.disk - others

    def fault(self) -> Exceeded | None:
        """What is wrong now, or None."""
        if _bytes_in(self._written) <= self._most:
            return None
        if self._limits.disk is None:
            text = f"it writes more than {_MOST_ADDED // _MB:,} MB"
        else:
            text = f"{self._limits.owner} has more than {self._limits.disk // _MB:,} MB on the disk"
        more = f": {self._limits.line} allows more" if self._limits.line else ""
        return Exceeded(f"{text}, so it was ended{more}")
