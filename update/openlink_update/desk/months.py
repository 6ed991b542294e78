"""The counts of a library by month. Logs are kept for days only, so what rotated files hold is added to the counts that
are stored, once for each file; the log that nginx writes to is counted again each time, and not stored."""
import dataclasses
import zlib
from collections import Counter
from collections.abc import Iterable, Iterator
from pathlib import Path
from typing import BinaryIO

from openlink_update.counts import log_counts
from openlink_update.counts.log_counts import OTHERS, Row
from openlink_update.desk import logs
from openlink_update.root_folder import RootFolder

_MONTHS = "months.tsv"  # a month, a kind, a name and a number
_COUNTED = "counted.tsv"  # a log, and the time of a rotated file that has been counted
_MOST_MONTHS, _MOST_NAMES = 120, 300  # that are stored, and of each kind in a month that is over
_MOST_NAMES_NOW = 5000  # in the last two months
_MOST_COUNTED = 2000  # files that are remembered
_MOST_BYTES = 64 * 2**20  # of what was stored
_Key = tuple[str, str, str]


@dataclasses.dataclass(frozen=True)
class Months:
    """All counts; and those that are stored, with the files that they are of."""

    rows: list[Row]
    stored: list[Row]
    counted: list[tuple[str, str]]

    def write(self, folder: Path) -> None:
        with open(folder / _MONTHS, "w", encoding="utf-8") as file:
            file.writelines(f"{month}\t{kind}\t{name}\t{number}\n" for month, kind, name, number in self.stored)
        with open(folder / _COUNTED, "w", encoding="utf-8") as file:
            file.writelines(f"{log}\t{mark}\n" for log, mark in self.counted)


def of(state: Path, folders: Iterable[tuple[RootFolder, list[str]]]) -> Months:
    """The counts that a folder has stored, with those of the logs in these folders."""
    stored, counted = _stored_in(state), _counted_in(state)
    now: Counter[_Key] = Counter()
    for folder, names in folders:
        for log in names:
            known = {mark for of_log, mark in counted if of_log == log}
            for name, mark, file in logs.files_of(folder, log):
                if name == log:
                    now.update(_counts_of(file))
                elif mark not in known:
                    stored.update(_counts_of(file))
                    known.add(mark)
                    counted.append((log, mark))
    kept = _bounded(stored)
    return Months(_rows_of(kept + now), _rows_of(kept), counted[-_MOST_COUNTED:])


def _counts_of(file: BinaryIO) -> Counter[_Key]:
    """The counts of a file. One that breaks off is counted up to there."""
    counts = log_counts.Counts()
    try:
        for block in log_counts.blocks_of(file):
            counts.add(block)
    except (OSError, EOFError, zlib.error):
        pass
    return Counter({(month, kind, name): number for month, kind, name, number in counts.rows()})


def _rows_of(counts: Counter[_Key]) -> list[Row]:
    return sorted(((*key, number) for key, number in counts.items()), key=lambda row: (*row[:2], -row[3], row[2]))


def _bounded(counts: Counter[_Key]) -> Counter[_Key]:
    """The counts of the last months. Names that occur least are counted together."""
    months = sorted({key[0] for key in counts})[-_MOST_MONTHS:]
    groups: dict[tuple[str, str], list[tuple[int, str]]] = {}
    for (month, kind, name), number in counts.items():
        groups.setdefault((month, kind), []).append((number, name))
    kept: Counter[_Key] = Counter()
    for (month, kind), names in groups.items():
        if month not in months:
            continue
        most = _MOST_NAMES_NOW if month in months[-2:] else _MOST_NAMES
        for place, (number, name) in enumerate(sorted(names, key=lambda it: (it[1] == OTHERS, -it[0], it[1]))):
            kept[month, kind, name if place < most else OTHERS] += number
    return kept


def _lines_of(path: Path, width: int) -> Iterator[list[str]]:
    """The lines of a file that the desk has written, if they have this number of cells. A damaged one has none."""
    try:
        with open(path, "rb") as file:
            text = file.read(_MOST_BYTES).decode("utf-8", "replace")
    except OSError:
        return
    for line in text.split("\n"):
        cells = line.split("\t")
        if len(cells) == width:
            yield cells


def _stored_in(state: Path) -> Counter[_Key]:
    stored: Counter[_Key] = Counter()
    for month, kind, name, number in _lines_of(state / _MONTHS, 4):
        if number.isascii() and number.isdigit() and len(number) < 16:
            stored[month, kind, name] += int(number)
    return stored


def _counted_in(state: Path) -> list[tuple[str, str]]:
    return [(log, mark) for log, mark in _lines_of(state / _COUNTED, 2)]
