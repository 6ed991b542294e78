"""What a version has of each target: rows, the day of its table, slips, and the files that the desk links to."""
import dataclasses
import os
import re
from collections.abc import Iterator
from pathlib import Path

from openlink_update.outcome import Failure
from openlink_update.shown_text import line_of
from openlink_update.tables.parts import base_of
from openlink_update.versions.earlier_files import EarlierFiles
from openlink_update.versions.served import names_in, path_of

_SLIPS = "slips.tsv"
_NAME = re.compile(r"[A-Za-z0-9_.-]{1,64}")
_MOST_SLIPS, _MOST_BYTES, _BLOCK = 1000, 2**22, 2**20
_MOST_EXAMPLE = 120  # characters


@dataclasses.dataclass(frozen=True)
class Slip:
    target: str
    words: str
    count: int
    rows: int
    example: str


@dataclasses.dataclass(frozen=True)
class Target:
    name: str
    parts: tuple[str, ...]
    rows: int
    day: str  # since when it has its table; '' if that is unknown
    sum: str  # of the table, without its walls
    files: tuple[str, ...]  # changes, dropped
    slips: tuple[Slip, ...]


def targets_in(version: Path) -> list[Target]:
    """The targets of a version in the order of its menu."""
    parts: dict[str, list[str]] = {}
    for name in names_in(version):
        if _NAME.fullmatch(name):
            parts.setdefault(base_of(name), []).append(name)
    slips, days = _slips_in(version), _days_in(version)
    return [_target(version, name, of_target, slips, days.get(name, {})) for name, of_target in parts.items()]


def _target(version: Path, name: str, parts: list[str], slips: list[Slip], days: dict[str, str]) -> Target:
    total, day = list(days.items())[-1] if days else ("", "")
    files = tuple(it for it in ("changes", "dropped") if (version / it / f"{name}.txt").is_file())
    rows = sum(_rows_of(version / path_of(part)) for part in parts)
    own = tuple(slip for slip in slips if slip.target == name)
    return Target(name, tuple(parts), rows, line_of(day, 20), line_of(total), files, own)


def _rows_of(path: Path) -> int:
    """The rows of a table, which has a line of names."""
    try:
        with open(path, "rb") as file:
            return max(sum(block.count(b"\n") for block in iter(lambda: file.read(_BLOCK), b"")) - 1, 0)
    except OSError:
        return 0


def _days_in(version: Path) -> dict[str, dict[str, str]]:
    try:
        return EarlierFiles(version).days
    except (Failure, OSError):
        return {}


def _slips_in(version: Path) -> list[Slip]:
    return list(_read_slips(version))[:_MOST_SLIPS]


def _read_slips(version: Path) -> Iterator[Slip]:
    try:
        with open(version / _SLIPS, "rb") as file:
            text = file.read(_MOST_BYTES).decode("utf-8", "replace")
    except OSError:
        return
    for line in text.split("\n"):
        cells = line.split("\t")
        if len(cells) == 5 and all(it.isascii() and it.isdigit() and len(it) < 16 for it in cells[2:4]):
            yield Slip(cells[0], line_of(cells[1]), int(cells[2]), int(cells[3]), line_of(cells[4], _MOST_EXAMPLE))


def rules_of(version: Path, name: str, most: int) -> tuple[list[str], bool] | None:
    """The lines of a target's rules, and whether the file has more than this number; None if it has a code file."""
    path = version / f"received/{name}.rules"
    try:
        with open(path, "rb") as file:
            data, size = file.read(_MOST_BYTES), os.fstat(file.fileno()).st_size
    except OSError:
        return None
    lines = data.decode("utf-8", "replace").split("\n")
    lines = lines[:-1] if lines[-1] == "" else lines
    return [line_of(line) for line in lines[:most]], len(lines) > most or size > len(data)
