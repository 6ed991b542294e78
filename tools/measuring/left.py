"""Counts what no test runs, without what left.tsv lists with a reason."""
from __future__ import annotations

import dataclasses
from pathlib import Path

from measuring import copies
from measuring import line_map

PLACE = copies.TOP / "tools/measuring/left.tsv"


@dataclasses.dataclass(frozen=True)
class Counted:
    """How many lines and branches there are, the lines of those that did not run, and how many are listed as left."""

    number: int
    missing: tuple[int, ...]
    listed: int

    def percent(self) -> float:
        return 100 * (self.number - len(self.missing)) / self.number if self.number else 100.0

    def told(self) -> str:
        return ", ".join(str(it) for it in sorted({*self.missing}))


def read(place: Path = PLACE) -> set[tuple[str, str]]:
    """Pairs of a file and a line of it, without the spaces before and after it."""
    if not place.exists():
        return set()
    rows = [line.split("\t") for line in place.read_text(encoding="utf-8").splitlines()[1:]]
    for row in rows:
        if len(row) != 3 or not row[2].strip():
            raise ValueError(f"{place.name}: a row is a file, a line and a reason, and not {row}")
    return {(row[0], row[1].strip()) for row in rows}


def counted(path: str, text: list[str], every: set[str], ran: set[str], known: set[tuple[str, str]]) -> Counted:
    """Counts what has run of a file. A line that is listed is neither run nor not run."""
    missing = [line_map.line_of(it) for it in every - ran]
    others = sorted(it for it in missing if (path, text[it - 1].strip()) not in known)
    listed = len(missing) - len(others)
    return Counted(len(every) - listed, tuple(others), listed)


def total(those: list[Counted]) -> Counted:
    return Counted(
        sum(it.number for it in those),
        tuple(line for it in those for line in it.missing),
        sum(it.listed for it in those),
    )
