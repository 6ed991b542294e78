"""What is never planted: never.tsv has bugs that were read and change nothing, each as its file, the old line, the new
line and the reason. And no bug is planted where it could end processes of others."""
from __future__ import annotations

from pathlib import Path

from planting.bug import Bug

PLACE = Path(__file__).with_name("never.tsv")
# It ends all processes of a user, and root's would be those of the machine.
_SPARED = {"update/openlink_update/rights/library_user.py"}


def read(place: Path = PLACE) -> set[tuple[str, str, str]]:
    rows = [line.split("\t") for line in place.read_text(encoding="utf-8").splitlines()[1:]]
    for row in rows:
        if len(row) != 4 or not row[3].strip():
            raise ValueError(f"{place.name}: a row is a file, an old line, a new line and a reason, and not {row}")
    return {(row[0], row[1], row[2]) for row in rows}


def has(bug: Bug, text: str, known: set[tuple[str, str, str]]) -> bool:
    return bug.path in _SPARED or (bug.path, *bug.lines(text)) in known
