"""The registry of a version: a line for each target, or part of one, in the order of the menu."""
import dataclasses
from pathlib import Path

from openlink_update.input_files import cells_in


@dataclasses.dataclass(frozen=True)
class _Entry:
    name: str
    code: str  # a path, as that of the table relative to the version
    table: str


def entries_of(path: Path) -> list[_Entry]:
    """The lines of a registry. A Failure names one that is damaged."""
    return [_Entry(*cells) for cells in cells_in(path, 3)]
