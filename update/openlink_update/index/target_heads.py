"""What readers see of targets that targets.json does not name, for the front door: the group and the label that the
heads of their rules say. The file `heads` has a line for each target whose rules say one of them, and a cell for each
label; that of no language is for all others:

    TARGET  GROUP  =LABEL  de=LABEL
"""
from collections.abc import Iterable
from pathlib import Path

from openlink_update.index.index_files import write_lines
from openlink_update.rules import heads

_FILE = "heads"


def write(folder: Path, rules: Iterable[tuple[str, bytes]]) -> None:
    """Writes the file of an index, for pairs of a target's name and its rule file."""
    read = ((name, heads.parse(data)) for name, data in rules)
    write_lines(folder / _FILE, (_line_of(name, head) for name, head in read if not head.is_empty()))


def _line_of(name: str, head: heads.Head) -> bytes:
    labels = (f"{language}={label}" for language, label in head.labels)
    return "\t".join([name, head.group, *labels]).encode()
