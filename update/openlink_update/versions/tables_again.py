"""The tables of a complete version without walls: prepared again from the files that it received, so that every date is
the provider's."""
import datetime
from collections.abc import Iterator, Sequence
from pathlib import Path

from openlink_update.outcome import DEVICE, Failure, Refused
from openlink_update.tables import coverage, parts
from openlink_update.tables.table import Table
from openlink_update.target_options import NONE, options_in
from openlink_update.versions.target_files import files_in, received_in
from openlink_update.versions.served import divided, names_in, targets_in


def tables_of(version: Path, day: datetime.date) -> Iterator[tuple[str, Table]]:
    """Yields the tables of all targets of a version that was made on a day, each after the target's name. A large one
    comes in its parts, each after the name of the part. A Failure says which cannot be prepared."""
    names, options = names_in(version), options_in(version)
    for target in targets_in(version):
        files = files_in(received_in(version), target, options.get(target, NONE))
        if files is None:
            raise Failure(f"{version}: no files of {target}", DEVICE)
        try:
            table = files.prepared.table
        except Refused as refusal:
            raise Failure(f"{target}: its table cannot be prepared: {refusal.reasons[0]}", DEVICE) from refusal
        has_parts = sum(parts.base_of(name) == target for name in names) > 1
        yield from divided(table, _places(target, table, day) if has_parts else {target: range(len(table.rows))})


def _places(target: str, table: Table, day: datetime.date) -> dict[str, Sequence[int]]:
    """The places of the rows of each part, which the size of the rows as they are served decides."""
    served, _ = coverage.served(table, day)
    return parts.parts_of(target, served, len(served.to_bytes()))
