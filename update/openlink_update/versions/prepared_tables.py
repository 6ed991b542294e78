"""The prepared tables of a version that is being made: without walls, as the index and the exports take them. They are
in a folder of the version that goes before it is complete, since those of all targets are too large for memory."""
import shutil
from pathlib import Path

from openlink_update.tables.table import Table

_FOLDER = "prepared"


class PreparedTables:
    def __init__(self, version: Path) -> None:
        self._folder = version / _FOLDER
        self._folder.mkdir()

    def put(self, name: str, table: Table) -> bytes:
        """Takes the table of a target. Returns its bytes."""
        data = table.to_bytes()
        (self._folder / name).write_bytes(data)
        return data

    def table(self, name: str) -> Table:
        return Table.parse((self._folder / name).read_bytes())

    def remove(self) -> None:
        shutil.rmtree(self._folder)
