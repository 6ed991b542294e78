"""A holdings table in memory. Every reader and every writer of a table uses this one class."""
import dataclasses
import io
from collections.abc import Iterable

_BYTE_ORDER_MARK = b"\xef\xbb\xbf"


@dataclasses.dataclass(frozen=True)
class Table:
    """The names of the columns, and the rows, which may be shorter or longer than the header. Nobody changes a row of a
    table: another table has other rows."""

    columns: tuple[str, ...]
    rows: list[list[str]]

    @classmethod
    def parse(cls, data: bytes) -> "Table":
        """The table of bytes whose lines end as the program reads them: with LF, CR LF or CR. Blank lines are none."""
        # Line by line: all lines at once take as much memory as the rows.
        lines = io.TextIOWrapper(io.BytesIO(data.removeprefix(_BYTE_ORDER_MARK)), "utf-8", "replace")
        rows = [line.removesuffix("\n").split("\t") for line in lines if line != "\n"]
        return cls(tuple(rows[0]), rows[1:]) if rows else cls((), [])

    def to_bytes(self) -> bytes:
        """The bytes of the table; none if it has no header."""
        header = [self.columns] if self.columns else []
        return "".join(["\t".join(cells) + "\n" for cells in [*header, *self.rows]]).encode()

    def place(self, column: str) -> int | None:
        """The place of a column, or None if there is none; of two with one name the first."""
        return self.columns.index(column) if column in self.columns else None

    def places(self, columns: Iterable[str]) -> list[int | None]:
        return [self.place(column) for column in columns]

    def of_rows(self, places: Iterable[int]) -> "Table":
        """The table of some of the rows."""
        return Table(self.columns, [self.rows[place] for place in places])


def cell(row: list[str], place: int | None) -> str:
    """The cell of a row in a column; '' if the row is shorter or the table has no such column."""
    return row[place] if place is not None and place < len(row) else ""
