"""What slips are looked for in: the files of a target, beside those of the version before, by columns."""
import dataclasses
import datetime
import functools
from collections.abc import Callable, Iterable, Mapping

from openlink_update.received.column_names import IDENTIFIERS
from openlink_update.tables.identifiers import form_of, is_issn
from openlink_update.tables.table import Table

TITLE = "publication_title"
FEW = 2  # rows that never keep a table out, and of which nothing is said that all rows would have to have


@dataclasses.dataclass(frozen=True)
class Found:
    """A slip: how many rows have it, of how many, and an example as it came."""

    count: int
    rows: int
    example: str


@dataclasses.dataclass(frozen=True)
class Material:
    """A target as it came."""

    table: Table  # as preparation makes it
    dropped: list[list[str]]  # rows that are not served, each after the reason
    reversed: list[tuple[str, str]]  # the two dates of each row whose first one is after the last
    count: int  # of rows before any was dropped
    rules: bytes | None  # None: a code file
    proxy: str  # the text that its line puts before each link
    unended: str  # the last line of a file that has no end of it; '' if there is none

    @functools.cached_property
    def _columns(self) -> dict[str, list[str]]:
        return {}

    @functools.cached_property
    def _is_even(self) -> bool:
        """Whether no row is shorter than the header."""
        return min(map(len, self.table.rows), default=0) >= len(self.table.columns)

    def forget(self) -> None:
        """Gives back the memory of columns, which are made again if they are asked for."""
        self._columns.clear()
        self._small_texts.clear()

    def has(self, column: str) -> bool:
        return column in self.table.columns

    def cells(self, column: str) -> list[str]:
        """The cells of a column, one for each row; '' where there is none."""
        if column not in self._columns:
            place = self.table.place(column)
            if place is None:
                self._columns[column] = [""] * len(self.table.rows)
            elif self._is_even:
                self._columns[column] = [row[place] for row in self.table.rows]
            else:
                self._columns[column] = [row[place] if place < len(row) else "" for row in self.table.rows]
        return self._columns[column]

    @functools.cached_property
    def _small_texts(self) -> dict[str, str]:
        return {}

    def small_text(self, column: str) -> str:
        """The cells of a column that has addresses, in small letters, as one text; '' of another column."""
        if column not in self._small_texts:
            text = "\n".join(self.cells(column))
            self._small_texts[column] = text.lower() if "://" in text else ""
        return self._small_texts[column]

    def is_journal(self, place: int) -> bool:
        """Whether a row has an ISSN, and is not said to be of a book."""
        if self.cells("publication_type")[place].lower() == "monograph":
            return False
        return any(is_issn(form_of(self.cells(column)[place])) for column in IDENTIFIERS)

    def found(self, places: list[int], texts: list[str], rows: int | None = None) -> Found | None:
        """The slip of the rows at these places, with the text of the first; None if there are none."""
        if not places:
            return None
        example = [texts[places[0]], self.cells(TITLE)[places[0]]]
        return Found(len(places), len(self.table.rows) if rows is None else rows, ", ".join(filter(None, example)))


@dataclasses.dataclass(frozen=True)
class Pair:
    """A target as it came, and as the version before has it (None: not at all)."""

    now: Material
    before: Material | None
    today: datetime.date
    # The titles that the tables of other targets have for numbers.
    others: Callable[[Iterable[str]], Mapping[str, str]]
    # The words of slips that the version before is known not to have.
    clean: frozenset[str] = frozenset()
