"""The titles that the tables of all targets have for numbers, by which one table is compared with the others."""
from collections.abc import Callable, Iterable, Mapping

from openlink_update.slips.material import TITLE
from openlink_update.received.column_names import IDENTIFIERS
from openlink_update.tables.cells import ANY
from openlink_update.tables.table import Table, cell

_MOST_NUMBERS = 1_000_000  # that are kept in memory


class OtherTitles:
    """Of the version before, and of the targets that the version which is made has new tables of."""

    def __init__(self, older: Callable[[], Iterable[Table]]) -> None:
        """`older` yields the tables of the version before, which are read once they are needed."""
        self._older = older
        self._titles: dict[str, str] | None = None

    def of(self, numbers: Iterable[str]) -> Mapping[str, str]:
        """The titles of these of the numbers that are known."""
        if self._titles is None:
            self._titles = {}
            for table in self._older():
                self.add(table)
        if not self._titles:
            return {}
        return {number: self._titles[number] for number in numbers if number in self._titles}

    def add(self, table: Table) -> None:
        """Adds those of a table that is used. Nothing is kept while nobody has asked."""
        if self._titles is None:
            return
        titles, title = self._titles, table.place(TITLE)
        places = [place for place in table.places(IDENTIFIERS) if place is not None]
        for place in places if title is not None else ():
            for row in table.rows:
                number = row[place] if place < len(row) else ""
                if number and number not in titles and number.upper() != ANY and len(titles) < _MOST_NUMBERS:
                    titles[number] = cell(row, title)

    def forget(self) -> None:
        """Gives the memory back."""
        self._titles = None
        self._older = tuple
