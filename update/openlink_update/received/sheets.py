"""The rows of a sheet while it is read, within the limits of a table. A cell that is a number or a date of the
spreadsheet knows that, until the columns are known that may have dates."""
import dataclasses
import datetime
import functools
import re
from collections.abc import Sequence

from openlink_update.outcome import Unreadable
from openlink_update.received import limits
from openlink_update.received.column_names import DATES, shown
from openlink_update.shown_text import Count, lines_of_counts

FROM_1900, FROM_1904 = datetime.date(1899, 12, 30), datetime.date(1904, 1, 1)
_LEAP = 60  # 29 February 1900, which no other calendar has
_YEARS = range(1400, 2101)  # a number without the form of a date that is a year
_LAST = datetime.date(2199, 12, 31)
_WHOLE = re.compile(r"\d{1,15}", re.A)
_UNSAFE = str.maketrans({code: " " for code in (*range(32), 0x85, 0x2028, 0x2029)})
_MOST_DIGITS = 30  # of a day number, with its time
_MOST_CELLS = 30_000_000  # of a sheet


class _Number(str):
    """A cell that is a number."""

    __slots__ = ()


class Day(str):
    """A cell that is a date, as the standard writes it."""

    __slots__ = ()


@dataclasses.dataclass
class Sheet:
    """What was read of a sheet."""

    rows: list[list[str]] = dataclasses.field(default_factory=list)
    base: datetime.date = FROM_1900
    errors: int = 0  # cells in which the spreadsheet has an error, such as #REF!
    _cells: int = 0

    def add(self, row: list[str], number: int, count: int = 1) -> None:
        """Adds a row, or several equal ones, unless it is empty; `number` is its place in the sheet."""
        while row and not row[-1]:
            row.pop()
        if not row:
            return
        limits.check_columns(len(row), lambda: number, "row")
        size = sum(map(len, row))
        if size * 4 > limits.MOST_LINE_BYTES:
            limits.check_row(len("\t".join(row).encode()), number)
        limits.check_rows(len(self.rows) + count)
        self._cells += len(row) * count
        if self._cells > _MOST_CELLS:
            raise Unreadable(f"a sheet with more than {_MOST_CELLS:,} cells: is it a table of holdings?")
        self.rows.append(row)
        self.rows += (list(row) for _ in range(count - 1))


def clean(text: str) -> str:
    """A text of a cell, in one line."""
    return text if text.isprintable() else text.translate(_UNSAFE)


def number_of(text: str) -> str:
    """A number as people see it: without an exponent, if it is a whole one."""
    if _WHOLE.fullmatch(text):
        return _Number(text)
    try:
        value = float(text)
    except ValueError:
        return clean(text)
    if value.is_integer() and abs(value) < 10**15:
        return _Number(int(value))
    return _Number(format(value, ".15g"))


def day_of(text: str, base: datetime.date, length: int) -> str:
    """The date of a day number, or the first characters of it, which people see; the number itself if it is none."""
    date = _date(text, base) if len(text) <= _MOST_DIGITS else ""
    return Day(date[:length]) if date else number_of(text)


@functools.lru_cache(maxsize=1 << 16)  # the same days come again
def _date(text: str, base: datetime.date) -> str:
    try:
        number = int(float(text))
        day = base + datetime.timedelta(number)
    except (ValueError, OverflowError):
        return ""
    if base == FROM_1900 and number == _LEAP:
        return "1900-02"
    if base == FROM_1900 and 0 < number < _LEAP:
        day += datetime.timedelta(1)
    return day.isoformat() if number >= 0 and day <= _LAST else ""


def settle(columns: Sequence[str], rows: list[list[str]], sheet: Sheet) -> list[str]:
    """Writes the day numbers in the columns of dates as dates. Returns what is said of it."""
    count = 0
    for place in [place for place, name in enumerate(columns) if name in DATES]:
        for row in rows:
            cell = row[place] if len(row) > place else ""
            if isinstance(cell, _Number) and (not cell.isdecimal() or int(cell) not in _YEARS):
                row[place] = cell = day_of(cell, sheet.base, 10)
            count += isinstance(cell, Day)
    return lines_of_counts(
        Count("day numbers of the spreadsheet written as dates", count, "cell"),
        Count("with an error of the spreadsheet, left empty", sheet.errors, "cell"),
    )


def chosen(sheets: list[tuple[str, bool, str]], name: str) -> str:
    """What belongs to the sheet with a name, or to the first one that people see."""
    names = [title for title, _, _ in sheets]
    if not sheets:
        raise Unreadable("a spreadsheet without a sheet")
    if not name:
        return next((place for _, is_seen, place in sheets if is_seen), sheets[0][2])
    for title, _, place in sheets:
        if title.strip() == name.strip():
            return place
    raise Unreadable(f"no sheet {shown([name])}; it has: {shown(names)}")
