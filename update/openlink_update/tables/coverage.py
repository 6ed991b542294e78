"""Coverage to the day, and moving walls: a table as it is served. The columns `coverage_from` and `coverage_to` have
the first and the last day that is open today as numbers of eight digits, 0 and 99999999 where there is no bound, and
the other way round where no day is open. So the cells are never empty, and no request can fill them. A row with a part
`P` and no last date gets the wall of today as its last date. Nothing but the table that is served has these cells.

An embargo counts from the day of the update, also in years, and not by calendar years. P and R of one length share all
days between them, so each day is open under exactly one of them. An embargo in words keeps no table out, but is
reported: otherwise the target would have an old table, or no links."""
import datetime
import functools

from openlink_update.outcome import Refused
from openlink_update.tables.row_dates import NONE, date_in
from openlink_update.tables.embargo import Embargo
from openlink_update.tables.table import Table, cell

_COLUMNS = ("coverage_from", "coverage_to")
_DATES = ("date_first_issue_online", "date_last_issue_online", "embargo_info")
_EARLIEST, _LATEST = 0, 99999999
_NO_DAY = ("99999999", "0")
_MOST_CHARACTERS = 40  # of a cell that is quoted
_DAYS = (31, 28, 31, 30, 31, 30, 31, 31, 30, 31, 30, 31)


def _number_of(day: datetime.date) -> int:
    return day.year * 10000 + day.month * 100 + day.day


def _last_day_of(year: int, month: int) -> int:
    is_leap = month == 2 and year % 4 == 0 and (year % 100 != 0 or year % 400 == 0)
    return _DAYS[month - 1] + is_leap


@functools.lru_cache(maxsize=1 << 14)  # the same dates come again
def day_in(text: str, is_last: bool) -> int | None:
    """The first or the last day of a date; None if a cell has no date. A month or a day that does not exist
    counts as missing."""
    date = date_in(text)
    if date == NONE:
        return None
    year, month, day = int(date[:4]), int(date[5:7] or 0), int(date[8:] or 0)
    if not 1 <= month <= 12:
        return year * 10000 + (1231 if is_last else 101)
    last = _last_day_of(year, month)
    if not 1 <= day <= last:
        day = last if is_last else 1
    return year * 10000 + month * 100 + day


def _open_days(first: str, last: str, embargo: Embargo | None, today: datetime.date) -> tuple[str, str]:
    """The two cells for a first date, a last date and an embargo."""
    start = (day_in(first, False) if first else None) or _EARLIEST
    day = day_in(last, True) if last else None
    end = _LATEST if day is None else day
    if embargo is not None:
        opens, closes = embargo.first_open(today), embargo.last_open(today)
        start = start if opens is None else max(start, _number_of(opens))
        end = end if closes is None else min(end, _number_of(closes))
    if start > end:
        return _NO_DAY
    return (f"{start:08}" if start else "0"), f"{end:08}"


def served(table: Table, today: datetime.date, has_walls: bool = True) -> tuple[Table, list[str]]:
    """The table with the two columns after its own and, unless it is to have none, with walls; and a line for embargoes
    that are not used. Refused if it brings one of the columns."""
    brought = [name for name in _COLUMNS if name in table.columns]
    if brought:
        raise Refused([f"it has a column {name}, which only the update may write" for name in brought])
    if not table.columns:
        return table, []
    width, (first, last, embargo) = len(table.columns), table.places(_DATES)
    rows, unused = [], []
    for number, row in enumerate(table.rows):
        text = cell(row, embargo)
        rule = Embargo.parse(text) if text else None
        if rule is None and text and text.strip():
            unused.append((number, text))
        end = cell(row, last)
        made = [*row[:width], *[""] * (width - len(row)), *_open_days(cell(row, first), end, rule, today), *row[width:]]
        if has_walls and rule is not None and last is not None and not end:
            made[last] = rule.wall(today)
        rows.append(made)
    return Table((*table.columns, *_COLUMNS), rows), _lines(unused)


def _lines(unused: list[tuple[int, str]]) -> list[str]:
    if not unused:
        return []
    number, text = unused[0]
    return [f'embargo_info not an embargo {len(unused)}, first {number} "{text[:_MOST_CHARACTERS]}": not used']


def has_walls(data: bytes) -> bool:
    """Whether an embargo of a table, as it is served, counts in months or days, so that it ends within a year."""
    table = Table.parse(data)
    place = table.place(_DATES[2])
    embargoes = map(Embargo.parse, {cell(row, place) for row in table.rows})
    return any(embargo is not None and embargo.moves_daily for embargo in embargoes)
