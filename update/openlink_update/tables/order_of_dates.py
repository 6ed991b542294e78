"""Dates such as 3/4/1995, which can be read with the day first or with the month first: the other dates of the column
in the same file decide, if all of those that can be read in one way alone have the same order."""
import re
from collections.abc import Iterable, Sequence

from openlink_update.received.column_names import DATES
from openlink_update.shown_text import Count, lines_of_counts

_FORM = re.compile(
    r"\s*\"?(\d{1,2})([/-])(\d{1,2})\2(1[4-9]\d\d|20\d\d)\b(?:[T ][\d:. ]+(?:[AP]M)?)?\"?\s*", re.A | re.I
)
_MONTHS, _DAYS = range(1, 13), range(1, 32)


def _is_day_first(cells: Iterable[str]) -> bool | None:
    """Whether these dates have the day first; None if they do not say so, or say both."""
    orders = set[bool]()
    for first, _, second, _ in filter(None, (_parts(cell) for cell in cells)):
        if (first in _MONTHS) != (second in _MONTHS) and first in _DAYS and second in _DAYS:
            orders.add(first not in _MONTHS)
    return orders.pop() if len(orders) == 1 else None


def _parts(cell: str) -> tuple[int, str, int, str] | None:
    """The two numbers before a year, what separates them, and the year."""
    found = _FORM.fullmatch(cell)
    return (int(found[1]), found[2], int(found[3]), found[4]) if found else None


def settle(columns: Sequence[str], rows: list[list[str]]) -> list[str]:
    """Writes these dates of a file as the standard does, where their column decides. Returns what is said of it."""
    count = 0
    for place in [place for place, name in enumerate(columns) if name in DATES]:
        known: dict[str, str] = {}
        cells = set(filter(_FORM.fullmatch, {row[place] for row in rows if len(row) > place}))
        order = _is_day_first(cells)
        if order is None:
            continue
        for cell in cells:
            parts = _parts(cell)
            if parts and parts[0] in _MONTHS and parts[2] in _MONTHS and parts[0] != parts[2]:
                day, month = (parts[0], parts[2]) if order else (parts[2], parts[0])
                known[cell] = f"{parts[3]}-{month:02}-{day:02}"
        for row in rows if known else ():
            if len(row) > place and row[place] in known:
                row[place] = known[row[place]]
                count += 1
    return lines_of_counts(Count("dates whose order the rest of their column decides", count, "cell"))
