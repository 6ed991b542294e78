"""Coverage to the day, against days that are counted one by one."""
from __future__ import annotations

import calendar
import datetime
import functools
from typing import Any

from fixtures import needs
from openlink_update.tables import coverage
from openlink_update.tables.table import Table
from properties.property_case import PropertyCase
from properties.property_case import strategies as st

COLUMNS = ("date_first_issue_online", "date_last_issue_online", "embargo_info")
DAY = datetime.timedelta(1)


@functools.lru_cache(maxsize=None)
def days_of_year(year: str) -> list[str]:
    first = datetime.date(int(year), 1, 1)
    return [(first + DAY * number).isoformat() for number in range(365 + calendar.isleap(first.year))]


def days_in(date: str) -> list[str]:
    """The days of a year, month or day; those of the month, or the year, where there is none."""
    found = [day for day in days_of_year(date[:4]) if day.startswith(date)]
    return found or days_in(date[: len(date) - 3])


def walked_back(today: datetime.date, number: int, unit: str) -> str:
    """The day that many days, months or years before, step by step; the last of its month if that has no such day."""
    if unit == "D":
        for _ in range(number):
            today -= DAY
        return today.isoformat()
    year, month = today.year, today.month
    for _ in range(number * (12 if unit == "Y" else 1)):
        year, month = (year, month - 1) if month > 1 else (year - 1, 12)
    return [day for day in days_in(f"{year:04}-{month:02}") if int(day[8:]) <= today.day][-1]


def is_open(day: str, first: str, last: str, parts: list[tuple[str, int, str]], today: datetime.date) -> bool:
    if (first and day < days_in(first)[0]) or (last and day > days_in(last)[-1]):
        return False
    for letter, number, unit in parts:
        edge = walked_back(today, number, unit)
        if day > edge if letter == "P" else day <= edge:
            return False
    return True


def _dates() -> Any:
    two = st.integers(0, 32).map("{:02}".format)
    year = st.integers(1995, 2030).map(str)
    month = st.one_of(st.integers(1, 12), st.integers(0, 13)).map("{:02}".format)
    return st.one_of(st.just(""), year, st.tuples(year, month).map("-".join), st.tuples(year, month, two).map("-".join))


def _cases() -> Any:
    parts = st.lists(st.tuples(st.sampled_from("PR"), st.integers(0, 40), st.sampled_from("YMD")), max_size=2)
    today = st.dates(datetime.date(1999, 1, 1), datetime.date(2031, 12, 31))
    ends = today.map(lambda day: day.replace(day=1) - DAY * (day.day % 2))
    days = st.lists(st.dates(datetime.date(1990, 1, 1), datetime.date(2035, 12, 31)), max_size=6)
    return st.tuples(_dates(), _dates(), parts, st.one_of(today, ends), days)


def bounds_of(first: str, last: str, parts: list[tuple[str, int, str]], today: datetime.date) -> tuple[str, str]:
    """The two cells of a row with these dates and this embargo."""
    embargo = ";".join(f"{letter}{number}{unit}" for letter, number, unit in parts)
    table, said = coverage.served(Table(COLUMNS, [[first, last, embargo]]), today)
    assert said == [], said
    start, end = table.rows[0][-2:]
    return start, end


def around(number: str) -> list[datetime.date]:
    """The day of a bound, and those before and after it; none if there is no bound."""
    if number in ("0", "99999999"):
        return []
    day = datetime.date(int(number[:4]), int(number[4:6]), int(number[6:]))
    return [day - DAY, day, day + DAY]


@needs.hypothesis()
class Days(PropertyCase):
    def test_each_day_is_open_or_not(self) -> None:
        def holds(case: Any) -> None:
            first, last, parts, today, more = case
            start, end = bounds_of(first, last, parts, today)
            for day in [*around(start), *around(end), *more]:
                is_within = int(start) <= day.year * 10000 + day.month * 100 + day.day <= int(end)
                assert is_within == is_open(day.isoformat(), first, last, parts, today), (case, start, end, day)

        self.hold_shared(holds, _cases)

    def test_rows_that_have_no_day(self) -> None:
        """Where the bounds say that no day is open, none is, around every date of the row."""

        def holds(case: Any) -> None:
            first, last, parts, today, _ = case
            start, end = bounds_of(first, last, parts, today)
            if (start, end) != ("99999999", "0"):
                assert int(start) <= int(end), (case, start, end)
                return
            edges = [walked_back(today, number, unit) for _, number, unit in parts]
            edges += [day for date in (first, last) if date for day in (days_in(date)[0], days_in(date)[-1])]
            for day in [day for edge in edges for day in around(edge.replace("-", ""))]:
                assert not is_open(day.isoformat(), first, last, parts, today), (case, day)

        self.hold_shared(holds, _cases)
