"""What COUNTER reports of providers say of each title and month, beside how often its links were followed. Titles are
compared by their ISSNs and ISBNs: numbers that a report has in one row are of one title."""
from collections import Counter, defaultdict
from collections.abc import Iterable, Iterator

from openlink_update.counts import log_counts
from openlink_update.counts.count_tables import Cell, CountTable
from openlink_update.counts.counter_reports import TOTAL, UNIQUE, Title
from openlink_update.tables import identifiers

_NAME = "COUNTER"
_COLUMNS = ("month", "number", "title", "followed", UNIQUE, TOTAL)


def table_of(reports: Iterable[Iterable[Title]], rows: Iterable[log_counts.Row]) -> CountTable:
    """A row for each title and month that has a followed link, or requests in a report. Requests are None of a title
    that no report has."""
    titles = _joined(reports)
    by_number = {number: title for title in titles for number in title.numbers}
    followed: defaultdict[str, Counter[str]] = defaultdict(Counter)  # by month and the first number of the title
    for month, kind, name, times in rows:
        number = identifiers.standard(name.rpartition(" ")[2])
        if kind == log_counts.FOLLOWED_TITLE and identifiers.form_of(number):
            title = by_number.get(number)
            followed[title.numbers[0] if title else number][month] += times
    lines = [line for title in titles for line in _lines_of(title, followed.pop(_key(title), Counter()))]
    for number, months in followed.items():
        lines += [(month, number, "", times, None, None) for month, times in months.items()]
    return CountTable(_NAME, _COLUMNS, sorted(lines, key=lambda line: tuple(map(str, line[:3]))))


def _key(title: Title) -> str:
    return title.numbers[0] if title.numbers else ""


def _lines_of(title: Title, followed: Counter[str]) -> Iterator[tuple[Cell, ...]]:
    for month in {month for month, _ in title.requests} | followed.keys():
        counted = (title.requests[month, UNIQUE], title.requests[month, TOTAL])
        yield (month, _key(title), title.title, followed[month], *counted)


def _joined(reports: Iterable[Iterable[Title]]) -> list[Title]:
    """The titles of all reports. Those that share a number are one."""
    titles: list[Title] = []
    by_number: dict[str, Title] = {}
    for title in (title for report in reports for title in report):
        same = next((by_number[number] for number in title.numbers if number in by_number), None)
        if same is None:
            titles.append(title)
            by_number.update(dict.fromkeys(title.numbers, title))
        else:
            same.requests.update(title.requests)
            same.numbers = (*same.numbers, *(it for it in title.numbers if it not in same.numbers))
            by_number.update((number, same) for number in title.numbers if number not in by_number)
    return titles
