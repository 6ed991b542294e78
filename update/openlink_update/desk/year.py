"""What the page of the year shows: requests by month, source and target, and what was asked for in vain."""
import dataclasses
from collections import Counter
from collections.abc import Iterable, Sequence

from openlink_update.counts import log_counts
from openlink_update.counts.log_counts import Row
from openlink_update.desk import charts
from openlink_update.desk.charts import Chart, Pair

_MONTHS, _MOST_YEARS, _MOST_NAMES, _MOST_SOURCES = 12, 10, 20, 10
_JANUARY = "01"


@dataclasses.dataclass(frozen=True)
class _Month:
    name: str  # YYYY-MM
    requests: int
    without: int  # full text
    without_link: int
    errors: int

    @property
    def with_full_text(self) -> int:
        return max(self.requests - self.without, 0)


@dataclasses.dataclass(frozen=True)
class _Period:
    """Some months, the newest last, with their chart."""

    name: str
    months: tuple[_Month, ...]
    chart: Chart


@dataclasses.dataclass(frozen=True)
class _Names:
    """The names with the greatest numbers, each with two numbers, and how many more there are."""

    rows: tuple[tuple[str, int, int], ...]
    more: int
    chart: Chart


@dataclasses.dataclass(frozen=True)
class _Year:
    last: _Period
    years: tuple[_Period, ...]  # earlier ones, the newest first
    sources: _Names
    targets: _Names
    vain: _Names


def year_of(rows: Iterable[Row]) -> _Year | None:
    """None if nothing was counted."""
    totals: dict[str, Counter[str]] = {}
    by_name: dict[tuple[str, str], Counter[str]] = {}
    for month, kind, name, number in rows:
        totals.setdefault(month, Counter())[kind] += number
        by_name.setdefault((kind, month), Counter())[name] += number
    if not totals:
        return None
    months = [_month_of(name, totals[name]) for name in sorted(totals)]
    last = [month.name for month in months[-_MONTHS:]]
    years = sorted({month.name[:4] for month in months[:-_MONTHS]}, reverse=True)[:_MOST_YEARS]
    return _Year(
        _period(last[-1], months[-_MONTHS:]),
        tuple(_period(year, [month for month in months if month.name.startswith(year)]) for year in years),
        _names_of(by_name, last, log_counts.SOURCE, log_counts.SOURCE_WITHOUT),
        _names_of(by_name, last, log_counts.SHOWN, log_counts.FOLLOWED),
        _names_of(by_name, last, log_counts.IN_VAIN, ""),
    )


def _month_of(name: str, totals: Counter[str]) -> _Month:
    kinds = (log_counts.REQUESTS, log_counts.WITHOUT_FULL_TEXT, log_counts.WITHOUT_LINK, log_counts.ERRORS)
    return _Month(name, *(totals[kind] for kind in kinds))


def _period(name: str, months: Sequence[_Month]) -> _Period:
    has_name = {place for place, it in enumerate(months) if it.name[5:] == _JANUARY}
    has_name |= set() if has_name & {1, 2} else {0}  # or both would have one place
    pairs = [
        Pair(it.name[5:], it.with_full_text, it.without, it.name[:4] if place in has_name else "")
        for place, it in enumerate(months)
    ]
    return _Period(name, tuple(months), charts.columns(pairs))


def _names_of(by_name: dict[tuple[str, str], Counter[str]], months: Sequence[str], first: str, second: str) -> _Names:
    """The names of a kind in these months, with the numbers of it and of another kind."""
    numbers, others = Counter[str](), Counter[str]()
    for month in months:
        numbers.update(by_name.get((first, month), {}))
        others.update(by_name.get((second, month), {}))
    every = sorted({*numbers, *others}, key=lambda name: (-numbers[name], -others[name], name))
    found = tuple((name, numbers[name], others[name]) for name in every[:_MOST_NAMES])
    pairs = [Pair(name, number, other, _both(number, other)) for name, number, other in found[:_MOST_SOURCES]]
    return _Names(found, len(every) - len(found), charts.rows(pairs))


def _both(number: int, other: int) -> str:
    return f"{charts.short(number)} · {charts.short(other)}" if other else charts.short(number)
