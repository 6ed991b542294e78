"""The counts as tables with one kind of thing in each, for data and for a spreadsheet: by month, source, target, title
that was followed, error, and title that was asked for in vain."""
import dataclasses
from collections import defaultdict
from collections.abc import Iterable, Mapping, Sequence
from decimal import Decimal

from openlink_update.counts import log_counts

Cell = str | int | Decimal | None


@dataclasses.dataclass(frozen=True)
class CountTable:
    name: str
    columns: tuple[str, ...]
    rows: Sequence[Sequence[Cell]]


_Numbers = Mapping[str, Mapping[tuple[str, str], int]]  # by kind, month and name


def tables_of(rows: Iterable[log_counts.Row]) -> list[CountTable]:
    numbers: defaultdict[str, dict[tuple[str, str], int]] = defaultdict(dict)
    for month, kind, name, number in rows:
        numbers[kind][month, name] = number
    return [_months(numbers), _sources(numbers), _targets(numbers), _titles(numbers), _errors(numbers), _vain(numbers)]


def _by_month(numbers: Mapping[tuple[str, str], int]) -> dict[str, int]:
    sums: defaultdict[str, int] = defaultdict(int)
    for (month, _), number in numbers.items():
        sums[month] += number
    return dict(sums)


def _months(numbers: _Numbers) -> CountTable:
    kinds = (
        *(log_counts.REQUESTS, log_counts.WITHOUT_FULL_TEXT, log_counts.WITHOUT_LINK, log_counts.PROBES),
        *(log_counts.FOLLOWED, log_counts.IN_VAIN, log_counts.ERRORS),
    )
    sums = {kind: _by_month(numbers[kind]) for kind in kinds}
    rows: list[tuple[Cell, ...]] = []
    for month in sorted(set().union(*sums.values())):
        requests, without, *others = (sums[kind].get(month, 0) for kind in kinds)
        rows.append((month, requests, requests - without, without, *others))
    return CountTable("months", ("month", kinds[0], "with full text", *kinds[1:]), rows)


def _sources(numbers: _Numbers) -> CountTable:
    without = numbers[log_counts.SOURCE_WITHOUT]
    rows = [
        (month, name, number, number - without.get((month, name), 0), without.get((month, name), 0))
        for (month, name), number in numbers[log_counts.SOURCE].items()
    ]
    return CountTable("sources", ("month", "source", "requests", "with full text", "without full text"), rows)


def _targets(numbers: _Numbers) -> CountTable:
    shown, followed = numbers[log_counts.SHOWN], numbers[log_counts.FOLLOWED]
    rows = [(*key, shown.get(key, 0), followed.get(key, 0)) for key in sorted({*shown, *followed})]
    return CountTable("targets", ("month", "target", "shown", "followed"), rows)


def _titles(numbers: _Numbers) -> CountTable:
    rows = [
        (month, *_target_and_number(name), times) for (month, name), times in numbers[log_counts.FOLLOWED_TITLE].items()
    ]
    return CountTable("followed", ("month", "target", "number", "followed"), rows)


def _target_and_number(name: str) -> tuple[str, str]:
    target, _, number = name.partition(" ")
    return target, number


def _errors(numbers: _Numbers) -> CountTable:
    rows = [(month, int(status), times) for (month, status), times in numbers[log_counts.ERRORS].items()]
    return CountTable("errors", ("month", "status", "errors"), rows)


def _vain(numbers: _Numbers) -> CountTable:
    rows = [(*key, times) for key, times in numbers[log_counts.IN_VAIN].items()]
    return CountTable(log_counts.IN_VAIN, ("month", "number", "requests"), rows)
