"""What a followed link of a target costs. The file of costs has a line for each target and year, with tabs between its
cells: target, year, sum. Empty lines and those that begin with # are skipped, and so is a first line with the words
target, year and sum."""
import re
from collections import defaultdict
from collections.abc import Iterable
from decimal import Decimal

from openlink_update import shown_text
from openlink_update.counts import log_counts
from openlink_update.counts.count_tables import CountTable
from openlink_update.input_files import Line, lines_in
from openlink_update.outcome import Unreadable

MOST_BYTES = 2**20  # of a file of costs
_HEADER = ["target", "year", "sum"]
_TARGET = re.compile(r"[A-Za-z0-9_.-]{1,100}", re.A)
_YEAR = re.compile(r"[12]\d{3}", re.A)
_SUM = re.compile(r"\d{1,12}(\.\d{1,2})?", re.A)
_CENT = Decimal("0.01")
_MOST_CHARACTERS = 60  # of a cell in a line

_Costs = dict[tuple[str, str], Decimal]  # by target and year


def costs_in(data: bytes) -> _Costs:
    """Unreadable says which line is none of the form."""
    if len(data) > MOST_BYTES:
        raise Unreadable(f"more than {MOST_BYTES:,} bytes")
    try:
        lines = list(lines_in(data))
    except UnicodeDecodeError as fault:
        raise Unreadable("not UTF-8") from fault
    costs: _Costs = {}
    for line in lines:
        cells = [cell.strip() for cell in line.cells]
        if line is lines[0] and [cell.lower() for cell in cells] == _HEADER:
            continue
        target, year, cost = _parse(line, cells)
        if (target, year) in costs:
            raise Unreadable(f"line {line.number}: {target} {year} a second time")
        costs[target, year] = cost
    return costs


def _parse(line: Line, cells: list[str]) -> tuple[str, str, Decimal]:
    if len(cells) != 3:
        raise Unreadable(f"line {line.number}: not a target, a year and a sum with tabs between them")
    for cell, form, what in zip(cells, (_TARGET, _YEAR, _SUM), ("the name of a target", "a year", "a sum as 1250.00")):
        if not form.fullmatch(cell):
            raise Unreadable(f"line {line.number}: not {what}: {shown_text.line_of(cell, _MOST_CHARACTERS)}")
    return cells[0], cells[1], Decimal(cells[2])


def cost_table(costs: _Costs, rows: Iterable[log_counts.Row]) -> CountTable:
    """The cost of a followed link by year and target. `months` is how many months of the year the logs have: where
    these are few, the cost is too high."""
    followed: defaultdict[tuple[str, str], int] = defaultdict(int)
    months: defaultdict[str, set[str]] = defaultdict(set)
    for month, kind, name, number in rows:
        months[month[:4]].add(month)
        if kind == log_counts.FOLLOWED:
            followed[name, month[:4]] += number
    lines = []
    for (target, year), cost in sorted(costs.items(), key=lambda it: (it[0][1], it[0][0])):
        times = followed[target, year]
        each = (cost / times).quantize(_CENT) if times else None
        lines.append((year, target, cost, len(months[year]), times, each))
    columns = ("year", "target", "sum", "months", "followed", "cost of a followed link")
    return CountTable("cost", columns, lines)
