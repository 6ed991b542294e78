"""Rows that no request can find, since they have no identifier. They are not served, and are listed."""
import re
from collections.abc import Collection, Sequence

from openlink_update.shown_text import amount, printable
from openlink_update.received.column_names import IDENTIFIERS
from openlink_update.tables.cells import ANY
from openlink_update.tables.identifiers import form_of
from openlink_update.tables.table import Table

_PER_HUNDRED = 2  # rows that may be dropped, unless the list of targets says how many
_LIMIT = re.compile(r"dropped up to (\d{1,9})(%?)", re.A)
_MOST_CHARACTERS = 100  # of a row that is shown
_MOST_BELOW, _MOST_FILLED = 10, 2  # rows below a table, and filled cells of each
_LEAST_DIGITS, _DIGIT = 5, re.compile(r"\d", re.A)  # of what may be an identifier
_FEW = 10  # rows of a table that answers every request
_NONE, _NO_NUMBER = "no identifier", "no ISSN or ISBN"


def _is_identifier(cell: str) -> bool:
    return form_of(cell) != "" or cell.replace("-", "").replace(" ", "").upper() == ANY


def answers_all(table: Table) -> bool:
    """Whether a row of a table answers every request."""
    places = [place for place in table.places(IDENTIFIERS) if place is not None]
    return any(len(row) > place and row[place].upper() == ANY for row in table.rows[:_FEW] for place in places)


def _reason_of(row: list[str], places: list[int]) -> str | None:
    """Why no request can find a row, or None."""
    cells = [row[place] for place in places if len(row) > place and row[place]]
    if not cells:
        return _NONE
    return None if any(map(_is_identifier, cells)) else _NO_NUMBER


def separate(table: Table) -> tuple[Table, list[list[str]]]:
    """The table of the rows that a request can find, and the others, each after the reason. A table without a column
    of identifiers keeps its rows, since `inspect` says what is wrong with it."""
    places = [place for place in table.places(IDENTIFIERS) if place is not None]
    if not places:
        return table, []
    reasons = [_reason_of(row, places) for row in table.rows]
    dropped = [[reason, *row] for row, reason in zip(table.rows, reasons) if reason is not None]
    if not dropped:
        return table, []
    return Table(table.columns, [row for row, reason in zip(table.rows, reasons) if reason is None]), dropped


def _most_of(allowed: Collection[str], rows: int) -> int:
    """How many of these rows may be dropped, by the words of the list of targets. A share is rounded up, so one row
    never keeps a table from use."""
    limits = [match for match in map(_LIMIT.fullmatch, sorted(allowed)) if match]
    number, is_share = (int(limits[0][1]), limits[0][2]) if limits else (_PER_HUNDRED, "%")
    return -(-rows * number // 100) if is_share else number


def reasons_against(dropped: list[list[str]], rows: int, allowed: Collection[str]) -> list[str]:
    """A line if more rows of a table were dropped than its target allows."""
    most = _most_of(allowed, rows)
    if len(dropped) <= most:
        return []
    totals = {reason: sum(row[0] == reason for row in dropped) for reason in (_NONE, _NO_NUMBER)}
    counts = ", ".join(f"{reason}: {count}" for reason, count in totals.items() if count)
    return [
        f"{len(dropped)} of {rows} rows dropped, and {most} may be: {counts}; to allow it: dropped up to "
        f"{len(dropped)}; the first: {shown(dropped[0][1:])}"
    ]


def shown(cells: list[str]) -> str:
    """The beginning of a row for the mail."""
    return printable(" ".join(filter(None, cells))[:_MOST_CHARACTERS])


def lines(dropped: list[list[str]]) -> list[str]:
    """What the mail says of them."""
    return [f"dropped: {amount(len(dropped), 'row')}"] if dropped else []


def _may_be_identifier(cell: str) -> bool:
    return len(_DIGIT.findall(cell)) >= _LEAST_DIGITS or cell.strip().upper() == ANY


def without_footer(columns: Sequence[str], rows: list[list[str]]) -> list[str]:
    """Removes the last rows of a file if they have no identifier and hardly a filled cell, such as a total or a
    copyright. Returns what is said of it."""
    places = {place for place, name in enumerate(columns) if name in IDENTIFIERS}
    below: list[int] = []
    for number in range(len(rows) - 1, max(len(rows) - 1 - _MOST_BELOW, -1), -1) if places else ():
        filled = [place for place, text in enumerate(rows[number]) if text.strip()]
        numbers = (rows[number][place] for place in filled if place in places)
        if len(filled) > _MOST_FILLED or any(map(_may_be_identifier, numbers)):
            break
        if filled:
            below.append(number)
    if not below:
        return []
    first = shown(rows[below[-1]]).strip().replace('"', "'")
    for number in below:
        del rows[number]
    return [f'below the table, left out: {amount(len(below), "row")}, the first "{first}"']
