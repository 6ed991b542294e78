"""Rows whose first date is after their last one, so that no day is open. A few are in many tables; more of them mean
that columns, or the parts of dates, were exchanged."""
from openlink_update.tables.coverage import day_in
from openlink_update.shown_text import amount
from openlink_update.tables.table import Table, cell

_COLUMNS = ("date_first_issue_online", "date_last_issue_online")
WORDS = "first dates after the last ones"


def _is_reversed(first: str, last: str) -> bool:
    start, end = day_in(first, False), day_in(last, True)
    return start is not None and end is not None and start > end


def reversed_in(table: Table) -> list[tuple[str, str]]:
    """These rows, as their two dates."""
    first, last = table.places(_COLUMNS)
    pairs = ((cell(row, first), end) for row in table.rows if (end := cell(row, last)))
    return [(start, end) for start, end in pairs if start and _is_reversed(start, end)]


def lines(pairs: list[tuple[str, str]]) -> list[str]:
    """What the mail says of them."""
    if not pairs:
        return []
    return [f"{WORDS}: {amount(len(pairs), 'row')}, the first with {pairs[0][0]} and {pairs[0][1]}"]
