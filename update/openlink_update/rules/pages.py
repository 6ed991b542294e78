"""The column `title_page`, which the update adds to the table of a target whose rules name it: the address of the
title's page (title_url) if it is a web address with a host, after which it has a slash, and else `none:`, which is no
web link. The cell is never empty, so no request can choose where a link that begins with it leads."""
import re

from openlink_update.outcome import Refused
from openlink_update.tables.table import Table, cell

COLUMN, NO_PAGE = "title_page", "none:"
_ADDRESS = "title_url"
_WEB = re.compile(r"(https?://[a-z0-9][a-z0-9.-]*(?::[0-9]{1,5})?)(?:/([!-~]*)|([?#][!-~]*))?", re.I | re.A)
_NAMED = re.compile(rb"(?<![A-Za-z0-9_.%])title_page(?![A-Za-z0-9_.%])")


def are_named(rules: bytes) -> bool:
    """Whether rules, or a code file, may name the column."""
    return _NAMED.search(rules) is not None


def added(table: Table) -> Table:
    """A table with the column after its own. Refused if it brings one."""
    if COLUMN in table.columns:
        raise Refused([f"it has a column {COLUMN}, which only the update may write"])
    if not table.columns:
        return table
    width, place = len(table.columns), table.place(_ADDRESS)
    rows = [[*row[:width], *[""] * (width - len(row)), _page_of(cell(row, place)), *row[width:]] for row in table.rows]
    return Table((*table.columns, COLUMN), rows)


def _page_of(text: str) -> str:
    match = _WEB.fullmatch(text.strip())
    return f"{match[1]}/{match[2] or match[3] or ''}" if match else NO_PAGE
