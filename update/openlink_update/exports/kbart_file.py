"""One KBART file of all targets, with the columns of NISO RP-9-2014 and a last one that names the provider. The dates
are the provider's, since the tables have no walls."""
from collections.abc import Iterable, Iterator

from openlink_update.exports.site_names import SiteNames
from openlink_update.received.column_names import COLUMNS
from openlink_update.tables.parts import base_of
from openlink_update.tables.table import Table

_OLDER = {"coverage_notes": "notes"}  # the name of a column in the first edition
_PROVIDER = "provider"


def rows_of(table: Table) -> Iterator[dict[str, str]]:
    """Yields the rows of a table that have a title, as cells by column."""
    columns = [_OLDER.get(name, name) for name in table.columns]
    for cells in table.rows:
        row = dict(zip(columns, cells))
        if row.get("publication_title", "").strip():
            yield row


def heading() -> str:
    return "\t".join((*COLUMNS, _PROVIDER))


def lines_of(part: str, table: Table, names: SiteNames) -> Iterator[str]:
    """Yields the lines of a target, or of a part of it."""
    provider = " ".join(names.label(base_of(part)).split())
    for row in rows_of(table):
        yield "\t".join((*(row.get(name, "") for name in COLUMNS), provider))


def lines(tables: Iterable[tuple[str, Table]], names: SiteNames) -> Iterator[str]:
    """Yields the lines of the file."""
    yield heading()
    for part, table in tables:
        yield from lines_of(part, table, names)
