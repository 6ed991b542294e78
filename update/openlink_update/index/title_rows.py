"""The rows of a holdings table that have a title and a number, as the index has them. An entry of the coverage is, with
spaces between: target or part, the row as the report counts it (`link R`), first date, last date, embargo. A date is
YYYY, YYYY-MM or YYYY-MM-DD, an embargo one or two parts such as P1Y, with a comma between them. `-` is a missing part;
at the end of an entry, missing parts are left out. An address is that of the title's page, as title_addresses.py has
it, after the target and a space."""
import dataclasses
from collections.abc import Iterator

from openlink_update.index.title_addresses import NO_OFFER, Offer
from openlink_update.index.short_titles import prefix_in
from openlink_update.index.titles import MOST_CHARACTERS, key_of, plain
from openlink_update.tables.embargo import Embargo
from openlink_update.tables.identifiers import form_of, is_issn
from openlink_update.tables.parts import base_of
from openlink_update.tables.row_dates import NONE, date_in
from openlink_update.tables.table import Table, cell

PRINT, ONLINE = 1, 2
_MOST_OF_A_PUBLISHER = 60  # characters
_COLUMNS = (
    "publication_title",
    "print_identifier",
    "online_identifier",
    "date_first_issue_online",
    "date_last_issue_online",
    "embargo_info",
    "publication_type",
    "title_id",
    "preceding_publication_title_id",
    "title_url",
    "publisher_name",
)


@dataclasses.dataclass(frozen=True)
class Row:
    title: str
    numbers: list[str]  # forms, the print one first
    columns: int  # PRINT, ONLINE or both
    is_journal: bool
    coverage: str  # an entry of the index
    title_id: str
    preceding_id: str
    address: str  # that of the title's page, after the target; '' if the index has none
    publisher: str  # as a key; '' for a book
    prefix: str  # the beginning of DOIs that the row has; '' for a book


def rows_of(target: str, table: Table, offer: Offer = NO_OFFER) -> Iterator[Row]:
    """Yields the rows of a target's table that belong in the index."""
    places = table.places(_COLUMNS)
    for number, cells in enumerate(table.rows):
        row = _row_of(target, number, [cell(cells, place) for place in places], offer)
        if row is not None:
            yield row


def _row_of(target: str, number: int, cells: list[str], offer: Offer) -> Row | None:
    title, printed, online, first, last, embargo, kind, title_id, preceding_id, page, publisher = cells
    forms: list[str] = []
    columns = 0
    for form, column in ((form_of(printed), PRINT), (form_of(online), ONLINE)):
        if form:
            columns |= column
            forms += [form] * (form not in forms)
    title = plain(title)[:MOST_CHARACTERS] if forms else ""
    if not title:
        return None
    coverage = f"{target} {number} {date_in(first)} {date_in(last)} {_embargo_in(embargo)}"
    while coverage.endswith(f" {NONE}"):
        coverage = coverage[:-2]
    is_journal = _is_journal(kind, forms)
    address = offer.address("j" if is_journal else "b", page) if offer.kinds else ""
    named = f"{base_of(target)} {address}" if address else ""
    signs = (key_of(publisher[:_MOST_OF_A_PUBLISHER]), prefix_in(page, title_id)) if is_journal else ("", "")
    return Row(title, forms, columns, is_journal, coverage, title_id, preceding_id, named, *signs)


def _is_journal(kind: str, forms: list[str]) -> bool:
    """Whether a row is one of a journal: by its numbers if publication_type does not say that it is a book."""
    return kind.strip().lower() != "monograph" and any(map(is_issn, forms))


def _embargo_in(text: str) -> str:
    embargo = Embargo.parse(text)
    return embargo.index_text if embargo is not None else NONE
