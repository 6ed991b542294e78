"""Which rules have no link for a request that names a title alone, without a date, as a list of titles sends it.

    undated.tsv    a target, and `j` or `b`: its rules have no such link for any of its journals, or of its books

`openlink explain` tries the rules on rows of the target's table. Where they have no link, the index has the addresses
of the rows (title_url), which the front door offers beside the program's links: see title_addresses.py."""
import datetime
import re
from collections.abc import Collection, Iterator
from pathlib import Path
from urllib.parse import urlencode

from openlink_update import shown_text
from openlink_update.index.title_rows import Row, rows_of
from openlink_update.input_files import cells_in
from openlink_update.outcome import Refused
from openlink_update.rules import compiled, pages
from openlink_update.tables import coverage
from openlink_update.tables.identifiers import is_issn, standard
from openlink_update.tables.table import Table, cell
from openlink_update.versions.program import Program

NAME = "undated.tsv"
_SAMPLE = "undated.txt"  # the rows that are tried, while they are
_MOST_ROWS = 400  # that are looked at, evenly spread over the table
_MOST_TRIED = 12  # of these, of journals, and of books
_MOST_CHARACTERS = 100  # of a title in a line
_LINK = re.compile(r"^  rule \d+ holds: https?://", re.M | re.I)
_KINDS = {"j": "journals", "b": "books"}
_FORMATS = {"j": "journal", "b": "book"}
# Rules distinguish rows by the texts of the first columns, and by which of the others are empty.
_TEXTS = ("publication_type", "access_type", "coverage_depth")
_CELLS = ("print_identifier", "online_identifier", "title_url", "title_id", "date_last_issue_online", "embargo_info")


class UndatedLinks:
    """Those of the targets of a version that is made in a folder, and of the version before (None: there is none)."""

    def __init__(self, folder: Path, older: Path | None, program: Program, today: datetime.date) -> None:
        self._folder, self._program, self._today = folder, program, today
        self._before: dict[str, str] = {}  # by target: the kinds without a link
        self._now: dict[str, str] = {}
        self._titles: dict[str, list[str]] = {}  # by target: a title of each of these kinds
        path = older / NAME if older else None
        for target, kind in cells_in(path, 2) if path and path.exists() else ():
            self._before[target] = self._before.get(target, "") + kind

    def find(self, name: str, table: Table, has_rules: bool) -> None:
        """Tries the rules that the version has for a target on its table without walls. A code file is not tried."""
        self._now[name], self._titles[name] = "", []
        if not has_rules:
            return
        for kind in _KINDS:
            rows = _rows_to_try(table, kind)
            if rows and not self._has_link(name, table, rows):
                self._now[name] += kind
                self._titles[name].append(next(row.title for _, row in rows))

    def _has_link(self, name: str, table: Table, rows: list[tuple[int, Row]]) -> bool:
        """Whether the rules have a link for one of these rows."""
        own = table.of_rows([number for number, _ in rows])
        has_pages = pages.are_named((self._folder / compiled.path_in(self._folder, name)).read_bytes())
        sample, _ = coverage.served(pages.added(own) if has_pages else own, self._today)
        path = self._folder / _SAMPLE
        path.write_bytes(sample.to_bytes())
        try:
            return any(_LINK.search(self._explained(name, row)) for _, row in rows)
        except Refused:  # what is wrong with the table is said of the whole of it
            return True
        finally:
            path.unlink()

    def _explained(self, name: str, row: Row) -> str:
        rules = compiled.path_in(self._folder, name)
        return self._program.run("explain", rules, _SAMPLE, _query_of(row), most=1)[1]

    def keep_all(self) -> None:
        """Keeps what is known of all targets."""
        self._now = dict(self._before)

    def kinds(self, name: str) -> str:
        """The kinds of a target's titles without a link."""
        return self._now.get(name, "")

    def is_new(self, name: str) -> bool:
        """Whether the version before had links for all, or was made before an update asked."""
        return self.kinds(name) != "" and name not in self._before

    def lines(self, name: str, is_changed: bool) -> list[str]:
        """What is said of a target, if its files are new or it had a link before."""
        if not is_changed and self.kinds(name) == self._before.get(name, ""):
            return []
        titles = self._titles.get(name, [])
        return [
            f'no link without a date for {_KINDS[kind]}, such as "{shown_text.line_of(title, _MOST_CHARACTERS)}"'
            for kind, title in zip(self.kinds(name), titles)
        ]

    def text(self, targets: Collection[str]) -> str:
        """What the next version has to know."""
        return "".join(f"{target}\t{kind}\n" for target in targets for kind in self.kinds(target))


def _rows_to_try(table: Table, kind: str) -> list[tuple[int, Row]]:
    """Rows of a kind, each with its place, that rules may distinguish."""
    step = -(-len(table.rows) // _MOST_ROWS) or 1
    places = range(0, len(table.rows), step)
    found: dict[tuple[str, ...], tuple[int, Row]] = {}
    for number, row in _rows_with_places(table, places):
        if ("j" if row.is_journal else "b") == kind:
            found.setdefault(_form_of(table, table.rows[number]), (number, row))
    return list(found.values())[:_MOST_TRIED]


def _rows_with_places(table: Table, places: range) -> Iterator[tuple[int, Row]]:
    for place in places:
        for row in rows_of("", table.of_rows([place])):
            yield place, row


def _form_of(table: Table, row: list[str]) -> tuple[str, ...]:
    """What rules may ask of a row: the texts of some columns, and which cells are empty."""
    texts = [cell(row, place) for place in table.places(_TEXTS)]
    return (*texts, *("" if cell(row, place) else "empty" for place in table.places(_CELLS)))


def _query_of(row: Row) -> str:
    """The query that the front door sends for a title of a list."""
    kind = "j" if row.is_journal else "b"
    name = _FORMATS[kind]
    pairs = [("rft_val_fmt", f"info:ofi/fmt:kev:mtx:{name}"), ("rft.genre", name), (f"rft.{kind}title", row.title)]
    issns = [form for form in row.numbers if is_issn(form)] if row.is_journal else []
    for form, key in zip(issns or row.numbers, ("issn", "eissn") if issns else ("isbn",)):
        pairs += [(f"rft.{key}", form), (f"x.{key}", standard(form))]
    return urlencode(pairs)
