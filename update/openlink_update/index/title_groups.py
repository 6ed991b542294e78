"""The titles of all tables. Rows are of one title if they have the same key and a number in common."""
import collections
import dataclasses
import functools
from collections.abc import Iterable

from openlink_update.index.title_addresses import NO_OFFER, Offer
from openlink_update.index.title_rows import ONLINE, PRINT, Row, rows_of
from openlink_update.index.titles import article_and_key
from openlink_update.tables.identifiers import standard
from openlink_update.tables.parts import base_of
from openlink_update.tables.table import Table

_MOST_NUMBERS = 40
_MOST_ROWS = 200
_MOST_RELATED = 5  # earlier titles, and later ones
_MOST_ADDRESSES = 20  # one of each target
_MOST_SIGNS = 6
_parts_of = functools.lru_cache(maxsize=1024)(article_and_key)  # the next row often has the same title


class Title:
    """Its forms of numbers, its coverage, its addresses and its signs are texts, since lists of a quarter of a million
    titles are large."""

    __slots__ = (
        "name",
        "article",
        "key",
        "is_journal",
        "columns",
        "forms",
        "coverage",
        "addresses",
        "signs",
        "left_out",
        "into",
    )

    def __init__(self, name: str) -> None:
        self.name = name
        self.article, self.key = _parts_of(name)
        self.is_journal, self.columns, self.forms, self.coverage, self.addresses = False, 0, "", "", ""
        self.signs = ""  # its publishers and the beginnings of its DOIs, with tabs between them
        self.left_out: frozenset[str] = frozenset()  # targets with too many rows
        self.into: Title | None = None  # the title that this one was joined to

    @property
    def kind(self) -> str:
        """The sign of a journal or of a book."""
        return "j" if self.is_journal else "b"

    def numbers(self) -> list[str]:
        """Its numbers in their standard form."""
        return list(dict.fromkeys(map(standard, self.forms.split(" "))))

    def count(self) -> int:
        return self.forms.count(" ") + 1

    def add(self, forms: str, columns: int, is_journal: bool, coverage: str) -> None:
        """Adds rows: forms of numbers, separated by spaces, and entries of the coverage, separated by semicolons."""
        self.is_journal |= is_journal
        self.columns |= columns
        if self.forms != forms:
            every = dict.fromkeys(f"{self.forms} {forms}".split())
            self.forms = " ".join(list(every)[:_MOST_NUMBERS])
        if not self.coverage:
            self.coverage = coverage
            return
        entries = f"{self.coverage};{coverage}".split(";")
        self.coverage = ";".join(entries[:_MOST_ROWS])
        if len(entries) > _MOST_ROWS:
            self.left_out |= {entry.partition(" ")[0] for entry in entries[_MOST_ROWS:]}

    def add_addresses(self, text: str) -> None:
        """Adds addresses, each after its target, with tabs between them. Of each target the first one counts."""
        known = {entry.partition(" ")[0]: entry for entry in filter(None, self.addresses.split("\t"))}
        for entry in filter(None, text.split("\t")):
            if len(known) < _MOST_ADDRESSES:
                known.setdefault(entry.partition(" ")[0], entry)
        self.addresses = "\t".join(known.values())

    def add_signs(self, signs: Iterable[str]) -> None:
        known = dict.fromkeys(filter(None, (*self.signs.split("\t"), *signs)))
        self.signs = "\t".join(list(known)[:_MOST_SIGNS])

    def years(self) -> str:
        """The first and the last year of all rows; `-` is one that is not known, or none."""
        entries = [entry.split(" ") for entry in self.coverage.split(";")]
        first, last = ([entry[place][:4] if len(entry) > place else "-" for entry in entries] for place in (2, 3))
        return f"{'-' if '-' in first else min(first)} {'-' if '-' in last else max(last)}"

    def take(self, other: "Title") -> None:
        """Joins another title to this one."""
        other.into = self
        self.add(other.forms, other.columns, other.is_journal, other.coverage)
        self.add_addresses(other.addresses)
        self.add_signs(other.signs.split("\t"))
        self.left_out |= other.left_out

    def coverage_text(self) -> str:
        if not self.left_out:
            return self.coverage
        return ";".join(entry for entry in self.coverage.split(";") if entry.partition(" ")[0] not in self.left_out)


@dataclasses.dataclass(frozen=True)
class Related:
    """The earlier and the later titles of one."""

    earlier: list[Title] = dataclasses.field(default_factory=list)
    later: list[Title] = dataclasses.field(default_factory=list)


@dataclasses.dataclass(frozen=True)
class _Grouped:
    """All titles, and those related to each that has some."""

    titles: list[Title]
    related: dict[Title, Related]


def _root(title: Title) -> Title:
    """The title that a title is part of now."""
    end = title
    while end.into is not None:
        end = end.into
    while title is not end and title.into is not None:  # the next search from here takes one step
        title.into, title = end, title.into
    return end


def _joined(by_number: dict[str, Title], numbers: Iterable[str]) -> Title | None:
    """The one title that has these numbers from now on; None if there is none yet."""
    found = [_root(by_number[number]) for number in numbers if number in by_number]
    if len(found) == 2 and found[0] is not found[1]:
        found[0].take(found[1])
    return found[0] if found else None


class Titles:
    def __init__(self) -> None:
        self._alone: dict[str, Title] = {}  # by key: the title, if no other has this key
        self._several: dict[str, dict[str, Title]] = {}  # by key: titles by number
        self._followed: list[tuple[Title, Title]] = []  # pairs of an earlier and a later title
        # Of the target whose table, or a part of it, was added last: titles by the provider's identifiers, and pairs of
        # the identifier of an earlier title and the later one.
        self._target = ""
        self._ids: dict[str, Title] = {}
        self._later: list[tuple[str, Title]] = []

    def add_table(self, target: str, table: Table, offer: Offer = NO_OFFER) -> None:
        """Adds the table of a target, or the next part of it."""
        if base_of(target) != self._target:
            self._follow(base_of(target))
        for row in rows_of(target, table, offer):
            title = self._title_of(row)
            title.add(" ".join(row.numbers), row.columns, row.is_journal, row.coverage)
            if row.address:
                title.add_addresses(row.address)
            if row.is_journal:
                title.add_signs((row.publisher, row.prefix))
            if row.title_id:
                self._ids.setdefault(row.title_id, title)
            if row.preceding_id:
                self._later.append((row.preceding_id, title))

    def _follow(self, target: str = "") -> None:
        """Finds the earlier titles of the last target, and begins another."""
        self._followed += [(self._ids[name], title) for name, title in self._later if name in self._ids]
        self._target, self._ids, self._later = target, {}, []

    def _title_of(self, row: Row) -> Title:
        """The title that a row belongs to."""
        key = _parts_of(row.title)[1]
        title = self._alone.get(key)
        if title is None and key not in self._several:
            title = self._alone[key] = Title(row.title)
            return title
        numbers = [standard(form) for form in row.numbers]
        if title is not None:
            if title.count() < _MOST_NUMBERS - 1 and not {*numbers}.isdisjoint(title.numbers()):
                return title
            # From the last row after which a title has all its numbers, or if there is another title.
            self._several[key] = dict.fromkeys(title.numbers(), title)
            del self._alone[key]
        by_number = self._several[key]
        title = _joined(by_number, numbers) or Title(row.title)
        by_number.update(dict.fromkeys(numbers, title))
        return title

    def finish(self) -> _Grouped:
        self._follow()
        found = list(self._alone.values())
        for by_number in self._several.values():
            found += _with_editions([title for title in dict.fromkeys(by_number.values()) if title.into is None])
        return _Grouped(found, self._related())

    def _related(self) -> dict[Title, Related]:
        related: dict[Title, Related] = collections.defaultdict(Related)
        for earlier, later in ((_root(one), _root(other)) for one, other in self._followed):
            if earlier is not later:
                _add_related(related[later].earlier, earlier)
                _add_related(related[earlier].later, later)
        return related


def _add_related(others: list[Title], other: Title) -> None:
    if other not in others and len(others) < _MOST_RELATED:
        others.append(other)


def _with_editions(titles: list[Title]) -> list[Title]:
    """The titles of a key. One with only print numbers and one with only online numbers are joined, if there is no
    other such title of their kind."""
    for is_journal in (True, False):
        of_kind = [title for title in titles if title.is_journal == is_journal]
        printed, online = ([title for title in of_kind if title.columns == column] for column in (PRINT, ONLINE))
        if len(printed) == len(online) == 1:
            printed[0].take(online[0])
    return [title for title in titles if title.into is None]
