"""What the targets of a version have: titles, those that no other target has, the titles that two targets share, and
how many titles are covered in each decade. The tables are read as they are served, and the parts of one target count as
one.

Two rows are of the same title if they share an ISSN or ISBN, or if other rows, of any target, join their numbers. Rows
without a number count nowhere. A book without dates of coverage is covered in the year in which it was published."""
import array
import collections
import dataclasses
import datetime
import re
from collections.abc import Iterator, Mapping
from pathlib import Path

from openlink_update.received.column_names import IDENTIFIERS
from openlink_update.tables.identifiers import form_of, standard
from openlink_update.tables.parts import base_of
from openlink_update.tables.registry import entries_of

_MOST_SHOWN = 10  # overlaps of a target
_FIRST_DECADE, _DECADES = 1600, 64  # of coverage; what is earlier counts as the first one
_COVERAGE = ("coverage_from", "coverage_to")
_PUBLISHED = ("date_monograph_published_online", "date_monograph_published_print")
_COLUMNS = (*IDENTIFIERS, *_COVERAGE, *_PUBLISHED)
_EARLIEST, _LATEST = b"0", b"99999999"
_ISSN = re.compile(rb"(\d{4})-(\d{3})([\dX])").fullmatch
_ISBN = re.compile(rb"97[89]\d{10}").fullmatch
_YEAR = re.compile(rb"(?<!\d)[12]\d{3}(?!\d)").search
_HEADER = ("target", "other", "titles", "percent")


@dataclasses.dataclass(frozen=True)
class Overlap:
    target: str  # the other one
    titles: int  # that both have


@dataclasses.dataclass(frozen=True)
class Decade:
    year: int  # its first
    titles: int  # that are covered in it


@dataclasses.dataclass(frozen=True)
class Holdings:
    """What a target has."""

    target: str
    titles: int
    alone: int  # titles that no other target has
    overlaps: tuple[Overlap, ...]  # with all others, the greatest first
    decades: tuple[Decade, ...]

    def greatest(self) -> tuple[Overlap, ...]:
        return self.overlaps[:_MOST_SHOWN]


@dataclasses.dataclass(frozen=True)
class Collection:
    titles: int  # of all targets
    targets: tuple[Holdings, ...]  # in the order of the menu
    decades: tuple[Decade, ...]  # of all targets

    def rows(self) -> list[tuple[str, str, str, str]]:
        """All overlaps as the rows of a table: a target, another, the titles that both have, and the part of the first
        one's in 100."""
        return [_HEADER] + [
            (each.target, it.target, str(it.titles), str(round(100 * it.titles / each.titles)))
            for each in self.targets
            for it in each.overlaps
        ]


def collection_of(version: Path, today: datetime.date | None = None) -> Collection:
    """What the targets of a version have, as of a day. OSError or Failure if the version is not whole."""
    numbers, tables = _Numbers(), dict[str, _Rows]()
    for entry in entries_of(version / "registry.tsv"):
        rows = tables.setdefault(base_of(entry.name), _Rows())
        _read(version / entry.table, rows, numbers, (today or datetime.date.today()).year)
    return _counted(tables, numbers)


class _Numbers:
    """The numbers of all tables, each a node; those of one title are joined."""

    def __init__(self) -> None:
        self._nodes: dict[int, int] = {}  # by number
        self._into = array.array("i")

    def node_of(self, number: int) -> int:
        node = self._nodes.setdefault(number, len(self._into))
        if node == len(self._into):
            self._into.append(node)
        return node

    def root(self, node: int) -> int:
        into = self._into
        while into[node] != node:
            into[node] = into[into[node]]
            node = into[node]
        return node

    def join(self, one: int, other: int) -> None:
        first, second = sorted((self.root(one), self.root(other)))
        self._into[second] = first

    def titles(self) -> tuple["array.array[int]", int]:
        """The title of each node, as a number from 0, and how many titles there are. Nothing may be joined after."""
        titles, count = array.array("i", [0]) * len(self._into), 0
        for node in range(len(self._into)):
            root = self.root(node)  # not after the node
            if root == node:
                titles[node], count = count, count + 1
            else:
                titles[node] = titles[root]
        return titles, count


class _Rows:
    """The rows of a target that have a number: a node, and the decades as bits."""

    def __init__(self) -> None:
        self.nodes = array.array("i")
        self.decades = array.array("Q")


def _number_in(cell: bytes) -> int:
    """The ISSN or ISBN in a cell as a number, in one form; -1 if it has none."""
    match = _ISSN(cell)
    if match:
        return int(match[1] + match[2]) * 11 + (10 if match[3] == b"X" else int(match[3]))
    if _ISBN(cell):
        return int(cell)
    text = standard(form_of(cell.decode("utf-8", "replace"))) if cell else ""
    return _number_in(text.encode()) if text else -1


def _read(path: Path, rows: _Rows, numbers: _Numbers, year: int) -> None:
    """Adds the rows of a table, which is not in memory as a whole."""
    bits: dict[tuple[bytes, ...], int] = {}
    with open(path, "rb") as file:
        columns = file.readline().rstrip(b"\n").split(b"\t")
        names = [name.encode() for name in _COLUMNS]
        places = [columns.index(name) if name in columns else -1 for name in names]
        most = max(places) + 1
        for line in file:
            cells = line.rstrip(b"\n").split(b"\t", most)
            found = [cells[at] if 0 <= at < len(cells) else b"" for at in places]
            nodes = [numbers.node_of(it) for it in map(_number_in, found[:2]) if it >= 0]
            if not nodes:
                continue
            if len(nodes) > 1 and nodes[0] != nodes[1]:
                numbers.join(*nodes)
            dates = tuple(found[2:])
            if dates not in bits:
                bits[dates] = _bits_of(dates, year)
            rows.nodes.append(nodes[0])
            rows.decades.append(bits[dates])


def _bits_of(dates: tuple[bytes, ...], year: int) -> int:
    """The decades of a row, by its coverage or the year of a book: none if its first year is not known."""
    opens, closes, *published = dates
    if opens.isdigit() and opens != _EARLIEST:
        if closes == _EARLIEST or not closes.isdigit():
            return 0  # no day is open
        first, last = int(opens) // 10000, year if closes == _LATEST else int(closes) // 10000
    else:
        years = [int(it[0]) for it in map(_YEAR, published) if it]
        first, last = (years[0], years[0]) if years else (1, 0)
    places = range(_place_of(first), _place_of(min(last, year)) + 1) if first <= last else ()
    return sum(1 << place for place in places)


def _place_of(year: int) -> int:
    return min(max(year - _FIRST_DECADE, 0) // 10, _DECADES - 1)


def _counted(tables: Mapping[str, _Rows], numbers: _Numbers) -> Collection:
    titles, count = numbers.titles()
    sets, decades = dict[str, int](), dict[str, tuple[Decade, ...]]()
    every = array.array("Q", [0]) * count
    for name, rows in tables.items():
        masks: dict[int, int] = {}
        for node, mask in zip(rows.nodes, rows.decades):
            title = titles[node]
            masks[title] = masks.get(title, 0) | mask
            every[title] |= mask
        decades[name] = _decades_of(collections.Counter(masks.values()))
        sets[name] = _set_of(masks, count)
    alone = _alone(sets)
    found = tuple(
        Holdings(name, own.bit_count(), (own & alone).bit_count(), tuple(_overlaps(name, sets)), decades[name])
        for name, own in sets.items()
    )
    return Collection(count, found, _decades_of(collections.Counter(every)))


def _decades_of(masks: collections.Counter[int]) -> tuple[Decade, ...]:
    """The titles of each decade, for the numbers of titles by their decades."""
    counts = [sum(number for mask, number in masks.items() if mask >> place & 1) for place in range(_DECADES)]
    return tuple(Decade(_FIRST_DECADE + 10 * place, number) for place, number in enumerate(counts) if number)


def _set_of(titles: Mapping[int, int], count: int) -> int:
    """A set of titles as the bits of a number, by which two sets are compared fastest."""
    bits = bytearray(count // 8 + 1)
    for title in titles:
        bits[title >> 3] |= 1 << (title & 7)
    return int.from_bytes(bits, "little")


def _alone(sets: Mapping[str, int]) -> int:
    """The titles that one set alone has."""
    once = several = 0
    for own in sets.values():
        several |= once & own
        once |= own
    return once & ~several


def _overlaps(name: str, sets: Mapping[str, int]) -> Iterator[Overlap]:
    """The titles that a target shares with each other that has some, the greatest number first."""
    own = sets[name]
    shared = [Overlap(other, (own & titles).bit_count()) for other, titles in sets.items() if other != name]
    yield from sorted((it for it in shared if it.titles), key=lambda it: (-it.titles, it.target))
