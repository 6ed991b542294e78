"""Counts what the front door's logs hold, by month. A line has no reader's address and no query. There are three forms:

    TIME STATUS METHOD PATH SECONDS found=FULL/ALL targets=NAME,NAME from=SOURCE    a request
    MONTH target=NAME NUMBER    a link that a reader followed, and the ISSN or ISBN of the request, or -
    MONTH NUMBER YEAR           a title that was asked for in vain, and the year, or -

Older lines of requests lack `targets`. The path of an error that nginx found is /fault. A path with a space is none of
the front door's. Whoever sends requests chooses sources and numbers, so each kind of name has a greatest number; what
comes after it is counted together, under OTHERS, and a log of any size takes the same memory."""
import itertools
import re
from collections import Counter, defaultdict
from collections.abc import Iterable, Iterator, Mapping
from typing import Protocol

OTHERS = "(others)"
_NO_SOURCE = b"(none)"
Row = tuple[str, str, str, int]  # month, kind, name, number

REQUESTS, PROBES, WITHOUT_FULL_TEXT, WITHOUT_LINK = "requests", "probes", "without full text", "without a link"
ERRORS, SOURCE, SOURCE_WITHOUT = "errors", "source", "source without full text"
SHOWN, FOLLOWED, FOLLOWED_TITLE, IN_VAIN = "shown", "followed", "followed title", "asked in vain"
_KINDS = (
    *(REQUESTS, PROBES, WITHOUT_FULL_TEXT, WITHOUT_LINK, ERRORS),
    *(SOURCE, SOURCE_WITHOUT, SHOWN, FOLLOWED, FOLLOWED_TITLE, IN_VAIN),
)

_BLOCK = 2**18  # bytes that are read at once
_MOST_HELD_BACK = 40_000  # heads and lines
_MOST_BYTES_HELD_BACK = 2**24
_TRIED = 20  # lines of a block, by which it is known whether many have other paths
_MOST_LINE = 2**17  # bytes; nginx writes shorter ones
_MOST_MONTHS = 1200
_MOST_SOURCES = 10_000  # of a month; only an attack has more
_MOST_SOURCES_IN_ALL = 60_000
_MOST_TARGETS_IN_ALL = 50_000  # with months
_MOST_TITLES_IN_ALL = 60_000  # followed, with months and targets
_MOST_VAIN_IN_ALL = 60_000  # with months
_MOST_NAME = 100  # bytes of a source or a target

_PROBE = b"info:sid/openlink:probe"
_REDIRECT = b"302"
_ANSWERS = frozenset(f"{status}".encode() for status in range(100, 400))
_PATHS = (b"/find", b"/find.json", b"/go", b"/fault")
_ISSN_OR_ISBN = rb"\d{4}-\d{3}[\dX]|97[89]\d{10}"
_MONTH = re.compile(rb"\d{4}-[01]\d")
_STATUS = re.compile(rb"[1-5]\d\d")
_FOUND = re.compile(rb"found=\d+/\d+")
_TARGETS = re.compile(rb"targets=[A-Za-z0-9_.,-]*")
_SOURCE = re.compile(rb"[A-Za-z0-9_:./-]*")
_TARGET = re.compile(rb"target=([A-Za-z0-9_.-]{1,100})")
_NUMBER = re.compile(_ISSN_OR_ISBN)
_YEAR = re.compile(rb"[12]\d{3}|-")

_ANSWERED = re.compile(rb"found=(\d+/\d+)(?: targets=([A-Za-z0-9_.,-]*))? from=([A-Za-z0-9_:./-]{0,100})")
# A line of another path than those above, which counts for nothing. Who looks for other programs makes many of them.
_OTHER_PATH = re.compile(
    rb"\d{4}-[01]\d[!-~]{18} [1-5]\d\d [!-~]+ (?!/(?:find(?:\.json)?|go|fault) )"
    rb"[!-~]+ [!-~]+ [!-~]+ (?:.* )?from=[!-~]*"
)
# What a line of a request counts for: the month, the status, the path, and what comes after the seconds.
_Head = tuple[bytes, bytes, bytes, bytes]


class Readable(Protocol):
    """A file of bytes, or what is read like one."""

    def read(self, size: int, /) -> bytes:
        """At most this number of bytes; none at the end."""


class _Names:
    """Numbers by month and name, of at most `most` names in all, and of `most_of_month` in a month."""

    def __init__(self, most: int, most_of_month: int) -> None:
        self.by_month: defaultdict[bytes, dict[bytes, int]] = defaultdict(dict)
        self._left = most
        self._most_of_month = most_of_month

    def add(self, month: bytes, name: bytes, number: int) -> bytes:
        """Counts a name, and returns the name that it is counted by."""
        numbers = self.by_month[month]
        if name not in numbers:
            if self._left == 0 or len(numbers) >= self._most_of_month:
                name = OTHERS.encode()
            else:
                self._left -= 1
        numbers[name] = numbers.get(name, 0) + number
        return name


class Counts:
    """What was counted; how many lines were read, and how many of them have none of the forms, once `end` is called.
    Lines are held back, so that what many lines have in common is judged once."""

    def __init__(self) -> None:
        self.lines = 0
        self.unread = 0
        self._heads: Counter[_Head] = Counter()
        self._whole_lines: Counter[bytes] = Counter()  # of fewer than six fields
        self._bytes = 0  # of the lines that were held back
        self._months: set[bytes] = set()
        # Of few names, such as a status, by month and kind.
        self._plain: defaultdict[tuple[bytes, str], Counter[bytes]] = defaultdict(Counter)
        self._without: defaultdict[bytes, Counter[bytes]] = defaultdict(
            Counter
        )  # by month, sources that _sources names
        self._sources = _Names(_MOST_SOURCES_IN_ALL, _MOST_SOURCES)
        self._shown = _Names(_MOST_TARGETS_IN_ALL, _MOST_TARGETS_IN_ALL)
        self._followed = _Names(_MOST_TARGETS_IN_ALL, _MOST_TARGETS_IN_ALL)
        self._titles = _Names(_MOST_TITLES_IN_ALL, _MOST_TITLES_IN_ALL)
        self._vain = _Names(_MOST_VAIN_IN_ALL, _MOST_VAIN_IN_ALL)

    def rows(self) -> list[Row]:
        """The table: by month, the kinds in their order, and of each kind the greatest numbers first."""
        self.end()
        named: dict[str, Mapping[bytes, Mapping[bytes, int]]] = {
            SOURCE: self._sources.by_month,
            SOURCE_WITHOUT: self._without,
            SHOWN: self._shown.by_month,
            FOLLOWED: self._followed.by_month,
            FOLLOWED_TITLE: self._titles.by_month,
            IN_VAIN: self._vain.by_month,
        }
        rows: list[Row] = []
        for month, kind in itertools.product(sorted(self._months), _KINDS):
            numbers = [*self._plain.get((month, kind), {}).items(), *named.get(kind, {}).get(month, {}).items()]
            numbers.sort(key=lambda it: (-it[1], it[0]))
            text = month.decode()
            rows += [(text, kind, name.decode(), number) for name, number in numbers]
        return rows

    def add(self, block: bytes) -> None:
        """Counts whole lines."""
        lines = block.removesuffix(b"\n").split(b"\n")
        self.lines += len(lines)
        if block[7:8] == b" ":  # the forms with a month, which have files of their own
            self._whole_lines.update(lines)
        else:
            if any(map(_OTHER_PATH.fullmatch, lines[:_TRIED])):
                lines = list(itertools.filterfalse(_OTHER_PATH.fullmatch, lines))
            self._hold_back(lines)
        self._bytes += len(block)
        if len(self._heads) + len(self._whole_lines) > _MOST_HELD_BACK or self._bytes > _MOST_BYTES_HELD_BACK:
            self.end()

    def _hold_back(self, lines: list[bytes]) -> None:
        heads = [(it[0][:7], it[1], it[3], it[5]) for line in lines if len(it := line.split(None, 5)) == 6]
        self._heads.update(heads)
        if len(heads) < len(lines):
            self._whole_lines.update(line for line in lines if len(line.split(None, 5)) < 6)

    def end(self) -> None:
        """Counts what was held back. Of requests, links by source and targets are counted apart: in hostile logs, and
        in large ones, most heads differ in both."""
        found: Counter[tuple[bytes, bytes, bytes]] = Counter()
        targets: Counter[tuple[bool, bytes, bytes]] = Counter()
        for (month, status, path, rest), number in self._heads.items():
            it = _ANSWERED.fullmatch(rest) if status in _ANSWERS and path in _PATHS else None
            if it is None or it[3] == _PROBE or not (month in self._months or _MONTH.fullmatch(month)):
                self._add_fields([month, status, b"", path, b"", *rest.split()], number)
            elif self._is_counted(month, number):
                found[month, it[1], it[3]] += number
                targets[status == _REDIRECT, month, it[2]] += number
        for request, number in found.items():
            self._add_request(*request, number)
        for (is_redirect, month, names), number in targets.items():
            self._add_targets(self._followed if is_redirect else self._shown, month, names, number)
        for line, number in self._whole_lines.items():
            self._add_fields(line.split(), number)
        self._heads.clear()
        self._whole_lines.clear()
        self._bytes = 0

    def _is_counted(self, month: bytes, number: int) -> bool:
        """Whether a month has a place; its lines have another form if it has none."""
        if month in self._months:
            return True
        if len(self._months) == _MOST_MONTHS:
            self.unread += number
            return False
        self._months.add(month)
        return True

    def _add_request(self, month: bytes, found: bytes, source: bytes, number: int) -> None:
        self._plain[month, REQUESTS][b""] += number
        is_without = found.startswith(b"0/")
        if source:
            source = self._sources.add(month, source, number)
            if is_without:
                self._without[month][source] += number
        else:
            self._plain[month, SOURCE][_NO_SOURCE] += number
            if is_without:
                self._without[month][_NO_SOURCE] += number
        if is_without:
            self._plain[month, WITHOUT_FULL_TEXT][b""] += number
        if found == b"0/0":
            self._plain[month, WITHOUT_LINK][b""] += number

    def _add_targets(self, targets: _Names, month: bytes, names: bytes | None, number: int) -> None:
        if names:
            for name, times in Counter(names.split(b",")).items():
                targets.add(month, name if len(name) <= _MOST_NAME else OTHERS.encode(), times * number)

    def _add_followed(self, month: bytes, target: bytes, isn: bytes, number: int) -> None:
        if month and self._is_counted(month, number):
            self._followed.add(month, target, number)
            self._titles.add(month, target + b" " + isn, number)

    def _add_fields(self, fields: list[bytes], number: int) -> None:
        """Counts a line by its fields, and all that have the same."""
        if not fields:
            self.lines -= number
        elif len(fields) == 3 and _MONTH.fullmatch(fields[0]):
            self._add_short(fields, number)
        elif (
            len(fields) < 7
            or not _MONTH.fullmatch(fields[0][:7])
            or not _STATUS.fullmatch(fields[1])
            or not fields[-1].startswith(b"from=")
        ):
            self.unread += number
        elif len(fields) <= 8 and fields[3] in _PATHS:
            self._add_long(fields, number)

    def _add_short(self, fields: list[bytes], number: int) -> None:
        month, name, last = fields
        target = _TARGET.fullmatch(name)
        if target and (last == b"-" or _NUMBER.fullmatch(last)):
            self._add_followed(month, target[1], last, number)
        elif _NUMBER.fullmatch(name) and _YEAR.fullmatch(last):
            if self._is_counted(month, number):
                self._vain.add(month, name, number)
        else:
            self.unread += number

    def _add_long(self, fields: list[bytes], number: int) -> None:
        month, status, found, source = fields[0][:7], fields[1], fields[5], fields[-1].removeprefix(b"from=")
        if source == _PROBE or status >= b"4":
            if self._is_counted(month, number):
                kind, name = (PROBES, b"") if source == _PROBE else (ERRORS, status)
                self._plain[month, kind][name] += number
            return
        if found == b"found=":
            return
        is_read = _FOUND.fullmatch(found) and (len(fields) == 7 or _TARGETS.fullmatch(fields[6]))
        if not is_read or len(source) > _MOST_NAME or not _SOURCE.fullmatch(source):
            self.unread += number
        elif self._is_counted(month, number):
            self._add_request(month, found.removeprefix(b"found="), source, number)
            targets = self._followed if status == _REDIRECT else self._shown
            self._add_targets(targets, month, fields[6].removeprefix(b"targets=") if len(fields) == 8 else b"", number)


def counts_of(files: Iterable[Readable]) -> Counts:
    """What these files hold, each from its beginning on."""
    counts = Counts()
    for file in files:
        for block in blocks_of(file):
            counts.add(block)
    counts.end()
    return counts


def blocks_of(file: Readable) -> Iterator[bytes]:
    """The lines of a file, in blocks of whole lines. Of one that is longer than any of a log a part is left out."""
    rest = b""
    while chunk := file.read(_BLOCK):
        block = rest + chunk
        end = block.rfind(b"\n") + 1
        rest = block[end:][:_MOST_LINE]
        if end:
            yield block[:end]
    if rest:
        yield rest
