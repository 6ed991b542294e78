"""The list of titles, by letter, in pages. The letters are `a` to `z`, `0-9`, each letter of another alphabet up to
Arabic (such as Greek and Cyrillic), and `other`, in this order; a title is under the first character of its key. Within
a letter titles are in the order of their keys, so words come before longer words.

The first line of `letters`, after the empty one, has two cells: the number of titles, and the number of digits of the
names in words/KIND/. Each other line has four: the letter, its first page, its numbers of pages and of titles. A line
of `starts` has the letter and the STARTS of its pages, with a semicolon between them. A start is the beginning of the
key of the page's first title, long enough that no key of the page before has it, but at least two and at most
MOST_START characters. A page has at most PAGE titles, and each letter begins a new one. The first line of a page has
the length of each other line in bytes, with its end, separated by spaces, so that a search reads the line of a place
alone. A line has the cells TITLE, NUMBERS and COVERAGE, and at most MOST_LINE bytes: at most MOST_TITLE of the title,
MOST_NUMBERS numbers, and as many rows that differ for readers as have room, at most MOST_ROWS.
"""
import os
from collections.abc import Iterable
from pathlib import Path

from openlink_update.index.index_files import write_lines
from openlink_update.index.title_groups import Title
from openlink_update.tables.parts import base_of

PAGE = 50  # titles
_MOST_START = 32  # characters of the beginning of a page
_MOST_LINE, _MOST_TITLE = 1300, 1000  # bytes
_MOST_NUMBERS, _MOST_ROWS = 8, 12  # of a title in the list: the front door shows no more
_DIGITS, _OTHER = "0-9", "other"
_LAST_ALPHABET = "\u06ff"  # those after Arabic have no letters of their own here

Page = tuple[str, list[Title]]  # its letter and titles
_Numbered = tuple[int, list[Title]]


def _letter_of(key: str) -> str:
    """The letter under which a key is: that of its first character."""
    first = key[:1]
    if first.isdigit() and first.isascii():
        return _DIGITS
    return first if first.isalpha() and first <= _LAST_ALPHABET else _OTHER


def _order_of(letter: str) -> tuple[int, str]:
    """a to z, digits, other alphabets, and last what is no letter."""
    if letter == _OTHER:
        return 3, ""
    if letter == _DIGITS:
        return 1, ""
    return (0 if letter.isascii() else 2), letter


def ordered(titles: Iterable[Title]) -> list[Title]:
    return sorted(titles, key=lambda title: (_order_of(_letter_of(title.key)), title.key, title.name))


def pages_of(titles: Iterable[Title]) -> list[Page]:
    """Pages of titles in their order, each with its letter."""
    pages: list[Page] = []
    for title in titles:
        letter = _letter_of(title.key)
        if not pages or pages[-1][0] != letter or len(pages[-1][1]) == PAGE:
            pages.append((letter, []))
        pages[-1][1].append(title)
    return pages


def write_pages(folder: Path, pages: list[Page], count: int, digits: int) -> None:
    """Writes the pages of `count` titles, and the letters; `digits` is the number of digits of the names of words."""
    folder.mkdir(parents=True)
    letters: dict[str, list[_Numbered]] = {}
    for number, (letter, titles) in enumerate(pages):
        page = [_line_of(title) + b"\n" for title in titles]
        lengths = " ".join(str(len(line)) for line in page)
        (folder / str(number)).write_bytes(b"%b\n%b" % (lengths.encode(), b"".join(page)))
        letters.setdefault(letter, []).append((number, titles))
    lines = [
        f"{letter}\t{its[0][0]}\t{len(its)}\t{sum(len(titles) for _, titles in its)}" for letter, its in letters.items()
    ]
    write_lines(folder / "letters", [line.encode() for line in (f"{count}\t{digits}", *lines)])
    write_lines(folder / "starts", [f"{letter}\t{_starts_of(its)}".encode() for letter, its in letters.items()])


def _starts_of(pages: list[_Numbered]) -> str:
    """The beginnings of the pages of a letter."""
    starts, before = [], ""
    for _, titles in pages:
        key = titles[0].key
        length = max(2, len(os.path.commonprefix([before, key])) + 1)
        length += key[length - 1 : length] == " "
        starts.append(key[: min(length, _MOST_START)].rstrip())
        before = titles[-1].key
    return ";".join(starts)


def _line_of(title: Title) -> bytes:
    name = title.name.encode()[:_MOST_TITLE].decode(errors="ignore")
    line = f"{name}\t{' '.join(title.forms.split(' ')[:_MOST_NUMBERS])}\t".encode()
    rows: dict[str, bytes] = {}
    for entry in title.coverage_text().split(";"):
        target, _, rest = entry.partition(" ")
        row = entry.encode()
        size = len(line) + sum(len(it) + 1 for it in rows.values()) + len(row)
        if len(rows) == _MOST_ROWS or size > _MOST_LINE:
            break
        rows.setdefault(f"{base_of(target)} {rest.partition(' ')[2]}", row)
    return line + b";".join(rows.values())
