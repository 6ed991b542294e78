"""The titles that have a word, for the search: for each word, and for each beginning of many words, the places of its
titles in the list. A title's place is PAGE times the number of its page, plus the number of lines before it there. Its
words are those of its key, its article, and its words with umlauts as two letters; words of one character are left out,
and of a longer word only the first _MOST_LETTERS count. Of a title the first _MOST_WORDS count. Once the titles of a
kind have _ANY_NEW different words, each further title brings at most _MOST_NEW that none before it has, so that random
words take no more memory than the titles themselves.

A file is named after the MD5 sum of the first three characters of the word. It begins with a line that has the length
of its text in bytes, this line included. The lines of the text have the cells WORD, COUNT and PLACES. If a file would
have more than _MOST_BYTES, the words and beginnings of the fewest titles are left out: a table of many rare words takes
no frequent one away. PLACES is

    @N or #N   if COUNT titles have a word that *begins* with WORD. Their places are N bytes after the text: after @,
               COUNT ascending numbers of four bytes, the first byte the highest; after #, a bit for each place, the
               first one the highest bit of the first byte, and as many bytes as the last of these places needs
    NUMBER ..  otherwise: the places of the COUNT titles that have exactly the word WORD, ascending, with spaces between

To find the titles with words that begin with three characters or more, take the first line that begins with them. If
its PLACES begin with @ or #, it has them all. Otherwise each line that begins with them has some, and all of them
together have at most _FEW. Beginnings of two characters have lines of their own, always with @ or #, in the file named
after the MD5 sum of these two."""
import array
import collections
import dataclasses
import itertools
import os
import sys
from collections.abc import Iterable, Iterator
from pathlib import Path

from openlink_update.index.index_files import digest, text_of
from openlink_update.index.title_groups import Title
from openlink_update.index.title_list import PAGE, Page
from openlink_update.index.titles import written_key

_MOST_LETTERS = 60  # of a word
_MOST_WORDS = 40  # of a title
_ANY_NEW, _MOST_NEW = 100_000, 4  # different words of all titles, and those that a further title may bring
_MOST_BYTES = 1 << 20  # of a file; 250,000 titles have files of at most half of them
_FEW = 64  # places that words which begin alike have in all without a line for their beginning
_OTHER_CELLS = 24  # bytes of a line beside its word and places, at most
_HEAD = 3  # letters that words in one file have in common

_Sets = dict[str, "array.array[int]"]  # by word: its places in ascending order


@dataclasses.dataclass(frozen=True, slots=True)
class _Line:
    word: bytes
    places: "array.array[int]"
    has_all: bool  # whether the places are those of all words that begin with this one


def digits_for(titles: int) -> int:
    """How many digits the names of files have, so that each is small and there are few."""
    return 1 if titles <= 1000 else 2 if titles <= 20000 else 3


def words_in(title: Title) -> list[str]:
    words = [*title.key.split(" "), title.article, *written_key(title.name).split(" ")]
    found = dict.fromkeys(word[:_MOST_LETTERS] for word in words if len(word) > 1)
    return list(itertools.islice(found, _MOST_WORDS))


def places_by_head(pages: Iterable[Page]) -> dict[str, _Sets]:
    """The words of all titles, by their first letters, each with its places."""
    found: _Sets = collections.defaultdict(lambda: array.array("I"))
    for number, (_, titles) in enumerate(pages):
        for place, title in enumerate(titles, PAGE * number):
            new = 0  # words that only this title has yet
            for word in words_in(title):
                new += word not in found
                if word in found or len(found) < _ANY_NEW or new <= _MOST_NEW:
                    found[word].append(place)
    heads: dict[str, _Sets] = collections.defaultdict(dict)
    for word, places in found.items():
        heads[word[:_HEAD]][word] = places
    return heads


def _union(sets: "list[array.array[int]]") -> "array.array[int]":
    return sets[0] if len(sets) == 1 else array.array("I", sorted(set().union(*sets)))


def _lines_of(words: list[str], places: _Sets) -> Iterator[_Line]:
    """Yields lines for sorted words that begin alike."""
    if sum(len(places[word]) for word in words) <= _FEW:
        for word in words:
            yield _Line(word.encode(), places[word], False)
        return
    start = os.path.commonprefix([words[0], words[-1]])
    yield _Line(start.encode(), _union([places[word] for word in words]), True)
    rest = (word for word in words if word != start)
    for _, same in itertools.groupby(rest, lambda word: word[len(start)]):
        yield from _lines_of(list(same), places)


def _all_lines(pages: list[Page]) -> Iterator[tuple[str, _Line]]:
    """Yields the lines of the index, each after the letters that name its file."""
    by_two: dict[str, list["array.array[int]"]] = collections.defaultdict(list)
    for head, places in places_by_head(pages).items():
        by_two[head[:2]].append(_union(list(places.values())))
        if len(head) == _HEAD:
            for line in _lines_of(sorted(places), places):
                yield head, line
    for start, sets in by_two.items():
        yield start, _Line(start.encode(), _union(sets), True)


def write_words(folder: Path, pages: list[Page], digits: int) -> None:
    folder.mkdir(parents=True)
    files: dict[str, list[_Line]] = collections.defaultdict(list)
    last = PAGE * len(pages) - 1
    for head, line in _all_lines(pages):
        files[digest(head)[:digits]].append(line)
    for name, lines in files.items():
        (folder / name).write_bytes(_data_of(lines, last // 8 + 1))


def _bytes_of(line: _Line, most: int) -> int:
    """The bytes of a line with its places, or some more."""
    digits = len(str(line.places[-1])) + 1
    places = min(4 * len(line.places), most) if line.has_all else digits * len(line.places)
    return len(line.word) + _OTHER_CELLS + places


def _with_most_titles(lines: list[_Line], most: int) -> list[_Line]:
    """The lines of a file that have room in it, in their order."""
    left, kept = _MOST_BYTES, []
    for line in sorted(lines, key=lambda line: -len(line.places)):
        left -= _bytes_of(line, most)
        if left < 0:
            break
        kept.append(line)
    return sorted(kept, key=lambda line: line.word)


def _data_of(lines: list[_Line], most: int) -> bytes:
    """The bytes of a file: its lines, and then the places of those that have all, in the shorter of two forms. A line's
    places take at most `most` bytes."""
    texts: list[bytes] = []
    sets: list[bytes] = []
    size = 0
    for line in _with_most_titles(lines, most):
        start = b"%b\t%d\t" % (line.word, len(line.places))
        if not line.has_all:
            texts.append(start + " ".join(map(str, line.places)).encode())
            continue
        is_list = 4 * len(line.places) <= most
        data = _numbers_of(line.places) if is_list else _bits_of(line.places)
        texts.append(b"%b%b%d" % (start, b"@" if is_list else b"#", size))
        sets.append(data)
        size += len(data)
    return _with_length(text_of(texts)) + b"".join(sets)


def _with_length(text: bytes) -> bytes:
    """A text after a line that has the length of both."""
    length = len(text) + 2
    while len(b"%d\n" % length) + len(text) != length:
        length += 1
    return b"%d\n%b" % (length, text)


def _numbers_of(places: "array.array[int]") -> bytes:
    numbers = array.array("I", places)
    if sys.byteorder == "little":
        numbers.byteswap()
    return numbers.tobytes()


def _bits_of(places: "array.array[int]") -> bytes:
    """A bit for each place up to the last, the first one the highest of the first byte."""
    bits = bytearray(places[-1] // 8 + 1)
    for place in places:
        bits[place // 8] |= 128 >> place % 8
    return bytes(bits)
