"""The index of a version: its titles by number, by title and by word, for the front door. docs/INDEX.md has an overview
of the files. Run as a program it makes the index of the tables that a registry names: title_index.py REGISTRY FOLDER

A line of keys/ has these cells, the last ones only if KEY is a number, or denotes initials:

    KEY  KIND  TITLE  NUMBERS  COVERAGE  ADDRESS..  RELATED..
    KEY  KIND  TITLE  NUMBERS  WORDS     YEARS      SIGN..

KEY is a number: an ISSN with hyphen and capital X, or an ISBN of thirteen digits; the first three digits of its MD5 sum
name the file. Or it denotes a title: by its key, or that of an abbreviation of the library's own list (`=`); by one
that is like it (`~`), which is the key of the title without its subtitle, and of this with its umlauts as two letters;
or, if it is a journal, by its initials (`^`), with the further cells that short_titles.py describes. Then the MD5 sum
is that of the sign and the key: its first three digits name the file, and KEY is the sign and the next thirteen.

ADDRESS is `@`, a target, a space and the address of its page of the title, at most twenty (title_addresses.py says
which targets have some). RELATED is `<` or `>`, a number, a space and a title: an earlier (`<`) or later title by
preceding_publication_title_id, at most five of each. A key has at most _MOST_LINES, and after the first one at most
_MOST_BYTES of them.
"""
import collections
import os
import sys
from collections.abc import Iterable, Iterator, Mapping
from pathlib import Path

from openlink_update.index import abbreviations, title_list, word_sets
from openlink_update.index.abbreviations import Pairs
from openlink_update.index.index_files import digest, write_lines
from openlink_update.index.short_titles import keys_of
from openlink_update.index.title_addresses import NO_OFFER, Offer
from openlink_update.index.title_groups import Related, Title, Titles
from openlink_update.index.titles import short_key, written_key, written_out
from openlink_update.tables.parts import base_of
from openlink_update.tables.registry import entries_of
from openlink_update.tables.table import Table

_FORMAT = 6  # another number makes a new version, although its tables are the same
_DIGITS, _KEY_DIGITS = 3, 16  # of an MD5 sum: in the names of keys/, and before the end of the key of a title
_MOST_LINES = 50  # of a key
_MOST_BYTES = 1 << 14  # of its lines after the first


def begin(folder: str | os.PathLike[str], has_list: bool) -> None:
    """Makes the folder of an index, with the format in which it will be."""
    os.mkdir(folder)
    Path(folder, "format").write_text(f"{_FORMAT} {'list' if has_list else 'no list'}\n", encoding="ascii")


def make(
    folder: str | os.PathLike[str],
    has_list: bool,
    tables: Iterable[tuple[str, Table]],
    offers: Mapping[str, Offer] | None = None,
    pairs: Pairs | None = None,
) -> list[Title]:
    """Makes the index of tables, pairs of a target's name and its table without walls, in its folder. `offers` says by
    target which addresses it has, and `pairs` are the library's own abbreviations. Returns the titles."""
    titles = Titles()
    for target, table in tables:
        titles.add_table(target, table, (offers or {}).get(base_of(target), NO_OFFER))
    found = titles.finish()
    del titles
    _write_keys(Path(folder, "keys"), found.titles, found.related, pairs or {})
    if has_list:
        for kind in "jb":
            _write_kind(Path(folder), kind, title_list.ordered(it for it in found.titles if it.kind == kind))
    return found.titles


def _write_kind(folder: Path, kind: str, titles: list[Title]) -> None:
    """Writes the list and the words of the titles of a kind."""
    pages = title_list.pages_of(titles)
    digits = word_sets.digits_for(len(titles))
    title_list.write_pages(folder / "list" / kind, pages, len(titles), digits)
    word_sets.write_words(folder / "words" / kind, pages, digits)


def _write_keys(folder: Path, titles: list[Title], related: dict[Title, Related], pairs: Pairs) -> None:
    folder.mkdir(parents=True)
    buckets: dict[str, bytearray] = collections.defaultdict(bytearray)
    for title in titles:
        for name, line in _lines_of(title, related.get(title), abbreviations.keys_of(title, pairs)):
            buckets[name] += f"{line}\n".encode()
    while buckets:
        name, text = buckets.popitem()
        write_lines(folder / name, _few_of_each_key(sorted(bytes(text[:-1]).split(b"\n"))))


def _lines_of(title: Title, related: Related | None, short: list[str]) -> Iterator[tuple[str, str]]:
    """The lines of a title, each after the name of its file."""
    cells = f"{title.kind}\t{title.name}\t{title.forms}"
    names = [f"={key}" for key in (title.key, *short) if key]
    for name in names + [f"~{key}" for key in _similar_keys(title)]:
        digits = digest(name)
        yield digits[:_DIGITS], f"{name[0]}{digits[_DIGITS:_KEY_DIGITS]}\t{cells}"
    for key, words in keys_of(title.name) if title.is_journal else ():
        digits = digest(f"^{key}")
        signs = f"\t{title.signs}" if title.signs else ""
        yield digits[:_DIGITS], f"^{digits[_DIGITS:_KEY_DIGITS]}\t{cells}\t{words}\t{title.years()}{signs}"
    cells += f"\t{title.coverage_text()}{_addresses_of(title)}{_text_of(related) if related else ''}"
    for number in title.numbers():
        yield digest(number)[:_DIGITS], f"{number}\t{cells}"


def _similar_keys(title: Title) -> list[str]:
    """The other keys of a title without its subtitle, and of that with its umlauts as two letters."""
    written = written_key(title.name)
    keys = [short_key(title.name), written and (short_key(written_out(title.name)) or written)]
    return [key for key in dict.fromkeys(keys) if key not in ("", title.key)]


def _addresses_of(title: Title) -> str:
    return "".join(f"\t@{entry}" for entry in title.addresses.split("\t") if entry)


def _text_of(related: Related) -> str:
    """The cells of the earlier titles, which begin with `<`, and of the later ones, which begin with `>`."""
    return "".join(
        f"\t{sign}{title.numbers()[0]} {title.name}"
        for sign, titles in (("<", related.earlier), (">", related.later))
        for title in titles
    )


def _few_of_each_key(lines: list[bytes]) -> Iterator[bytes]:
    """At most _MOST_LINES of each key, of sorted lines, and after the first one at most _MOST_BYTES."""
    last, count, size = b"", 0, 0
    for line in lines:
        key = line[: line.index(b"\t")]
        last, count, size = (key, count + 1, size + len(line)) if key == last else (key, 1, 0)
        if count <= _MOST_LINES and size <= _MOST_BYTES:
            yield line


def _tables_of(registry: Path) -> Iterator[tuple[str, Table]]:
    """Yields the name and the table of each target of a registry, whose paths are relative to the present folder."""
    for entry in entries_of(registry):
        yield entry.name, Table.parse(Path(entry.table).read_bytes())


if __name__ == "__main__":
    begin(sys.argv[2], True)
    make(sys.argv[2], True, _tables_of(Path(sys.argv[1])))
