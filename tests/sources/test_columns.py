"""The columns of holdings tables: in the update, which finds headers by them, they are those of the crate
standard_names, in their order; the last of these, which the update adds, are those in its module for them, and the
reading of a request drops all of them; and so is each list of them in a script or an example."""
from __future__ import annotations

import os
import re
import shutil
import tempfile
from collections.abc import Iterator

from fixtures.cases import Case

HEADERS = "update/openlink_update/received/column_names.py"
CRATE = "crates/standard_names/src/columns.rt"
READING = "crates/openurl_reading/src/counting.rt"
UPDATE = "update/openlink_update/tables/coverage.py"
# The column that it adds where rules name it, which requests may not have either.
PAGES = "update/openlink_update/rules/pages.py"
FOLDERS = ("benches", "examples", "front_door", "packaging", "tests", "update")
# Each of these has a list of all columns somewhere.
WITH_LISTS = (("update",), ("tests",), ("examples",))
# A list with more names of columns than this is meant to have all of them.
MOST_OF_A_PART = 20
# The keys of a request may leave these out.
IDENTIFIERS = {"print_identifier", "online_identifier"}


def part(top: str, path: str, pattern: str) -> str:
    with open(f"{top}/{path}", encoding="utf-8") as file:
        found = re.search(pattern, file.read(), re.S)
    return found[1] if found else ""


def quoted(text: str) -> list[str]:
    return re.findall(r'"(\w+)"', text)


def columns(top: str) -> tuple[list[str], list[str]]:
    """The columns of the crate: those of the recommendation, and those that the update adds."""
    known, added = quoted(part(top, CRATE, r"&\[(.*?)\]\s*\}")), quoted(part(top, UPDATE, r"\b_COLUMNS = \((.*?)\)"))
    return known[: len(known) - len(added)], known[len(known) - len(added) :]


def faults_of_columns(top: str) -> list[str]:
    expected, last = columns(top)
    dropped = quoted(part(top, READING, r"\bis_one_of\(known_columns\(\), key\)(.*?)\n"))
    added = quoted(part(top, UPDATE, r"\b_COLUMNS = \((.*?)\)"))
    page = quoted(part(top, PAGES, r"\nCOLUMN, NO_PAGE = (.*?)\n"))[:1]
    same = {
        f"the last columns of {CRATE}, and those that {UPDATE} adds": (last, added),
        HEADERS: (quoted(part(top, HEADERS, r"\nCOLUMNS = \((.*?)\n\)")), expected),
        f"those that {READING} drops beside these": (dropped, page),
    }
    found = [
        f"{what}: {sorted({*got} ^ {*wanted}) or 'another order'}"
        for what, (got, wanted) in same.items()
        if got != wanted
    ]
    return found + ([] if len(expected) > MOST_OF_A_PART and added and page else [f"{CRATE}: no columns"])


def lists_in(words: list[str], known: list[str]) -> Iterator[list[str]]:
    """Each piece of text, as long as the list of all columns, that has nearly all of them."""
    at = 0
    while at < len(words):
        piece = words[at : at + len(known)]
        if words[at] in known and len({*piece} & {*known}) > MOST_OF_A_PART:
            yield piece
            at += len(known)
        else:
            at += 1


def files(top: str) -> Iterator[tuple[str, list[str]]]:
    """Each file of the folders, as its path and its words. An escape for one character is no part of a word."""
    for below, _, names in (it for folder in FOLDERS for it in os.walk(f"{top}/{folder}")):
        for path in (f"{below}/{name}" for name in sorted(names)):
            with open(path, encoding="utf-8", errors="replace") as file:
                text = re.sub(r"\\(?:[trn]|ufeff)|\ufeff", " ", file.read())
            yield os.path.relpath(path, top), re.findall(r"\w+", text)


def faults_of_lists(top: str) -> list[str]:
    expected = columns(top)[0]
    without_identifiers = [name for name in expected if name not in IDENTIFIERS]
    pieces = [(path, piece) for path, words in files(top) for piece in lists_in(words, expected)]
    found = [
        f"{path}: {sorted({*piece} ^ {*expected}) or 'another order'}"
        for path, piece in pieces
        if piece != expected and piece[: len(without_identifiers)] != without_identifiers
    ]
    places = {path.split("/")[0] for path, _ in pieces}
    return found + [f"no list of all columns in {' or '.join(those)}" for those in WITH_LISTS if not places & {*those}]


class Columns(Case):
    def test_columns_are_those_of_the_crate(self) -> None:
        self.expect("the columns", faults_of_columns("."), [])

    def test_each_list_has_all_columns(self) -> None:
        self.expect("the lists", faults_of_lists("."), [])


# What is changed in a copy of a file.
SPOILT = [
    (READING, '== "title_page"', '== "page"'),
    (HEADERS, '"notes"', '"note"'),
    (CRATE, '"embargo_info"', '"embargo"'),
    (UPDATE, 'COLUMNS = ("', 'COLUMNS = ("other", "'),
]


class SpoiltColumns(Case):
    """The check fails for a copy in which a column is changed."""

    def setUp(self) -> None:
        room = tempfile.TemporaryDirectory()
        self.addCleanup(room.cleanup)
        self.top = room.name
        for path in (HEADERS, CRATE, READING, UPDATE, PAGES):
            os.makedirs(os.path.dirname(f"{self.top}/{path}"), exist_ok=True)
            shutil.copy(path, f"{self.top}/{path}")
        for folder in FOLDERS:
            os.makedirs(f"{self.top}/{folder}", exist_ok=True)

    def write(self, path: str, text: str) -> None:
        with open(f"{self.top}/{path}", "w", encoding="utf-8") as file:
            file.write(text)

    def test_a_changed_column(self) -> None:
        self.expect("the copy", faults_of_columns(self.top), [])
        for path, before, after in SPOILT:
            with open(f"{self.top}/{path}", encoding="utf-8") as file:
                text = file.read()
            self.write(path, text.replace(before, after, 1))
            self.expect(f"{path} with {after}", bool(faults_of_columns(self.top)))
            self.write(path, text)

    def test_a_changed_list(self) -> None:
        expected = columns(self.top)[0]
        self.expect("no list in examples", any("in examples" in it for it in faults_of_lists(self.top)))
        for path in ("examples/a.tsv", "tests/a.py"):
            self.write(path, "\t".join(expected))
        self.expect("the lists", faults_of_lists(self.top), [])
        for changed in expected[:-1] + ["x"], [*expected[1:], expected[0]]:
            self.write("examples/a.tsv", "\t".join(changed))
            self.expect("a changed list", len(faults_of_lists(self.top)), 1)
