"""Tables of made titles: the index has the same titles, lines, list and words as a slow reference."""
from __future__ import annotations

import random
import re
from collections.abc import Callable
from collections.abc import Iterator
from typing import Any

from fixtures.cases import Case
from fixtures.index_reader import Index
from fixtures.index_reader import check_form
from fixtures.index_reader import md5
from fixtures.made_titles import Made
from fixtures.made_titles import table
from openlink_update.index.titles import key_of
from openlink_update.index.titles import short_key

NUMBERS = ("print_identifier", "online_identifier")
Title = list[dict[str, Any]]  # its rows, by the names of columns
Joined = Callable[[Title, Title, list[Title]], bool]  # whether two titles of a group, which has one key, are one


def standard(cell: str) -> str:
    """A number as thirteen digits or with its hyphen."""
    text = re.sub("[- ]", "", cell).upper()
    if len(text) == 8:
        return text[:4] + "-" + text[4:]
    if len(text) == 10:
        digits = [int(digit) for digit in "978" + text[:9]]
        return "".join(map(str, digits)) + str((10 - (sum(digits[::2]) + 3 * sum(digits[1::2])) % 10) % 10)
    return text


def as_two_letters(title: str) -> str:
    return re.sub("[äöüÄÖÜ]", lambda umlaut: dict(zip("äöü", ("ae", "oe", "ue")))[umlaut[0].lower()], title)


class Reference:
    """Titles as sets of rows, joined again and again until nothing is left to join."""

    def __init__(self, tables: dict[str, bytes]) -> None:
        rows = []
        for target, data in tables.items():
            header, *lines = data.decode().rstrip("\n").split("\n")
            for number, line in enumerate(lines):
                row: dict[str, Any] = dict(zip(header.split("\t"), line.split("\t")))
                row.update(target=target, number=number, key=key_of(row["publication_title"]))
                row["numbers"] = {standard(row[name]) for name in NUMBERS if row[name]}
                rows.append(row)
        self.titles = self.joined([[row] for row in rows], self.are_one)
        self.titles = self.joined(self.titles, self.are_editions)

    def joined(self, titles: list[Title], are_joined: Joined) -> list[Title]:
        by_key: dict[str, list[Title]] = {}
        for title in titles:
            by_key.setdefault(title[0]["key"], []).append(title)
        return [title for group in by_key.values() for title in self.group_joined(group, are_joined)]

    def group_joined(self, group: list[Title], are_joined: Joined) -> list[Title]:
        while True:
            pair = next(
                (
                    (one, other)
                    for one in group
                    for other in group
                    if one is not other and are_joined(one, other, group)
                ),
                None,
            )
            if not pair:
                return group
            group = [title for title in group if title not in pair] + [pair[0] + pair[1]]

    def are_one(self, one: Title, other: Title, _: list[Title]) -> bool:
        return bool(self.numbers(one) & self.numbers(other))

    def are_editions(self, one: Title, other: Title, group: list[Title]) -> bool:
        kind = [title for title in group if self.kind(title) == self.kind(one)]
        sides = [self.sides(title) for title in kind]
        return (
            other in kind
            and self.sides(one) == {NUMBERS[0]}
            and self.sides(other) == {NUMBERS[1]}
            and sides.count({NUMBERS[0]}) == sides.count({NUMBERS[1]}) == 1
        )

    def numbers(self, title: Title) -> set[str]:
        return set().union(*(row["numbers"] for row in title))

    def sides(self, title: Title) -> set[str]:
        return {name for row in title for name in NUMBERS if row[name]}

    def kind(self, title: Title) -> str:
        return "b" if all(row["publication_type"] == "monograph" for row in title) else "j"

    def lines(self) -> list[tuple[Any, ...]]:
        """Each line of keys/ with the name of its file: cells whose order is not given are sorted."""
        found: list[tuple[Any, ...]] = []
        for title in self.titles:
            forms = {re.sub("[- ]", "", row[name]).upper() for row in title for name in NUMBERS if row[name]}
            forms = {standard(form) if len(form) == 8 else form for form in forms}
            names, cells = {row["publication_title"] for row in title}, (self.kind(title), " ".join(sorted(forms)))
            for number in self.numbers(title):
                coverage = ";".join(sorted(map(self.entry, title)))
                found.append((md5(number)[:3], number, names, *cells, coverage))
            name, key = title[0]["publication_title"], title[0]["key"]
            others = {short_key(name)} - {"", key}
            if as_two_letters(name) != name:
                others |= {short_key(as_two_letters(name)) or key_of(as_two_letters(name))} - {key}
            for sought in (f"={key}", *(f"~{other}" for other in others)):
                digits = md5(sought)
                found.append((digits[:3], sought[0] + digits[3:16], names, *cells, None))
        return found

    def entry(self, row: dict[str, Any]) -> str:
        parts = [
            row["target"],
            str(row["number"]),
            row["date_first_issue_online"],
            row["date_last_issue_online"],
            row["embargo_info"],
        ]
        return re.sub("( -)+$", "", " ".join(part or "-" for part in parts))


def sorted_cell(cell: str, between: str) -> str:
    return between.join(sorted(cell.split(between)))


def lines_of(found: Index) -> Iterator[tuple[Any, ...]]:
    """All lines but those of initials, which abbreviated titles need."""
    for name in found.names("keys"):
        for key, kind, title, numbers, *more in found.lines("keys", name):
            if key.startswith("^"):
                continue
            yield name, key, title, kind, sorted_cell(numbers, " "), sorted_cell(more[0], ";") if more else None


def tables() -> dict[str, bytes]:
    """Tables of targets that have the same titles, written in other ways; some only with print, or only with online
    numbers, and some with numbers of ten digits."""
    source, made = random.Random(3), Made(seed=3, vocabulary=300)
    journals, books = list(made.journals(700)), list(made.books(500))
    found = {"all": [row[:] for row in journals]}
    for target in ("print", "online", "few", "books"):
        rows = []
        for row in (row[:] for row in source.sample(books if target == "books" else journals + books, 400)):
            row[0] = source.choice((row[0], row[0], row[0].upper(), "The " + row[0], row[0].replace(" ", "-")))
            if target == "print" or (target == "few" and source.random() < 0.3):
                row[2] = ""
            if target == "online" and row[1].startswith("97"):
                row[1] = ""
            elif target == "online":
                row[1] = source.choice(("", row[1].lower().replace("-", "")))
            rows.append(row)
        found[target] = rows
    # Titles that share a key, and rows with the number of another title.
    for row, other in zip(source.sample(found["all"], 60), source.sample(found["all"], 60)):
        column = source.choice((0, 0, 1))
        row[column] = other[column]
    for row in found["books"][:50]:
        row[1] = f"{row[2][3:12]}0"  # the form is checked, and not the digit
    return {target: table(rows) for target, rows in found.items()}


class MadeTitles(Case):
    """One index of some thousand rows."""

    def test_made_titles(self) -> None:
        given = tables()
        reference = Reference(given)
        with Index(given) as found:
            self.expect("a form for the halving", list(check_form(found)), [])
            expected: dict[tuple[Any, ...], list[set[str]]] = {}
            lines = list(lines_of(found))
            for name, key, names, *cells in reference.lines():
                expected.setdefault((name, key, *cells), []).append(names)
            missing = [
                (name, key, title, *cells)
                for name, key, title, *cells in lines
                if not any(title in names for names in expected.get((name, key, *cells), ()))
            ]
            self.expect("each line is one of the reference", missing[:3], [])
            self.expect("the number of lines", len(lines), len(reference.lines()))
            for kind in "jb":
                self.expect_list(found, kind, [title for title in reference.titles if reference.kind(title) == kind])

    def expect_list(self, found: Index, kind: str, titles: list[Title]) -> None:
        listed = found.listed(kind)
        self.expect(
            f"titles in the list {kind}",
            sorted(map(key_of, listed.values())),
            sorted(title[0]["key"] for title in titles),
        )
        self.expect(f"their number {kind}", found.letters(kind)[0][0], len(titles))
        for letter, (first, pages, count) in found.letters(kind)[1].items():
            keys = [key_of(line[0]) for number in range(first, first + pages) for line in found.page(kind, number)]
            self.expect(
                f"the letter {letter}", (len(keys), keys, {key[0] for key in keys}), (count, sorted(keys), {letter})
            )
        words = {
            place: {*key_of(name).split(" "), *key_of(as_two_letters(name)).split(" "), *name.lower().split(" ")[:1]}
            for place, name in listed.items()
        }
        starts = {word[:length] for found_words in words.values() for word in found_words for length in range(2, 7)}
        starts = {
            start for start in starts if len(start) > 1 and re.fullmatch(r"\w+", start) and key_of(start) == start
        }
        wrong = [
            start
            for start in sorted(starts)
            if found.places(kind, start)
            != sorted(place for place, its in words.items() if any(word.startswith(start) for word in its))
        ]
        self.expect(f"{len(starts)} beginnings of words {kind}", (wrong[:5], len(starts) > 300), ([], True))
