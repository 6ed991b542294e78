"""The collection: titles, those that no other target has, overlaps and decades, compared with a slow count."""
from __future__ import annotations

import datetime
import random
import tempfile
from pathlib import Path

from fixtures.cases import Case
from fixtures.made_titles import issn
from openlink_update.desk import collection
from openlink_update.desk.collection import Collection
from openlink_update.desk.collection import Decade
from openlink_update.desk.collection import Overlap

DAY = datetime.date(2026, 11, 27)
HEADER = (
    "publication_title",
    "print_identifier",
    "online_identifier",
    "date_monograph_published_print",
    "date_monograph_published_online",
    "coverage_from",
    "coverage_to",
)
Row = tuple[str, ...]
OPEN = ("0", "99999999")


def isbn(number: int) -> str:
    body = f"97812345{number:04d}"
    return f"{body}{-sum(int(it) * (1 + 2 * (at % 2)) for at, it in enumerate(body)) % 10}"


def row(printed: str, online: str = "", first: str = "0", last: str = "99999999", book: str = "") -> Row:
    return ("Title", printed, online, "", book, first, last)


def made(folder: str, tables: dict[str, list[Row]]) -> Path:
    """A version with these tables, by their names in the registry."""
    version = Path(folder)
    (version / "tables").mkdir()
    for name, rows in tables.items():
        lines = "".join("\t".join(cells) + "\n" for cells in (HEADER, *rows))
        (version / f"tables/{name}.txt").write_text(lines)
    registry = "".join(f"{name}\tcode/x.olk\ttables/{name}.txt\n" for name in tables)
    (version / "registry.tsv").write_text(registry)
    return version


def counted(tables: dict[str, list[Row]]) -> Collection:
    with tempfile.TemporaryDirectory() as folder:
        return collection.collection_of(made(folder, tables), DAY)


def slow_titles(tables: dict[str, list[Row]]) -> list[frozenset[str]]:
    """The numbers of each title, joined until nothing changes."""
    titles = [frozenset(filter(None, it[1:3])) for rows in tables.values() for it in rows]
    titles = [it for it in dict.fromkeys(titles) if it]
    while True:
        for one in titles:
            others = [it for it in titles if it is not one and it & one]
            if others:
                titles = [it for it in titles if it is not one and it not in others] + [one.union(*others)]
                break
        else:
            return titles


def slow(tables: dict[str, list[Row]]) -> dict[str, tuple[int, int, dict[str, int], dict[int, int]]]:
    """Of each target the titles, those alone, the overlaps and the decades, by comparing all with all."""
    titles = slow_titles(tables)
    targets: dict[str, dict[frozenset[str], list[Row]]] = {}
    for part, rows in tables.items():
        own = targets.setdefault(part.split(".")[0], {})
        for it in rows:
            for title in titles:
                if title & set(it[1:3]):
                    own.setdefault(title, []).append(it)
    found = {}
    for name, own in targets.items():
        others = {other: len(own.keys() & theirs.keys()) for other, theirs in targets.items() if other != name}
        alone = [it for it in own if not any(it in theirs for other, theirs in targets.items() if other != name)]
        decades = {
            year: sum(any(slow_is_in(it, year) for it in rows) for rows in own.values())
            for year in range(1600, 2030, 10)
        }
        found[name] = (
            len(own),
            len(alone),
            {it: n for it, n in others.items() if n},
            {it: n for it, n in decades.items() if n},
        )
    return found


def slow_is_in(cells: Row, decade: int) -> bool:
    years = range(decade, decade + 10)
    first, last = int(cells[5]), int(cells[6])
    if not first:
        return bool(cells[4]) and int(cells[4][:4]) in years
    return any(first // 10000 <= year <= min(last // 10000, DAY.year) for year in years)


def random_tables(seed: int) -> dict[str, list[Row]]:
    chance = random.Random(seed)
    tables: dict[str, list[Row]] = {}
    for name in ("a", "b", "c", "d", "d.2"):
        tables[name] = []
        for _ in range(chance.randrange(25)):
            numbers = [chance.choice(["", issn(chance.randrange(60)), isbn(chance.randrange(30))]) for _ in "12"]
            first = chance.choice([0, chance.randrange(1650, 2026)])
            dates = (f"{first}0101", chance.choice(["99999999", f"{first + chance.randrange(40)}1231"]))
            book = chance.choice(["", "1999-03", "2004"])
            tables[name].append(row(*numbers, *(dates if first else OPEN), book))
    return tables


class Counts(Case):
    def test_slow_count(self) -> None:
        """Random tables, each compared with a slow count."""
        sizes = 0
        for seed in range(60):
            tables = random_tables(seed)
            found, wanted = counted(tables), slow(tables)
            shown = {
                it.target: (
                    it.titles,
                    it.alone,
                    {each.target: each.titles for each in it.overlaps},
                    {each.year: each.titles for each in it.decades},
                )
                for it in found.targets
            }
            self.expect(f"seed {seed}", shown, wanted)
            self.expect(f"seed {seed}: all titles", found.titles, len(slow_titles(tables)))
            sizes += found.titles
        self.expect("there were many", sizes > 500)

    def test_titles(self) -> None:
        """What one title is: rows that share a number, in any form and by any target; rows without one are none."""
        one, other, third = issn(1), issn(2), issn(3)
        ten, thirteen = "1234561646", "9781234561642"
        for name, first, second, shared in (
            ("one number", [row(one)], [row(one)], 1),
            ("print and online", [row(one, other)], [row(other)], 1),
            ("joined by a third target", [row(one)], [row(third)], 1),
            ("two rows of one title", [row(one), row(one, first="19900101")], [row(one)], 1),
            ("without a hyphen, in small letters", [row(issn(1).replace("-", "").lower())], [row(one)], 1),
            ("ten digits and thirteen", [row(ten)], [row(thirteen)], 1),
            ("thirteen with another beginning", [row("9791234567896")], [row("979-1-234-56789-6")], 1),
            ("others", [row(one)], [row(issn(9))], 0),
            ("no number", [row("ANY")], [row("ANY")], 0),
            ("damaged", [row("1234")], [row("1234")], 0),
        ):
            found = counted({"a": first, "b": second, "c": [row(one, other), row(other, third)]})
            a = {it.target: it.titles for it in found.targets[0].overlaps}
            self.expect(name, a.get("b", 0), shared)

    def test_decades(self) -> None:
        """The years of coverage at the limits of decades, up to today's year; of a book that of its publication."""
        number = issn(1)
        for name, cells, wanted in (
            ("to today", row(number, first="20190101"), [2010, 2020]),
            ("a later end", row(number, first="20240101", last="20310101"), [2020]),
            ("a later beginning", row(number, first="20310101"), []),
            ("one decade", row(number, first="19900101", last="19991231"), [1990]),
            ("the day after", row(number, first="19900101", last="20000101"), [1990, 2000]),
            ("not open", row(number, first="99999999", last="0"), []),
            ("no dates", row(number), []),
            ("a book", row(number, book="2003-05-01"), [2000]),
            ("a book, its year last", row(number, book="05/2003"), [2000]),
            ("a book with a longer number", row(number, book="120030"), []),
            ("a printed book", ("Title", number, "", "2003", "", *OPEN), [2000]),
            ("a book with coverage", row(number, first="20150101", last="20151231", book="2003"), [2010]),
            ("before all", row(number, first="14550101", last="14551231"), [1600]),
            ("the first decade, and the one before", row(number, first="15990101", last="16101231"), [1600, 1610]),
            ("no days", row(number, first="x", last="y"), []),
        ):
            found = counted({"a": [cells]}).targets[0].decades
            self.expect(name, [it.year for it in found], wanted)
        with tempfile.TemporaryDirectory() as folder:  # a clock that is wrong: the last decade has all that is later
            version = made(folder, {"a": [row(number, first="22310101")]})
            late = collection.collection_of(version, datetime.date(2301, 1, 1)).targets[0].decades
            self.expect("after all", late, (Decade(2230, 1),))
        twice = counted({"a": [row(number, first="19950101"), row(number, first="20010101")]})
        self.expect("two rows of a title", twice.targets[0].decades[0], Decade(1990, 1))
        self.expect(
            "of all",
            counted({"a": [row(number, first="20200101")], "b": [row(number, first="20200101")]}).decades,
            (Decade(2020, 1),),
        )

    def test_overlaps(self) -> None:
        """The ten greatest, and all as rows; parts of one target are one, and a target without titles is there."""
        tables = {f"t{at:02d}": [row(issn(it)) for it in range(at)] for at in range(13)}
        found = counted({**tables, "t12.2": [row(issn(50))]})
        self.expect("the targets", [it.target for it in found.targets], [f"t{at:02d}" for at in range(13)])
        self.expect("the parts", found.targets[12].titles, 13)
        self.expect("alone", (found.targets[12].alone, found.targets[11].alone), (2, 0))
        greatest = found.targets[12].greatest()
        self.expect("ten", [it.titles for it in greatest], list(range(11, 1, -1)))
        self.expect("the first", greatest[0], Overlap("t11", 11))
        rows = found.rows()
        self.expect("all rows", len(rows), 1 + 12 * 11)
        self.expect("a row", ("t12", "t11", "11", "85") in rows and rows[0] == ("target", "other", "titles", "percent"))
        self.expect("none", (found.targets[0].titles, found.targets[0].overlaps, found.targets[0].decades), (0, (), ()))

    def test_short_lines(self) -> None:
        """Tables without columns, without rows, and with rows shorter than the header."""
        with tempfile.TemporaryDirectory() as folder:
            version = made(folder, {"a": [], "b": [], "c": []})
            (version / "tables/a.txt").write_bytes(b"")
            (version / "tables/b.txt").write_bytes(f"print_identifier\tx\n{issn(1)}\n\xff\xfe\t\n\n".encode("latin-1"))
            (version / "tables/c.txt").write_bytes(f"x\tonline_identifier\nq\n\t{issn(1)}".encode())
            found = collection.collection_of(version, DAY)
            self.expect("the titles", [it.titles for it in found.targets], [0, 1, 1])
            self.expect("the overlap", found.targets[1].overlaps, (Overlap("c", 1),))
