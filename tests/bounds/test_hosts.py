"""Hosts of links: how many rows may have a new one, or the same address, and how many are named."""
from __future__ import annotations

from collections import Counter

from fixtures.cases import Case
from openlink_update.tables.link_hosts import Links
from openlink_update.versions import host_judge


def links(hosts: dict[str, int], rows: int = 1000, most: tuple[str, int] = ("", 0)) -> Links:
    return Links(rows, Counter(hosts), most)


def several(name: str, count: int, rows: int) -> dict[str, int]:
    return {f"{name}{at}": rows for at in range(count)}


def new(before: dict[str, int], now: dict[str, int]) -> int:
    """How many hosts keep a table out."""
    return len(host_judge._new_hosts(links(before), links(now), before))


class Hosts(Case):
    def test_same_address(self) -> None:
        """90 in 100 rows, or as many as the list of targets says, and what the table in use has."""
        for name, before, limit, most in (
            ("no word", 900, None, 900),
            ("a word", 900, 95, 950),
            ("the table in use has one", 901, None, 1000),
        ):
            for count in {most, min(most + 1, 1000)}:
                found = host_judge._reasons_of_same(links({}, most=("a", before)), links({}, most=("b", count)), limit)
                self.expect(f"{count}, {name}", len(found), int(count > most))

    def test_few_rows(self) -> None:
        """Three rows: in a table that has many such hosts, a new one is usual; an address in three rows is fine."""
        usual = several("a", 20, 3)
        for rows, wanted in ((3, 0), (4, 1)):
            self.expect(f"a new host of {rows} rows", new(usual, {**usual, "b": rows}), wanted)
            self.expect(f"{rows} rows are usual", new(several("a", 20, rows), {"b": 1}), wanted)
            found = host_judge._reasons_of_same(links({}), links({}, rows, ("b", rows)), None)
            self.expect(f"an address in {rows} rows", len(found), wanted)

    def test_many_hosts(self) -> None:
        """Of twenty hosts of few rows two may be new, 10 in 100; of nineteen none."""
        for usual, count, wanted in ((20, 2, 0), (20, 3, 3), (19, 1, 1), (29, 2, 0), (30, 3, 0), (30, 4, 4)):
            self.expect(f"{count} of {usual}", new(several("a", usual, 1), several("b", count, 1)), wanted)

    def test_named(self) -> None:
        """Twenty are named, and the others counted."""
        for count, more in ((20, ""), (21, "1 more new hosts; to allow all below one: hosts +*.example.org")):
            now = links(several("a", count, 1))
            lines = host_judge._reasons_of_hosts(list(now.hosts), now, {})
            self.expect(f"{count}: in the reasons", (len(lines[:20]), "".join(lines[20:])), (20, more))
            text = host_judge._line_of(now)[0]
            self.expect(f"{count}: at first", (text.count(" (1 row)"), " and 1 more" in text), (20, bool(more)))

    def test_characters_that_are_shown(self) -> None:
        """A hundred of a host, a title and an address."""
        for count in (100, 101):
            name, most = "a" * count, ("b" * count, 1000)
            now = links({name: 1000}, most=most)
            end = ".." if count > 100 else ""
            line = host_judge._reasons_of_hosts([name], now, {name: "c" * count})[0]
            wanted = f'new host {"a" * 100}{end} in 1000 of 1000 rows, first "{"c" * 100}{end}"; '
            self.expect(f"{count} of a host", line, f'{wanted}to allow it: hosts +{"a" * 100}{end}')
            same = host_judge._reasons_of_same(links({}), now, None)[0]
            self.expect(f"{count} of an address", same.split(", ")[1].split(":")[0], "b" * 100 + end)
            first = host_judge._line_of(now)[0]
            self.expect(
                f"{count} at first", (f': {"a" * 100}{end} (' in first, f'; {"b" * 100}{end} in' in first), (True,) * 2
            )
