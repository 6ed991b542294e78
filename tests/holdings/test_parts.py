"""Tables in parts: all rows once, those that share a number together, and a registry that the program takes."""
from __future__ import annotations

import os
from collections.abc import Iterator
from collections.abc import Sequence

from fixtures import needs
from fixtures.cases import Case
from fixtures.made_titles import isbn
from fixtures.made_titles import issn
from fixtures.made_versions import Weeks
from fixtures.made_versions import table
from openlink_update.tables import parts
from openlink_update.tables.table import Table

SMALL = ("print_identifier", "online_identifier", "title")


def divided(rows: Sequence[Sequence[str]], most_bytes: int = 10**9, most_rows: int = 10**9) -> list[str]:
    """The titles of the rows of each part."""
    found = parts.places_of(Table(SMALL, [list(row) for row in rows]), most_bytes, most_rows)
    return ["".join(rows[place][2] for place in part) for part in found]


def made(count: int, each: int) -> Iterator[tuple[str, ...]]:
    """Rows of made titles; the last ones have the numbers of the first ones, with other dates."""
    for number in range(count):
        at = number if number < count - 100 else number - count + 100
        year = "1990" if at == number else "2001"
        yield (f"Title {at}", issn(1000000 + at), isbn(at), year, "", "", f"t{number}", "", "x" * each, "serial")


class Parts(Case):
    """Which rows are together, and what a version has then."""

    def test_rows(self) -> None:
        """Small tables, by hand."""
        alone = [(issn(number), "", title) for number, title in enumerate("abcdef")]
        for name, rows, most, expected in [
            ("as many as are possible", alone, 6, ["abcdef"]),
            ("one more", alone, 5, ["abcde", "f"]),
            ("as few parts as possible", alone, 2, ["ab", "cd", "ef"]),
            ("rows of one number", [alone[0], alone[1], alone[2], (issn(0), "", "d")], 2, ["ad", "bc"]),
            ("a number in two columns", [alone[0], alone[1], ("", issn(0), "c"), alone[3]], 2, ["ac", "bd"]),
            (
                "a chain",
                [(issn(0), issn(1), "a"), alone[4], (issn(2), issn(3), "c"), (issn(1), issn(2), "d")],
                3,
                ["acd", "e"],
            ),
            ("spelt otherwise", [("2943-081X", "", "a"), alone[1], (" 2943081x", "", "c")], 2, ["ac", "b"]),
            (
                "ten and thirteen digits",
                [("1234560106", "", "a"), alone[1], ("", "978-1-234-56010-2", "c")],
                2,
                ["ac", "b"],
            ),
            ("what is no number", [("ANY", "", "a"), alone[1], ("any", "", "c")], 2, ["ac", "b"]),
            ("rows without a number", [("", "", "a"), ("", "", "b"), ("", "", "c")], 2, ["ab", "c"]),
            ("a hole is filled", [alone[0], (issn(1), "", "b"), (issn(1), "", "c"), alone[3]], 2, ["ad", "bc"]),
            ("a title beyond the limit", [(issn(0), "", it) for it in "abc"] + [alone[3]], 2, ["abc", "d"]),
        ]:
            self.expect(name, divided(rows, most_rows=most), expected)
        header, row = len("\t".join(SMALL)) + 1, len("\t".join(alone[0])) + 1
        self.expect("bytes", divided(alone, most_bytes=header + 6 * row), ["abcdef"])
        self.expect("a byte less", divided(alone, most_bytes=header + 6 * row - 1), ["abcde", "f"])
        self.expect("parts that are full", divided(alone, most_bytes=header + 2 * row), ["ab", "cd", "ef"])
        letters = [(issn(0), "", "é"), (issn(1), "", "b")]
        self.expect("bytes of letters", divided(letters, most_bytes=header + 2 * row), ["é", "b"])
        sizes = [(4, "a"), (5, "b"), (5, "c"), (6, "d")]  # in their order they would need three parts
        rows = [(issn(number), "", name) for number, (count, name) in enumerate(sizes) for _ in range(count)]
        both = ["aaaadddddd", "bbbbbccccc"]
        self.expect("two parts of ten rows", divided(rows, most_rows=10), both)
        self.expect("two parts of their bytes", divided(rows, most_bytes=header + 10 * row), both)

    @needs.program()
    def test_limits(self) -> None:
        """One table beyond each limit of the program: it takes both parts, and no row is lost or divided from its
        title."""
        for name, count, each in (("rows", 200_010, 0), ("bytes", 400, 45_000)):
            with Weeks() as weeks:
                data = table(*made(count, each))
                weeks.deliver("big", data, "not an ISSN or ISBN; title_url not a web link")
                said = weeks.make()
                self.expect(f"{name}: what is said", said, [f"big: new, {count} rows", "  2 parts: big, big.2"])
                self.expect(
                    f"{name}: the registry",
                    weeks.read("registry.tsv").decode(),
                    "big\tcode/big.olk\ttables/big.txt\nbig.2\tcode/big.olk\ttables/big.2.txt\n",
                )
                tables = [weeks.read(f"tables/{part}.txt").split(b"\n") for part in ("big", "big.2")]
                sizes = [
                    os.path.getsize(os.path.join(weeks.version, f"tables/{part}.txt")) for part in ("big", "big.2")
                ]
                self.expect(
                    f"{name}: within the limits",
                    max(sizes) <= 16_777_216 and max(len(lines) for lines in tables) <= 200_002,
                )
                rows = sorted(line.rsplit(b"\t", 2)[0] for lines in tables for line in lines[1:-1])
                self.expect(f"{name}: every row once", rows == sorted(data.split(b"\n")[1:-1]))
                first, last = issn(1000000), issn(1000000 + count - 101)
                self.expect(
                    f"{name}: a title of the first part",
                    weeks.menu(f"rft.issn={first}"),
                    {"big": "https://press.example.com/t0"},
                )
                self.expect(
                    f"{name}: a title of the second",
                    weeks.menu(f"rft.issn={last}"),
                    {"big.2": f"https://press.example.com/t{count - 101}"},
                )

    @needs.program()
    def test_names(self) -> None:
        """The operator can't name a target as a part is named."""
        for name, is_part in (
            ("big.2", True),
            ("big.12", True),
            ("a.b.256", True),
            ("big.1", False),
            ("big.02", False),
            ("big.2024", False),
            ("big2", False),
            (".2", False),
            ("big.2a", False),
        ):
            with Weeks() as weeks:
                weeks.deliver(name, table(("A", issn(0), "", "", "", "", "t")))
                try:
                    said = weeks.make()
                except Exception as fault:
                    said = [str(fault)]
                self.expect(
                    f"a target {name}", any("line 1: no target can have the name" in line for line in said), is_part
                )
            self.expect(f"the target of {name}", parts.base_of(name), name.rpartition(".")[0] if is_part else name)

    @needs.program()
    def test_registry(self) -> None:
        """More parts than a registry can have: nothing is made, and those targets are named."""
        counts = {"alone": 1, "pair": 2, "large": 198, "other": 55}
        self.expect("256 targets", parts.fault_of(counts, b"x" * 65_536), "")
        self.expect(
            "a byte too many",
            parts.fault_of(counts, b"x" * 65_537),
            "registry.tsv: 256 targets and 65537 bytes, and "
            "256 and 65536 are possible; in parts: pair (2), large (198), other (55)",
        )
        counts["other"] = 56
        self.expect(
            "257 targets",
            parts.fault_of(counts, b"x"),
            "registry.tsv: 257 targets and 1 bytes, and 256 and 65536 are possible; "
            "in parts: pair (2), large (198), other (56)",
        )
        kept = parts.MOST_ROWS, parts.MOST_TARGETS
        parts.MOST_ROWS, parts.MOST_TARGETS = 1, 3
        try:
            with Weeks() as weeks:
                weeks.deliver("big", table(*((f"T{at}", issn(at), "", "", "", "", "t") for at in range(4))))
                self.expect(
                    "a table in too many parts",
                    weeks.make()[-1],
                    "registry.tsv: 4 targets and 140 bytes, and 3 and " "65536 are possible; in parts: big (4)",
                )
                self.expect("no version is made", weeks.version, None)
                weeks.deliver("n" * 63, table(*((f"T{at}", issn(at), "", "", "", "", "t") for at in range(2))))
                self.expect(
                    "a name without room for a number",
                    weeks.make()[1].endswith(f"it has 2 parts, and the name {'n' * 63}.2 is too long"),
                )
        finally:
            parts.MOST_ROWS, parts.MOST_TARGETS = kept

    @needs.program()
    def test_weeks(self) -> None:
        """A table that grows beyond a limit and shrinks again: parts come and go, and each has its warnings judged."""
        rows = [(f"T{at}", issn(at), "", "", "", "", f"t{at}") for at in range(8)]
        most, parts.MOST_ROWS = parts.MOST_ROWS, 3
        try:
            with Weeks() as weeks:
                self.expect(
                    "one part",
                    (weeks.week("big", table(*rows[:3])), os.listdir(weeks.version + "/tables")),
                    ([], ["big.txt"]),
                )
                self.expect(
                    "three parts",
                    (weeks.week("big", table(*rows)), sorted(os.listdir(weeks.version + "/tables"))),
                    ([], ["big.2.txt", "big.3.txt", "big.txt"]),
                )
                weeks.maker.make_index(True)
                self.expect("one target", weeks.maker.names, ["big"])
                found = [
                    line
                    for name in os.listdir(f"{weeks.version}/index/keys")
                    for line in weeks.read(f"index/keys/{name}").decode().split("\n")
                ]
                self.expect(
                    "the index has part and row",
                    sorted(
                        line.split("\t")[4]
                        for line in found
                        if line[:4] in (issn(0)[:4],) and line.startswith((issn(1), issn(5), issn(7)))
                    ),
                    ["big 1", "big.2 2", "big.3 1"],
                )
                bad = [
                    *rows[:3],
                    ("bad", issn(8), "", "", "", "x", "t"),
                    *rows[3:6],
                    ("bad", issn(9), "", "", "", "y", "t"),
                ]
                reasons = weeks.week("big", table(*bad), "title_url not a web link up to 1; gone up to 50%")
                self.expect(
                    "warnings of all parts",
                    [line.partition("big.txt, ")[2] for line in reasons],
                    [
                        f"part {part}: title_url not a web link 1, first {row}: 1 allowed; to allow it: title_url "
                        "not a web link up to 2"
                        for part, row in (("big.2", '0 "x"'), ("big.3", '1 "y"'))
                    ],
                )
                self.expect(
                    "the old parts are kept",
                    sorted(os.listdir(weeks.version + "/tables")),
                    ["big.2.txt", "big.3.txt", "big.txt"],
                )
                self.expect(
                    "one part again",
                    (
                        weeks.week("big", table(*rows[:3]), "less than half of the rows; gone up to 70%"),
                        os.listdir(weeks.version + "/tables"),
                    ),
                    ([], ["big.txt"]),
                )
        finally:
            parts.MOST_ROWS = most
