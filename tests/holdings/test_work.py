"""Work that grows with the size of what comes, and not with its square: comparisons and characters are counted for two
sizes, of which the second is twice the first."""
from __future__ import annotations

from collections.abc import Callable
from typing import Any

from fixtures.cases import Case
from openlink_update.received import archives
from openlink_update.received import column_names
from openlink_update.tables import preparation


count = 0


class Text(str):
    """A text that counts how often it is compared or hashed, and how many characters are passed in it."""

    def __eq__(self, other: object) -> bool:
        global count
        count += 1
        return str.__eq__(self, other)

    def __hash__(self) -> int:
        global count
        count += 1
        return str.__hash__(self)

    def find(self, part: str, start: Any = 0, end: Any = None) -> int:
        global count
        found = str.find(self, part, start, end)
        count += (end if found < 0 else found + len(part)) - start
        return found


def counted(work: Callable[..., object], *given: object) -> int:
    """What some work counts."""
    global count
    count = 0
    work(*given)
    return count


class Work(Case):
    """Counted work."""

    def expect_linear(
        self, name: str, work: Callable[..., object], given: Callable[[int], tuple[Any, ...]], size: int
    ) -> None:
        """Twice the size has at most a little more than twice the work, and some work is counted."""
        small, large = (counted(work, *given(it)) for it in (size, 2 * size))
        self.expect(f"{name}: {small} for {size}, {large} for {2 * size}", size // 2 <= small and large <= 2.2 * small)

    def test_spelled(self) -> None:
        """A header with one name in another spelling again and again, and then as the standard has it."""
        names = column_names.NAMES
        column_names.NAMES = {spelling: Text(name) for spelling, name in names.items()}
        try:
            self.expect_linear(
                "names of columns",
                column_names.spelled,
                lambda size: ([*["Publication Title"] * size, "publication_title"],),
                500,
            )
            self.expect_linear(
                "different names",
                column_names.spelled,
                lambda size: ([*(f"x{number}" for number in range(size)), *["Title URL"] * size],),
                500,
            )
        finally:
            column_names.NAMES = names
        self.expect(
            "the first of several spellings gets the name",
            column_names.spelled(["Title URL", "TITLE_URL", "x", "notes"]),
            ["title_url", "TITLE_URL", "x", "notes"],
        )

    def test_joined(self) -> None:
        """The columns of two files, with one name or many."""
        for name, of in (("one name", lambda number: "x"), ("many names", lambda number: f"x{number}")):
            self.expect_linear(
                name,
                preparation.joined,
                lambda size: ([([Text(of(number)) for number in range(size)], []) for _ in range(2)],),
                500,
            )
        self.expect(
            "names that occur again",
            preparation.joined([(["a", "b", "a"], [["1", "2", "3"]]), (["a", "a", "a"], [["4", "5", "6"]])]),
            (["a", "b", "a", "a"], [["1", "2", "3", ""], ["4", "", "5", "6"]]),
        )

    def test_fits(self) -> None:
        """Patterns with several *, and names that nearly fit."""
        for pattern in ("*a*b", "*a*a*a*b", "*aab*ab*b*c", "a*a*a*a*a*x*"):
            self.expect_linear(
                f"the pattern {pattern}", archives.fits, lambda size: (Text("a" * size + "c"), f"{pattern}*"), 2000
            )
        cases = {
            ("a.txt", "*"): True,
            ("a.txt", "a.txt"): True,
            ("a.txt", "a.tx"): False,
            ("a", "a*a"): False,
            ("aa", "a*a"): True,
            ("ab.ab", "*ab*ab"): True,
            ("ab", "*ab*ab"): False,
            ("x/y\nz", "x*z"): True,
            ("a.b", "a?b"): False,
            ("abcbc", "a*bc"): True,
            ("abab", "*aba*bab*"): False,
            ("", "*"): True,
            ("", ""): True,
            ("a", ""): False,
            ("aXbXc", "a*b*c"): True,
            ("acb", "a*b*c"): False,
        }
        for (name, pattern), expected in cases.items():
            self.expect(f"{name!r} fits {pattern!r}", archives.fits(name, pattern), expected)
