"""Judged by numbers: warnings up to a number, numbers of titles that are gone, and the order of dates."""
from __future__ import annotations

import os

from fixtures import made_titles
from fixtures import needs
from fixtures.cases import Case
from fixtures.made_titles import issn
from fixtures.made_versions import Weeks
from fixtures.made_versions import table
from openlink_update.versions import same_files

RULE = "rule\nlink https://press.example.com/{title_id}\n"


def rows(first: int, last: int) -> list[tuple[str, ...]]:
    return [(f"Title {at}", issn(at), "", "1990", "", "", f"t{at}") for at in range(first, last)]


def later(first: int, last: int) -> list[tuple[str, ...]]:
    """The same titles in other years."""
    return [(*row[:3], "2005", *row[4:]) for row in rows(first, last)]


def bad(count: int) -> bytes:
    return table(*rows(0, 90), *((f"Bad {at}", issn(90 + at), "", "", "", f"bad {at}", "b") for at in range(count)))


@needs.program()
class Judging(Case):
    """Which tables are used."""

    def test_left_out(self) -> None:
        """The version has no file of a target that is left out, though its table was judged there."""
        with Weeks() as weeks:
            weeks.deliver("press", table(*rows(0, 40)))
            weeks.write("other.rules", RULE.encode())
            weeks.write("other.txt", bad(10))
            weeks.write("targets.tsv", b"press\tpress.rules\tpress.txt\t\nother\tother.rules\tother.txt\t\n")
            self.expect("what is said", "other: left out, since it has no old files" in weeks.make())
            names = [os.path.basename(it) for it in same_files.files_below(weeks.version)]
            self.expect("the other target's", "press.txt" in names)
            self.expect("its own", [it for it in names if it.startswith("other.")], [])

    def test_rows_that_end_early(self) -> None:
        """A row may end before the second number."""
        with Weeks() as weeks:
            for last, said in (
                (40, ["press: new, 41 rows"]),
                (39, ["press: 0 rows added, 1 gone", "  titles: 0 came, 1 gone: changes/press.txt"]),
            ):
                weeks.deliver("press", table(*rows(0, last)) + f"Ends early\t{issn(50)}\n".encode())
                self.expect(f"{last} whole rows", weeks.make(), said)

    def test_collapse(self) -> None:
        """A table of 7,271 rows of which 6,544 lose their numbers, although the list allows the warning by its
        words."""
        journals = list(made_titles.Made(seed=7).journals(7271))
        for row in journals[:3]:
            row[1] = "unknown"
        good = made_titles.table(journals)
        for row in journals[-6544:]:
            row[1], row[2] = "2.91E+07", "2.91E+07"
        bad = made_titles.table(journals)
        words = "not an ISSN or ISBN; rows without an identifier"
        others = "not an ISSN or ISBN up to 13091; dropped up to 6544; less than half of the rows"
        served = 2 * 7271 - 3  # two numbers a row

        def gone(most: int) -> str:
            return f"numbers gone 13088 of {served}: {most}% are allowed; to allow it: gone up to 91%"

        with Weeks() as weeks:
            self.expect("the first week", weeks.week("press", good, words, rules=RULE), [])
            before = weeks.read("tables/press.txt")
            reasons = weeks.week("press", bad, words, rules=RULE)
            self.expect("the collapse", (gone(10) in reasons, len(reasons) > 1), (True, True))
            self.expect("the old table stays", weeks.read("tables/press.txt"), before)
            reasons = weeks.week("press", bad, f"{words}; gone up to 91%", rules=RULE)
            self.expect("by other reasons", (reasons != [], gone(91) in reasons), (True, False))
            self.expect("by what is gone alone", weeks.week("press", bad, others, rules=RULE), [gone(10)])
            self.expect(
                "a hundredth short", weeks.week("press", bad, f"{others}; gone up to 90%", rules=RULE), [gone(90)]
            )
            self.expect("allowed by number", weeks.week("press", bad, f"{others}; gone up to 91%", rules=RULE), [])

    def test_gone(self) -> None:
        """Numbers that are gone, up to 10 in 100, or as many as the list says; rows alone say nothing."""
        # The case, the old rows, the new rows, the allowed words, and the reasons that keep the old table.
        cases: list[tuple[str, list[tuple[str, ...]], list[tuple[str, ...]], str, list[str]]] = [
            ("10 of 100", rows(0, 100), rows(10, 100), "", []),
            (
                "11 of 100",
                rows(0, 100),
                rows(11, 100),
                "",
                ["numbers gone 11 of 100: 10% are allowed; to allow it: gone up to 11%"],
            ),
            ("11 of 100, allowed", rows(0, 100), rows(11, 100), "gone up to 11%", []),
            (
                "11 of 100, less allowed",
                rows(0, 100),
                rows(11, 100),
                "gone up to 5",
                ["numbers gone 11 of 100: 5% are allowed; to allow it: gone up to 11%"],
            ),
            (
                "words alone allow nothing",
                rows(0, 100),
                rows(11, 100),
                "gone",
                ["numbers gone 11 of 100: 10% are allowed; to allow it: gone up to 11%"],
            ),
            (
                "others in their place",
                rows(0, 100),
                rows(50, 150),
                "",
                ["numbers gone 50 of 100: 10% are allowed; to allow it: gone up to 50%"],
            ),
            ("rows of one number", rows(0, 50) * 2, rows(0, 50), "", []),
            (
                "spelt otherwise",
                rows(0, 20),
                [(title, number.replace("-", "").lower(), *rest) for title, number, *rest in rows(0, 20)],
                "",
                [],
            ),
            (
                "in the other column",
                rows(0, 20),
                [(title, "", number, *rest) for title, number, _, *rest in rows(0, 20)],
                "no numbers left in a column up to 100%",
                [],
            ),
            (
                "thirteen digits",
                [("A", "1234560106", "", "", "", "", "a")],
                [("A", "", "9781234560102", "", "", "", "a")],
                "",
                [],
            ),
            ("half of the rows", [*rows(0, 30), *later(0, 30)], rows(0, 30), "", []),
            (
                "less than half of the rows",
                [*rows(0, 30), *later(0, 30)],
                rows(0, 29),
                "",
                ["less than half of the rows: 29, and 60 before; to allow it: less than half of the rows"],
            ),
        ]
        for name, before, after, allowed, reasons in cases:
            with Weeks() as weeks:
                self.expect(f"{name}: the first week", weeks.week("press", table(*before)), [])
                self.expect(name, weeks.week("press", table(*after), allowed), reasons)

    def test_order_of_dates(self) -> None:
        """First dates after the last ones: two rows in a hundred may be so, a share rounded up, or as many as the list
        says. A month or a year ends with its last day."""

        def exchanged(count: int, last: str = "1989-12-31") -> bytes:
            return table(*rows(count, 100), *((*row[:4], last, *row[5:]) for row in rows(0, count)))

        words = "first dates after the last ones"
        for name, data, allowed, count in [
            ("two", exchanged(2), "", 0),
            ("three", exchanged(3), "", 3),
            ("three, allowed", exchanged(3), f"{words} up to 3", 0),
            ("four, and three allowed", exchanged(4), f"{words} up to 3", 4),
            ("in the same year", exchanged(50, "1990"), "", 0),
            ("none allowed", exchanged(1), f"{words} up to 0", 1),
        ]:
            with Weeks() as weeks:
                most = allowed.split(" ")[-1] or 2
                reasons = (
                    [
                        f'{words}: {count} of 100 rows, and {most} may be, the first "1990 and 1989-12-31"; '
                        f"to allow it: {words} up to {count}%"
                    ]
                    if count
                    else []
                )
                self.expect(name, weeks.week("press", data, allowed), reasons)
        with Weeks() as weeks:
            started = [(*row[:3], "2026-06-01", "", "", "t", "P1Y") for row in rows(0, 9)]
            self.expect("journals that begin within their embargo", weeks.week("press", table(*started)), [])
        with Weeks() as weeks:
            self.expect("those that are served", weeks.week("press", exchanged(2)), [])
            self.expect(
                "what is said of them",
                weeks.said[:2],
                ["press: new, 100 rows", f"  {words}: 2 rows, the first with 1990 and 1989-12-31"],
            )

    def test_warnings(self) -> None:
        """Words with a number, and words without one, which a version remembers."""

        def more(now: int, most: int) -> list[str]:
            return [
                f'title_url not a web link {now}, first 90 "bad 0": {most} allowed; '
                f"to allow it: title_url not a web link up to {now}"
            ]

        words = "title_url not a web link"
        with Weeks() as weeks:
            self.expect("not allowed", weeks.week("press", bad(2)), ['title_url not a web link 2, first 90 "bad 0"'])
            self.expect("up to a number", weeks.week("press", bad(40), f"{words} up to 40"), [])
            self.expect("above it", weeks.week("press", bad(41), f"{words} up to 40"), more(41, 40))
        with Weeks() as weeks:
            self.expect("the first number", weeks.week("press", bad(3), words), [])
            self.expect("as many", weeks.week("press", bad(3) + b"", f"{words}; rows"), [])
            self.expect("fewer", weeks.week("press", bad(1), words), [])
            self.expect("as many as first", weeks.week("press", bad(3), words), [])
            self.expect("more", weeks.week("press", bad(4), words), more(4, 3))
            self.expect("more again", weeks.week("press", bad(4), words), more(4, 3))
            self.expect("words twice", weeks.week("press", bad(4), f"{words} up to 3; {words}"), more(4, 3))
            self.expect("more, allowed by number", weeks.week("press", bad(4), f"{words} up to 4"), [])
        with Weeks() as weeks:
            weeks.week("press", bad(0), words)
            self.expect("none at first", weeks.week("press", bad(1), words), more(1, 0))
            weeks.week("press", bad(0))
            self.expect("words that were taken back", weeks.read("allowed.tsv"), b"")
            self.expect("and are new", weeks.week("press", bad(1), words), [])
        with Weeks() as weeks:
            weeks.week("press", bad(0))
            weeks.week("press", bad(0), words)
            self.expect("words for a table in use", weeks.read("allowed.tsv"), b"press\ttitle_url not a web link\t0\n")
            self.expect("are for its number", weeks.week("press", bad(5), words), more(5, 0))
            os.unlink(f"{weeks.version}/allowed.tsv")
            self.expect("a version from before there were numbers", weeks.week("press", bad(5), words), [])

    def test_words_that_are_new(self) -> None:
        """How many cells words without a number allow was decided when they came into the list. A word that is new
        changes nothing of that, also where the files stay the same."""
        dates, column = "date_first_issue_online not a date", "unknown column"

        def soon(count: int) -> bytes:
            return table(*((*row[:3], "soon", *row[4:]) for row in rows(0, count)), *rows(count, 10))

        with Weeks() as weeks:
            for data, words, wanted in (
                (soon(3), dates, [f"press\t{dates}\t3"]),
                (soon(1), dates, [f"press\t{dates}\t3"]),
                (soon(1), f"{dates}; {column}", [f"press\t{dates}\t3", f"press\t{column}\t0"]),
                (soon(1), column, [f"press\t{column}\t0"]),
            ):
                weeks.week("press", data, words)
                self.expect(words, weeks.read("allowed.tsv").decode().splitlines(), wanted)

    def test_lint(self) -> None:
        """Warnings of `lint`: by their words, or all of them by `rule`."""
        one = "rule\nwhen given shelf\nlink https://press.example.com/{title_id}\n"
        two = one.replace("when", "when given room\nwhen")
        with Weeks() as weeks:
            unknown = [
                f"{weeks.path('input', 'press.rules')}: rule 1, guard {at}: unknown name {name}"
                for at, name in ((1, "room"), (2, "shelf"))
            ]
            reasons = [line.removeprefix("  ") for line in weeks.week("press", table(*rows(0, 9)), rules=two)]
            self.expect("not allowed", reasons, unknown)
            self.expect(
                "one, by its words", weeks.week("press", table(*rows(0, 9)), "unknown name shelf", rules=one), []
            )
            self.expect(
                "two, of which the list allows one",
                [
                    line.removeprefix("  ")
                    for line in weeks.week("press", table(*rows(0, 9)), "unknown name shelf", rules=two)
                ],
                unknown[:1],
            )
            self.expect("one, by rule", weeks.week("press", table(*rows(0, 10)), "rule", rules=one), [])
            self.expect(
                "two, by rule",
                [line.removeprefix("  ") for line in weeks.week("press", table(*rows(0, 10)), "rule", rules=two)],
                [f"{line}: 1 allowed; to allow it: rule up to 2" for line in unknown],
            )
            self.expect("two, allowed", weeks.week("press", table(*rows(0, 10)), "rule up to 2", rules=two), [])
