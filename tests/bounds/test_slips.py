"""The bounds of slips, and of the texts that allow them."""
from __future__ import annotations

import datetime
from unittest import mock

from fixtures.cases import Case
from openlink_update.slips import kinds
from openlink_update.slips import odd_rows
from openlink_update.slips import other_titles
from openlink_update.slips import slip_judge
from openlink_update.slips import titles
from openlink_update.slips.material import Found
from openlink_update.slips.material import Material
from openlink_update.slips.material import Pair
from openlink_update.slips.other_titles import OtherTitles
from openlink_update.slips.slip_judge import SlipJudge
from openlink_update.tables.table import Table
from openlink_update.versions import allowed_words

DAY = datetime.date(2026, 11, 27)
WORDS = "first dates after the last ones"
HEADER = ("publication_title", "print_identifier", "notes", "coverage_depth", "num_first_vol_online")


def material(
    rows: list[list[str]], header: tuple[str, ...] = HEADER, rules: bytes = b"", pairs: int = 0, count: int = 0
) -> Material:
    return Material(Table(header, rows), [], [("2000", "1990")] * pairs, count, rules, "", "")


def found(words: str, now: Material, before: Material | None = None) -> Found | None:
    find = next(kind.find for kind in kinds.KINDS if kind.words == words)
    return find(Pair(now, before, DAY, lambda numbers: {}))


def reasons(pairs: int, rows: int, *allowed: str) -> int:
    """The number of reasons against a table with so many rows whose dates are reversed."""
    judge = SlipJudge(None, DAY, OtherTitles(tuple))
    judge.find("press", material([], pairs=pairs, count=rows), None)
    return len(judge.reasons("press", allowed, {}))


class Judged(Case):
    def test_share(self) -> None:
        """Two in a hundred, rounded up, and two of any table."""
        for rows, most in ((100, 2), (101, 3), (1000, 20), (1001, 21), (50, 2), (3, 2)):
            self.expect(f"{most} of {rows}", reasons(most, rows), 0)
            self.expect(f"{most + 1} of {rows}", reasons(most + 1, rows), 1)

    def test_digits(self) -> None:
        """Numbers of nine digits; what has more is none."""
        for digits, wanted in (("9" * 9, 0), ("9" * 10, 1)):
            self.expect(f"{len(digits)} digits", reasons(50, 100, f"{WORDS} up to {digits}"), wanted)
            self.expect(
                f"{len(digits)} of any words", bool(allowed_words.unknown([f"rows up to {digits}"])), wanted == 1
            )

    def test_characters(self) -> None:
        for count, wanted in ((100, "x" * 100), (101, "x" * 100 + "..")):
            self.expect(f"{count} characters", slip_judge._safe("x" * count), wanted)

    def test_others(self) -> None:
        """As many numbers are kept of other targets."""
        with mock.patch.object(other_titles, "_MOST_NUMBERS", 2):
            others = OtherTitles(tuple)
            others.of(())
            others.add(Table(HEADER, [[f"T {at}", f"{at}"] for at in range(3)]))
            self.expect("two", others.of(["0", "1", "2"]), {"0": "T 0", "1": "T 1"})
        self.expect("as it is", other_titles._MOST_NUMBERS, 1_000_000)


class Cells(Case):
    def test_texts_of_a_column(self) -> None:
        """A column of fifty texts has kinds of rows; one of more has names of them."""
        rules = b'rule\nwhen coverage_depth is "t0"\nlink https://a.org/\n'
        for count, wanted in ((50, True), (51, False)):
            before = material([["T", "", "", f"t{at}"] for at in range(count)], rules=rules)
            now = material([["T", "", "", "other"]], rules=rules)
            self.expect(f"{count} texts", bool(found("new texts that rules do not compare with", now, before)), wanted)

    def test_volumes(self) -> None:
        """A number has nine digits."""
        for volume, wanted in (("9" * 9, False), ("9" * 10, True)):
            now = material([["T", "", "", "", volume]] * 3)
            self.expect(volume, bool(found("volumes or issues that are no number", now)), wanted)

    def test_rows_of_one_number(self) -> None:
        for count, wanted in ((9, False), (10, True)):
            now = material([[f"T {at}", "0028-0836"] for at in range(count)])
            self.expect(f"{count} rows", bool(found("the same number in most rows", now)), wanted)

    def test_notes(self) -> None:
        """Twenty characters between the parts of what notes say."""
        for count, wanted in ((20, True), (21, False)):
            text = f"1995 {'x' * (count - 1)}-2003"
            self.expect(text, bool(found("coverage in notes", material([["T", "0028-0836", text]]))), wanted)
            text = f"1995-{'x' * (count - 1)} 2003"
            self.expect(text, bool(found("coverage in notes", material([["T", "0028-0836", text]]))), wanted)
            text = f"no {'x' * (count - 2)} embargo since 12 months"
            self.expect(text, bool(found("embargoes in notes", material([["T", "0028-0836", text]]))), not wanted)

    def test_totals(self) -> None:
        """Rows with three filled cells."""
        for count, wanted in ((3, True), (4, False)):
            now = Material(Table(HEADER, []), [["no identifier", *["Total"] * count]], [], 1, None, "", "")
            self.expect(f"{count} cells", bool(found("rows of a total or a footnote", now)), wanted)

    def test_bytes_of_a_line(self) -> None:
        for count, wanted in ((1999, 1999), (2000, 2000), (2001, 2000)):
            self.expect(f"{count} bytes", len(odd_rows.unended_line(b"\n" + b"x" * count)), wanted)

    def test_titles(self) -> None:
        """The letters of a word that are compared, and those of a title in capitals."""
        for one, other, wanted in (("Tidewater", "Tides", True), ("Tidewater", "Tidal", False)):
            self.expect(f"{one}, {other}", titles._is_same(one, other), wanted)
        for text, wanted in (("HARBOUR 12", True), ("HARBOUR 1", False), ("HARBOURS12", False)):
            self.expect(text, titles._in_capitals(text), wanted)

    def test_first_rows(self) -> None:
        """Of 2,000 rows each is compared first, of one more every other; and 10 in 100 may have another title."""
        for count, wanted in ((2000, False), (2001, True)):
            before = material([[f"Title {at}", f"{at}"] for at in range(count)])
            now = material([["Other" if at % 2 else f"Title {at}", f"{at}"] for at in range(count)])
            self.expect(f"{count} rows", titles._are_most_same(now, before), wanted)
        before = material([[f"Title {at}", f"{at}"] for at in range(100)])
        for count, wanted in ((10, True), (11, False)):
            now = material([["Other" if at < count else f"Title {at}", f"{at}"] for at in range(100)])
            self.expect(f"{count} other titles", titles._are_most_same(now, before), wanted)


class Words(Case):
    def test_names(self) -> None:
        """A name of 300 characters, and another that was meant."""
        for count, wanted in ((300, 0), (301, 1)):
            self.expect(f"{count}", len(allowed_words.unknown([f"unknown name {'x' * count}"])), wanted)
            self.expect(
                f"{count} meant", len(allowed_words.unknown([f"unknown name x, did you mean {'x' * count}"])), wanted
            )

    def test_said(self) -> None:
        """Five texts of a line, and a hundred characters of each."""
        for count, wanted in ((5, 5), (6, 6)):
            lines = allowed_words.unknown([f"xyzzy{'abcdef'[at]}" for at in range(count)])
            self.expect(f"{count} texts", (len(lines), lines[-1].endswith("more of them")), (wanted, count == 6))
        for count, wanted in ((100, ": " + "q" * 100), (101, ": " + "q" * 100 + "..")):
            line = allowed_words.unknown(["q" * count])[0]
            self.expect(f"{count} characters", line.endswith(wanted))

    def test_digits_that_are_meant(self) -> None:
        for digits, wanted in (("9" * 9, True), ("9" * 10, False)):
            line = allowed_words.unknown([f"dropped upto {digits}"])[0]
            self.expect(line, line.endswith(f"did you mean dropped up to {digits}"), wanted)

    def test_likeness(self) -> None:
        """Six letters of ten that are the same, in their order."""
        for text, wanted in (("dropxyzp", True), ("dxyzwvuq", False)):
            self.expect(text, "did you mean" in allowed_words.unknown([text])[0], wanted)
