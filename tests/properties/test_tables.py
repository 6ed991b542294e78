"""The preparation of tables: twice is once, and nothing of a file is lost."""
from __future__ import annotations

import re
from typing import Any

from fixtures import needs
from openlink_update.tables import coverage
from openlink_update.tables import preparation
from openlink_update.tables.cell_dates import standard
from openlink_update.tables.identifiers import form_of
from openlink_update.tables.table import cell
from properties import made_tables
from properties.property_case import PropertyCase
from properties.property_case import strategies as st

_BELOW = re.compile(r"^below the table, left out: (\d+) rows?,")
IDENTIFIERS = ("print_identifier", "online_identifier")


def prepared(data: bytes) -> preparation.Prepared:
    return preparation.prepare([("file", data)])


def without_dashes(number: str) -> str:
    return number.replace("-", "")


def numbers_of(rows: list[list[str]], places: list[int | None]) -> list[str]:
    """The numbers in rows by which requests find them."""
    return [without_dashes(form_of(cell(row, place))) for row in rows for place in places if form_of(cell(row, place))]


@needs.hypothesis()
class Tables(PropertyCase):
    def test_twice_is_once(self) -> None:
        def holds(file: Any) -> None:
            once = prepared(file.data)
            again = prepared(once.table.to_bytes())
            assert again.table == once.table, (once.table, again.table)
            assert (again.lines, again.dropped) == ([line for line in again.lines if "first dates" in line], [])

        self.hold_shared(holds, made_tables.files)

    def test_each_row_is_served_or_listed(self) -> None:
        """A row that is the same as an earlier one is in the table once. The last rows, if they have neither a number
        nor a third cell, count as what is written below a table, and the number of them is said."""

        def holds(file: Any) -> None:
            it = prepared(file.data)
            assert it.count == len(it.table.rows) + len(it.dropped), (it.count, it.table.rows, it.dropped)
            lines = ["\t".join(row) for row in [*it.table.rows, *it.dropped]]
            end = len(file.written) - sum(int(number) for line in it.lines for number in _BELOW.findall(line))
            for row in file.written[end:]:
                assert not row.numbers and sum(bool(cell.strip()) for cell in row.cells) <= 2, (row, it.lines)
            kept = {row.mark for row in file.written[:end]}
            for row in file.rows:
                assert sum(row.mark in line for line in lines) == (row.mark in kept), (row, lines, it.lines)
            assert len(lines) == len(kept), (lines, it.lines)

        self.hold_shared(holds, made_tables.files)

    def test_numbers_of_a_file_are_those_that_are_served(self) -> None:
        def holds(file: Any) -> None:
            it = prepared(file.data)
            places = it.table.places(IDENTIFIERS)
            served = numbers_of(it.table.rows, places)
            dropped = numbers_of([row[1:] for row in it.dropped], places)
            assert dropped == [], it.dropped
            wanted = sorted(without_dashes(number) for row in file.rows for number in row.numbers)
            assert sorted(served) == wanted, (file.rows, it.table.rows)

        self.hold_shared(holds, made_tables.files)

    def test_a_table_that_is_served_has_the_rows_in_their_order(self) -> None:
        """What coverage adds is after the table's own columns, and the rows stay what they are."""

        def holds(case: Any) -> None:
            file, day = case
            it = prepared(file.data)
            table, _ = coverage.served(it.table, day, has_walls=False)
            width = len(it.table.columns)
            assert table.columns[:width] == it.table.columns
            assert len(table.rows) == len(it.table.rows)
            for row, own in zip(table.rows, it.table.rows):
                filled = own + [""] * (width - len(own))
                assert row[:width] == filled[:width] and row[width + 2 :] == own[width:], (row, own)

        self.hold_shared(holds, made_tables.files, st.dates)

    def test_dates_twice(self) -> None:
        """A date in the standard's form stays, and each other text becomes one, or stays too."""

        def holds(text: str) -> None:
            once = standard(text)
            assert standard(once) == once, (text, once, standard(once))

        parts = st.sampled_from(
            ("12", "1995", "2004", "1", "31", "Dec", "May", " ", "-", "/", ".", "T", "T10:00", ":", "AM")
        )
        texts = st.one_of(st.lists(parts, max_size=6).map("".join), st.text("0123456789-/. TZ:apm", max_size=14))
        self.hold(texts, holds)
