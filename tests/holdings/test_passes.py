"""How often a week takes a table apart, puts it together and prepares it: counted at the only functions that do so."""
from __future__ import annotations

import contextlib
from collections.abc import Callable
from collections.abc import Iterator
from pathlib import Path
from typing import Any
from unittest import mock

from fixtures import needs
from fixtures.cases import Case
from fixtures.made_titles import issn
from fixtures.made_versions import Weeks
from fixtures.made_versions import table
from openlink_update.exports import export_files
from openlink_update.site.front_door import Site
from openlink_update.tables import preparation
from openlink_update.tables.table import Table
from openlink_update.versions import making


# The update tries rules on at most these rows of a kind.
_FEW = 12


def rows(count: int) -> list[tuple[str, ...]]:
    return [(f"Title {number}", issn(3_000_000 + number), "", "1995", "", "", "t", "P6M") for number in range(count)]


@contextlib.contextmanager
def counted() -> Iterator[list[int]]:
    """Counts while the block lasts: parses, serialisations but for those of a few rows, preparations."""
    counts = [0, 0, 0]
    parse, to_bytes, prepare = Table.parse, Table.to_bytes, preparation.prepare

    def counting(place: int, work: Callable[..., Any]) -> Callable[..., Any]:
        def counted_work(*given: Any) -> Any:
            if work is not to_bytes or len(given[0].rows) > _FEW:
                counts[place] += 1
            return work(*given)

        return counted_work

    with mock.patch.object(Table, "parse", counting(0, parse)), mock.patch.object(
        Table, "to_bytes", counting(1, to_bytes)
    ), mock.patch.object(preparation, "prepare", counting(2, prepare)):
        yield counts


def whole_week(weeks: Weeks) -> bool:
    """Makes a version with its index and its exports, unless nothing is new, as a run does. Returns whether it is."""
    older = weeks.version
    weeks.make()
    if older and making.is_same(weeks.version, older):
        return False
    weeks.maker.make_index(True)
    maker = weeks.maker
    export_files.make(Path(weeks.version), maker.prepared_parts(), maker.titles, Site("/nonexistent"), None)
    weeks.maker.remove_prepared()
    return True


@needs.program()
class Passes(Case):
    """One week after another."""

    def test_passes(self) -> None:
        with Weeks() as weeks:
            for name, data, expected_new, most in (
                ("a new target", table(*rows(20)), True, (2, 2, 1)),
                ("a changed table", table(*rows(21)), True, (3, 2, 2)),
                ("the same table", table(*rows(21)), False, (0, 2, 1)),
            ):
                weeks.deliver("x", data)
                with counted() as counts:
                    is_new = whole_week(weeks)
                self.expect(f"{name}: whether a version is new", is_new, expected_new)
                self.expect(
                    f"{name}: parses, serialisations, preparations: {counts}, and {most} are possible",
                    counts[2] > 0 and all(count <= limit for count, limit in zip(counts, most)),
                )
