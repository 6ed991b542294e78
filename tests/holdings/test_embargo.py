"""Embargoes: everything that the update makes of a cell reads it in the same way. Worked out by hand for 2026-11-27."""
from __future__ import annotations

import os
import re
from pathlib import Path

from fixtures import needs
from fixtures.cases import Case
from fixtures.made_titles import issn
from fixtures.made_versions import DAY
from fixtures.made_versions import Weeks
from fixtures.made_versions import table
from openlink_update.exports import export_files
from openlink_update.exports import kbart_file
from openlink_update.exports import scholar
from openlink_update.exports.site_names import SiteNames
from openlink_update.site.front_door import Site
from openlink_update.tables import coverage
from openlink_update.versions.tables_again import tables_of

OPEN = ("", "19950101", "99999999", "1995", "")
# A cell of a row that begins in 1995: its last date as it is served, coverage_from, coverage_to, the dates and the
# embargo in the index, the days that Google Scholar gets, and whether the wall moves within a year.
CASES = {
    "about P6M": (*OPEN, False),
    "GROUP3M": (*OPEN, False),
    "6 to 12 months": (*OPEN, False),
    "": (*OPEN, False),
    "P6": (*OPEN, False),
    "XP6M": (*OPEN, False),
    "P6M,R5Y": (*OPEN, False),
    "P6M;": (*OPEN, False),
    "p1y": ("2025-11", "19950101", "20251127", "1995 - P1Y", "366", False),
    "P 6 M": ("2026-05", "19950101", "20260527", "1995 - P6M", "184", True),
    "P6M; R5Y": ("2026-05", "20211128", "20260527", "1995 - P6M,R5Y", "184", True),
    "R10Y;P30D": ("2026-10-28", "20161128", "20261028", "1995 - R10Y,P30D", "30", True),
    "P6M;P1Y": ("2025-11", "19950101", "20251127", "1995 - P6M,P1Y", "366", True),
    "P1Y;P6M": ("2025-11", "19950101", "20251127", "1995 - P1Y,P6M", "366", True),
    "P30D;P1M": ("2026-10", "19950101", "20261027", "1995 - P30D,P1M", "31", True),
    "P47M": ("2022-12", "19950101", "20221227", "1995 - P47M", "1433", True),
    "R2Y": ("", "20241128", "99999999", "1995 - R2Y", "", False),
    "R5Y;R6M": ("", "20260528", "99999999", "1995 - R5Y,R6M", "", True),
    "R6M;R5Y": ("", "20260528", "99999999", "1995 - R6M,R5Y", "", True),
}


def row(number: int, embargo: str, last: str = "") -> tuple[str, ...]:
    return (
        f"Title {number}",
        issn(3_000_000 + number),
        "",
        "1995",
        last,
        "https://x.example.org/",
        "t",
        embargo,
        "fulltext",
        "serial",
    )


def index_entries(version: str) -> dict[str, str]:
    """The dates and the embargo of each row in the index of a version, by its number."""
    found, folder = {}, os.path.join(version, "index", "keys")
    for name in os.listdir(folder):
        with open(os.path.join(folder, name), encoding="utf-8") as file:
            for cells in (line.split("\t") for line in file):
                if re.fullmatch(r"\d{4}-\d{3}[\dX]", cells[0]):
                    found[cells[0]] = cells[4].rstrip("\n").partition(" ")[2].partition(" ")[2]
    return found


@needs.program()
class Embargo(Case):
    """The update reads a cell once."""

    def exports_of(self, weeks: Weeks) -> list[list[str]]:
        """The cells of the KBART file that the update writes, which is the one that openlink-holdings writes."""
        version, folder = Path(weeks.version), Path(weeks.path("exported"))
        export_files.make(version, weeks.maker.prepared_parts(), weeks.maker.titles, Site("/nonexistent"), None)
        export_files.WRITERS["kbart"](version, tables_of(version, DAY), Site("/nonexistent"), SiteNames(None), folder)
        texts = [path.read_text() for path in (version / "export/kbart.txt", folder / "kbart.txt")]
        self.expect("both write the same", texts[0], texts[1])
        return [line.split("\t") for line in texts[0].splitlines()]

    def test_one_reading(self) -> None:
        """The last date, the days, the report, the index and the exports agree about each cell."""
        rows = [row(number, cell) for number, cell in enumerate(CASES)]
        with Weeks() as weeks:
            weeks.deliver("x", table(*rows))
            said = weeks.make()
            served, unused = weeks.rows("x")[1], [cell for cell, it in CASES.items() if cell and it[:5] == OPEN]
            weeks.maker.make_index(True)
            entries = index_entries(weeks.version)
            exported = self.exports_of(weeks)
            ((_, came),) = tables_of(Path(weeks.version), DAY)
            items = list(scholar.items(kbart_file.rows_of(came), "x", DAY))
        self.expect(
            "what is said",
            said,
            [
                f"x: new, {len(CASES)} rows",
                f"  embargo_info not an embargo {len(unused)}, first 0 " '"about P6M": not used',
            ],
        )
        self.expect(
            "all are served, exported and in the index",
            (len(served), len(exported), len(items), len(entries)),
            (len(CASES), len(CASES) + 1, len(CASES), len(CASES)),
        )
        for number, (cell, (last, start, end, entry, days, is_moving)) in enumerate(CASES.items()):
            self.expect(f"{cell!r}: last date, days", (served[number][4], *served[number][-2:]), (last, start, end))
            self.expect(f"{cell!r}: the index", entries[issn(3_000_000 + number)], entry)
            found = dict(zip(exported[0], exported[1 + number]))
            self.expect(
                f"{cell!r}: the export has the provider's cells",
                (found["date_last_issue_online"], found["embargo_info"]),
                ("", cell),
            )
            closed = re.search(r"<days_not_available>(\d+)<", items[number])
            self.expect(f"{cell!r}: the days for Google Scholar", closed[1] if closed else "", days)
            self.expect(f"{cell!r}: whether the wall moves daily", coverage.has_walls(table(row(0, cell))), is_moving)

    def test_words(self) -> None:
        """Words of one reading are what KBART writes in their place, wherever a cell counts."""
        found = []
        for pairs in ([("P6M", "P6M"), ("P1Y", "P1Y")], [("6 months", "P6M"), ("one year", "P1Y")]):
            with Weeks() as weeks:
                weeks.deliver("x", table(*(row(number, cell) for number, (cell, _) in enumerate(pairs))))
                said = weeks.make()
                served = weeks.rows("x")[1]
                weeks.maker.make_index(True)
                entries = index_entries(weeks.version)
                header, *rows = self.exports_of(weeks)
            place = header.index("embargo_info")
            self.expect(f"exports of {pairs}", [cells[place] for cells in rows], [form for _, form in pairs])
            found.append((served, entries))
        self.expect("what is said", said, ["x: new, 2 rows", "  embargoes in words written as KBART does: 2 cells"])
        self.expect("as they are served, and in the index", found[1], found[0])

    def test_dates_of_providers(self) -> None:
        """A row that has a last date keeps it, whatever its embargo."""
        dates = ("2003-04", "2026-08", "2026-08-27")
        with Weeks() as weeks:
            weeks.deliver(
                "x", table(*(row(number, "GROUP3M", date) for number, date in enumerate(dates)), row(9, "P6M", "2020"))
            )
            weeks.make()
            self.expect("as they are served", [cells[4] for cells in weeks.rows("x")[1]], [*dates, "2020"])
            header, *rows = self.exports_of(weeks)
        place = header.index("date_last_issue_online")
        self.expect("as they are exported", [cells[place] for cells in rows], [*dates, "2020"])

    def test_dates_on_walls(self) -> None:
        """A provider's own date that is the wall of the day is exported; the update's is not."""
        cells = [
            ("P6M", "2026-05"),
            ("P6M", "2026-05-27"),
            ("P6M", ""),
            ("P1Y", "2025-11"),
            ("P1Y", ""),
            ("P30D", "2026-10-28"),
            ("P30D", ""),
        ]
        walls = {"P6M": "2026-05", "P1Y": "2025-11", "P30D": "2026-10-28"}
        with Weeks() as weeks:
            weeks.deliver("x", table(*(row(number, *it) for number, it in enumerate(cells))))
            weeks.make()
            self.expect(
                "as they are served", [it[4] for it in weeks.rows("x")[1]], [last or walls[it] for it, last in cells]
            )
            header, *rows = self.exports_of(weeks)
        place = header.index("date_last_issue_online")
        self.expect("as they are exported", [it[place] for it in rows], [last for _, last in cells])
