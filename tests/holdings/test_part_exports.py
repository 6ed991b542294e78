"""The index and the exports of a table in parts: each title once, with the place of its row in its part, and the same
exports as those of the whole table."""
from __future__ import annotations

import contextlib
import hashlib
import re
from collections.abc import Iterator
from pathlib import Path
from unittest import mock

from fixtures import needs
from fixtures.cases import Case
from fixtures.made_titles import issn
from fixtures.made_versions import DAY
from fixtures.made_versions import HEADER
from fixtures.made_versions import Weeks
from fixtures.made_versions import table
from openlink_update.exports import export_files
from openlink_update.exports.site_names import SiteNames
from openlink_update.site.front_door import Site
from openlink_update.tables import parts
from openlink_update.versions.tables_again import tables_of

COUNT = 20
COLUMNS = (*HEADER, "preceding_publication_title_id")
PARTS = ("big", "big.2", "big.3")
SITE = Site("/nonexistent")


def made_rows() -> Iterator[tuple[str, ...]]:
    """Journals, of which each has the one ten before it as its earlier title; two editions of one; and last another row
    of the first one, which has to be in its part."""
    for at in range(COUNT):
        before = f"t{at - 10}" if at >= 10 else ""
        yield (
            f"Title {at:02}",
            issn(at),
            "",
            str(1990 + at),
            "",
            "",
            f"t{at}",
            "P1Y" if at % 2 else "",
            "fulltext",
            "serial",
            before,
        )
    yield ("The Waves", issn(40), "", "1970", "1980", "", "w1", "", "fulltext", "serial")
    yield ("Waves", "", issn(41), "1981", "", "", "w2", "", "fulltext", "serial")
    yield ("Title 00", issn(0), "", "2020", "", "", "again", "", "fulltext", "serial")


@contextlib.contextmanager
def version_of(most_rows: int) -> Iterator[Weeks]:
    """A version whose parts have at most that many rows, with its index and its exports."""
    with mock.patch.object(parts, "MOST_ROWS", most_rows), Weeks() as weeks:
        weeks.deliver("big", table(*made_rows(), header=COLUMNS))
        weeks.make()
        weeks.maker.make_index(True)
        export_files.make(Path(weeks.version), weeks.maker.prepared_parts(), weeks.maker.titles, SITE, None)
        weeks.maker.remove_prepared()
        yield weeks


def exported(folder: Path) -> dict[str, str]:
    return {str(path.relative_to(folder)): path.read_text(encoding="utf-8") for path in sorted(folder.rglob("*.*"))}


def exported_again(weeks: Weeks) -> dict[str, str]:
    """What openlink-holdings writes of the version."""
    version, folder = Path(weeks.version), Path(weeks.path("again"))
    for kind, place in (("kbart", folder), ("titles", folder), ("scholar", folder / "scholar")):
        export_files.WRITERS[kind](version, tables_of(version, DAY), SITE, SiteNames(None), place)
    return exported(folder)


def cells_of(weeks: Weeks, number: str) -> list[str]:
    """The cells that the index has of a number after it."""
    name = hashlib.md5(number.encode()).hexdigest()[:3]
    lines = [line.split("\t") for line in weeks.read(f"index/keys/{name}").decode().splitlines()]
    (found,) = (cells[1:] for cells in lines if cells[0] == number)
    return found


def places_of(weeks: Weeks) -> dict[str, str]:
    """Where each row is served, by its title_id: the part, and the number of its row."""
    return {
        row[HEADER.index("title_id")]: f"{part} {number}"
        for part in PARTS
        for number, row in enumerate(weeks.rows(part)[1])
    }


def expected_cells(at: int, places: dict[str, str]) -> list[str]:
    """Those of a journal, worked out from its row and from where this is served."""
    embargo = " - P1Y" if at % 2 else ""
    related = (
        [f"<{issn(at - 10)} Title {at - 10:02}"]
        if at >= 10
        else [f">{issn(at + 10)} Title {at + 10:02}"]
        if at + 10 < COUNT
        else []
    )
    again = f";{places['again']} 2020" if at == 0 else ""
    return ["j", f"Title {at:02}", issn(at), f"{places[f't{at}']} {1990 + at}{embargo}{again}", *related]


@needs.program()
class PartExports(Case):
    """A version of three parts."""

    def test_index(self) -> None:
        with version_of(8) as weeks:
            places = places_of(weeks)
            self.expect(
                "three parts have all rows",
                (len(places), {place.partition(" ")[0] for place in places.values()}),
                (COUNT + 3, {*PARTS}),
            )
            self.expect("rows of one number are in one part", (places["t0"], places["again"]), ("big 0", "big 7"))
            for at in range(COUNT):
                self.expect(f"the cells of title {at}", cells_of(weeks, issn(at)), expected_cells(at, places))
            self.expect(
                "two editions",
                cells_of(weeks, issn(41)),
                ["j", "The Waves", f"{issn(40)} {issn(41)}", f"{places['w1']} 1970 1980;{places['w2']} 1981"],
            )
            letters = weeks.read("index/list/j/letters").decode().split("\n")
            self.expect(
                "the list has each title once",
                letters[1:4],
                [f"{COUNT + 1}\t1", f"t\t0\t1\t{COUNT}", "w\t1\t1\t1"],
            )

    def test_exports(self) -> None:
        """They do not tell parts apart."""
        with version_of(1000) as weeks:
            whole = exported(Path(weeks.version, "export"))
        with version_of(8) as weeks:
            divided, again = exported(Path(weeks.version, "export")), exported_again(weeks)
        self.expect("all files", sorted(whole), ["kbart.txt", "scholar/holdings-1.xml", "titles.tsv"])
        self.expect("openlink-holdings writes the same", again, divided)
        self.expect("the sheet of titles", divided["titles.tsv"], whole["titles.tsv"])
        for name in ("kbart.txt", "scholar/holdings-1.xml"):
            self.expect(f"the lines of {name}", sorted(divided[name].splitlines()), sorted(whole[name].splitlines()))
        self.expect(
            "each title is in the sheet",
            re.findall(r"^(.*?)\t", whole["titles.tsv"], re.M)[1:],
            [*(f"Title {at:02}" for at in range(COUNT)), "The Waves"],
        )
        lines = divided["titles.tsv"].splitlines()
        self.expect(
            "the coverage of all its rows",
            [lines[at].split("\t")[1:] for at in (1, -1)],
            [
                [f"ISSN {issn(0)}", "big: since 1990; big: since 2020", "big"],
                [f"ISSN {issn(40)}; ISSN {issn(41)}", "big: 1970 to 1980; big: since 1981", "big"],
            ],
        )
