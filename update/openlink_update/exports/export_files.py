"""A version's holdings for others, in the folder `export/`:

    scholar/holdings-N.xml  for Google Scholar, in parts, and scholar/links.xml, which names them
    kbart.txt               one KBART file of all targets
    titles.tsv              all titles, for a spreadsheet

They are made of the tables as they are prepared, without walls: pairs of the name of a target and its table, or of the
name of a part and the part. titles.tsv has the titles of the index of these tables."""
import contextlib
import datetime
import os
import re
from collections.abc import Callable, Iterable, Iterator
from pathlib import Path
from typing import TextIO

from openlink_update.exports import kbart_file, scholar, title_sheet
from openlink_update.exports.site_names import SiteNames
from openlink_update.index.title_groups import Title, Titles
from openlink_update.site.front_door import Site
from openlink_update.tables.parts import base_of
from openlink_update.tables.table import Table
from openlink_update.versions.served import targets_in

_Tables = Iterable[tuple[str, Table]]
_STAMP = re.compile(r"(\d{4})(\d\d)(\d\d)T\d{6}Z")
_PART = re.compile(r"holdings-\d+\.xml")


def day_of(version: Path) -> datetime.date:
    """The day on which a version was made."""
    match = _STAMP.match(version.resolve().name)
    return datetime.date(int(match[1]), int(match[2]), int(match[3])) if match else datetime.date.today()


@contextlib.contextmanager
def _replacing(folder: Path, name: str) -> Iterator[TextIO]:
    """A file to write to, which replaces another when it is done, so that a reader has the old one or the new one."""
    folder.mkdir(parents=True, exist_ok=True)
    path = folder / name
    with open(f"{path}.new", "w", encoding="utf-8", newline="") as file:
        yield file
    os.replace(f"{path}.new", path)


def _write(folder: Path, name: str, texts: Iterable[str]) -> None:
    with _replacing(folder, name) as file:
        file.writelines(texts)


def _ended(lines: Iterable[str]) -> Iterator[str]:
    return (f"{line}\n" for line in lines)


def _items(part: str, table: Table, names: SiteNames, day: datetime.date) -> Iterator[str]:
    target = base_of(part)
    if names.is_full_text(target):
        yield from scholar.items(kbart_file.rows_of(table), names.label(target), day)


def _write_items(items: Iterable[str], site: Site, names: SiteNames, folder: Path) -> None:
    files = []
    for number, text in enumerate(scholar.holdings(items), 1):
        files.append(f"holdings-{number}.xml")
        _write(folder, files[-1], [text])
    for name in os.listdir(folder):
        if _PART.fullmatch(name) and name not in files:
            (folder / name).unlink()
    base = names.scholar("base").rstrip("/") or site.base
    text = scholar.links(names, base, [f"{base}/export/scholar/{name}" for name in files])
    if text:
        _write(folder, "links.xml", [text])


def _write_scholar(version: Path, tables: _Tables, site: Site, names: SiteNames, folder: Path) -> None:
    day = day_of(version)
    _write_items((item for part, table in tables for item in _items(part, table, names, day)), site, names, folder)


def _write_kbart(version: Path, tables: _Tables, site: Site, names: SiteNames, folder: Path) -> None:
    _write(folder, "kbart.txt", _ended(kbart_file.lines(tables, names)))


def _write_titles(version: Path, tables: _Tables, site: Site, names: SiteNames, folder: Path) -> None:
    titles = Titles()
    for part, table in tables:
        titles.add_table(part, table)
    _write_sheet(titles.finish().titles, names, folder)


def _write_sheet(titles: Iterable[Title], names: SiteNames, folder: Path) -> None:
    _write(folder, "titles.tsv", _ended(title_sheet.lines(titles, names)))


WRITERS: dict[str, Callable[[Path, _Tables, Site, SiteNames, Path], None]] = {
    "scholar": _write_scholar,
    "kbart": _write_kbart,
    "titles": _write_titles,
}


def rules_in(version: Path) -> list[Path]:
    """The rule files of the targets of a version, as they came."""
    return [path for name in targets_in(version) if (path := version / f"received/{name}.rules").exists()]


def make(version: Path, tables: _Tables, titles: Iterable[Title], site: Site, targets: Path | None) -> str:
    """Writes all of them into the version, with the labels of a targets.json; `titles` are those of the tables. Returns
    what is wrong with it, if something is. Each table is written to the KBART file when its items for Google Scholar
    are made, so that only one is in memory."""
    names, folder, day = SiteNames(targets, rules_in(version)), version / "export", day_of(version)
    with _replacing(folder, "kbart.txt") as file:
        file.write(f"{kbart_file.heading()}\n")

        def items() -> Iterator[str]:
            for part, table in tables:
                file.writelines(_ended(kbart_file.lines_of(part, table, names)))
                yield from _items(part, table, names, day)

        _write_items(items(), site, names, folder / "scholar")
    _write_sheet(titles, names, folder)
    return names.fault
