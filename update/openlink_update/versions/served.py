"""The tables of a version as they are served: with moving walls, with coverage to the day, and large ones in parts.

Run as a program it prints a file as it came, prepared and with coverage as of a day: served.py FILE YYYY-MM-DD"""
import datetime
import sys
from collections.abc import Iterable, Iterator, Sequence
from pathlib import Path

from openlink_update.outcome import Failure, Refused
from openlink_update.rules import pages
from openlink_update.tables import coverage, parts, preparation
from openlink_update.tables.registry import entries_of
from openlink_update.tables.table import Table
from openlink_update.versions.target_list import Target


def names_in(version: str | Path) -> list[str]:
    """The names in the registry of a version, in the order of its menu."""
    return [entry.name for entry in entries_of(Path(version, "registry.tsv"))]


def targets_in(version: str | Path) -> list[str]:
    """The names of its targets, each once although its table has parts."""
    return list(dict.fromkeys(map(parts.base_of, names_in(version))))


def path_of(part: str) -> str:
    """The path of a table below a version."""
    return f"tables/{part}.txt"


def tables_in(version: Path, names: Iterable[str]) -> Iterator[Table]:
    """The tables of a version with these names, as they are served."""
    for name in names:
        yield Table.parse((version / path_of(name)).read_bytes())


def divided(table: Table, places: dict[str, Sequence[int]]) -> Iterator[tuple[str, Table]]:
    """The parts of a table by their names, for the places of the rows of each."""
    for name, rows in places.items():
        yield name, table if len(places) == 1 else table.of_rows(rows)


class Tables:
    """The tables of a version that is being made."""

    def __init__(self, folder: Path, today: datetime.date) -> None:
        self._folder, self._today = folder, today
        self._places: dict[str, dict[str, Sequence[int]]] = {}  # by target and part
        self.lines: dict[str, list[str]] = {}  # by target: what was found while its table was made

    def put(self, target: Target, prepared: Table, has_pages: bool = False) -> list[str]:
        """Makes the table of a target from the prepared one, with the column of pages or without. Returns why it cannot
        be used."""
        try:
            table, lines = coverage.served(pages.added(prepared) if has_pages else prepared, self._today)
            data = table.to_bytes()
            places = parts.parts_of(target.name, table, len(data))
        except Refused as refusal:
            return [f"{target.table}: {reason}" for reason in refusal.reasons]
        self._places[target.name] = places
        self.lines[target.name] = lines
        if len(places) == 1:
            (self._folder / path_of(target.name)).write_bytes(data)
            return []
        lines.append(f"{len(places)} parts: {', '.join(places)}")
        for name, part in divided(table, places):
            (self._folder / path_of(name)).write_bytes(part.to_bytes())
        return []

    def discard(self, name: str) -> None:
        for part in self._places.pop(name, ()):
            (self._folder / path_of(part)).unlink()

    def parts_of(self, name: str) -> list[str]:
        """The names of the parts of a target's table; none if it cannot be used."""
        return list(self._places.get(name, ()))

    def divided(self, name: str, prepared: Table) -> Iterator[tuple[str, Table]]:
        """The parts of a target's table by their names, each with its rows without walls."""
        return divided(prepared, self._places[name])

    def is_same(self, name: str, version: Path) -> bool:
        """Whether a version has the same table of a target."""
        paths = [path_of(part) for part in self.parts_of(name)]
        return all(_content(self._folder / path) == _content(version / path) for path in paths)

    def registry(self, targets: Iterable[str]) -> bytes:
        """The registry of these targets. A Failure says which have parts, if the program would reject it."""
        counts = {name: len(self.parts_of(name)) for name in targets}
        lines = [f"{part}\tcode/{name}.olk\t{path_of(part)}\n" for name in counts for part in self.parts_of(name)]
        registry = "".join(lines).encode()
        fault = parts.fault_of(counts, registry)
        if fault:
            raise Failure(fault)
        return registry


def prepared_table(path: str, day: datetime.date) -> bytes:
    """The table of a file as it came, with coverage to a day and its own last dates."""
    table = preparation.prepare([(path, Path(path).read_bytes())]).table
    return coverage.served(table, day, has_walls=False)[0].to_bytes()


def _content(path: Path) -> bytes | None:
    """The bytes of a file, or None if there is none."""
    try:
        return path.read_bytes()
    except FileNotFoundError:
        return None


if __name__ == "__main__":  # with a day, and for each table its path and that of what is written
    given, *places = sys.argv[1:]
    try:
        for source, result in zip(places[::2], places[1::2]):
            Path(result).write_bytes(prepared_table(source, datetime.date.fromisoformat(given)))
    except Refused as refusal:
        sys.exit("\n".join(refusal.reasons))
