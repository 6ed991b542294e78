"""The files of a target: its rules and its table as they came, from the input or from the folder `received` of a
version, and what is prepared from them."""
import dataclasses
import functools
import os
import re
from collections.abc import Iterable
from pathlib import Path

from openlink_update import target_options
from openlink_update.input_files import InputFile
from openlink_update.outcome import Refused, Unreadable
from openlink_update.received import patterns
from openlink_update.rights.filters import Filter
from openlink_update.root_folder import RootFolder
from openlink_update.slips import odd_rows
from openlink_update.slips.material import Material
from openlink_update.tables.preparation import Prepared
from openlink_update.tables.table import Table
from openlink_update.target_options import Options
from openlink_update.versions import shared_tables
from openlink_update.versions.target_list import Target

RECEIVED, FILTERED = "received", ".filtered"


@dataclasses.dataclass(frozen=True)
class TargetFiles:
    """The files of a target, as they came, and what is prepared from them."""

    rules: bytes
    tables: tuple[bytes, ...]
    has_code: bool
    paths: tuple[str, ...] = dataclasses.field(compare=False)  # of the tables
    options: Options = target_options.NONE
    given: tuple[bytes, ...] = ()  # what a filter made of the tables, if the target has one
    # All of these, as they were read.
    sources: tuple[InputFile, ...] = dataclasses.field(compare=False, default=())

    def changed(self) -> list[str]:
        """Why files that have been written since they were read cannot be used. One that was replaced is another."""
        paths = [source.path for source in self.sources if source.is_changed()]
        return [f"{path}: it changed while it was read: update again when it is written" for path in paths]

    def filter_lines(self) -> list[str]:
        """What is said of the filter."""
        pairs = zip(self.tables, self.given)
        return [f"filter {self.options.filter}: {len(came):,} bytes became {len(made):,}" for came, made in pairs]

    @functools.cached_property
    def prepared(self) -> Prepared:
        """Refused if one of the files cannot be read as a table."""
        return shared_tables.prepare(list(zip(self.paths, self.read)), self.options)

    @property
    def read(self) -> tuple[bytes, ...]:
        """The bytes of the tables that are prepared."""
        return self.given or self.tables

    @functools.cached_property
    def material(self) -> Material:
        """What slips are looked for in; without rows if the table cannot be prepared."""
        rules, proxy = None if self.has_code else self.rules, self.options.proxy
        unended = next(filter(None, map(odd_rows.unended_line, self.read)), "")
        try:
            it = self.prepared
        except Refused:
            return Material(Table((), []), [], [], 0, rules, proxy, unended)
        return Material(it.table, it.dropped, it.reversed, it.count, rules, proxy, unended)

    @functools.cached_property
    def table_or_empty(self) -> Table:
        """The table, or nothing in place of one that cannot be prepared: a version may be older than preparation."""
        try:
            return self.prepared.table
        except Refused:
            return Table((), [])


def files_of(target: Target, filtered: Filter) -> TargetFiles:
    """The files that the list names for a target. Refused if one of them cannot be read, or if its filter fails."""
    if target.reasons:
        raise Refused([*target.reasons])
    reasons, sources = [], []
    for number, path in enumerate((target.rules, *target.tables)):
        try:
            found = patterns.path_of(path, target.input.matches) if number else path
            sources.append(target.input.file(found) if number else target.rules_file())
        except OSError as fault:
            is_pattern = "*" in path and isinstance(fault, FileNotFoundError)
            reasons.append(f"{fault.filename or path}: {'no file has such a name' if is_pattern else fault.strerror}")
    if reasons:
        raise Refused(reasons)
    rules, *data = [it.data for it in sources]
    paths = tuple(str(it.path) for it in sources[1:])
    given = _given(target.options.filter, list(zip(paths, data)), filtered)
    return TargetFiles(rules, tuple(data), target.has_code(), paths, target.options, given, tuple(sources))


def _given(name: str, files: list[tuple[str, bytes]], filtered: Filter) -> tuple[bytes, ...]:
    """What the filter with a name gives for files; nothing without a name. Refused if it fails for one."""
    given, reasons = list[bytes](), list[str]()
    for path, data in files if name else ():
        try:
            given.append(filtered(name, data))
        except Unreadable as fault:
            reasons.append(f"{path}: filter {name}: {fault}")
    if reasons:
        raise Refused(reasons)
    return tuple(given)


def received_names(version: Path, name: str) -> list[str]:
    """The names of the files of a target's table in `received` of a version, in their order."""
    return _tables_among(os.listdir(version / RECEIVED), name)


def _tables_among(files: Iterable[str], name: str) -> list[str]:
    pattern = re.compile(rf"{re.escape(name)}\.txt(\.\d+)?")
    return sorted(filter(pattern.fullmatch, files), key=lambda file: (len(file), file))


def received_in(version: Path) -> RootFolder:
    """The folder of a version's files as they came."""
    return RootFolder(version / RECEIVED)


def files_in(received: RootFolder, name: str, options: Options = target_options.NONE) -> TargetFiles | None:
    """The files of a target, made with these options, among those that a version has received, or None if it has
    none."""
    names = received.names()
    tables = _tables_among(names, name)
    for suffix, has_code in ((".rules", False), (".olk", True)):
        if f"{name}{suffix}" in names and tables:
            rules, *data = [_content(received, file) for file in (f"{name}{suffix}", *tables)]
            paths = tuple(str(received.place((file,))) for file in tables)
            made = [f"{file}{FILTERED}" for file in tables] if options.filter else []
            if not set(made) <= set(names):
                return None
            given = tuple(_content(received, file) for file in made)
            return TargetFiles(rules, tuple(data), has_code, paths, options, given)
    return None


def _content(received: RootFolder, name: str) -> bytes:
    with received.open((name,)) as file:
        return file.read()
