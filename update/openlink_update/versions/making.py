"""Makes a version: for each target its new files if they are good, otherwise those of the version before.

    registry.tsv           a line for each target
    received/NAME.rules    the rule file (NAME.olk: the code file) and the files of the table as they came
    received/NAME.txt      (the second one NAME.txt.2)
    received/NAME.txt.filtered    what a filter gave for it, if the target has one
    rules/NAME.rules       the rules behind a proxy, if the target has one: see proxies.py
    code/NAME.olk          the compiled rules
    tables/NAME.txt        the table as preparation makes it, with its moving walls and coverage to the day; NAME.2.txt,
                           .. are further parts
    dropped/NAME.txt       rows that are not in it, with the reason, if there are any
    changes/NAME.txt       the titles that came and went, if there are some
    earlier.tsv            see earlier_files.py
    allowed.tsv            a target, words of its line that allow warnings, and the number up to which they do
    hosts.tsv              see host_judge.py
    undated.tsv            see undated_links.py
    slips.tsv, slip_limits.tsv    see slip_judge.py
    options.tsv            a target, and its options: see target_options.py
    abbreviations.tsv      see abbreviations.py
    index/                 the index of titles, for the front door
    prepared/              only until the index and the exports are made: see prepared_tables.py

An old table is prepared again before a new one is compared with it, so a newer form of preparation does not look like a
change by the provider."""
import contextlib
import datetime
import filecmp
import functools
import gc
import os
import shutil
from collections.abc import Callable, Iterator
from pathlib import Path

from openlink_update import run_notes, target_options
from openlink_update.index import abbreviations, named_parts, target_heads, title_index
from openlink_update.index.title_groups import Title
from openlink_update.outcome import Failure, Refused
from openlink_update.rights.filters import Filter
from openlink_update.rights.sandbox import no_filter
from openlink_update.root_folder import RootFolder
from openlink_update.rules import compiled, pages, proxies
from openlink_update.run_notes import TargetState
from openlink_update.shown_text import amount
from openlink_update.slips import slip_judge
from openlink_update.slips.material import Material
from openlink_update.tables import dropped_rows, row_changes
from openlink_update.tables.table import Table
from openlink_update.target_options import Options
from openlink_update.versions import earlier_files, host_judge, target_files, undated_links
from openlink_update.versions.allowed_words import FEWER
from openlink_update.versions.earlier_files import EarlierFiles
from openlink_update.versions.judging import Judge
from openlink_update.versions.prepared_tables import PreparedTables
from openlink_update.versions.program import Program
from openlink_update.versions.served import Tables, targets_in
from openlink_update.versions.target_files import TargetFiles
from openlink_update.versions.target_list import Target

_PART = 2**20  # bytes that are compared at a time
_OF_THE_OWNER = 0o600  # nginx needs no table as it came: what a library has received is its own


@contextlib.contextmanager
def _collecting_nothing() -> Iterator[None]:
    """While millions of cells are compared, Python does not look for cycles among them: there are none, and it would
    take a third of the time."""
    gc.disable()
    try:
        yield
    finally:
        gc.enable()


def _material_of(files: TargetFiles) -> Material:
    return files.material


class Maker:
    """Makes one version in a folder, of the targets of a list and an older version (None: there is none)."""

    def __init__(
        self,
        folder: str | Path,
        older: str | Path | None,
        program: Program,
        today: datetime.date,
        report: Callable[[str], object],
        received: RootFolder | None = None,
        filtered: Filter = no_filter,
    ) -> None:
        """`received` opens the files that the older version has received, if this process may not; `filtered` runs a
        filter."""
        self._filtered = filtered
        self._received = received or (target_files.received_in(Path(older)) if older is not None else None)
        self._folder, self._older = Path(folder), None if older is None else Path(older)
        self._program, self._today, self._print = program, today, report
        self._said: list[str] = []  # of the target that is being made
        self._moved = 0, 0  # of its rows: those that were added, and that are gone
        self.names: list[str] = []
        self.kept: list[str] = []
        self.left_out: list[str] = []
        self.titles: list[Title] = []  # of the index, for the exports
        for part in ("received", "code", "tables", "dropped"):
            (self._folder / part).mkdir()
        self._tables, self._prepared = Tables(self._folder, today), PreparedTables(self._folder)
        self._judge = Judge(self._folder, self._older, program, today)
        self._earlier = EarlierFiles(self._older)
        self._options_before = target_options.options_in(self._older) if self._older else {}
        self._options: dict[str, Options] = {}  # by target: those that this version was made with

    def make(self, targets: list[Target], has_list: bool, pairs: bytes | None = b"") -> None:
        """Makes all but the index, which has the list of titles, or has not. `pairs` are the library's own
        abbreviations; None: those of the older version."""
        for target in targets:
            self._add(target)
        for name in self._names_before():
            if name not in [target.name for target in targets]:
                self._report(f"{name}: gone, since the list does not name it")
                run_notes.note_target(TargetState(name, run_notes.GONE))
        if not self.names:
            raise Failure("no target is left")
        self._finish(has_list, self._pairs_before() if pairs is None else pairs)

    def move_walls(self, has_list: bool) -> None:
        """Makes all but the index from the files of the older version, with the walls of today."""
        for name in self._names_before():
            files = self._files_before(name)
            if files is None:
                raise Failure(f"{name}: {self._older} has no files of it")
            self.names.append(name)
            self._put_again(Target(name, f"{name}.rules", (f"{name}.txt",), frozenset()), files)
        self._judge.keep_all()
        if self._older is not None and (self._older / "changes").is_dir():
            shutil.copytree(self._older / "changes", self._folder / "changes")
        self._finish(has_list, self._pairs_before())

    def _pairs_before(self) -> bytes:
        path = self._older / abbreviations.NAME if self._older else None
        return path.read_bytes() if path and path.exists() else b""

    def _finish(self, has_list: bool, pairs: bytes) -> None:
        self._write("registry.tsv", self._tables.registry(self.names))
        self._write("allowed.tsv", self._judge.text(self.names).encode())
        self._write(host_judge.NAME, self._judge.hosts.text(self.names).encode())
        self._write(undated_links.NAME, self._judge.undated.text(self.names).encode())
        self._write(slip_judge.NAME, self._judge.slips.text(self.names).encode())
        self._write(slip_judge.LIMITS, self._judge.slips.limits_text(self.names).encode())
        self._judge.finish()
        self._write(target_options.NAME, target_options.text_of(self._options, self.names).encode())
        self._write(abbreviations.NAME, pairs)
        self._write(earlier_files.NAME, self._earlier.text(self.names, self._today).encode())
        index = self._folder / "index"
        title_index.begin(index, has_list)
        target_heads.write(index, ((name, self._rules(name)) for name in self.names))
        named_parts.write(index, ((name, (self._folder / f"code/{name}.olk").read_bytes()) for name in self.names))

    def make_index(self, has_list: bool) -> None:
        """Makes the index, which takes longest."""
        offers = {name: self._judge.hosts.offer(name, self._options[name].proxy) for name in self.names}
        pairs = abbreviations.pairs_of(self._folder)
        self.titles = title_index.make(self._folder / "index", has_list, self.prepared_parts(), offers, pairs)
        for line in abbreviations.unknown(self._folder, self.titles):
            self._report(line)

    def remove_prepared(self) -> None:
        """Removes what only the index and the exports need."""
        self._prepared.remove()
        self.titles = []

    def prepared_parts(self) -> Iterator[tuple[str, Table]]:
        """Yields the tables of all targets without walls, each after the target's name. A large one comes in parts,
        each after the name of the part."""
        for name in self.names:
            yield from self._tables.divided(name, self._prepared.table(name))

    def _names_before(self) -> list[str]:
        """The names of the targets of the older version."""
        return targets_in(self._older) if self._older else []

    def _files_before(self, name: str) -> TargetFiles | None:
        return (
            target_files.files_in(self._received, name, self._options_before.get(name, target_options.NONE))
            if self._received
            else None
        )

    def _report(self, line: str) -> None:
        self._said.append(line)
        self._print(line)

    def _add(self, target: Target) -> None:
        """Adds a target with its new files, or its old ones, or leaves it out, and notes what became of it."""
        self._said, self._moved = [], (0, 0)
        state, files = self._added(target)
        rows = len(files.table_or_empty.rows) if files else 0
        run_notes.note_target(TargetState(target.name, state, rows, *self._moved, tuple(self._said)))

    def _added(self, target: Target) -> tuple[str, TargetFiles | None]:
        """The state of a target that is added, and the files that are used."""
        old, new = self._files_before(target.name), None
        try:
            new = target_files.files_of(target, self._filtered)
            reasons = [] if new == old else self._reasons_against(target, old, new) + new.changed()
        except Refused as refusal:
            reasons = refusal.reasons
        if reasons:
            self._say_refusal(target.name, old, reasons)
        if new is not None and not reasons and new != old:
            self.names.append(target.name)
            self._judge.accept(target.name, new.prepared.table)
            self._say_changes(target.name, old, new)
        elif old is not None:
            self.names.append(target.name)
            self._put_again(target, old)
            self._judge.undated.find(target.name, old.prepared.table, not old.has_code)
            parts = self._tables.parts_of(target.name)
            self._judge.keep(target, parts, not old.has_code, not reasons, functools.partial(_material_of, old))
        else:
            self._discard(target.name)
            return run_notes.LEFT_OUT, None
        is_changed = new is not None and not reasons and new != old
        lines = self._judge.undated.lines(target.name, is_changed)
        for line in [*self._judge.hosts.lines(target.name), *self._judge.slips.lines(target.name), *lines]:
            self._report(f"{target.name}: {line}")
        if is_changed:
            return run_notes.CHANGED if old else run_notes.NEW, new
        return run_notes.KEPT if reasons else run_notes.SAME, old

    def _put_again(self, target: Target, old: TargetFiles) -> None:
        """Puts the files of the version before, which were good then."""
        reasons = self._put(target, old)
        if reasons:
            raise Failure(f"{target.name}: its old files are refused too: {reasons[0]}")
        if self._older is not None and not self._tables.is_same(target.name, self._older):
            self._report(f"{target.name}: moving walls changed")

    def _write(self, name: str, data: bytes) -> None:
        (self._folder / name).write_bytes(data)

    def _write_closed(self, name: str, data: bytes) -> None:
        path = self._folder / name
        path.touch(_OF_THE_OWNER)
        path.write_bytes(data)

    def _rules(self, name: str) -> bytes:
        """The rule file of a target as it came; nothing if it is a code file."""
        path = self._folder / f"received/{name}.rules"
        return path.read_bytes() if path.exists() else b""

    def _put(self, target: Target, files: TargetFiles) -> list[str]:
        """Writes the files of a target and compiles its rules. Returns why the program rejects them."""
        name = target.name
        self._options[name] = files.options
        rules = f"received/{name}{'.olk' if files.has_code else '.rules'}"
        self._discard(name)
        self._write(rules, files.rules)
        for number, data in enumerate(files.tables, 1):
            path = f"received/{name}.txt{f'.{number}' if number > 1 else ''}"
            self._write_closed(path, data)
            if files.given:
                self._write_closed(f"{path}{target_files.FILTERED}", files.given[number - 1])
        try:
            prepared = files.prepared
        except Refused as refusal:
            return refusal.reasons
        reasons = self._tables.put(target, prepared.table, pages.are_named(files.rules))
        self._earlier.put(name, self._prepared.put(name, prepared.table))
        if prepared.dropped:
            self._write(f"dropped/{name}.txt", prepared.dropped_table())
        return reasons + (self._verified(target, files) if files.has_code else self._compiled(target, files))

    def _verified(self, target: Target, files: TargetFiles) -> list[str]:
        """Why a code file cannot be used."""
        code = f"code/{target.name}.olk"
        self._write(code, files.rules)
        faults = [f"{target.rules}: proxy: only rules can have one, and this is a code file"]
        return self._rejected(target.rules, "verify", code) + (faults if files.options.proxy else [])

    def _compiled(self, target: Target, files: TargetFiles) -> list[str]:
        """Compiles the rules of a target, with its proxy if it has one. Returns why they cannot be used."""
        received, code = f"received/{target.name}.rules", f"code/{target.name}.olk"
        reasons = self._rejected(target.rules, "compile", received, code)
        if reasons:
            return reasons
        try:
            rules = proxies.with_proxy(files.rules, files.options.proxy, files.prepared.table)
        except Refused as refusal:
            return [f"{target.rules}: {reason}" for reason in refusal.reasons]
        if rules == files.rules:
            return []
        (self._folder / compiled.FOLDER).mkdir(exist_ok=True)
        self._write(compiled.behind(target.name), rules)
        return self._rejected(target.rules, "compile", compiled.behind(target.name), code)

    def _discard(self, name: str) -> None:
        """Removes what a target has in this version."""
        self._tables.discard(name)
        received = [f"received/{file}" for file in target_files.received_names(self._folder, name)]
        rules = [f"received/{name}.rules", f"received/{name}.olk", compiled.behind(name), f"code/{name}.olk"]
        for place in (*rules, f"dropped/{name}.txt", *received):
            (self._folder / place).unlink(missing_ok=True)
        for place in received:
            (self._folder / f"{place}{target_files.FILTERED}").unlink(missing_ok=True)

    def _rejected(self, path: str, *words: str) -> list[str]:
        """Why a command rejects a file that came from a path, as a list of at most one reason."""
        try:
            self._program.run(*words)
        except Refused as refusal:
            return [f"{path}: {refusal.reasons[0]}"]
        return []

    def _reasons_against(self, target: Target, old: TargetFiles | None, new: TargetFiles) -> list[str]:
        """Writes the new files of a target, and returns why they cannot be used."""
        try:
            prepared = new.prepared
        except Refused as refusal:
            return refusal.reasons
        reasons = self._put(target, new)
        if self._tables.parts_of(target.name):
            parts = dict(self._tables.divided(target.name, prepared.table))
            self._judge.undated.find(target.name, prepared.table, not new.has_code and not reasons)
            before_it, has_rules = old.material if old is not None else None, not new.has_code and not reasons
            with _collecting_nothing():
                reasons += self._judge.reasons(target, parts, has_rules, new.material, before_it)
        lines = dropped_rows.reasons_against(prepared.dropped, prepared.count, target.allowed)
        reasons += [f"{target.table}: {line}" for line in lines]
        before, after = len(old.table_or_empty.rows) if old else 0, len(prepared.table.rows)
        if after < target.options.least:
            reasons.append(f"{target.table}: {amount(after, 'row')}, and at least {target.options.least} must be there")
        if after * 2 < before and FEWER not in target.allowed:
            reasons.append(f"{target.table}: {FEWER}: {after}, and {before} before; to allow it: {FEWER}")
        return reasons + [f"{target.table}: {line}" for line in prepared.missing if reasons]

    def _say_changes(self, name: str, old: TargetFiles | None, new: TargetFiles) -> None:
        table, is_read_anew = new.prepared.table, True
        if old is None:
            self._report(f"{name}: new, {amount(len(table.rows), 'row')}")
        else:
            changes = [] if new.rules == old.rules else ["rules changed"]
            changes += [] if new.options.proxy == old.options.proxy else ["proxy changed"]
            is_read_anew = new.read != old.read or not new.options.reads_as(old.options)
            changes += [] if new.options.reads_as(old.options) else ["options changed"]
            if is_read_anew:
                added, gone = self._moved = row_changes.changes(old.table_or_empty, table)
                changes.append(f"{amount(added, 'row')} added, {gone} gone")
            self._report(f"{name}: {', '.join(changes)}")
        lines = self._judge.write_changes(name) if old else []
        prepared = new.filter_lines() + new.prepared.lines if is_read_anew else []
        day = self._earlier.day_of(name)
        if old and day and table != old.table_or_empty:
            self._report(f"  the table of {day} again")
        for line in [*prepared, *self._tables.lines[name], *lines]:
            self._report(f"  {line}")

    def _say_refusal(self, name: str, old: TargetFiles | None, reasons: list[str]) -> None:
        (self.left_out if old is None else self.kept).append(name)
        how = "left out, since it has no old files" if old is None else "kept its old rules and table"
        self._report(f"{name}: {how}")
        for reason in reasons:
            self._report(f"  {reason}")


def is_same(one: str | Path, other: str | Path, received: RootFolder | None = None) -> bool:
    """Whether two versions serve the same. The first may have no index yet, but its format. `received` opens the files
    that the other has received, if this process may not."""
    versions, folders = (Path(one), Path(other)), ("code", "tables", target_files.RECEIVED)
    names = [
        [f"{folder}/{name}" for folder in folders for name in sorted(os.listdir(version / folder))]
        for version in versions
    ]
    lists = ["registry.tsv", "allowed.tsv", host_judge.NAME, undated_links.NAME, abbreviations.NAME]
    lists += [target_options.NAME, slip_judge.NAME, slip_judge.LIMITS]
    files = [*lists, "index/format", *names[0]]
    opened = received or target_files.received_in(versions[1])
    return names[0] == names[1] and all(
        (
            _has_bytes_of(versions[0] / file, opened, Path(file).name)
            if file.startswith(f"{target_files.RECEIVED}/")
            else (versions[1] / file).is_file() and filecmp.cmp(versions[0] / file, versions[1] / file, shallow=False)
        )
        for file in files
    )


def _has_bytes_of(path: Path, received: RootFolder, name: str) -> bool:
    with open(path, "rb") as one, received.open((name,)) as other:
        while part := one.read(_PART):
            if part != other.read(_PART):
                return False
        return not other.read(1)
