"""The list of targets, targets.tsv: a line for each, in the order of the menu. A line has a name, a rule file, the
files of its table, and its options with the words that allow warnings, the last two separated by semicolons; the last
cell may be missing. In place of a rule file, `provider:NAME` names rules that ship: see shipped.py. Paths are relative
to the folder of the list; those of tables may have *. Empty lines and lines that begin with # are skipped."""
import contextlib
import dataclasses
import os
import re
from collections.abc import Iterable

from openlink_update.input_files import InputFile, InputFolder, Line
from openlink_update import target_options
from openlink_update.outcome import Failure, Refused
from openlink_update.rules import heads, shipped
from openlink_update.tables import parts
from openlink_update.target_options import Options
from openlink_update.versions import allowed_words

_LIST = "targets.tsv"
_NAME = re.compile(r"[A-Za-z0-9_.-]{1,64}")
_MOST = 256


@dataclasses.dataclass(frozen=True)
class Target:
    name: str
    rules: str  # a path; one that ends in .olk is a code file, which needs no compiler
    tables: tuple[str, ...]  # paths, which may have *
    allowed: frozenset[str]
    options: Options = target_options.NONE
    reasons: tuple[str, ...] = ()  # why its line keeps the old files
    input: InputFolder = dataclasses.field(default=InputFolder("."), compare=False)  # that it comes from
    is_shipped: bool = False  # whether the rules are among those that ship, and not in the input

    @property
    def table(self) -> str:
        """What messages call the table."""
        return "; ".join(self.tables)

    def rules_file(self) -> InputFile:
        """OSError if it cannot be read."""
        return shipped.file(self.rules) if self.is_shipped else self.input.file(self.rules)

    def has_code(self) -> bool:
        return self.rules.endswith(".olk")


def groups_of(targets: Iterable[Target]) -> dict[str, str]:
    """By target, the group that the head of its rules says. What is wrong with the rules is said elsewhere."""
    groups: dict[str, str] = {}
    for target in targets:
        with contextlib.suppress(OSError):
            if not target.reasons and not target.has_code():
                groups[target.name] = heads.parse(target.rules_file().data).group
    return groups


def read(folder: InputFolder) -> list[Target]:
    """The targets of a folder's list. A Failure says which line is wrong."""
    path = folder.place(_LIST)
    try:
        lines = list(folder.lines(_LIST))
    except UnicodeDecodeError as fault:
        raise Failure(f"{path}: not UTF-8") from fault
    targets: dict[str, Target] = {}
    for line in lines:
        place = f"{path}: line {line.number}"
        target = _target_of(line, folder, place)
        if target.name in targets:
            raise Failure(f"{place}: a second target {target.name}")
        targets[target.name] = target
    if not 1 <= len(targets) <= _MOST:
        raise Failure(f"{path}: {len(targets)} targets, and 1 to {_MOST} are possible")
    return list(targets.values())


def _target_of(line: Line, folder: InputFolder, place: str) -> Target:
    cells = [cell.strip() for cell in line.cells]
    if len(cells) not in (3, 4) or not all(cells[:3]):
        raise Failure(f"{place}: not a name, a rule file, a table and allowed warnings, with tabs between them")
    name, rules, files = cells[:3]
    if not _NAME.fullmatch(name):
        raise Failure(f"{place}: no target can have the name {name}")
    if parts.base_of(name) != name:
        raise Failure(f"{place}: no target can have the name {name}, which is that of a part of {parts.base_of(name)}")
    paths = _parts_of(files)
    if not paths:
        raise Failure(f"{place}: no table")
    options, allowed, reasons = _fourth_cell(cells[3] if len(cells) == 4 else "", place)
    tables = tuple(_joined(folder, path) for path in paths)
    path, is_shipped, fault = _rules_of(rules, folder)
    reasons += (f"{place}: {fault}",) if fault else ()
    return Target(name, path, tables, allowed, options, reasons, folder, is_shipped)


def _rules_of(cell: str, folder: InputFolder) -> tuple[str, bool, str]:
    """The path of the rules that a cell names, whether they are among those that ship, and what is wrong with it."""
    name = cell.removeprefix(shipped.WORD).strip()
    if not cell.startswith(shipped.WORD):
        return _joined(folder, cell), False, ""
    fault = shipped.fault_of(name, folder)
    if fault or shipped.is_own(name, folder):
        return _joined(folder, shipped.own_path(name)), False, fault
    return shipped.path_of(name), True, ""


def _fourth_cell(cell: str, place: str) -> tuple[Options, frozenset[str], tuple[str, ...]]:
    """The options of a line, the words that allow something, and what is wrong with the cell."""
    try:
        options, allowed = target_options.parse(cell)
    except Refused as refusal:
        return target_options.NONE, frozenset(), tuple(f"{place}: {reason}" for reason in refusal.reasons)
    return options, allowed, tuple(f"{place}: {line}" for line in allowed_words.unknown(allowed))


def _joined(folder: InputFolder, path: str) -> str:
    return os.path.join(folder.path, path)


def _parts_of(cell: str) -> list[str]:
    """The parts of a cell, which are separated by semicolons."""
    return [part.strip() for part in cell.split(";") if part.strip()]
