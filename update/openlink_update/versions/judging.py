"""Judges a target's new files by numbers: by their warnings, and by the titles that came and are gone. Where the links
of a table lead judges host_judge.py."""
import dataclasses
import datetime
import re
from collections.abc import Callable, Collection, Iterable
from pathlib import Path

from openlink_update import shown_text
from openlink_update.input_files import cells_in
from openlink_update.tables.identifiers import form_of, standard
from openlink_update.outcome import Refused
from openlink_update.received.column_names import IDENTIFIERS
from openlink_update.tables.parts import base_of
from openlink_update.versions.host_judge import HostJudge
from openlink_update.versions.program import PLACE, words_of
from openlink_update.rules import compiled
from openlink_update.tables.embargo import Embargo
from openlink_update.tables.row_dates import NONE, date_in
from openlink_update.tables.table import Table, cell
from openlink_update.versions.program import Program
from openlink_update.versions.served import names_in, path_of, tables_in
from openlink_update.versions.target_list import Target

from openlink_update.slips.material import Material
from openlink_update.slips.other_titles import OtherTitles
from openlink_update.slips.slip_judge import SlipJudge
from openlink_update.versions.allowed_words import ANY_OF_LINT, CAME, GONE, SAME, UP_TO, is_word_of_hosts
from openlink_update.versions.undated_links import UndatedLinks

_MOST_GONE = 10  # in 100
_MOST_CAME, _FEW_CAME = 50, 20  # in 100; as many titles are always allowed
_COUNTED = re.compile(r'[^0-9"]* (\d+)(?:, first .*|, ".*)?', re.A)
_TITLE = ("publication_title", "date_first_issue_online", "date_last_issue_online", "embargo_info")
_HEADING = ("change", "title", "numbers", "first date", "last date", "embargo")
_Limits = dict[str, int | None]  # by the words that allow a warning
_Line = tuple[str, str]  # the file that a warning is about, and the warning


@dataclasses.dataclass(frozen=True)
class _Change:
    """A row that came or went, as the table of changes has it."""

    sign: str
    title: str
    numbers: str
    first: str
    last: str
    embargo: str

    def cells(self) -> tuple[str, ...]:
        return self.sign, self.title, self.numbers, self.first, self.last, self.embargo


def _limits_of(allowed: Collection[str]) -> _Limits:
    """The words of a target's line, each with the number up to which it allows a warning, or None if it has none."""
    numbers = [text for text in sorted(allowed) if not is_word_of_hosts(text)]
    limits: _Limits = {text: None for text in numbers if not UP_TO.fullmatch(text)}
    return {**limits, **{it[1]: int(it[2]) for it in map(UP_TO.fullmatch, numbers) if it}}


def _number_in(line: str) -> int:
    """How many cells or rows a warning is about; 1 if it does not say so."""
    found = _COUNTED.fullmatch(PLACE.sub("", line, count=1))
    return int(found[1]) if found else 1


def _allowing(line: str, limits: Collection[str]) -> str | None:
    """The words of the list that allow a warning, or None. `rule` allows every warning of `lint`, since a number
    follows this word."""
    words = words_of(line)
    if words in limits:
        return words
    return ANY_OF_LINT if PLACE.match(line) is not None and ANY_OF_LINT in limits else None


def _without_number(limits: _Limits) -> list[str]:
    return [words for words, most in limits.items() if most is None]


def _totals_of(lines: list[str], limits: Collection[str]) -> dict[str, int]:
    """How many cells, rows or lines each words of the list would have to allow."""
    totals = dict.fromkeys(limits, 0)
    for line in lines:
        words = _allowing(line, limits)
        if words is not None:
            totals[words] += _number_in(line)
    return totals


def _reasons_in(warnings: list[_Line], totals: dict[str, int], limits: dict[str, int]) -> list[str]:
    """The warnings, pairs of a place and a line, that are not allowed, or of which there are more than allowed."""
    reasons: list[str] = []
    for place, line in warnings:
        words = _allowing(line, limits)
        if words is None:
            reasons.append(f"{place}: {line}")
        elif totals[words] > limits[words]:
            reasons.append(f"{place}: {line}: {limits[words]} allowed; to allow it: {words} up to {totals[words]}")
    return reasons


def _allowed_in(version: Path) -> dict[str, dict[str, int]]:
    """By target, the numbers up to which words without one allow warnings in a version; none in an older one."""
    numbers: dict[str, dict[str, int]] = {}
    path = version / "allowed.tsv"
    for target, words, number in cells_in(path, 3) if path.exists() else ():
        numbers.setdefault(target, {})[words] = int(number)
    return numbers


def _parts_in(version: Path, target: str) -> list[str]:
    return [name for name in names_in(version) if base_of(name) == target]


def _numbers_in(tables: Iterable[Table]) -> set[str]:
    """The ISSNs and ISBNs of tables, in their standard form."""
    numbers: set[str] = set()
    for table in tables:
        for place in [place for place in table.places(IDENTIFIERS) if place is not None]:
            forms = {form_of(row[place]) for row in table.rows if len(row) > place}
            numbers.update(map(standard, forms))
    numbers.discard("")
    return numbers


def _numbers_of(row: list[str], places: list[int | None]) -> list[str]:
    """The numbers in these cells of a row."""
    return list(dict.fromkeys(filter(None, (standard(form_of(cell(row, place))) for place in places))))


def _reasons_of_gone(before: set[str], after: set[str], limits: _Limits) -> list[str]:
    """Why the numbers that were served before and are gone are too many, as a list of at most one reason."""
    gone, most = len(before - after), limits.get(GONE)
    most = _MOST_GONE if most is None else most
    if gone * 100 <= len(before) * most:
        return []
    part = -(-gone * 100 // len(before))
    return [f"numbers gone {gone} of {len(before)}: {most}% are allowed; to allow it: {GONE} up to {part}%"]


def _titles_of(changes: list[_Change]) -> set[tuple[str, str]]:
    return {(change.title, change.numbers) for change in changes}


def _titles_in(table: Table) -> set[tuple[str, ...]]:
    """The titles of a table with their numbers as they are in it."""
    places = table.places(("publication_title", *IDENTIFIERS))
    return {tuple(cell(row, place) for place in places) for row in table.rows}


def _reasons_of_came(before: int, came: int, limits: _Limits) -> list[str]:
    """Why the titles that came are too many for those before, as a list of at most one reason."""
    most = limits.get(CAME)
    most = _MOST_CAME if most is None else most
    if came <= _FEW_CAME or came * 100 <= before * most:
        return []
    part = -(-came * 100 // max(before, 1))
    return [f"titles came {came}, and {before} before: {most}% are allowed; to allow it: {CAME} up to {part}%"]


def _shown_date(text: str) -> str:
    date = date_in(text)
    return "" if date == NONE else date


def _changed_rows(
    sign: str, tables: Iterable[Table], others: set[str], day: datetime.date | None = None
) -> list[_Change]:
    """The rows of tables of which no number is among others: title, numbers, dates and embargo, after a sign. The last
    dates of tables without walls get those of a day."""
    rows: dict[_Change, None] = {}
    for table in tables:
        places, identifiers = table.places(_TITLE), table.places(IDENTIFIERS)
        has_walls = day is not None and places[2] is not None
        for row in table.rows:
            numbers = _numbers_of(row, identifiers)
            if not numbers or not others.isdisjoint(numbers):
                continue
            title, first, last, text = (cell(row, place) for place in places)
            embargo = Embargo.parse(text)
            if has_walls and day is not None and embargo is not None and not last:
                last = embargo.wall(day)
            dates = _shown_date(first), _shown_date(last)
            closed = embargo.index_text if embargo is not None else ""
            rows[_Change(sign, title, " ".join(numbers), *dates, closed)] = None
    return list(rows)


class Judge:
    """Judges the targets of a version in a folder by the version before (None: there is none)."""

    def __init__(self, folder: Path, older: Path | None, program: Program, today: datetime.date) -> None:
        self._folder, self._older, self._program, self._today = folder, older, program, today
        # By target: the number for each of its words without one, in the version before and in this one.
        self.before = _allowed_in(older) if older else {}
        self.allowed: dict[str, dict[str, int]] = {}
        self.undated = UndatedLinks(folder, older, program, today)
        self.hosts = HostJudge(folder, older, today, self.undated)
        self._others = OtherTitles(self._tables_of_all)
        self.slips = SlipJudge(older, today, self._others)
        self._changes: dict[str, tuple[list[_Change], list[_Change]]] = {}  # by target: the rows that came and went

    def reasons(
        self, target: Target, parts: dict[str, Table], has_rules: bool, now: Material, before: Material | None
    ) -> list[str]:
        """Why new files of a target, whose table has these parts, cannot be used. They are without walls. `before` are
        those of the version before, or None."""
        warnings, reasons = self._warnings(target, list(parts), has_rules)
        limits, numbers = _limits_of(target.allowed), self.before.get(target.name, {})
        self.slips.find(target.name, now, before)
        totals = {**_totals_of([line for _, line in warnings], limits), **self._totals_of_slips(target.name, limits)}
        self.allowed[target.name] = {words: numbers.get(words, totals[words]) for words in _without_number(limits)}
        known = {words: most for words, most in limits.items() if most is not None}
        reasons += _reasons_in(warnings, totals, {**known, **self.allowed[target.name]})
        old = self._tables_before(target.name) if before is not None else None
        found = self.slips.reasons(target.name, target.allowed, self.allowed[target.name])
        if old is not None:
            before_and_now = _numbers_in(old), _numbers_in(parts.values())
            found += _reasons_of_gone(*before_and_now, limits)
            self._changes[target.name] = self._changes_between(old, parts, *before_and_now)
            came = _titles_of(self._changes[target.name][0])
            found += _reasons_of_came(len(set().union(*map(_titles_in, old))), len(came), limits)
        found += self.hosts.reasons(target.name, target.allowed, limits.get(SAME), old, list(parts.values()))
        return reasons + [f"{target.table}: {reason}" for reason in found]

    def _totals_of_slips(self, name: str, limits: Collection[str]) -> dict[str, int]:
        """How many rows have each slip that words of the list name."""
        return {words: count for words, count in self.slips.counts(name).items() if words in limits}

    def accept(self, name: str, table: Table) -> None:
        """Takes note of a table that was judged and is used."""
        self.slips.accept(name)
        self._others.add(table)

    def finish(self) -> None:
        """Gives back the memory that only judging needs."""
        self._others.forget()

    def _tables_of_all(self) -> Iterable[Table]:
        """The tables of the version before."""
        return tables_in(self._older, names_in(self._older)) if self._older is not None else ()

    def _tables_before(self, name: str) -> list[Table]:
        """The parts of a target's table in the version before."""
        return list(tables_in(self._older, _parts_in(self._older, name))) if self._older is not None else []

    def _changes_between(
        self, old: list[Table], new: dict[str, Table], before: set[str], now: set[str]
    ) -> tuple[list[_Change], list[_Change]]:
        """The rows that came and went, for the numbers of the tables."""
        came = _changed_rows("came", new.values(), before, self._today) if now - before else []
        return came, _changed_rows("gone", old, now) if before - now else []

    def _warnings(self, target: Target, parts: list[str], has_rules: bool) -> tuple[list[_Line], list[str]]:
        """The warnings of `inspect` and `lint` on the parts of a target's table, each after the file that it is about,
        and why a command rejects a file."""
        found: list[_Line] = []
        reasons: list[str] = []
        for part in parts:
            place = target.table if part == target.name else f"{target.table}, part {part}"
            found += self._lines(place, reasons, "inspect", path_of(part))
        if has_rules and not reasons:
            known = [line for _, line in found]
            for part in parts:
                rules = compiled.path_in(self._folder, target.name)
                lines = self._lines(target.rules, reasons, "lint", rules, path_of(part))
                found += [it for it in lines if it not in found and it[1] not in known]
        return found, reasons

    def _lines(self, place: str, reasons: list[str], *command: str) -> list[_Line]:
        """The warnings of a command, each after the place; a reason more if it rejects a file."""
        try:
            return [(place, line) for line in self._program.warnings(*command)]
        except Refused as refusal:
            reasons += [f"{place}: {reason}" for reason in refusal.reasons]
            return []

    def keep(
        self, target: Target, parts: list[str], has_rules: bool, is_used: bool, material: Callable[[], Material]
    ) -> None:
        """Keeps the numbers for words of a target whose old files are used again. Where these are the ones of the
        input, those for words that are new in the list are today's."""
        self.slips.keep(target.name, material)
        before = self.before.get(target.name, {})
        words = _without_number(_limits_of(target.allowed))
        kept = {it: before[it] for it in words if it in before}
        if is_used and len(kept) < len(words):
            warnings, _ = self._warnings(target, parts, has_rules)
            totals = _totals_of([line for _, line in warnings], words)
            kept = {**totals, **self._totals_of_slips(target.name, words), **kept}
        self.allowed[target.name] = kept
        self.hosts.keep(target.name, lambda: self._tables_before(target.name))

    def keep_all(self) -> None:
        """Keeps all that is allowed in the version before."""
        self.allowed = self.before
        self.undated.keep_all()
        self.hosts.keep_all()
        self.slips.keep_all()

    def text(self, targets: Iterable[str]) -> str:
        """What the next version has to know, as the file `allowed.tsv`."""
        return "".join(
            f"{target}\t{words}\t{number}\n"
            for target in targets
            for words, number in sorted(self.allowed.get(target, {}).items())
        )

    def write_changes(self, name: str) -> list[str]:
        """Writes the titles of a target that came and went. Returns a line that counts them; none if there are none."""
        came, went = self._changes[name]
        if not came and not went:
            return []
        path = self._folder / f"changes/{name}.txt"
        path.parent.mkdir(exist_ok=True)
        with open(path, "w", encoding="utf-8", errors="replace") as file:
            lines = (_HEADING, *(change.cells() for change in (*came, *went)))
            file.writelines(f"{shown_text.row(cells)}\n" for cells in lines)
        counts = [len(_titles_of(changes)) for changes in (came, went)]
        return [f"titles: {counts[0]} came, {counts[1]} gone: changes/{name}.txt"]
