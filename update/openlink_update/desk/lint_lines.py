"""The lines of `lint` for the rules of each target, beside the line of the rule file that each is about. They are kept
for the next pages, since to read a large table again takes long."""
import dataclasses
import hashlib
import re
import time
from collections.abc import Sequence
from pathlib import Path

from openlink_update.desk.targets import Target
from openlink_update.outcome import Failure, Refused
from openlink_update.shown_text import line_of
from openlink_update.versions.program import Program
from openlink_update.versions.served import path_of

_NAME = "lint.tsv"  # of the state: a target, a sum of its files, and a line of lint or nothing
_SECONDS = 300  # in which lint is started; the next pages have the others
_MOST_LINES = 200  # of a target
_MOST_BYTES = 2**24
_PLACE = re.compile(r"rule (\d{1,6}), (?:guard (\d{1,6})|(link)):|rule (\d{1,6}) ", re.A)


@dataclasses.dataclass(frozen=True)
class _Known:
    key: str
    lines: tuple[str, ...]


class LintLines:
    def __init__(self, state: Path, program: Program) -> None:
        """With those that an earlier desk has kept in a folder."""
        self._program, self._end = program, time.monotonic() + _SECONDS
        self._known = _read(state / _NAME)
        self._used: dict[str, _Known] = {}

    def of(self, target: Target) -> tuple[str, ...]:
        """What `lint` says of the rules of a target and its table."""
        rules = f"received/{target.name}.rules"
        try:
            key = f"{hashlib.sha256((self._program.folder / rules).read_bytes()).hexdigest()}-{target.sum}"
        except OSError:
            return ()
        known = self._known.get(target.name)
        if known is None or known.key != key:
            if time.monotonic() > self._end:
                return ()
            known = _Known(key, self._said(rules, target.parts))
        self._used[target.name] = known
        return known.lines

    def _said(self, rules: str, parts: Sequence[str]) -> tuple[str, ...]:
        lines: dict[str, None] = {}
        for part in parts:
            try:
                lines.update(dict.fromkeys(self._program.warnings("lint", rules, path_of(part))))
            except Refused as refusal:
                lines.update(dict.fromkeys(refusal.reasons))
            except Failure as failure:
                lines[str(failure)] = None
        return tuple(line_of(line) for line in lines)[:_MOST_LINES]

    def write(self, folder: Path) -> None:
        """Keeps the lines for the next pages."""
        with open(folder / _NAME, "w", encoding="utf-8") as file:
            for name, known in self._used.items():
                file.writelines(f"{name}\t{known.key}\t{line}\n" for line in known.lines or ("",))


def _read(path: Path) -> dict[str, _Known]:
    try:
        with open(path, "rb") as file:
            text = file.read(_MOST_BYTES).decode("utf-8", "replace")
    except OSError:
        return {}
    found: dict[str, _Known] = {}
    for line in text.split("\n"):
        name, *rest = line.split("\t")
        if len(rest) == 2:
            lines = found[name].lines if name in found else ()
            found[name] = _Known(line_of(rest[0]), (*lines, *filter(None, [line_of(rest[1])]))[:_MOST_LINES])
    return found


def beside(rules: Sequence[str], said: Sequence[str]) -> tuple[dict[int, list[str]], list[str]]:
    """By the place of a line of rules, the lines of `lint` about it; and those about none."""
    places = _places_of(rules)
    of_lines: dict[int, list[str]] = {}
    others = []
    for line in said:
        found = _PLACE.match(line)
        part = found and (found[2] or found[3] or "")
        place = places.get((found[1] or found[4], part or "")) if found else None
        if place is None:
            others.append(line)
        else:
            of_lines.setdefault(place, []).append(line)
    return of_lines, others


def _places_of(rules: Sequence[str]) -> dict[tuple[str, str], int]:
    """The places of rules, their guards and their links, by their numbers."""
    places: dict[tuple[str, str], int] = {}
    rule = guard = 0
    for place, line in enumerate(rules):
        if line.rstrip() == "rule":
            rule, guard = rule + 1, 0
            places[str(rule), ""] = place
        elif line.startswith("when "):
            guard += 1
            places[str(rule), str(guard)] = place
        elif line.startswith("link "):
            places[str(rule), "link"] = place
    return places
