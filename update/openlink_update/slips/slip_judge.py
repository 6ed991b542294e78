"""Judges a target's new files by slips that harm readers: by how many rows have one, and how many may.

    slips.tsv          a target, the words of a slip that its table in use has, how many rows have it, of how many, and
                       an example
    slip_limits.tsv    a target, the words of a slip, and how many rows, of how many, had it in the table that was in
                       use when the slip was first looked for; 0 if no more than any table may have

What a table had then is allowed from then on, so a newer update stops no target."""
import datetime
import re
from collections.abc import Callable, Collection, Mapping
from pathlib import Path

from openlink_update import shown_text
from openlink_update.input_files import cells_in
from openlink_update.slips.kinds import KINDS, WORDS, Kind
from openlink_update.slips.material import FEW, Found, Material, Pair
from openlink_update.slips.other_titles import OtherTitles

NAME, LIMITS = "slips.tsv", "slip_limits.tsv"
_UP_TO = re.compile(r"(.*\S) up to (\d{1,9})(%?)", re.A)
_MOST_CHARACTERS = 100  # of an example in a line
_Founds = dict[str, Found]  # by the words of a slip
_Limits = dict[str, tuple[int, int]]  # by the words of a slip: how many rows had it, of how many


def _share_of(rows: int, part: int, whole: int = 100) -> int:
    """A part of rows, rounded up, so that one row alone is never too much."""
    return -(-rows * part // max(whole, 1))


def _usual_most(kind: Kind, rows: int) -> int:
    return max(FEW, _share_of(rows, kind.share))


def _safe(example: str) -> str:
    """An example as a part of a line, in quotation marks that it can't end."""
    return shown_text.line_of(example, _MOST_CHARACTERS).replace('"', "'").strip()


def _text_of(words: str, found: Found) -> str:
    return f"{words}: {found.count} of {shown_text.amount(found.rows, 'row')}"


def _founds(pair: Pair) -> _Founds:
    found = ((kind, kind.find(pair)) for kind in KINDS)
    return {kind.words: it for kind, it in found if it is not None and _counts(kind, it)}


def _counts(kind: Kind, found: Found) -> bool:
    """Whether so few rows are a slip too, or only more than the share."""
    return not kind.is_of_most or found.count > _usual_most(kind, found.rows)


class SlipJudge:
    """Judges the targets of a version that is made, by the version before (None: there is none)."""

    def __init__(self, older: Path | None, today: datetime.date, others: OtherTitles) -> None:
        self._today, self._others = today, others
        self._limits_before: dict[str, _Limits] = {}  # by target
        self._found_before: dict[str, _Founds] = {}
        self._limits: dict[str, _Limits] = {}
        self._found: dict[str, _Founds] = {}
        self._lines: dict[str, list[str]] = {}
        for target, words, count, rows in _lines_of(older, LIMITS, 4):
            self._limits_before.setdefault(target, {})[words] = int(count), int(rows)
        for target, words, count, rows, example in _lines_of(older, NAME, 5):
            self._found_before.setdefault(target, {})[words] = Found(int(count), int(rows), example)

    def find(self, name: str, now: Material, before: Material | None) -> None:
        """Looks for slips in the files of a target that is new, or new in a version."""
        known = self._limits_before.get(name, {})
        clean = frozenset(known) - frozenset(self._found_before.get(name, {}))
        self._found[name] = self._founds(now, before, clean)
        self._limits[name], self._lines[name] = {}, []
        found = {} if before is None else self._first_of(name, before)
        for kind in KINDS:
            self._limits[name][kind.words] = self._limit_of(kind, name, found, is_new=before is None)
        self._lines[name] += self._lines_of_new(name, found)

    def _founds(self, now: Material, before: Material | None, clean: frozenset[str] = frozenset()) -> _Founds:
        found = _founds(Pair(now, before, self._today, self._others.of, clean))
        for material in filter(None, (now, before)):
            material.forget()
        return found

    def _first_of(self, name: str, before: Material) -> _Founds:
        """The slips of a table in use that is looked at for the first time, which are allowed from now on."""
        kinds = [kind for kind in KINDS if kind.words not in self._limits_before.get(name, {})]
        if not kinds:
            return {}
        found = self._founds(before, None)
        found = {kind.words: found[kind.words] for kind in kinds if kind.words in found}
        self._lines[name] = [
            f'{_text_of(words, it)}, the first "{_safe(it.example)}": the table in use has it, so it is allowed from '
            "now on"
            for words, it in found.items()
        ]
        return found

    def _limit_of(self, kind: Kind, name: str, found: _Founds, is_new: bool) -> tuple[int, int]:
        """How many rows of how many may have a slip beside those that always may."""
        known = self._limits_before.get(name, {}).get(kind.words)
        if known is not None:
            return known
        it = self._found[name].get(kind.words) if is_new and kind.is_usual else found.get(kind.words)
        return (it.count, it.rows) if it is not None and it.count > _usual_most(kind, it.rows) else (0, 0)

    def _lines_of_new(self, name: str, first: _Founds) -> list[str]:
        """What is said of slips that a table did not have, or in fewer rows; those of its first look are said."""
        lines, before = [], {**self._found_before.get(name, {}), **first}
        for kind in KINDS:
            it, known = self._found[name].get(kind.words), before.get(kind.words)
            if it is None or not kind.is_said or known is not None and it.count <= known.count:
                continue
            is_first = name not in self._limits_before and self._limits[name][kind.words] != (0, 0)
            line = f'{_text_of(kind.words, it)}, the first "{_safe(it.example)}"'
            lines.append(f"{line}: allowed from now on" if is_first else line)
        return lines

    def counts(self, name: str) -> dict[str, int]:
        """How many rows of a target have each slip."""
        return {kind.words: it.count for kind in KINDS if (it := self._found.get(name, {}).get(kind.words))}

    def reasons(self, name: str, allowed: Collection[str], numbers: Mapping[str, int]) -> list[str]:
        """Why the files in which slips were looked for cannot be used. `allowed` are the words of the target's line,
        and `numbers` says up to how many rows those without a number allow."""
        reasons = []
        for kind in KINDS:
            it = self._found[name].get(kind.words)
            most = 0 if it is None else self._most(kind, name, it, allowed, numbers)
            if it is None or it.count <= most:
                continue
            reasons.append(
                f'{_text_of(kind.words, it)}, and {most} may be, the first "{_safe(it.example)}"; '
                f"to allow it: {kind.words} up to {_share_of(100, it.count, it.rows)}%"
            )
        return reasons

    def _most(self, kind: Kind, name: str, it: Found, allowed: Collection[str], numbers: Mapping[str, int]) -> int:
        for match in filter(None, map(_UP_TO.fullmatch, sorted(allowed))):
            if match[1] == kind.words:
                return _share_of(it.rows, int(match[2])) if match[3] else int(match[2])
        count, rows = self._limits[name][kind.words]
        most = _usual_most(kind, it.rows) + _share_of(it.rows, count, rows)
        return max(most, numbers.get(kind.words, 0))

    def accept(self, name: str) -> None:
        """Remembers what the target's line has allowed beyond what was known, since the files are used."""
        for kind in KINDS:
            it, (count, rows) = self._found[name].get(kind.words), self._limits[name][kind.words]
            if it is not None and it.count > _usual_most(kind, it.rows) + _share_of(it.rows, count, rows):
                self._limits[name][kind.words] = it.count, it.rows

    def keep(self, name: str, before: Callable[[], Material]) -> None:
        """Keeps what is known of a target whose old files are used again."""
        if all(kind.words in self._limits_before.get(name, {}) for kind in KINDS):
            self._limits[name], self._lines[name] = self._limits_before[name], []
            self._found[name] = self._found_before.get(name, {})
            return
        self._lines[name], self._limits[name] = [], {}
        material = before()
        found = self._first_of(name, material)
        for kind in KINDS:
            self._limits[name][kind.words] = self._limit_of(kind, name, found, is_new=False)
        self._found[name] = {**self._found_before.get(name, {}), **found}

    def keep_all(self) -> None:
        """Keeps what is known of all targets."""
        self._limits, self._found = self._limits_before, self._found_before

    def lines(self, name: str) -> list[str]:
        """What is said of a target whose files are used."""
        return self._lines.get(name, [])

    def text(self, targets: Collection[str]) -> str:
        """What the tables of the version have, as the file `slips.tsv`."""
        return "".join(
            f"{target}\t{words}\t{it.count}\t{it.rows}\t{_safe(it.example)}\n"
            for target in targets
            for words, it in sorted(self._found.get(target, {}).items())
        )

    def limits_text(self, targets: Collection[str]) -> str:
        """What the next version has to know of what is allowed."""
        return "".join(
            f"{target}\t{words}\t{count}\t{rows}\n"
            for target in targets
            for words, (count, rows) in sorted(self._limits.get(target, {}).items())
        )


def _lines_of(version: Path | None, name: str, width: int) -> list[list[str]]:
    path = version / name if version else None
    return list(cells_in(path, width)) if path and path.exists() else []


def is_word(text: str) -> bool:
    """Whether a text of a target's line allows a slip."""
    match = _UP_TO.fullmatch(text)
    return (match[1] if match else text) in WORDS
