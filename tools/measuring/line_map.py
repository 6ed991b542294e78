"""What each test runs of each file: a file that tools/coverage writes and tools/plant reads."""
from __future__ import annotations

import bisect
import dataclasses
import difflib
import functools
import hashlib
import json
import re
from typing import TypedDict

from measuring import copies

PLACE = copies.TOP / "tools/out/lines.json"
_NUMBER = re.compile(r"\d+")


class Ran(TypedDict):
    """What a test runs of a file and what not: lines, `LINE`, branches, `LINE>LINE`, and statements, `LINE#NUMBER`."""

    text: str  # a digest
    ran: list[str]
    missing: list[str]


def line_of(unit: str) -> int:
    found = _NUMBER.match(unit)
    assert found
    return int(found[0])


def digest(text: list[str]) -> str:
    return hashlib.sha256("\n".join(text).encode()).hexdigest()[:16]


@dataclasses.dataclass
class LineMap:
    """The seconds of each test, what it runs of each file, and the lines that these files had."""

    seconds: dict[str, float] = dataclasses.field(default_factory=dict)
    runs: dict[str, dict[str, Ran]] = dataclasses.field(default_factory=dict)
    texts: dict[str, list[str]] = dataclasses.field(default_factory=dict)

    def note(self, test: str, seconds: float, found: dict[str, Ran], texts: list[list[str]]) -> None:
        self.seconds[test] = round(seconds, 1)
        self.runs[test] = found
        self.texts.update((digest(it), it) for it in texts)
        used = {it["text"] for those in self.runs.values() for it in those.values()}
        self.texts = {key: text for key, text in self.texts.items() if key in used}

    def has(self, path: str) -> bool:
        return any(path in found for found in self.runs.values())

    def _runs_line(self, found: Ran, number: int, text: tuple[str, ...]) -> bool:
        """Whether a test runs a line of a text. One that is part of a longer statement counts as the line where that
        begins."""
        before = _number_before(tuple(self.texts[found["text"]]), text, number)
        ran = {line_of(it) for it in found["ran"]}
        known = sorted(ran | {line_of(it) for it in found["missing"]})
        at = bisect.bisect_right(known, before) - 1
        return at >= 0 and known[at] in ran

    def _cost(self, test: str, path: str) -> float:
        """The seconds of a test, the more the less it runs of a file: many only import it."""
        found = self.runs[test][path]
        return self.seconds[test] * (len(found["ran"]) + len(found["missing"])) / max(1, len(found["ran"]))

    def tests(self, path: str, number: int, text: list[str]) -> list[str]:
        """The tests that run a line of a file, which now has this text. The quickest of those that run most of the file
        are first."""
        now = tuple(text)
        those = [it for it in self._users(path) if self._runs_line(self.runs[it][path], number, now)]
        return sorted(those, key=lambda test: self._cost(test, path))

    def tests_of_file(self, path: str) -> list[str]:
        """The tests that run anything of a file, in the same order."""
        return sorted(self._users(path), key=lambda test: self._cost(test, path))

    def _users(self, path: str) -> list[str]:
        return [it for it, found in self.runs.items() if path in found]


@functools.lru_cache(maxsize=64)
def _same(before: tuple[str, ...], now: tuple[str, ...]) -> list[tuple[int, int, int]]:
    """The lines that two texts share: where some begin in the new one and in the old one, and how many they are."""
    if before == now:
        return [(0, 0, len(now))]
    blocks = difflib.SequenceMatcher(None, before, now, autojunk=False).get_matching_blocks()
    return [(it.b, it.a, it.size) for it in blocks if it.size]


def _number_before(before: tuple[str, ...], now: tuple[str, ...], number: int) -> int:
    """The number that a line had: of one that is new or has changed, that of the line before it."""
    blocks = _same(before, now)
    at = bisect.bisect_right([new for new, _, _ in blocks], number - 1) - 1
    if at < 0:
        return number
    new, old, size = blocks[at]
    return old + min(number - 1 - new, size) + 1


def read() -> LineMap:
    return LineMap(**json.loads(PLACE.read_text(encoding="utf-8"))) if PLACE.exists() else LineMap()


def write(found: LineMap) -> None:
    PLACE.parent.mkdir(parents=True, exist_ok=True)
    PLACE.write_text(json.dumps(dataclasses.asdict(found)), encoding="utf-8")
