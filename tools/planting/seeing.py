"""Finds the tests that should see a bug, and runs them in a copy of the repository that has it."""
from __future__ import annotations

import collections
import dataclasses
import fnmatch
import threading
from pathlib import Path

from measuring import copies
from measuring import javascript_tokens
from measuring import line_map
from measuring import processes
from planting.bug import Bug

_TABLE = Path(__file__).with_name("tests.tsv")
# It reads files, so that no measuring finds that it sees their lines.
_READS = "bounds.test_list"
# Tests that were measured may take this many times their seconds, and some more.
_TIMES, _MORE = 4, 60


@dataclasses.dataclass(frozen=True)
class Seen:
    """Which test failed for a bug, if one did, how many ran, and how they ended."""

    by: str
    ran: int
    end: str


class Tests:
    """The tests, and what is known of them."""

    def __init__(self, known: line_map.LineMap, limit: float, has_others: bool = True) -> None:
        """Those that were measured, and others if `has_others`."""
        self._known, self.limit = known, limit
        rows = [line.split("\t") for line in _TABLE.read_text(encoding="utf-8").splitlines()[1:]]
        self._table = [(row[0], row[1].split()) for row in rows if has_others]
        self._lock = threading.Lock()
        self._saw: collections.Counter[tuple[str, str]] = collections.Counter()
        self._good: set[str] = set()
        self.failing: set[str] = set()  # without a bug

    def _of_table(self, path: str) -> list[str]:
        for pattern, names in self._table:
            if fnmatch.fnmatchcase(path, pattern):
                return [it for name in names for it in processes.names_in(copies.TOP, name)]
        return []

    def _measured(self, bug: Bug, text: str) -> list[str]:
        """Statements of functions alone are noted in JavaScript. What a module has beside them runs in each test."""
        if bug.path.endswith(".js") and not javascript_tokens.is_in_block(text, bug.start):
            return self._known.tests_of_file(bug.path)
        return self._known.tests(bug.path, bug.number(text), text.splitlines())

    def of(self, bug: Bug, text: str) -> list[str]:
        """Those that run its line by the map, and then those of the table that the map has not, or all of the table if
        the map has not the file, and the one that reads what bounds something. Those that have seen most bugs of the
        file are first."""
        names = self._of_table(bug.path)
        if self._known.has(bug.path):
            measured = self._measured(bug, text)
            names = measured + [name for name in names if name not in self._known.seconds]
        if bug.kind in ("constant", "off by one"):
            names += [name for name in processes.names_in(copies.TOP, _READS) if name not in names]
        with self._lock:
            left = [name for name in names if name not in self.failing]
            return sorted(left, key=lambda name: -self._saw[bug.path, name])

    def limits(self, names: list[str]) -> list[float]:
        """The limit of each."""
        seconds = [self._known.seconds.get(name, self.limit) for name in names]
        return [min(self.limit, _TIMES * it + _MORE) for it in seconds]

    def note(self, bug: Bug, name: str) -> None:
        with self._lock:
            self._saw[bug.path, name] += 1

    def is_good(self, name: str, copy: Copy) -> bool:
        """Runs a test once without a bug. If it fails then, it would say of each bug that it sees it."""
        if name not in self._good and name not in self.failing:
            end, _ = copy.end([name])
            with self._lock:
                (self._good if end == "passed" else self.failing).add(name)
        return name in self._good


class Copy:
    """A copy of the repository below a folder, and its tests."""

    def __init__(self, folder: Path, tests: Tests) -> None:
        folder.mkdir()
        self._top, self._log, self._tests = copies.make(folder / "copy"), folder / "log", tests

    def end(self, names: list[str]) -> tuple[str, list[str]]:
        """How tests end that run in one process until one fails, and which have passed."""
        end, _, passed = processes.run(self._top, names, self._log, self._tests.limits(names), self._tests.limit)
        return end, passed

    def failing(self, bug: Bug, text: str) -> Seen:
        """Runs the tests of a bug until one fails, or takes too long. One that fails without it too does not count."""
        path, ran, end = self._top / bug.path, 0, "passed"
        names = self._tests.of(bug, text)
        while names:
            path.write_text(bug.applied(text), encoding="utf-8")
            try:
                end, passed = self.end(names)
            finally:
                path.write_text(text, encoding="utf-8")
            ran += min(len(names), len(passed) + 1)
            if end in ("passed", "cut"):
                break
            name = names[min(len(passed), len(names) - 1)]
            if self._tests.is_good(name, self):
                self._tests.note(bug, name)
                return Seen(name, ran, end)
            names = names[len(passed) + 1 :]
        return Seen("", ran, end)
