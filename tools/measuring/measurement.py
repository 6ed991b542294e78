"""Runs tests in a copy of the repository that notes their lines, and reports what none of them runs."""
from __future__ import annotations

import sys
import threading
from collections.abc import Iterator
from pathlib import Path

from measuring import copies
from measuring import javascript_lines
from measuring import left
from measuring import line_map
from measuring import processes
from measuring import python_lines

_LEAST = {"update": 97, "front_door": 95}  # in 100
_SCRIPTS = "front_door"


def texts() -> dict[str, str]:
    """The modules that are measured."""
    package = copies.TOP / "update" / python_lines.PACKAGE
    paths = [*sorted(package.rglob("*.py")), *sorted((copies.TOP / _SCRIPTS).glob("*.js"))]
    return {str(it.relative_to(copies.TOP)): it.read_text(encoding="utf-8") for it in paths}


class Noted:
    """The map of lines, which measurements side by side write."""

    def __init__(self) -> None:
        self._map, self._lock = line_map.read(), threading.Lock()

    def note(self, name: str, seconds: float, found: dict[str, line_map.Ran], those: list[list[str]]) -> None:
        with self._lock:
            self._map.note(name, seconds, found, those)
            line_map.write(self._map)


class Measurement:
    """Tests in a copy. Their modules are those of its beginning, whatever is changed meanwhile."""

    def __init__(self, folder: Path, python: str, noted: Noted) -> None:
        self._noted, self._folder, self._texts = noted, folder, texts()
        self._top = copies.make(folder / "copy")
        self._notes = javascript_lines.prepare(self._top)
        self._python = python_lines.Measure(folder / "python", self._top, python)

    def run(self, name: str, limit: float) -> bool:
        """Runs a test, and keeps its lines if it passes: a test that fails would say of each bug that it sees it."""
        log = self._folder / "log"
        environment = self._python.environment()
        end, seconds, _ = processes.run(self._top, [name], log, [limit], limit, environment, self._python.python)
        found = {**dict(self._of_python()), **dict(self._of_scripts())}
        if end == "passed":
            self._noted.note(name, seconds, found, [self._texts[path].splitlines() for path in found])
        print(f"{name}: {end} in {seconds:.0f} s", flush=True)
        if end != "passed":
            print(log.read_text(encoding="utf-8", errors="replace")[-4000:], file=sys.stderr)
        return end == "passed"

    def _ran(self, path: str, ran: list[str], missing: list[str]) -> line_map.Ran:
        return {"text": line_map.digest(self._texts[path].splitlines()), "ran": ran, "missing": missing}

    def _of_python(self) -> Iterator[tuple[str, line_map.Ran]]:
        for path, it in self._python.reported().items():
            ran = [*map(str, it["executed_lines"]), *(f"{a}>{b}" for a, b in it["executed_branches"])]
            missing = [*map(str, it["missing_lines"]), *(f"{a}>{b}" for a, b in it["missing_branches"])]
            yield path, self._ran(path, ran, missing)

    def _of_scripts(self) -> Iterator[tuple[str, line_map.Ran]]:
        for name, numbers in javascript_lines.noted(self._notes).items():
            path = f"{_SCRIPTS}/{name}"
            units = javascript_lines.units(self._texts[path])
            ran = [units[it] for it in sorted(numbers)]
            yield path, self._ran(path, ran, [it for it in units if it not in ran])
        javascript_lines.clear(self._notes)


def _units(path: str, text: str, found: list[line_map.Ran]) -> tuple[set[str], set[str]]:
    """What a module has, and what of that has run."""
    ran = {unit for it in found for unit in it["ran"]}
    if found:
        return ran | {unit for it in found for unit in it["missing"]}, ran
    return {*(javascript_lines.units(text) if path.endswith(".js") else python_lines.units(text))}, ran


def report() -> bool:
    """Prints a line for each module, and returns whether enough has run. What was measured of another text of it does
    not count."""
    known, measured = left.read(), line_map.read()
    modules = {}
    for path, text in texts().items():
        now = line_map.digest(text.splitlines())
        found = [it[path] for it in measured.runs.values() if path in it and it[path]["text"] == now]
        modules[path] = left.counted(path, text.splitlines(), *_units(path, text, found), known)
    for path, it in modules.items():
        print(f"{path}: {it.percent():.1f}" + (f", not run: {it.told()}" if it.missing else ""))
    is_enough = True
    for folder, least in _LEAST.items():
        whole = left.total([it for path, it in modules.items() if path.startswith(f"{folder}/")])
        print(f"{folder}: {whole.percent():.1f} in 100, at least {least}; {whole.listed} more are listed as left")
        is_enough = is_enough and whole.percent() >= least
    return is_enough
