"""Says what has run, by the Python that has coverage: reporting.py SETTINGS. Of each line that it reads, the paths of
notes as a list of JSON, it prints a line with the lines and branches of each module. It reads each module once, which
takes longer than all else."""
from __future__ import annotations

import json
import sys
from typing import Any

import coverage
from coverage.exceptions import CoverageException

_usual = coverage.Coverage._get_file_reporter
_modules: dict[str, Any] = {}


def _read_once(self: Any, path: str) -> Any:
    if path not in _modules:
        _modules[path] = _usual(self, path)
    return _modules[path]


def _pairs(branches: dict[int, list[int]]) -> list[tuple[int, int]]:
    return [(line, other) for line, others in branches.items() for other in others]


def _reported(settings: str, paths: list[str]) -> dict[str, dict[str, Any]]:
    """The lines and branches of each module that is noted in these files, which are removed."""
    found, measured = {}, coverage.Coverage(data_file=None, config_file=settings)
    for path in paths:
        try:
            measured.combine([path])
        except Exception as fault:  # of a process that was killed while it wrote
            print(f"tools/coverage: {path}: {type(fault).__name__}: {fault}", file=sys.stderr)
    for path in measured.get_data().measured_files():
        if not path.endswith(".py"):  # the templates of pages run, too
            continue
        try:
            it = measured._analyze(path)
        except CoverageException:  # a module that a test has written
            continue
        found[path] = {
            "executed_lines": sorted(it.executed),
            "missing_lines": sorted(it.missing),
            "executed_branches": _pairs(it.executed_branch_arcs()),
            "missing_branches": _pairs(it.missing_branch_arcs()),
        }
    return found


if __name__ == "__main__":
    coverage.Coverage._get_file_reporter = _read_once
    for line in sys.stdin:
        print(json.dumps(_reported(sys.argv[1], json.loads(line))), flush=True)
