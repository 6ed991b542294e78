"""Which lines and branches of the package openlink_update run, also in the processes that a test starts, whatever
folder the package was installed in."""
from __future__ import annotations

import importlib.util
import json
import os
import shutil
import subprocess
import sys
from pathlib import Path
from typing import TypedDict

PACKAGE = "openlink_update"
_SETTINGS = """[run]
branch = True
parallel = True
data_file = {data}/one
include = */openlink_update/*
disable_warnings = no-data-collected, module-not-measured, module-not-imported, couldnt-parse
[paths]
source =
    {top}/update/openlink_update
    */openlink_update
"""
# Each Python of a test begins with this. The tests start others with -S, in place of which a stand-in sets a variable.
_START = Path(__file__).with_name("at_start.py")
_REPORTING = Path(__file__).with_name("reporting.py")
_STAND_IN = """#!/bin/sh
unset OPENLINK_NO_SITE
for word; do shift; if [ "$word" = -S ]; then export OPENLINK_NO_SITE=1; else set -- "$@" "$word"; fi; done
exec {python} "$@"
"""


def python() -> str | None:
    """A Python that has python3-coverage: this one, or that of Debian."""
    if importlib.util.find_spec("coverage"):
        return sys.executable
    words = ["/usr/bin/python3", "-c", "import coverage"]
    has_it = os.path.exists(words[0]) and subprocess.run(words, stderr=subprocess.DEVNULL).returncode == 0
    return words[0] if has_it else None


class Reported(TypedDict):
    """What coverage says of a module."""

    executed_lines: list[int]
    missing_lines: list[int]
    executed_branches: list[tuple[int, int]]
    missing_branches: list[tuple[int, int]]


class Measure:
    """A folder with what the processes of tests need to note their lines, and with their notes."""

    def __init__(self, folder: Path, top: Path, interpreter: str) -> None:
        self._folder, self._top, self.python = folder, top, interpreter
        self._data = folder / "data"
        self._reporting: subprocess.Popen[str] | None = None
        (folder / "bin").mkdir(parents=True)
        (folder / "start").mkdir()
        self.clear()
        self._settings = folder / "settings"
        self._settings.write_text(_SETTINGS.format(data=self._data, top=top), encoding="utf-8")
        stand_in = folder / "bin/python3"
        stand_in.write_text(_STAND_IN.format(python=interpreter), encoding="utf-8")
        stand_in.chmod(0o755)
        shutil.copy(_START, folder / "start/sitecustomize.py")

    def clear(self) -> None:
        shutil.rmtree(self._data, ignore_errors=True)
        self._data.mkdir()
        self._data.chmod(0o777)

    def environment(self) -> dict[str, str]:
        return {
            "COVERAGE_PROCESS_START": str(self._settings),
            "PATH": f"{self._folder}/bin:{os.environ['PATH']}",
            "PYTHONPATH": f"{self._folder}/start",
        }

    def reported(self) -> dict[str, Reported]:
        """What coverage reports of each module since the last time. A test that runs none of them has nothing."""
        if self._reporting is None:
            words = [self.python, "-B", str(_REPORTING), str(self._settings)]
            self._reporting = subprocess.Popen(words, stdin=subprocess.PIPE, stdout=subprocess.PIPE, text=True)
        assert self._reporting.stdin and self._reporting.stdout
        paths = [str(it) for it in self._data.iterdir() if not it.name.endswith("-journal")]
        if not paths:
            return {}
        self._reporting.stdin.write(f"{json.dumps(paths)}\n")
        self._reporting.stdin.flush()
        files: dict[str, Reported] = json.loads(self._reporting.stdout.readline())
        self.clear()
        return {f"update/{PACKAGE}" + path.rpartition(PACKAGE)[2]: it for path, it in files.items()}


def units(text: str) -> list[str]:
    """The lines of a module that no test imports."""
    lines = enumerate(text.splitlines(), 1)
    return [str(number) for number, line in lines if line.strip() and not line.strip().startswith("#")]
