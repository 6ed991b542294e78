"""A copy of the script test, of its modules and of what tests share, in which its tests are others."""
from __future__ import annotations

import ast
import json
import os
import re
import shutil
import signal
import subprocess
import sys
import tempfile
import time
from collections.abc import Sequence
from typing import Any

from fixtures.cases import Case

IMPORTS = "import os, subprocess, sys, time, unittest\nfrom fixtures import needs\nfrom fixtures.cases import Case\n"
GOOD = """
class Sums(Case):
    def test_one(self):
        self.expect("one", 1, 1)
    def test_two(self):
        self.expect("two", 2, 2)
        self.expect("three", 3, 3)
class Words(Case):
    def test_one(self):
        self.expect("a word", "a", "a")
"""
# Tests that are skipped.
SKIPPED = """
class A(Case):
    @needs.command("nosuch-command")
    def test_a(self):
        self.expect("a", 1, 2)
@needs.command("other-command")
class B(Case):
    def test_b(self):
        self.expect("b", 1, 2)
"""


# The dictionary of the script test that says which modules start first, and how each is divided.
LONG = re.compile(r"^LONG = (\{[^}]*\})$", re.M)


def long_modules(text: str = "") -> dict[str, int]:
    if not text:
        with open("test", encoding="utf-8") as file:
            text = file.read()
    found: dict[str, int] = ast.literal_eval(LONG.findall(text)[0])
    return found


# Runs the script several times, in one process, each with one of the lists of arguments that are its input. Prints the
# status of each and what it says.
SEVERAL_RUNS = """
import contextlib, io, json, runpy, sys
for sys.argv[1:] in json.load(sys.stdin):
    said, status = io.StringIO(), None
    with contextlib.redirect_stdout(said), contextlib.redirect_stderr(said):
        try:
            runpy.run_path("test", run_name="__main__")
        except SystemExit as ended:
            status = ended.code
    print(json.dumps([status, said.getvalue()]))
"""


def _heed_interrupts() -> None:
    signal.signal(signal.SIGINT, signal.SIG_DFL)


def send_until_it_ends(process: subprocess.Popen[str], number: signal.Signals) -> None:
    """Sends a signal again and again: `timeout` sends it to a command, and to the group that the command is in."""
    while process.poll() is None:
        process.send_signal(number)
        time.sleep(0.02)


def lines_of(printed: str) -> list[str]:
    """The lines without seconds."""
    return re.sub(r" in \d+ s, \d+ of a processor:", ":", printed).splitlines()


class RunnerCase(Case):
    """A copy of the runner and of what tests share."""

    def setUp(self) -> None:
        room = tempfile.TemporaryDirectory()
        self.addCleanup(room.cleanup)
        self.top = room.name
        for path in ("tools/run_tests", "tools/prove", "tests/fixtures"):
            shutil.copytree(path, f"{self.top}/{path}", ignore=shutil.ignore_patterns("__pycache__"))
        shutil.copy("test", self.top)
        os.makedirs(f"{self.top}/update")
        self.write("tests/sources/__init__.py", "")
        self.write("openlink", "#!/bin/sh\nexit 0\n", 0o755)

    def write(self, path: str, text: str, mode: int = 0o644) -> None:
        os.makedirs(os.path.dirname(f"{self.top}/{path}"), exist_ok=True)
        with open(f"{self.top}/{path}", "w", encoding="utf-8") as file:
            file.write(text)
        os.chmod(f"{self.top}/{path}", mode)

    def long(self, modules: dict[str, int]) -> None:
        """From now on these modules are divided."""
        with open(f"{self.top}/test", encoding="utf-8") as file:
            text = LONG.sub(f"LONG = {modules}", file.read())
        self.write("test", text, 0o755)

    def module(self, name: str, text: str) -> None:
        self.write(f"tests/sources/test_{name}.py", IMPORTS + text)

    def how(self, **more: str) -> dict[str, Any]:
        """How the runner starts, with more variables."""
        path = f"{self.top}/bin:{os.environ['PATH']}"
        return {
            "cwd": self.top,
            "env": {**os.environ, "PATH": path, "OPENLINK_JOBS": "4", **more},
            "stdout": subprocess.PIPE,
            "stderr": subprocess.STDOUT,
            "encoding": "utf-8",
        }

    def start(self, *arguments: str, **more: str) -> subprocess.Popen[str]:
        """Starts the runner. What a shell starts in the background ignores an interrupt; the runner does not here."""
        words = [sys.executable, "-B", "test", *arguments]
        return subprocess.Popen(words, preexec_fn=_heed_interrupts, **self.how(**more))

    def given(self, *arguments: str, **more: str) -> tuple[int, list[str]]:
        """The status, and the lines without seconds."""
        process = self.start(*arguments, **more)
        printed = process.communicate()[0]
        return process.returncode, lines_of(printed)

    def given_each(self, every: Sequence[Sequence[str]]) -> list[tuple[int, list[str]]]:
        """The same for each of these arguments."""
        words = [sys.executable, "-B", "-c", SEVERAL_RUNS]
        printed = subprocess.run(words, input=json.dumps(every), check=True, **self.how()).stdout
        return [(status, lines_of(said)) for status, said in map(json.loads, printed.splitlines())]
