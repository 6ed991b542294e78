"""Measures and parses each script of the repository: no line has more than 120 columns, Python parses as version 3.10
does, shellcheck has nothing to say of a shell script, and pyflakes nothing of Python. JavaScript is parsed by node, all
files in one process. Each of these refuses a copy of a script with a mistake in it."""
from __future__ import annotations

import ast
import functools
import os
import re
import shutil
import subprocess
import tempfile
from collections.abc import Iterator
from collections.abc import Sequence
from typing import NamedTuple

from fixtures import needs
from fixtures.cases import Case

MOST_COLUMNS = 120
PYTHON = (3, 10)
# The least numbers of scripts, and some of them.
LEAST = {"python3": 250, "bash": 15, "sh": 6, "node": 30}
AMONG = ("update/update", "update/fetch", "update/library", "packaging/release", "front_door/find.js", "test")
LINTERS = {"shellcheck": (["shellcheck", "--format=gcc"], ("bash", "sh")), "pyflakes3": (["pyflakes3"], ("python3",))}
# Parses the modules that its arguments name; `node --check` takes one, and accepts what follows an import in a file.
MODULES = """
const fs = require('fs'), vm = require('vm');
for (const path of process.argv.slice(1)) {
    try {
        new vm.SourceTextModule(fs.readFileSync(path, 'utf8'), { identifier: path });
    } catch (e) {
        console.log(path + ': ' + e);
        process.exitCode = 1;
    }
}
"""
# A script, what is appended to a copy of it, and what refuses the copy.
SPOILT = (
    ("update/fetch", f"# {'x' * MOST_COLUMNS}\n", "columns"),
    ("update/fetch", "def f(:\n", "python3"),
    ("update/fetch", "try:\n    pass\nexcept* OSError:\n    pass\n", "python3"),  # of Python 3.11
    ("update/fetch", "import antigravity\n", "pyflakes3"),
    ("packaging/release", "if true; then\n", "bash"),
    ("packaging/release", "echo $1\n", "shellcheck"),
    ("packaging/debian/postrm", "while true; do\n", "sh"),
    ("packaging/debian/postrm", "echo $1\n", "shellcheck"),
    ("front_door/find.js", "const = 1;\n", "node"),
)
SUFFIXES = {".py": "python3", ".js": "node"}
FIRST_LINE = re.compile(r"#!.*\b(python3|bash|sh)\b|# shellcheck shell=(bash|sh)$")
# What builds make, and git's own files.
LEFT_OUT = {".git", "__pycache__", ".mypy_cache", "built", "out", "release"}


class Script(NamedTuple):
    path: str
    kind: str  # what reads it: a key of LEAST
    text: str


def language(path: str, text: str) -> str | None:
    first = FIRST_LINE.match(text.partition("\n")[0])
    return SUFFIXES.get(os.path.splitext(path)[1]) or (first[1] or first[2] if first else None)


@functools.cache
def scripts() -> tuple[Script, ...]:
    return (*_scripts(),)


def _scripts() -> Iterator[Script]:
    for folder, below, names in os.walk("."):
        below[:] = sorted(it for it in below if it not in LEFT_OUT)
        for path in (os.path.relpath(os.path.join(folder, it)) for it in sorted(names)):
            if os.path.isfile(path) and not os.path.islink(path):
                with open(path, encoding="utf-8", errors="replace") as file:
                    text = file.read()
                kind = language(path, text)
                if kind:
                    yield Script(path, kind, text)


def faults_of_columns(found: Sequence[Script]) -> list[str]:
    return [
        f"{path}:{number}: {len(line)} columns, and {MOST_COLUMNS} are allowed"
        for path, _, text in found
        for number, line in enumerate(text.splitlines(), 1)
        if len(line) > MOST_COLUMNS
    ]


def said(words: list[str]) -> str:
    """Returns what a command says if it fails."""
    ran = subprocess.run(words, stdout=subprocess.PIPE, stderr=subprocess.STDOUT, encoding="utf-8")
    return ran.stdout.strip() or f"{words[0]} ended with status {ran.returncode}" if ran.returncode else ""


def fault_of_python(script: Script) -> str:
    try:
        ast.parse(script.text, script.path, feature_version=PYTHON)
    except SyntaxError as error:
        return f"{script.path}:{error.lineno}: {error.msg}"
    return ""


def faults_of_syntax(kind: str, found: Sequence[Script], reader: str) -> list[str]:
    """What a kind's reader, a command, says of the syntax of its scripts. Python is read here."""
    those = [it for it in found if it.kind == kind]
    if kind == "python3":
        faults = map(fault_of_python, those)
    elif kind == "node":
        words = [reader, "--experimental-vm-modules", "--no-warnings", "-e", MODULES]
        faults = map(said, [[*words, *(it.path for it in those)]])
    else:
        faults = (said([reader, "-n", it.path]) for it in those)
    return [it for it in faults if it]


def faults_of_linter(name: str, found: Sequence[Script], command: str) -> list[str]:
    """What a linter, or another command in its place, says of the scripts that it reads."""
    words, kinds = LINTERS[name]
    fault = said([command, *words[1:], *(it.path for it in found if it.kind in kinds)])
    return [fault] if fault else []


def faults(check: str, found: Sequence[Script], command: str = "") -> list[str]:
    """What a check says: that of columns, of a kind's syntax, or of a linter. A command may take the tool's place."""
    if check == "columns":
        return faults_of_columns(found)
    if check in LINTERS:
        return faults_of_linter(check, found, command or check)
    return faults_of_syntax(check, found, command or check)


def faults_of_numbers(found: Sequence[Script]) -> Iterator[str]:
    """Too few scripts: then the other checks say nothing."""
    missing = {*AMONG} - {it.path for it in found}
    yield from (f"{it} is not found" for it in sorted(missing))
    for kind, least in LEAST.items():
        count = sum(it.kind == kind for it in found)
        if count < least:
            yield f"{count} scripts for {kind}, and there are at least {least}"


def unseen(check: str, command: str = "") -> Iterator[str]:
    """The spoilt copies in which a check sees nothing. They have no other mistake."""
    for path, addition, refused_by in SPOILT:
        if refused_by == check:
            with open(path, encoding="utf-8") as file, tempfile.TemporaryDirectory() as folder:
                text = file.read()
                copy = os.path.join(folder, os.path.basename(path))
                shutil.copy(path, copy)
                kind = language(path, text) or ""
                if faults(check, [Script(copy, kind, text)], command):
                    yield f"a copy of {path} is refused as it is"
                with open(copy, "a", encoding="utf-8") as spoilt:
                    spoilt.write(addition)
                if not faults(check, [Script(copy, kind, text + addition)], command):
                    yield f"a copy of {path} with {addition!r} is not refused"


class Scripts(Case):
    """Each check, of all scripts that it reads and of their spoilt copies."""

    def check(self, name: str) -> None:
        found = scripts()
        self.expect("their numbers", [*faults_of_numbers(found)], [])
        self.expect("what is wrong", faults(name, found), [])
        self.expect("spoilt copies", sum(refused_by == name for _, _, refused_by in SPOILT) > 0)
        self.expect("what it does not see", [*unseen(name)], [])

    def test_columns(self) -> None:
        self.check("columns")

    def test_syntax_of_python(self) -> None:
        self.check("python3")

    @needs.command("bash")
    def test_syntax_of_bash(self) -> None:
        self.check("bash")

    def test_syntax_of_sh(self) -> None:
        self.check("sh")

    @needs.command("node")
    def test_syntax_of_javascript(self) -> None:
        self.check("node")

    @needs.command("shellcheck")
    def test_shellcheck(self) -> None:
        self.check("shellcheck")

    @needs.command("pyflakes3")
    def test_pyflakes(self) -> None:
        self.check("pyflakes3")


class Checks(Case):
    """What would let a check pass whatever the scripts have."""

    def test_a_tool_that_accepts_everything(self) -> None:
        for tool in ("bash", "sh", "node", *LINTERS):
            copies = [it for it in SPOILT if it[2] == tool]
            self.expect(f"{tool} is true", len([*unseen(tool, "true")]), len(copies))

    def test_a_tool_that_refuses_everything(self) -> None:
        for tool in ("bash", "sh", "node", *LINTERS):
            copies = [it for it in SPOILT if it[2] == tool]
            self.expect(f"{tool} is false", len([*unseen(tool, "false")]), len(copies))

    def test_too_few_scripts(self) -> None:
        found = scripts()
        for kind in LEAST:
            fewer = [it for it in found if it.kind != kind or it.path in AMONG]
            said_of = [*faults_of_numbers(fewer)]
            self.expect(f"none for {kind}", [it.split(" for ")[1].split(",")[0] for it in said_of], [kind])
        without = [it for it in found if it.path not in AMONG]
        self.expect("without those that are named", len([*faults_of_numbers(without)]), len(AMONG))

    def test_languages(self) -> None:
        for path, text, wanted in (
            ("a.py", "", "python3"),
            ("a.js", "", "node"),
            ("a", "#!/usr/bin/env python3\n", "python3"),
            ("a", "#!/usr/bin/env bash\n", "bash"),
            ("a", "#!/bin/sh\n", "sh"),
            ("a", "# shellcheck shell=bash\n", "bash"),
            ("a.md", "# python3\n", None),
            ("a", "", None),
        ):
            self.expect(f"{path} with {text!r}", language(path, text), wanted)
