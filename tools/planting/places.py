"""The files and lines in which bugs are planted: those that are named, or those that a change touches."""
from __future__ import annotations

import re
import subprocess
from pathlib import Path

from planting import javascript_bugs
from planting import line_bugs
from planting import python_bugs
from planting.bug import Bug

FOLDERS = ("update", "front_door", "packaging")  # what contracts do not cover
_DECLARATIONS = {".conf", ".service", ".timer", ".yaml", ".yml", ".cfg", ".nft"}
_DECLARED = {"control", "Containerfile"}
# The first lines of scripts without a suffix.
_PYTHON = re.compile(rb"#!.*\bpython3\b")
_SHELL = re.compile(rb"#!.*\b(?:ba)?sh\b|# shellcheck shell=")
_HUNK = re.compile(r"@@ -\S+ \+(\d+)(?:,(\d+))? @@")
_NAMED = re.compile(r"(.+?):(\d+)(?:-(\d+))?$")
_MAKERS = {
    "python": python_bugs.bugs,
    "javascript": javascript_bugs.bugs,
    "shell": line_bugs.of_script,
    "declaration": line_bugs.of_declaration,
}
_PARSERS = {"python": python_bugs.parses, "shell": line_bugs.parses}
Lines = dict[str, set[int] | None]  # of each file, None for all


class NoSuchPlace(Exception):
    """A name of no file in which bugs can be planted."""


def _kind(path: Path) -> str:
    """Which bugs a file can have: "python", "javascript", "shell", "declaration" or none."""
    if path.suffix == ".py":
        return "python"
    if path.suffix == ".js":
        return "javascript"
    if path.suffix in _DECLARATIONS or path.name in _DECLARED:
        return "declaration"
    first = path.read_bytes().partition(b"\n")[0] if path.is_file() and not path.suffix else b""
    return "python" if _PYTHON.match(first) else "shell" if _SHELL.match(first) else ""


def named(top: Path, names: list[str]) -> Lines:
    """FILE, FILE:LINE, FILE:FIRST-LAST or FOLDER."""
    found: Lines = {}
    for name in names:
        match = _NAMED.match(name)
        path = top / (match[1] if match else name)
        below = [it for it in sorted(path.rglob("*")) if it.is_file()] if path.is_dir() else [path]
        files = [str(it.relative_to(top)) for it in below if _kind(it)] if path.exists() else []
        if not files:
            raise NoSuchPlace(f"{name}: no file in which a bug can be planted")
        lines = {*range(int(match[2]), int(match[3] or match[2]) + 1)} if match else None
        found.update((it, lines) for it in files)
    return found


def changed(top: Path, base: str) -> Lines:
    """The lines that the working tree has, and the commit BASE has not."""
    words = ["git", "diff", "--unified=0", "--no-color", "--no-prefix", "--no-renames", base, "--", *FOLDERS]
    done = subprocess.run(words, cwd=top, capture_output=True, text=True, check=False)
    if done.returncode:
        raise NoSuchPlace(f"git diff {base}: {done.stderr.strip()}")
    found: dict[str, set[int]] = {}
    path = ""
    for line in done.stdout.splitlines():
        if line.startswith("+++ "):
            path = line[4:]
        hunk = _HUNK.match(line)
        if hunk and path != "/dev/null":
            first, count = int(hunk[1]), int(hunk[2] or 1)
            found.setdefault(path, set()).update(range(first, first + count))
    return {it: lines for it, lines in found.items() if _kind(top / it)}


def bugs(top: Path, lines: Lines) -> list[Bug]:
    """All bugs of these places."""
    found = []
    for path, numbers in sorted(lines.items()):
        text = (top / path).read_text(encoding="utf-8")
        made = _MAKERS[_kind(top / path)](path, text)
        found += [it for it in made if numbers is None or it.number(text) in numbers]
    return found


def is_good(top: Path, bug: Bug) -> bool:
    """Whether the file of a bug can still be read. A script that cannot is seen by everything."""
    parses = _PARSERS.get(_kind(top / bug.path))
    return parses is None or parses(bug.applied((top / bug.path).read_text(encoding="utf-8")))
