"""Which statements of front_door/*.js run: a copy notes each in a file, in njs, in node and behind nginx alike."""
from __future__ import annotations

import re
from pathlib import Path

from measuring import javascript_tokens

# What a module notes once in a request, or in a process of njs or node.
_HEAD = """import __fs from 'fs'; function __ran(number) { \
if (globalThis.__noted === undefined) globalThis.__noted = {}; \
const key = '%s:' + number; if (globalThis.__noted[key] === true) return; globalThis.__noted[key] = true; \
__fs.appendFileSync('%s', key + '\\n'); } """


def places(text: str) -> list[int]:
    """The offsets of all statements within functions."""
    found = javascript_tokens.tokens(text)
    inner = [first for first, _ in javascript_tokens.guarded(found)]
    return sorted(found[at].start for at in {*javascript_tokens.statements(found), *inner})


def units(text: str) -> list[str]:
    """The statements, as LINE#NUMBER."""
    return [f"{text.count(chr(10), 0, offset) + 1}#{number}" for number, offset in enumerate(places(text))]


def noting(name: str, text: str, notes: Path) -> str:
    """The text of a module that notes the number of each statement in a file. Its lines keep their numbers."""
    found = javascript_tokens.tokens(text)
    numbers = {offset: number for number, offset in enumerate(places(text))}
    changes = [(found[at].start, f"__ran({numbers[found[at].start]}); ") for at in javascript_tokens.statements(found)]
    for first, last in javascript_tokens.guarded(found):
        changes.append((found[first].start, f"{{ __ran({numbers[found[first].start]}); "))
        changes.append((found[last].end, " }"))
    for offset, added in sorted(changes, reverse=True):
        text = text[:offset] + added + text[offset:]
    return _HEAD % (name, notes) + text


def prepare(top: Path) -> Path:
    """Lets each module in a copy of the repository note its statements, and returns the file of the notes."""
    notes = top / "tools/out/ran"
    notes.parent.mkdir(parents=True, exist_ok=True)
    clear(notes)
    for path in sorted((top / "front_door").glob("*.js")):
        path.write_text(noting(path.name, path.read_text(encoding="utf-8"), notes), encoding="utf-8")
    return notes


def clear(notes: Path) -> None:
    notes.write_bytes(b"")
    notes.chmod(0o666)  # the workers of nginx are another user


def noted(notes: Path) -> dict[str, set[int]]:
    """The numbers of the statements that have run, by the name of the module."""
    found: dict[str, set[int]] = {}
    for name, number in re.findall(r"^([\w.]+):(\d+)$", notes.read_text(encoding="utf-8"), re.M):
        found.setdefault(name, set()).add(int(number))
    return found
