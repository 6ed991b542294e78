"""The public calls that may report that an allocation failed. No contract says that they do so only then, so a body
that always does would be proved: each has to succeed in a test or in a run of the program, which the list
names."""
from __future__ import annotations

import os
import re
from collections.abc import Iterator

LIST = "tests/sources/allocating_calls.txt"
TYPES = re.compile(r"\bpub (?:enum|struct) (\w+)[^{;(]*\{([^}]*)\}")
STRING = re.compile(r'"(?:[^"\\]|\\.)*"')
# The error of an allocation, and the variants that stand for it.
FAILED = {"AllocError", "NoMemory", "OutOfMemory"}


def errors(texts: list[str]) -> set[str]:
    """Returns the names of the types that can hold the error of an allocation."""
    found, types = {*FAILED}, [it for text in texts for it in TYPES.findall(STRING.sub('""', text))]
    while True:
        more = {name for name, body in types if found & {*re.findall(r"\w+", body)}} - found
        if not more:
            return found
        found |= more


def result_of(lines: list[str], number: int) -> str:
    """Returns the type of the result of the function that begins on this line."""
    head = ""
    for line in lines[number:]:
        if re.match(r"\s*(requires|ensures)\b|\s*\{$", line):
            break
        head += f" {line.strip()}"
        if line.rstrip().endswith(("{", "{}", ";")):
            break
    found = re.search(r"-> (.*?) ?(?:\{\}?|;)?$", head)
    return found[1] if found else ""


def listed(text: str) -> Iterator[tuple[str, str, str | None]]:
    """Yields each line of the list: a call, the file in which it succeeds, and the command that makes it, if any."""
    for line in text.split("\n"):
        if line.strip() and not line.startswith("#"):
            call, path, *command = line.split()
            yield call, path, command[0] if command else None


def fault_of(call: str, path: str, command: str | None) -> str | None:
    """Returns what is wrong with a line of the list, or None."""
    if not os.path.isfile(path):
        return f"{LIST}: there is no {path}"
    with open(path, encoding="utf-8") as file:
        text = file.read()
    if command is None:
        name = call.rpartition("::")[2]
        return None if re.search(rf"\b{name}(?:::<[^>]*>)?\(", text) else f"{LIST}: {path} does not call {name}"
    runs = f'"{command}"' in text or command == "serve" and "from fixtures.service import" in text
    return None if runs else f"{LIST}: {path} does not run {command}"


def faults(expected: list[str], text: str) -> Iterator[str]:
    """Yields the differences of the list, whose text this is, from the calls that the sources have, and what is wrong
    with its lines."""
    rows = [*listed(text)]
    calls = [call for call, _, _ in rows]
    for call in sorted({*expected} - {*calls}):
        yield f"{LIST}: {call} is missing"
    for call in sorted({*calls} - {*expected}):
        yield f"{LIST}: {call} is no public call that may report a failed allocation"
    for call in sorted({it for it in calls if calls.count(it) > 1}):
        yield f"{LIST}: {call} is listed twice"
    yield from filter(None, (fault_of(*row) for row in rows))
