"""Compares a declaration with the table of what it must say, and why: expected/, where each file has the path of its
declaration. A row is a place, a directive, its value, the reason, and the allowed form if an operator may write another
value. The value "(none)" is of a directive that must not be there."""
from __future__ import annotations

import os
import re
from collections import Counter
from typing import NamedTuple

from packaging import declarations
from packaging.declarations import Entry

FOLDER = "tests/packaging/expected"
NONE = "(none)"
UNWRITTEN = "REASON"  # in place of a reason that somebody has still to write
_LEAST_REASON = 3  # words


class Row(NamedTuple):
    """A line of a table."""

    entry: Entry
    reason: str
    form: str


def table_of(path: str) -> str:
    """The table of a declaration."""
    return f"{FOLDER}/{path.removeprefix('packaging/')}.tsv"


def rows_of(text: str) -> list[Row]:
    """The rows of a table. A ValueError names one that is none."""
    found = []
    for line in text.splitlines():
        if not line or line.startswith("# "):
            continue
        place, name, value, reason, form = (line.split("\t") + [""])[:5] if line.count("\t") in (3, 4) else [""] * 5
        if not name or UNWRITTEN in reason or len(reason.split()) < _LEAST_REASON:
            raise ValueError(f"a row without a reason, or with too few columns: {line}")
        if form and not re.fullmatch(form, value):
            raise ValueError(f"{name}: the value {value} has not the form {form}")
        found.append(Row(Entry(place, name, value), reason, form))
    return found


def faults(path: str, text: str, rows: list[Row]) -> list[str]:
    """What differs between a declaration and its table, a line for each directive."""
    try:
        entries = declarations.reader(path)(text)
    except ValueError as error:
        return [f"{path}: {error}"]
    wanted = [row.entry for row in rows if row.entry.value != NONE]
    missing, surplus = Counter(wanted) - Counter(entries), Counter(entries) - Counter(wanted)
    lines = [_of_missing(entry, rows, surplus) for entry in missing.elements()]
    lines += [_of_surplus(entry, rows) for entry in surplus.elements()]
    if not lines:
        moved = [(got, row) for got, row in zip(entries, wanted) if got != row]
        lines = [f"{_said(got)} where the table has {_said(row)}" for got, row in moved[:1]]
    return [f"{path}: {line}" for line in lines]


def _said(entry: Entry) -> str:
    return " ".join(it for it in (f"[{entry.place}]" * bool(entry.place), entry.name, entry.value) if it)


def _of_missing(entry: Entry, rows: list[Row], surplus: Counter[Entry]) -> str:
    """Takes the value that stands in its place out of the surplus."""
    reason = next(row.reason for row in rows if row.entry == entry)
    for other in surplus:
        if other[:2] == entry[:2] and surplus[other]:
            surplus[other] -= 1
            return f"changed to {other.value!r}: {_said(entry)}: {reason}"
    return f"missing: {_said(entry)}: {reason}"


def _of_surplus(entry: Entry, rows: list[Row]) -> str:
    """Says why it must not be there, or the row that would allow it."""
    for row in rows:
        if row.entry == Entry(entry.place, entry.name, NONE):
            return f"must not be there: {_said(entry)}: {row.reason}"
    return f"surplus: {_said(entry)}; if it is right, add the row " + repr("\t".join([*entry, UNWRITTEN]))


def faults_of_file(path: str) -> list[str]:
    """The faults of a declaration of the repository."""
    if not os.path.exists(table_of(path)):
        return [f"{path}: no table {table_of(path)}"]
    with open(path, encoding="utf-8") as file, open(table_of(path), encoding="utf-8") as table:
        try:
            return faults(path, file.read(), rows_of(table.read()))
        except ValueError as error:
            return [f"{table_of(path)}: {error}"]
