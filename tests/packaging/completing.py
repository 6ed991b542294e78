"""Brings the tables of declarations in line with them: cd tests && python3 -m packaging.completing PATH..
Each row keeps its reason. One that is new, or has another value, gets REASON, which no check accepts: write why the
directive is as it is. Read the difference before you commit it."""
from __future__ import annotations

import os
import sys

from fixtures import TOP
from packaging import declarations
from packaging import expected_table
from packaging.declarations import Entry
from packaging.expected_table import Row


def completed(path: str, text: str, table: str) -> str:
    """The table of a declaration as it is now, from the one that it had."""
    old = {row.entry: row for row in expected_table.rows_of(table)}
    entries = declarations.reader(path)(text)
    by_name = {entry[:2]: row for entry, row in old.items() if entry not in entries}
    head = [line for line in table.splitlines() if line.startswith("# ")] or [f"# What {path} must say, and why."]
    found = [_line(entry, old.get(entry), by_name.get(entry[:2])) for entry in entries]
    forbidden = [_line(entry, row, None) for entry, row in old.items() if entry.value == expected_table.NONE]
    return "\n".join([*head, *found, *forbidden]) + "\n"


def _line(entry: Entry, same: Row | None, other: Row | None) -> str:
    if same:
        return "\t".join([*entry, same.reason, *[same.form] * bool(same.form)])
    before = f" (before, {other.entry.value}: {other.reason})" if other else ""
    return "\t".join([*entry, expected_table.UNWRITTEN + before])


def main(paths: list[str]) -> int:
    os.chdir(TOP)
    for path in paths:
        table = expected_table.table_of(path)
        with open(path, encoding="utf-8") as file:
            text = file.read()
        old = ""
        if os.path.exists(table):
            with open(table, encoding="utf-8") as file:
                old = file.read()
        new = completed(path, text, old)
        os.makedirs(os.path.dirname(table), exist_ok=True)
        with open(table, "w", encoding="utf-8") as file:
            file.write(new)
        print(f"{table}: {new.count(expected_table.UNWRITTEN)} reasons to write")
    return 0


if __name__ == "__main__":
    sys.exit(main(sys.argv[1:]))
