"""The table of instructions in docs/MACHINE.md and the built program: the listing of a code file that has each
operation from 0 to 255, with the fields that the table names, has the table's words and fields in the table's order,
and no word for an operation that is not in the table. Rows that say "version 2" are for files that begin with OLK2; in
a file that begins with OLK1 these operations are unknown."""
from __future__ import annotations

import re
import struct

from fixtures.program import ProgramCase

ROW = re.compile(r"\| ([0-9]+) \| ([A-Z]+(?: [abcd])*)(?: \(version [0-9]\))? \|")
LEAST_ROWS = 19
VERSIONS = (1, 2)
# The numbers that the fields a, b, c and d have where they are named, and how a listing writes these.
NUMBERS = {"a": 1, "b": 2, "c": 0, "d": 3}
WRITTEN = {"a": r"[rnl]?1", "b": r"[rnl]?2", "c": r"ur?", "d": r"[rnl]?3"}

Rows = dict[int, tuple[str, int]]


def rows(text: str) -> tuple[Rows, list[str]]:
    """The word with its fields and the first version of each operation, and the rows that are no instruction."""
    found: Rows = {}
    wrong = []
    for line in text.splitlines():
        if re.match(r"\| [0-9]+ \| [A-Z]", line):
            row = ROW.match(line)
            if row:
                found[int(row[1])] = row[2], 2 if "version 2" in line else 1
            else:
                wrong.append(f"this row is no instruction: {line}")
    return found, wrong


def word_of(found: Rows, operation: int, version: int) -> str:
    """The word of an operation and its fields in a file of the version, or nothing."""
    word, first = found.get(operation, ("", 1))
    return word if first <= version else ""


def code(found: Rows, version: int) -> bytes:
    """A code file of all operations, whose fields have their numbers where they are named, and else 0."""
    file = b"OLK%d" % version + struct.pack(">HHH", 0, 0, 256)
    for operation in range(256):
        fields = word_of(found, operation, version).split()[1:]
        file += struct.pack(">BBHHH", operation, *(NUMBERS[it] * (it in fields) for it in "abcd"))
    return file


def listed(word: str, operation: int) -> str:
    """The pattern of a line of the listing."""
    if not word:
        return re.escape(f"? {operation} 0 0 0 0")
    name, *fields = word.split()
    return " ".join([name, *(WRITTEN[it] for it in fields)])


def faults(found: Rows, version: int, listing: str) -> list[str]:
    lines = dict(re.findall(r"^(\d+) (.*)$", listing, re.M))
    wrong = []
    for operation in range(256):
        word, line = word_of(found, operation, version), lines.get(str(operation), "")
        if not re.fullmatch(listed(word, operation), line):
            wrong.append(f"operation {operation} of OLK{version} is {line!r}, and docs/MACHINE.md has {word!r}")
    return wrong


class Instructions(ProgramCase):
    def table(self) -> tuple[Rows, list[str]]:
        with open("docs/MACHINE.md", encoding="utf-8") as file:
            return rows(file.read())

    def listing(self, found: Rows, version: int) -> str:
        self.program.write("code", code(found, version))
        status, printed, errors = self.program.run(["show", "code"])
        self.expect(f"the listing of version {version}", (status, errors), (0, b""))
        return printed.decode()

    def test_table(self) -> None:
        found, wrong = self.table()
        self.expect("rows", wrong, [])
        self.expect(f"{len(found)} rows", len(found) >= LEAST_ROWS)
        self.expect("versions", {first for _, first in found.values()}, {*VERSIONS})
        for version in VERSIONS:
            self.expect(f"version {version}", faults(found, version, self.listing(found, version)), [])

    def test_a_spoilt_table(self) -> None:
        """The comparison fails if a row has another word, other fields or another version, or lacks."""
        found, _ = self.table()
        operation, (word, _) = next((it, row) for it, row in found.items() if " " in row[0])
        newest = next(it for it, (_, first) in found.items() if first == 2)
        spoilt: list[Rows] = [
            {**found, operation: (f"X{word}", 1)},
            {**found, operation: (word.partition(" ")[0], 1)},
            {**found, operation: (" ".join([*word.split()[:1], *word.split()[:0:-1], "d"]), 1)},
            {**found, newest: (found[newest][0], 1)},
            {it: row for it, row in found.items() if it != operation},
        ]
        for number, table in enumerate(spoilt):
            wrong = [it for version in VERSIONS for it in faults(table, version, self.listing(found, version))]
            self.expect(f"spoilt table {number}", bool(wrong))
        self.expect("a row of another form", len(rows("| 1 | HALT! |\n")[1]), 1)
