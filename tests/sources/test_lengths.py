"""The lengths of the files of crates, and of README.md. Sources have at most 120 columns, specifications and proofs
160, and files of proofs 250 lines. Each source begins with //! lines, and has no others."""
from __future__ import annotations

import os
import re
from collections.abc import Iterator

from fixtures.cases import Case

COLUMNS = {".rt": 120, ".antt": 160}
MOST_LINES = 250
MOST_WORDS_OF_README = 1_900
# An import of one name, and the lemmas that an attribute names: rt fmt keeps each on its line.
UNBREAKABLE = re.compile(r"use [^,]*$|#\[tactic\(auto, using\(")
# Of each of these there are more files than this.
LEAST = 200
PARTS = ("src", "specs", "proofs")


def files() -> Iterator[str]:
    for folder, below, names in os.walk("crates"):
        below[:] = sorted(it for it in below if it != "out")
        yield from (os.path.join(folder, it) for it in sorted(names) if os.path.splitext(it)[1] in COLUMNS)


def faults(path: str, lines: list[str]) -> Iterator[str]:
    suffix = os.path.splitext(path)[1]
    for number, line in enumerate(lines, 1):
        if len(line) > COLUMNS[suffix] and not UNBREAKABLE.match(line):
            yield f"{path}:{number}: {len(line)} columns, and {COLUMNS[suffix]} are allowed"
    if "/proofs/" in path and len(lines) > MOST_LINES:
        yield f"{path}: {len(lines)} lines, and {MOST_LINES} are allowed"
    if suffix == ".rt":
        heads = [number for number, line in enumerate(lines) if line.startswith("//!")]
        if not heads or heads != list(range(len(heads))):
            yield f"{path}: its first lines, and no others, begin with //!"


# The path and the lines of a file, and how many faults it has.
EXAMPLES = [
    ("crates/a/src/a.rt", ["//! A.", "", "x" * 120], 0),
    ("crates/a/src/a.rt", ["//! A.", "", "x" * 121], 1),
    ("crates/a/src/a.rt", ["//! A.", "use " + "x" * 121], 0),
    ("crates/a/src/a.rt", ["x"], 1),
    ("crates/a/src/a.rt", ["x", "//! A."], 1),
    ("crates/a/src/a.rt", ["//! A.", "", "//! A."], 1),
    ("crates/a/specs/A.antt", ["x" * 160] * 300, 0),
    ("crates/a/specs/A.antt", ["x" * 161], 1),
    ("crates/a/proofs/A.antt", ["x"] * 250, 0),
    ("crates/a/proofs/A.antt", ["x"] * 251, 1),
]


class Lengths(Case):
    def test_files_of_crates(self) -> None:
        counts = dict.fromkeys(PARTS, 0)
        found: list[str] = []
        for path in files():
            with open(path, encoding="utf-8") as file:
                found += faults(path, file.read().splitlines())
            if path.split("/")[2] in counts:
                counts[path.split("/")[2]] += 1
        self.expect("the files", found, [])
        for part, count in counts.items():
            self.expect(f"{count} files in {part}", count > LEAST)

    def test_readme(self) -> None:
        with open("README.md", encoding="utf-8") as file:
            count = len(file.read().split())
        self.expect(f"{count} words of README.md", LEAST < count <= MOST_WORDS_OF_README)

    def test_examples(self) -> None:
        for path, lines, count in EXAMPLES:
            self.expect(f"{path} of {len(lines)} lines", len([*faults(path, lines)]), count)
