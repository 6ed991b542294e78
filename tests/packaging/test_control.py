"""What the Debian package says of itself: each field is one that its table explains."""
from __future__ import annotations

import os
import re
from pathlib import Path

from fixtures.cases import Case
from packaging import spoiling

FOLDER = "packaging/debian"
NAMES = ["control", "copyright", "lintian-overrides", "postinst", "postrm", "prerm"]
PATHS = [f"{FOLDER}/{name}" for name in NAMES[:3]]


def _libraries(crates: str) -> set[str]:
    """The libraries of the toolchain that the crates of the program use, by the text of crates.txt."""
    lines = [line.partition("#")[0].partition(":") for line in crates.splitlines()]
    uses = {name.strip(): words.split() for name, _, words in lines if name.strip()}
    below, found = ["openlink"], set[str]()
    for name in below:
        below += [it for it in uses[name] if it in uses and it not in below]
        found.update(it for it in uses[name] if it not in uses)
    return found


def _unnamed(crates: str, copyrights: str) -> list[str]:
    """The libraries of which the copyright file names no author."""
    named = {name for words in re.findall(r"\(([^)]*)\)", copyrights) for name in words.split(", ")}
    return sorted(_libraries(crates) - named)


class Control(Case):
    """What the control file, the copyright file and the overrides declare."""

    def test_each_field_is_as_its_table_says(self) -> None:
        self.expect("the files", sorted(os.listdir(FOLDER)), NAMES)
        spoiling.check_files(self, *PATHS)

    def test_each_spoilt_line_is_a_fault(self) -> None:
        spoiling.check_spoilt(self, *PATHS)

    def test_authors_of_all_libraries_are_named(self) -> None:
        crates = Path("crates.txt").read_text(encoding="utf-8")
        copyrights = Path(FOLDER, "copyright").read_text(encoding="utf-8")
        self.expect("enough", len(_libraries(crates)) >= 9, True)
        self.expect("without an author", _unnamed(crates, copyrights), [])

    def test_library_without_an_author(self) -> None:
        crates = "low: memchr  # finds bytes\nhigh: csv low\nopenlink: high\nbeside: rayon\n"
        self.expect("one of two", _unnamed(crates, " 2015 Andrew Gallant (csv, byteorder)"), ["memchr"])
        self.expect("both", _unnamed(crates, " 2015 Andrew Gallant (csv, memchr)"), [])
