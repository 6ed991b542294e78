"""Tests of what was asked for in vain, as update/counts prints it."""
from __future__ import annotations

import gzip
import os
import subprocess

from fixtures.cases import Case
from fixtures.exported_version import Version
from fixtures.exported_version import row
from fixtures.exported_version import table
from fixtures import library_index

# Two numbers of one journal, an ISBN that a table has with ten digits, and a number that no table has.
LOG = """2026-09 2901-0012 1951
2026-10 2901-0012 1951
2026-10 2908-0142 1949
2026-10 2908-0142 1951
2026-10 2901-0012 -
2026-10 3000-0001 2024
2026-10 3000-0001 -
2026-10 3000-0001 -
2026-10 3000-0001 -
2026-10 9780306406157 -
2026-11 9780306406157 -
"""
HOSTILE = """2026-11 2901-0012
2026-11 2901-0012 1951 info:sid/google
2026-11 $(id) 1951
2026-77 2901-0012 1951
2026-11 2901-0012 3951
2026-11 .*-.... 1951
"""
EXPECTED = """requests\tnumber\ttitle\tyears
5\t2901-0012\tAnnals of Tidal Studies\t1949 (1), 1951 (3)
4\t3000-0001\t\t2024 (1)
2\t0306406152\tHarbours\t
"""


def counted(index: str, data: bytes, *words: str) -> tuple[int, str, str]:
    done = subprocess.run(["update/counts", "--wanted", "--index", index, *words], input=data, capture_output=True)
    return done.returncode, done.stdout.decode(), done.stderr.decode()


class Wanted(Case):
    """What openlink-counts prints."""

    def test_wanted(self) -> None:
        rows = [
            row("Annals of Tidal Studies", "2901-0012", "2908-0142", "1992"),
            row("Harbours", "0306406152", publication_type="monograph"),
        ]
        with Version({"tidal": table(rows)}, write_index=library_index.write_index) as version:
            index = os.path.join(version.folder, "index")
            self.expect("what was asked for", counted(index, LOG.encode()), (0, EXPECTED, ""))
            said = "openlink-counts: 6 of 17 lines have another form\n"
            self.expect("hostile lines", counted(index, (LOG + HOSTILE).encode()), (0, EXPECTED, said))
            path = version.path("wanted.gz")
            with gzip.open(path, "wb") as file:
                file.write(LOG.encode())
            self.expect("a compressed file", counted(index, b"", path), (0, EXPECTED, ""))
            lines = counted(version.path("none"), LOG.encode())[1].splitlines()
            self.expect(
                "without an index",
                lines[1:],
                [
                    "4\t3000-0001\t\t2024 (1)",
                    "3\t2901-0012\t\t1951 (2)",
                    "2\t2908-0142\t\t1949 (1), 1951 (1)",
                    "2\t9780306406157\t\t",
                ],
            )
        self.expect("nothing", counted("/none", b"")[:2], (0, "requests\tnumber\ttitle\tyears\n"))
        self.expect("no line can be read", counted("/none", HOSTILE.encode())[0], 1)

    def test_most(self) -> None:
        """A hundred titles, those with the most requests."""
        log = "".join(f"2026-11 {1000 + number}-0000 2000\n" * (2 if number < 60 else 1) for number in range(160))
        lines = counted("/none", log.encode())[1].splitlines()[1:]
        self.expect(
            "a hundred",
            (len(lines), lines[59][:11], lines[60][:11], lines[99][:11]),
            (100, "2\t1059-0000", "1\t1060-0000", "1\t1099-0000"),
        )
