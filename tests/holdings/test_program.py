"""What is said if a command of the program fails: a disk that is full is named, by its blocks and by its files."""
from __future__ import annotations

import types
from unittest import mock

from fixtures.cases import Case
from openlink_update.outcome import Failure
from openlink_update.versions.program import Program

FULL = ": No space left on device"
SMALL = 2**16  # bytes that a small file may take


def said(status: int, **disk: int) -> str:
    """What is said of a command that ends with a status, on a disk with these numbers."""
    how = {"f_bavail": 1000, "f_frsize": 4096, "f_files": 1000, "f_favail": 1000, **disk}
    with mock.patch("os.statvfs", return_value=types.SimpleNamespace(**how)):
        try:
            Program("/bin/sh", "/").run("-c", f"echo openlink: fault >&2; exit {status}")
        except Failure as failure:
            return str(failure).partition(" in /: ")[2]
    return "no failure"


class Full(Case):
    """A command that cannot write."""

    def test_disks(self) -> None:
        cases: tuple[tuple[str, dict[str, int], bool], ...] = (
            ("room", {}, False),
            ("room for a small file", {"f_bavail": SMALL // 4096}, False),
            ("a block less", {"f_bavail": SMALL // 4096 - 1}, True),
            ("one more file", {"f_favail": 1}, False),
            ("no more file", {"f_favail": 0}, True),
            ("a disk that does not count files", {"f_files": 0, "f_favail": 0}, False),
        )
        for what, disk, is_full in cases:
            self.expect(what, said(4, **disk), f"status 4, fault{FULL if is_full else ''}")
        self.expect("another status", said(5, f_favail=0), "status 5, fault")
