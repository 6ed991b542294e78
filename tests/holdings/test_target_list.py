"""The list of targets: how many it may have, and which file a path with * means."""
from __future__ import annotations

import tempfile
from pathlib import Path

from fixtures.cases import Case
from openlink_update.input_files import InputFolder
from openlink_update.outcome import Failure
from openlink_update.received import patterns
from openlink_update.versions import target_list


def read(count: int) -> int | str:
    """The number of targets of a list with this number of lines, or why it is refused."""
    with tempfile.TemporaryDirectory() as folder:
        lines = [f"t{number}\tall.rules\tt.txt\n" for number in range(count)]
        Path(folder, "targets.tsv").write_text("".join(lines), encoding="utf-8")
        try:
            return len(target_list.read(InputFolder(folder)))
        except Failure as failure:
            return str(failure).removeprefix(f"{folder}/")


class TargetList(Case):
    """Lists of good lines."""

    def test_numbers(self) -> None:
        for count in (1, 255, 256):
            self.expect(f"{count} targets", read(count), count)
        for count in (0, 257):
            refused = f"targets.tsv: {count} targets, and 1 to 256 are possible"
            self.expect(f"{count} targets", read(count), refused)


class Newest(Case):
    def test_names(self) -> None:
        """By the date in its name, then by its name, whatever the folder."""
        for paths in (
            ("b/x1_2026-01-01.txt", "a/x2_2026-01-01.txt"),
            ("b/x9_2025-12-31.txt", "a/x2_2026-01-01.txt"),
            ("a/x2_2026-01-01.txt", "0/x2_2026-01-01.txt"),
        ):
            self.expect(str(paths), patterns.newest(paths), "a/x2_2026-01-01.txt")
