"""Versions: how many targets a list has, what is remembered of them, and how many numbers may be gone."""
from __future__ import annotations

import datetime
import hashlib
import tempfile
import time
from pathlib import Path
from unittest import mock

from bounds.refusals import reason
from fixtures.cases import Case
from openlink_update.exports import scholar
from openlink_update.input_files import InputFolder
from openlink_update.rights.limits import DiskLimit
from openlink_update.rights.limits import Limits
from openlink_update.versions import judging
from openlink_update.versions import library
from openlink_update.versions import program
from openlink_update.versions import target_list
from openlink_update.versions.earlier_files import EarlierFiles


class Disk(Case):
    def test_bytes_of_a_library(self) -> None:
        """It may have just what its site allows."""
        with tempfile.TemporaryDirectory() as name:
            folder = Path(name)
            (folder / "a").write_bytes(bytes(100_000))
            size = sum(it.stat().st_blocks for it in folder.iterdir()) * 512
            for most in (size, size - 1):
                found = DiskLimit(Limits(disk=most, folders=(folder,)), (folder,)).fault()
                self.expect(f"{size - most} bytes too many", found is None, most == size)


class Lists(Case):
    def test_targets(self) -> None:
        with tempfile.TemporaryDirectory() as folder:
            for count, wanted in (
                (256, ""),
                (257, f"{folder}/targets.tsv: 257 targets, and 1 to 256 are possible"),
                (1, ""),
                (0, f"{folder}/targets.tsv: 0 targets, and 1 to 256 are possible"),
            ):
                lines = (f"t{number}\ta.rules\ta.txt\n" for number in range(count))
                Path(folder, "targets.tsv").write_text("".join(lines))
                self.expect(f"{count} targets", reason(target_list.read, InputFolder(folder)), wanted)

    def test_names(self) -> None:
        with tempfile.TemporaryDirectory() as folder:
            for count, wanted in (
                (64, ""),
                (65, f"{folder}/targets.tsv: line 1: no target can have the name {'a' * 65}"),
            ):
                Path(folder, "targets.tsv").write_text(f"{'a' * count}\ta.rules\ta.txt\n")
                self.expect(f"{count} characters", reason(target_list.read, InputFolder(folder)), wanted)


class Memory(Case):
    def test_earlier_tables(self) -> None:
        """The newest 26 tables of a target, the present one among them, whatever its day."""
        first = datetime.date(2020, 1, 6)
        for count, wanted in ((25, 26), (26, 26), (27, 26)):
            earlier = EarlierFiles(None)
            earlier.days = {
                "a": {f"sum{number}": (first + datetime.timedelta(number)).isoformat() for number in range(count)}
            }
            earlier.put("a", b"now")
            lines = earlier.text(["a"], first).splitlines()
            self.expect(f"{count} and the present one", len(lines), wanted)
            self.expect("the oldest goes first", "\tsum0\t" in "".join(lines), count == 25)
            self.expect(
                "the present one is there",
                sum(hashlib.sha256(b"now").hexdigest() in line for line in lines),
                1,
            )

    def test_numbers_that_are_gone(self) -> None:
        """Ten in a hundred, or as many as the list of targets says."""
        before = {str(number) for number in range(100)}
        cases: list[tuple[str, dict[str, int | None], int]]
        cases = [("no word", {}, 10), ("up to 25", {"gone": 25}, 25), ("up to 0", {"gone": 0}, 0)]
        for name, limits, most in cases:
            for gone, wanted in ((most, 0), (most + 1, 1)):
                after = {it for it in before if int(it) >= gone}
                self.expect(f"{gone} of 100, {name}", len(judging._reasons_of_gone(before, after, limits)), wanted)

    def test_titles_that_came(self) -> None:
        """Half of those before, or as many as the list of targets says; twenty always."""
        cases: list[tuple[int, dict[str, int | None], int]]
        cases = [(100, {}, 50), (100, {"came": 70}, 70), (40, {}, 20), (1, {}, 20), (0, {}, 20), (100, {"came": 0}, 20)]
        for before, limits, most in cases:
            for came, wanted in ((most, 0), (most + 1, 1)):
                found = judging._reasons_of_came(before, came, limits)
                self.expect(f"{came} and {before} before, {limits}", len(found), wanted)

    def test_names_of_versions(self) -> None:
        """A stamp of at most a day ahead."""
        now = library._now()
        with mock.patch.object(library, "_now", lambda: now):
            for seconds, wanted in ((86_400, True), (86_401, False)):
                stamp = (now.replace(microsecond=0) + datetime.timedelta(seconds=seconds)).strftime(library.STAMP)
                self.expect(f"{seconds} seconds ahead", library.is_stamp(stamp), wanted)


class Commands(Case):
    def test_seconds(self) -> None:
        """Of a command of the program, which ends with it."""
        self.expect("seconds", program._SECONDS, 600)
        with tempfile.TemporaryDirectory() as folder:
            path = Path(folder, "openlink")
            path.write_text('#!/bin/sh\n[ "$1" = quick ] || exec sleep 1000\n')
            path.chmod(0o755)
            command = program.Program(path, folder)
            self.expect("one that ends", reason(command.run, "quick"), "")
            with mock.patch.object(program, "_SECONDS", 0.5):
                start = time.monotonic()
                self.expect(
                    "one that hangs", reason(command.run, "inspect"), "openlink inspect: no end after 0.5 seconds"
                )
                self.expect("it is left at once", time.monotonic() - start < 500)


class Exports(Case):
    def test_bytes_of_a_part(self) -> None:
        """A document for Google Scholar has at most a million bytes, not characters, if one item has not more."""
        rest = len(next(scholar.holdings([])))
        last = (scholar._MOST_BYTES - rest) // 2
        for name, items, wanted in (
            ("the last", ["x" * last, "y" * last], 1),
            ("beyond", ["x" * last, "y" * (last + 2)], 2),
            ("beyond, in bytes", ["x" * last, "ä" * (last // 2 + 1)], 2),
            ("one item", ["x" * 1_100_000], 1),
        ):
            parts = list(scholar.holdings(items))
            self.expect(f"{name}: {[len(it) for it in parts]}", len(parts), wanted)
            self.expect(f"{name}: all items", sum(len(it) - rest for it in parts), sum(map(len, items)))
        self.expect("a million", scholar._MOST_BYTES, 1_000_000)
