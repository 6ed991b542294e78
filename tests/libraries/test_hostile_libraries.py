"""Ten libraries of a machine, of which three take more than they may: each is named, and the others are updated."""
from __future__ import annotations

import io
import os
import subprocess
import tempfile
import time
from pathlib import Path
from unittest import mock

from fixtures import PYTHON
from fixtures import needs
from fixtures.cases import Case
from fixtures.patience import patience
from fixtures.program import PATH as PROGRAM
from openlink_update.machines.library_updates import Updates

RULES = "rule\nwhen given rft.issn\nlink https://press.example.com/{rft.issn}\n"
TABLE = "publication_title\tprint_identifier\nAnnals of Tidal Studies\t2901-0012\n"
ROWS = 1_500_000  # a table that has less than a table may, and that takes more memory than the library
MEMORY, DISK_MB = 400, 2
# A program that does not end for one library, and is openlink for the others.
ENDLESS = """#!/bin/sh
case $PWD in */hang/*) trap '' TERM HUP; sleep 1000 ;; esac
exec {program} "$@"
"""
NAMES = ("a", "disk", "e", "g", "hang", "k", "memory", "n", "t", "z")


class Printed(Case):
    def test_lines(self) -> None:
        """A library that prints a megabyte is printed as a whole; of more, the first megabyte and the last 20 lines."""
        line = f"{'x' * 1023}\n"
        for count in (1024, 1044, 1045, 3000):
            lines: list[str] = []
            with mock.patch("openlink_update.machines.library_updates.report") as report:
                Updates._print(io.StringIO(line * (count - 1) + "y" * 1023 + "\n"), lines)
            left_out = count - 1044
            shown = [f".. {left_out} lines are left out\n"] if left_out > 0 else []
            self.expect(f"{count} lines", len(lines), min(count, 1044) + len(shown))
            self.expect("what is left out", [it for it in lines if it.startswith("..")], shown)
            self.expect("the last one", lines[-1], "y" * 1023 + "\n")
            self.expect("printed", report.call_count, len(lines))
        for count, wanted in ((2**16 - 1, 1), (2**16, 2)):
            lines = []
            with mock.patch("openlink_update.machines.library_updates.report"):
                Updates._print(io.StringIO("x" * count + "\n"), lines)
            self.expect(f"a line of {count}", len(lines), wanted)

    def test_parts_of_lines(self) -> None:
        """A long line is printed in parts. No part begins as a command of mail does."""
        lines: list[str] = []
        with mock.patch("openlink_update.machines.library_updates.report"):
            Updates._print(io.StringIO("x" * 2**16 + "~!true\n~!true\n"), lines)
        self.expect("their beginnings", [it[:3] for it in lines], ["xxx", " ~!", " ~!"])


@needs.root()
@needs.program()
class Hostile(Case):
    def setUp(self) -> None:
        super().setUp()
        self.minutes = f"{patience(20) / 60:.2f}"
        place = tempfile.TemporaryDirectory()
        self.addCleanup(place.cleanup)
        os.chmod(place.name, 0o755)
        self.top = Path(place.name, "openlink")
        self.program = Path(place.name, "program")
        self.program.write_text(ENDLESS.format(program=os.path.abspath(PROGRAM)))
        self.program.chmod(0o755)
        for name in NAMES:
            self.add(name)

    def add(self, name: str) -> None:
        folder = self.top / name / "input"
        folder.mkdir(parents=True)
        line = f"set $openlink_disk {DISK_MB}m;\n" if name == "disk" else ""
        (folder.parent / "site.conf").write_text(f"server {{\n    {line}}}\n")
        (folder / "press.rules").write_text(RULES)
        (folder / "press.txt").write_text(TABLE)
        (folder / "targets.tsv").write_text("press\tpress.rules\tpress.txt\tno column online_identifier\n")

    def update(self) -> tuple[int, str]:
        words = ["--library", self.top, "--site", self.top / "none.conf", "--reload", "true", "--all"]
        most = ["--minutes", self.minutes, "--memory", str(MEMORY), "--program", self.program]
        done = subprocess.run(
            [*PYTHON, "update/update", *words, *most], capture_output=True, text=True, timeout=patience(400)
        )
        return done.returncode, done.stdout + done.stderr

    def rest_of(self, name: str) -> list[str]:
        """The report of a library: its status, and its lines."""
        return (self.top / name / "report").read_text().splitlines()

    def spoil(self) -> None:
        """Gives three libraries what they must not have, and the others another table."""
        for name in NAMES:
            with (self.top / name / "input/press.txt").open("a") as table:
                table.write("Harbour Engineering Letters\t2915-0272\n")
        with (self.top / "memory/input/press.txt").open("a") as table:
            table.writelines(f"Journal {number}\t\n" for number in range(ROWS))
        with (self.top / "disk/input/press.txt").open("a") as table:
            table.writelines(f"Journal {number} of a long name {'x' * 60}\t\n" for number in range(40_000))

    @needs.module_of_interpreter("jinja2", "python3-jinja2")
    def test_ten_libraries(self) -> None:
        endless = self.program.read_text()
        self.program.write_text(endless.replace("*/hang/*", "*/none/*"))
        status, printed = self.update()
        self.expect(f"all have a version: {printed}", status, 0)
        old = {name: os.readlink(self.top / name / "current") for name in NAMES}
        self.program.write_text(endless)
        self.spoil()
        begun = time.monotonic()
        status, printed = self.update()
        took = time.monotonic() - begun
        hostile = {
            "hang": f"no end within {float(self.minutes):g} minutes, so it was ended",
            "memory": f"it needs more than {MEMORY} MB of memory: --memory allows more",
            "disk": f"the library has more than {DISK_MB} MB on the disk, so it was ended: "
            f"$openlink_disk in {self.top / 'disk/site.conf'} allows more",
        }
        self.expect(f"the run: {printed}", status, 4)
        new = {name: os.readlink(self.top / name / "current") for name in NAMES}
        changed = [name for name in NAMES if new[name] != old[name]]
        self.expect("the others are updated", changed, [name for name in NAMES if name not in hostile])
        for name in NAMES:
            lines = self.rest_of(name)
            self.expect(f"the status of {name}: {lines}", lines[0], "4" if name in hostile else "0")
            stays = f"{os.path.basename(old[name])} stays in use"
            wanted = [f"openlink-update: {hostile[name]}", stays] if name in hostile else lines[-2:]
            # What has no room for a version has none for the pages of the desk.
            wanted += [f"the desk was not written: {hostile[name]}"] if name == "disk" else []
            self.expect(f"the end of {name}", lines[-len(wanted) :], wanted)
        for line in (f"{name}:" for name in NAMES):
            self.expect(f"the mail has {line}", line in printed.splitlines())
        self.expect("in time", took < float(self.minutes) * 60 + patience(60))
        left = [str(path) for path in self.top.glob("*/versions/*.new")]
        self.expect("nothing is left", left, [])
