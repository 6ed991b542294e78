"""tools/shorten with a stand-in for the toolchain that accepts every call: it keeps the calls whose check is quick, and
gives a file whose check has become slow its old text."""
from __future__ import annotations

import os
import shutil
import subprocess
import tempfile

from fixtures import TOP
from fixtures.cases import Case

# It checks the files of proofs that have changed, each in little of a processor's time, and those with a call of grind
# and the word "slow" in 0.7 seconds; it writes a file for each.
STAND_IN = """#!/usr/bin/env -S python3 -SE
import glob, os, time
os.makedirs("out/incremental/a", exist_ok=True)
for path in sorted(glob.glob("proofs/**/*.antt", recursive=True)):
    text, done = open(path).read(), f"out/incremental/a/Rattle-small-{path[:-5].replace('/', '.')}.oantt"
    if not os.path.exists(done) or open(done).read() != text:
        seconds = 0.7 if "grind" in text and "slow" in text else 0.02
        until = time.process_time() + seconds
        while time.process_time() < until:
            pass
        open(done, "w").write(text)
"""
LEMMA = """\
use Rattle.std.proofs.Common.{{◌≡◌, ℕ, refl}}

pub {name} : (n : ℕ) → n ≡ n
{name} zero = refl
{name} (suc n) =
  refl
"""


class Limit(Case):
    def setUp(self) -> None:
        room = tempfile.TemporaryDirectory()
        self.addCleanup(room.cleanup)
        self.folder = room.name
        for path in "tools", "bin", "crates/small/proofs/f":
            os.makedirs(f"{self.folder}/{path}")
        shutil.copy2(f"{TOP}/tools/shorten", f"{self.folder}/tools/")
        self.write("bin/rt", STAND_IN)
        os.chmod(f"{self.folder}/bin/rt", 0o755)
        for path, name in ("A", "quick"), ("B", "slow"), ("f/C", "slow"), ("f/D", "quick"):
            self.write(f"crates/small/proofs/{path}.antt", LEMMA.format(name=name))

    def write(self, path: str, text: str) -> None:
        with open(f"{self.folder}/{path}", "w", encoding="utf-8") as file:
            file.write(text)

    def read(self, path: str) -> str:
        with open(f"{self.folder}/crates/small/proofs/{path}.antt", encoding="utf-8") as file:
            return file.read()

    def test_files(self) -> None:
        environment = {**os.environ, "PATH": f"{self.folder}/bin:{os.environ['PATH']}"}
        words = ["tools/shorten", "small"]
        run = subprocess.run(words, cwd=self.folder, env=environment, capture_output=True, text=True)
        self.expect(f"the status, with {run.stderr!r}", run.returncode, 0)
        for path in "A", "f/D":
            self.expect(f"{path} has a call", self.read(path).endswith("\nquick n = grind (arith, common_steps)\n"))
        for path in "B", "f/C":
            self.expect(f"{path} as before", self.read(path), LEMMA.format(name="slow"))
            said = f"proofs/{path}.antt: its check takes over 0.5 s longer, so it has its old text"
            self.expect_lines("what it says", run.stdout, said)
        self.expect("what it says of others", run.stdout.count("its old text"), 2)
