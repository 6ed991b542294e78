"""Edits of different functions are tried in one check: which can be, and what is known of each afterwards. A crate with
a stand-in for the toolchain, which finds a function not proved if it has the word `wrong`."""
from __future__ import annotations

import json
import os
import shutil
import subprocess
import sys
import tempfile
from pathlib import Path

from fixtures import TOP
from fixtures.cases import Case

CODE = """//! Numbers.

const MOST: u64 = 9;

fn low(n: u64) -> u64
    ensures { result ≡ n }
{
    n + 0
}

fn high(
    n: u64,
) -> u64
    ensures { result ≡ n }
{
    let low = low(n);
    low + 0
}

fn apart() -> u64 {
    7
}
"""
LAWS = """//! Laws.

pub fn numbers_stay()
    ensures { (n : ℕ) → n ≡ n }
{}
"""
ONE_EACH = ("True, False, False, False", "False, True, False, False", "False, False, True, False")
EDITS = {
    "low": ("src/code.rt", "    n + 0", "    n + wrong"),
    "low_again": ("src/code.rt", "    n + 0", "    wrong"),
    "high": ("src/code.rt", "    low + 0", "    low + wrong"),
    "harmless": ("src/code.rt", "    7", "    6 + 1"),
    "law": ("src/laws.rt", "n ≡ n", "wrong"),
    "constant": ("src/code.rt", "MOST: u64 = 9", "MOST: u64 = 8"),
    "broken": ("src/code.rt", "    7", "    broken +"),
    "contract": ("src/code.rt", "fn apart() -> u64", "fn apart() -> u32"),
}
# What it says of each function: one that has the word, one that calls such a one, and others; and of code that does not
# compile.
RT = """#!/usr/bin/env python3
import sys
if sys.argv[1] == "version":
    sys.exit(print("rattle-kit-1 logic 0"))
code, laws = (open(f"src/{name}.rt", encoding="utf-8").read() for name in ("code", "laws"))
print(code, laws, file=open(sys.argv[0] + ".log", "a", encoding="utf-8"))
if "broken" in code:
    sys.exit("src/code.rt:22:1: error: an expression is missing")
is_low = "wrong" in code.split("fn high")[0]
if "low + wrong" in code:
    print("note: src/code.rt:12:1: it is not proved that what the function ensures holds")
if is_low:
    print("note: src/code.rt:8:5: it is not proved that what the function ensures holds; `search` gave up")
    print("fn a::code::low: no proof: `search` did not prove `returns`")
    print("fn a::code::high: no proof: it calls `a::code::low`, which is not proved")
if "wrong" in laws:
    print("./proofs/laws/numbers_stay/Answers.antt:1:1: error: `returns`: expected type `wrong`")
print("logic=not-proved" if "wrong" in code + laws else "logic=proved")
"""
# Whether functions of two types, and one of none, are meant by a name and are at a path.
MEANT = """import sys
sys.dont_write_bytecode = True
sys.path[:0] = ["edits", "tools/prove"]
from together import Function
for block in "", "Low", r"HighFrom\\w*":
    new = Function("src/code/inner.rt", block, "new", 1, 2, False)
    print([new.is_named(f"a::code::inner::{it}new") for it in ("", "Low::", "HighFromLow::", "Lower::")],
          [new.is_at(f"proofs/code/inner/{it}new/Answers.antt", 1) for it in ("", "Low/", "HighFromLow/", "Lower/")],
          new.is_named("a::code::new"), new.is_at("src/code/inner.rt", 2), new.is_at("src/code/inner.rt", 3))"""
TRY = """import json, sys
sys.dont_write_bytecode = True
sys.path[:0] = ["edits", "tools/prove"]
import together
found = {name: together.function_of("a", f"edits/a/{name}.edit") for name in sys.argv[1:]}
lines = {name: it and [it.name, it.first, it.last, it.is_law] for name, it in found.items()}
refused = {edit: path for it in together.refused_of("copy", "a", sys.argv[1:]) for edit, path in it.items()}
print(json.dumps([lines, refused]))"""


def write_repository(folder: str) -> None:
    files = {"crates/a/src/code.rt": CODE, "crates/a/src/laws.rt": LAWS, "bin/rt": RT}
    for name, (path, old, new) in EDITS.items():
        files[f"edits/a/{name}.edit"] = f"file: {path}\nold: {old}\nnew: {new}\n"
    for name in ("together.py", "stored.py", "statements.py"):
        files[f"edits/{name}"] = Path(TOP, "edits", name).read_text(encoding="utf-8")
    for name, text in {**files, "copy/crates/a/src/code.rt": CODE, "copy/crates/a/src/laws.rt": LAWS}.items():
        Path(folder, name).parent.mkdir(parents=True, exist_ok=True)
        Path(folder, name).write_text(text, encoding="utf-8")
    Path(folder, "bin/rt").chmod(0o755)


def write_all(folder: str, names: tuple[str, ...]) -> None:
    """The repository with these edits alone, and with all that `edits/try` needs."""
    write_repository(folder)
    for name in EDITS.keys() - {*names}:
        Path(folder, f"edits/a/{name}.edit").unlink()
    Path(folder, "crates/a/src/lib.rt").write_text("mod code;\npub mod laws;\n", encoding="utf-8")
    proof = "proofs/laws/numbers_stay/Answers.antt"
    Path(folder, f"crates/a/{proof}").parent.mkdir(parents=True)
    for name in (f"crates/a/{proof}", "crates.txt", "HANDLES"):
        Path(folder, name).write_text("a:\n" if name == "crates.txt" else "\n", encoding="utf-8")
    for source in (
        "edits/try",
        "edits/record.py",
        "edits/parts.py",
        "edits/reached.py",
        "tools/prove/crates.py",
        "tools/prove/costs.py",
    ):
        Path(folder, source).parent.mkdir(parents=True, exist_ok=True)
        shutil.copy(Path(TOP, source), Path(folder, source))


class Recorded(Case):
    def test_rows(self) -> None:
        """Each edit that was refused has a row, also one of an earlier check than the last."""
        names = ("low", "low_again", "high", "law")
        with tempfile.TemporaryDirectory() as folder:
            write_all(folder, names)
            env = {name: text for name, text in os.environ.items() if name != "CI"}
            env["PATH"] = f"{folder}/bin:{os.environ['PATH']}"
            done = subprocess.run(
                [sys.executable, "edits/try", "a"], cwd=folder, env=env, capture_output=True, text=True, check=False
            )
            self.expect("its errors", done.stderr, "")
            rows = Path(folder, "edits/tried").read_text(encoding="utf-8").splitlines()
        self.expect("what is said", done.stdout.splitlines()[-1:], ["4 passed, 0 failed, 0 as they were tried before"])
        recorded = [row.split("\t")[0] for row in rows if not row.startswith("#")]
        self.expect("the rows", recorded, sorted(f"a/{name}" for name in names))


class Names(Case):
    def test_types(self) -> None:
        with tempfile.TemporaryDirectory() as folder:
            write_repository(folder)
            done = subprocess.run([sys.executable, "-c", MEANT], cwd=folder, capture_output=True, text=True, check=True)
        of_none, of_low, of_high = (f"[{it}] [{it}] False True False" for it in ONE_EACH)
        self.expect("names and paths", done.stdout.splitlines(), [of_none, of_low, of_high])


class Together(Case):
    said = ""

    def tried(self, folder: str, *names: str) -> tuple[dict[str, list[object]], dict[str, str], int]:
        """The functions of edits, those that are refused, and how many checks that took; `said` is what is said."""
        log = Path(folder, "bin/rt.log")
        log.unlink(missing_ok=True)
        env = {**os.environ, "PATH": f"{folder}/bin:{os.environ['PATH']}"}
        done = subprocess.run(
            [sys.executable, "-c", TRY, *names], cwd=folder, env=env, stdout=subprocess.PIPE, text=True, check=True
        )
        *said, last = done.stdout.splitlines()
        self.said = "\n".join(said)
        functions, refused = json.loads(last)
        return functions, refused, log.read_text(encoding="utf-8").count("//! Laws.") if log.exists() else 0

    def test_edits(self) -> None:
        with tempfile.TemporaryDirectory() as folder:
            write_repository(folder)
            functions, refused, checks = self.tried(folder, *(it for it in EDITS if it != "broken"))
            after = Path(folder, "copy/crates/a/src/code.rt").read_text(encoding="utf-8")
            alone = self.tried(folder, "low", "constant")
            harmless = self.tried(folder, "low", "harmless")
        wanted = {
            "low": ["low", 5, 9, False],
            "low_again": ["low", 5, 9, False],
            "high": ["high", 11, 18, False],
            "harmless": ["apart", 20, 22, False],
            "law": ["numbers_stay", 3, 5, True],
            "constant": None,
            "contract": None,
        }
        self.expect("the function of each", functions, wanted)
        places = {"low": "src/code.rt", "low_again": "src/code.rt", "high": "src/code.rt"}
        self.expect("what is refused", refused, {**places, "law": "proofs/laws/numbers_stay/Answers.antt"})
        self.expect("a function that calls one of these waits", checks, 3)
        self.expect("the copy is as before", after, CODE)
        self.expect("one alone is not tried", alone[1:], ({}, 0))
        self.expect("one that is proved", harmless[1:], ({"low": "src/code.rt"}, 1))

    def test_what_does_not_compile(self) -> None:
        """Nothing is known of the others, and why is said."""
        with tempfile.TemporaryDirectory() as folder:
            write_repository(folder)
            found = self.tried(folder, "low", "broken")[1:]
        self.expect("nothing is refused by one check", found, ({}, 1))
        reason = "src/code.rt:22:1: error: an expression is missing"
        self.expect("why", self.said, f"a: not checked: {reason}\na: 0 of 2 edits refused together")
