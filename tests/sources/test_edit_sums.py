"""A change asks for the edits about which it can decide, and for no others: in a small repository of two crates."""
from __future__ import annotations

import json
import os
import shutil
import subprocess
import sys
import tempfile
from pathlib import Path

from fixtures import TOP
from fixtures.cases import Case

FILES = {
    "crates.txt": "low:\na: low\n",
    "crates/low/src/lib.rt": """mod area;
mod count;
mod display;
mod shape;

pub use area::Area;
pub use count::count;
pub use shape::Shape;
""",
    "crates/low/src/shape.rt": "pub struct Shape {\n    pub n: usize,\n}\n",
    "crates/low/src/area.rt": """use crate::shape::Shape;

pub trait Area {
    ghost area: { Self → ℕ };
}

impl Area for Shape {
    ghost area = { λ s. s.n };
}
""",
    "crates/low/src/display.rt": """use crate::shape::Shape;

impl Display for Shape {
    ghost shown = { λ s. s.n };
}
""",
    "crates/low/src/count.rt": "pub fn count(n: usize) -> usize\n    ensures { result ≡ n }\n{\n    n\n}\n",
    "crates/low/specs/Big.antt": "-- big\npub is_big : ℕ → Bool\nis_big n = nat_lt 9 n\n\npub other : ℕ\nother = 1\n",
    "crates/low/specs/Sealed.antt": """unfoldable pub sealed : ℕ → ℕ
sealed n = inner n

pub inner : ℕ → ℕ
inner n = n

unfoldable pub opened : ℕ → ℕ
opened n = inside n

pub inside : ℕ → ℕ
inside n = n
""",
    "crates/a/src/lib.rt": "#![tactic(auto)]\n\nmod kind;\nmod one;\nmod other;\nmod shown;\nmod two;\n",
    "crates/a/src/kind.rt": "pub(crate) struct Kind {\n    pub(crate) n: usize,\n}\n",
    "crates/a/src/shown.rt": "use crate::kind::Kind;\n\nimpl Model for Kind {\n    ghost view = { λ k. k.n };\n}\n",
    "crates/a/src/one.rt": """//! One.

ghost use Rattle.a.specs.One.{is_one};
ghost use Rattle.low.specs.Big.{is_big};
ghost use Rattle.low.specs.Sealed.{sealed, opened};

use crate::kind::Kind;
use low::Shape;
use low::count;

/// Tells.
pub(crate) fn one(n: usize, _kind: Kind, _shape: Shape) -> bool
    ensures { result ≡ is_one n }
{
    count(n) == 1
}
""",
    "crates/a/src/two.rt": """//! Two.

ghost use Rattle.a.specs.Two.{is_two};

use crate::one::one;
use low::{Area, Shape};

pub fn two<A: Area>(n: usize, _area: A, _shape: Shape) -> bool
    ensures { result ≡ is_two n }
{
    one(n) || n == 2
}
""",
    "crates/a/src/other.rt": "pub fn other(n: usize) -> usize {\n    n\n}\n",
    "crates/a/specs/One.antt": "pub is_one : ℕ → Bool\nis_one n = nat_eq n 1\n",
    "crates/a/specs/Two.antt": "pub is_two : ℕ → Bool\nis_two n = nat_lt n 3\n",
    "crates/a/proofs/Lemmas.antt": "pub same : ℕ\nsame = 1\n",
    "crates/a/proofs/Spare.antt": "pub spare : ℕ\nspare = 1\n",
    "crates/a/proofs/one/one/Answers.antt": """use Rattle.a.proofs.Lemmas.{same}
use Rattle.a.proofs.one.one.Goals as goal

pub returns : goal.returns
unfolding opened
returns c = same
""",
    "crates/a/proofs/two/two/Answers.antt": """use Rattle.a.proofs.two.two.Goals as goal

pub returns : goal.returns
returns c = refl
""",
    "edits/a/body.edit": "file: src/one.rt\nold: == 1\nnew: == 2\n",
    "edits/a/contract.edit": "file: src/one.rt\nold: result ≡ is_one n\nnew: result ≡ is_one 1\n",
    "edits/a/definition.edit": "file: specs/Two.antt\nold: n 3\nnew: n 4\n",
    "edits/a/law.edit": "file: proofs/Spare.antt\nold: spare = 1\nnew: spare = 2\n",
}
# A file, a text in it, what takes its place, and the edits that must be tried again.
CHANGES = [
    ("crates/a/src/one.rt", "/// Tells.", "/// Tells it.", ""),
    ("crates/a/specs/One.antt", "pub is_one :", "-- is one\npub is_one :", ""),
    ("crates/a/src/one.rt", "count(n) ==", "(count(n)) ==", "body contract"),
    ("crates/a/src/one.rt", "ensures {", "ensures value {", "body contract definition"),
    ("crates/a/src/two.rt", "one(n) || n == 2", "n == 2 || one(n)", "contract definition"),
    ("crates/a/src/two.rt", "result ≡ is_two n", "is_two n ≡ result", "contract definition"),
    ("crates/a/src/other.rt", "    n\n", "    n + 0\n", ""),
    ("crates/a/src/kind.rt", "n: usize", "n: u64", "body contract definition"),
    ("crates/a/src/shown.rt", "λ k. k.n", "λ k. k.n + 0", "body contract definition"),
    ("crates/a/src/lib.rt", "tactic(auto)", "tactic(none)", "body contract definition law"),
    ("crates/a/src/lib.rt", "mod kind;\n", "mod added;\nmod kind;\n", ""),
    ("crates/a/src/lib.rt", "mod two;\n", "mod two;\n\npub use other::other;\n", ""),
    ("crates/a/specs/One.antt", "nat_eq n 1", "nat_eq 1 n", "body contract definition"),
    ("crates/a/specs/Two.antt", "= nat_lt", "= not nat_lt", "contract definition"),
    ("crates/a/proofs/Lemmas.antt", "same = 1", "same = 0 + 1", "body contract"),
    ("crates/a/proofs/Spare.antt", "pub spare :", "spare :", "law"),
    ("crates/a/proofs/one/one/Answers.antt", "c = same", "c = (same)", "body contract"),
    ("crates/a/proofs/two/two/Answers.antt", "c = refl", "c = (refl)", "contract definition"),
    ("crates/low/src/count.rt", "result ≡ n", "n ≡ result", "body contract"),
    ("crates/low/src/count.rt", "\n    n\n", "\n    n + 0\n", ""),
    # A trait of the repository has to be named, and that of another library has not.
    ("crates/low/src/area.rt", "λ s. s.n", "λ s. s.n + 0", "contract definition"),
    ("crates/low/src/display.rt", "λ s. s.n", "λ s. s.n + 0", "body contract definition"),
    ("crates/low/specs/Big.antt", "nat_lt 9 n", "nat_lt 8 n", "body contract"),
    ("crates/low/specs/Big.antt", "other = 1", "other = 2", ""),
    # The value of an `unfoldable` definition, and what it names, count where it is unfolded, and its type counts.
    ("crates/low/specs/Sealed.antt", "sealed n = inner n", "sealed n = inner 1", ""),
    ("crates/low/specs/Sealed.antt", "inner n = n", "inner n = 1", ""),
    ("crates/low/specs/Sealed.antt", "sealed : ℕ → ℕ", "sealed : ℕ → Bool", "body contract"),
    ("crates/low/specs/Sealed.antt", "opened n = inside n", "opened n = inside 1", "body contract"),
    ("crates/low/specs/Sealed.antt", "inside n = n", "inside n = 1", "body contract"),
    ("crates/a/proofs/one/one/Answers.antt", "unfolding opened\n", "unfolding sealed\n", "body contract"),
    ("edits/a/body.edit", "new: == 2", "new: == 3", "body"),
]
SUMS = """import json, sys
sys.dont_write_bytecode = True
sys.path.insert(0, "edits")
import record
sums = record.Sums()
print(json.dumps({name: sums.of(f"a/{name}") for name in sys.argv[1:]}))"""
EDITS = [name[len("edits/a/") : -len(".edit")] for name in FILES if name.startswith("edits/")]


# A toolchain that refuses each edit that it is given, in a file of the crate that $PLACE names. If $GATE is `whole`,
# its gate takes no names of crates, and it needs the libraries that were built.
RT = """#!/bin/sh
[ "$1" = version ] && { echo kit; exit; }
[ "$GATE $1" = "whole ci" ] && { echo "usage: rt ci"; exit 2; }
[ "$GATE" = whole ] && ! grep -q built crates/low/out/rlib/stamp && exit 1
for edit in crates/a/must-fail/*.edit; do
  echo "rt: must-fail a/${edit##*/}: refused, as it must be: note: $PLACE:1:1: it is not proved"
done
"""


def write_repository(folder: str) -> None:
    shutil.copytree(f"{TOP}/tools/prove", f"{folder}/tools/prove")
    os.makedirs(f"{folder}/edits")
    for name in os.listdir(f"{TOP}/edits"):
        if name.endswith(".py") or name == "try":
            shutil.copy(f"{TOP}/edits/{name}", f"{folder}/edits")
    for name, text in {**FILES, "HANDLES": ""}.items():
        Path(folder, name).parent.mkdir(parents=True, exist_ok=True)
        Path(folder, name).write_text(text, encoding="utf-8")


class Sums(Case):
    def sums(self, folder: str) -> dict[str, str]:
        done = subprocess.run(
            [sys.executable, "-c", SUMS, *EDITS], cwd=folder, stdout=subprocess.PIPE, text=True, check=True
        )
        found: dict[str, str] = json.loads(done.stdout)
        return found

    def test_changes(self) -> None:
        with tempfile.TemporaryDirectory() as folder:
            write_repository(folder)
            before = self.sums(folder)
            self.expect("sums", len({*before.values()}), len(EDITS))
            for name, old, new, wanted in CHANGES:
                text = FILES[name]
                self.expect(f"{name}: {old}", text.count(old), 1)
                Path(folder, name).write_text(text.replace(old, new), encoding="utf-8")
                now = self.sums(folder)
                changed = " ".join(sorted(it for it in EDITS if now[it] != before[it]))
                self.expect(f"{name}: {old} becomes {new}", changed, wanted)
                Path(folder, name).write_text(text, encoding="utf-8")


class Tries(Case):
    """edits/try, with a stand-in for the toolchain."""

    def tried(self, folder: str, place: str, *words: str, gate: str = "") -> tuple[int, str]:
        env = {**os.environ, "PATH": f"{folder}/bin:{os.environ['PATH']}", "PLACE": place, "GATE": gate}
        env.pop("CI", None)
        done = subprocess.run([f"{folder}/edits/try", *words], env=env, stdout=subprocess.PIPE, text=True, check=False)
        return done.returncode, done.stdout.splitlines()[-1]

    def test_what_is_tried(self) -> None:
        with tempfile.TemporaryDirectory() as folder:
            write_repository(folder)
            Path(folder, "bin").mkdir()
            Path(folder, "bin/rt").write_text(RT, encoding="utf-8")
            Path(folder, "bin/rt").chmod(0o755)
            unknown = self.tried(folder, "src/other.rt")
            self.expect("refused where no sum looks", unknown, (1, "0 passed, 4 failed, 0 as they were tried before"))
            first = self.tried(folder, "./proofs/Spare.antt", "a")
            self.expect("one of a lemma", first, (1, "1 passed, 3 failed, 0 as they were tried before"))
            second = self.tried(folder, "src/lib.rt")
            self.expect("the others", second, (0, "3 passed, 0 failed, 1 as they were tried before"))
            self.expect(
                "none", self.tried(folder, "src/lib.rt"), (0, "0 passed, 0 failed, 4 as they were tried before")
            )
            Path(folder, "crates/a/proofs/Lemmas.antt").write_text("pub same : ℕ\nsame = 2\n", encoding="utf-8")
            changed = self.tried(folder, "src/lib.rt")
            self.expect("what a lemma decides", changed, (0, "2 passed, 0 failed, 2 as they were tried before"))
            again = self.tried(folder, "src/lib.rt", "--all")
            self.expect("all", again, (0, "4 passed, 0 failed, 0 as they were tried before"))
            Path(folder, "crates/low/out/rlib").mkdir(parents=True)
            Path(folder, "crates/low/out/rlib/stamp").write_text("built", encoding="utf-8")
            alone = self.tried(folder, "src/lib.rt", "--all", gate="whole")
            self.expect("without a gate for some crates", alone, again)
