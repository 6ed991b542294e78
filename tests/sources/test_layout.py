"""Each source, specification and proof of the crates has the layout of rt fmt. rt ci compares it too, but crate by
crate, and after the proofs of those below."""
from __future__ import annotations

import os
import subprocess
import tempfile

from fixtures import needs
from fixtures.cases import Case

SUFFIXES = (".rt", ".antt")
# There are more files than this.
LEAST = 1_000


def files(top: str) -> list[str]:
    found = []
    for folder, below, names in os.walk(top):
        below[:] = sorted(it for it in below if it != "out")
        found += [f"{folder}/{it}" for it in sorted(names) if it.endswith(SUFFIXES)]
    return found


def said(paths: list[str]) -> str:
    """What the formatter says of files that have another layout."""
    guide = subprocess.run(["rt", "doc"], stdout=subprocess.PIPE, encoding="utf-8", check=True).stdout.strip()
    command = [f"{os.path.dirname(guide)}/bin/rattle", "fmt", "--check"]
    found = []
    for at in range(0, len(paths), 500):
        ran = subprocess.run([*command, *paths[at : at + 500]], capture_output=True, encoding="utf-8")
        found += [ran.stdout + ran.stderr or f"status {ran.returncode}"] * (ran.returncode != 0)
    return "".join(found)


@needs.toolchain()
class Layout(Case):
    def test_files_of_crates(self) -> None:
        paths = files("crates")
        self.expect(f"{len(paths)} files", len(paths) > LEAST)
        self.expect("what the formatter says", said(paths), "")

    def test_another_layout_is_refused(self) -> None:
        with tempfile.TemporaryDirectory() as folder:
            for name in "lib.rt", "Lib.antt":
                paths = {it: f"{folder}/{it}{name}" for it in ("same", "spoilt")}
                source = "crates/budget/src/lib.rt" if name == "lib.rt" else "crates/budget/specs/Lib.antt"
                with open(source, encoding="utf-8") as file:
                    text = file.read()
                for it, path in paths.items():
                    with open(path, "w", encoding="utf-8") as copy:
                        copy.write(text if it == "same" else text.replace("\n", "  \n", 3) + "\n\n\n")
                self.expect(f"the same {name}", said([paths["same"]]), "")
                self.expect(f"a spoilt {name}", bool(said([paths["same"], paths["spoilt"]])))
