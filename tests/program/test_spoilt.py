"""What the program prints of examples/spoilt/, byte for byte: `inspect` of each table NAME.tsv is NAME.inspect, `lint`
of the rules NAME.rules and the table NAME.tsv, or target.tsv, is NAME.lint, and `explain` for NAME.query is
NAME.explain. Each has a warning or no web link, so the status is 1, except for inspecting target.tsv and hosts.tsv. The
tables and rules of examples/library/ and examples/menu/ have no warning."""
from __future__ import annotations

import glob
import os
import subprocess
from typing import Any

from fixtures import needs
from fixtures.cases import Case
from program.test_readme import Room

SPOILT = "examples/spoilt"
CLEAN = ("target", "hosts")
# There are at least this many spoilt files for each command, and clean targets in each registry.
LEAST = {"inspect": 15, "lint": 3, "explain": 1}
LEAST_TARGETS = {"library": 10, "menu": 4}

Ended = tuple[int, str, str]


def read(path: str) -> str:
    with open(path, encoding="utf-8", errors="surrogateescape", newline="") as file:
        return file.read()


def given(folder: str, *words: str) -> Ended:
    how: dict[str, Any] = {"capture_output": True, "encoding": "utf-8", "errors": "surrogateescape"}
    ran = subprocess.run([needs.PROGRAM, *words], cwd=folder, **how)
    return ran.returncode, ran.stdout, ran.stderr


def commands() -> list[tuple[str, list[str], str, int]]:
    """What each command is given, the file with its output, and its status."""
    found = []
    for table in sorted(glob.glob(f"{SPOILT}/*.tsv")):
        name = table.removesuffix(".tsv")
        found.append(("inspect", [table], f"{name}.inspect", 0 if os.path.basename(name) in CLEAN else 1))
    for rules in sorted(glob.glob(f"{SPOILT}/*.rules")):
        name = rules.removesuffix(".rules")
        table = f"{name}.tsv" if os.path.exists(f"{name}.tsv") else f"{SPOILT}/target.tsv"
        found.append(("lint", [rules, table], f"{name}.lint", 1))
    for query in sorted(glob.glob(f"{SPOILT}/*.query")):
        name = query.removesuffix(".query")
        words = [f"{name}.rules", f"{SPOILT}/target.tsv", read(query).rstrip("\n")]
        found.append(("explain", words, f"{name}.explain", 1))
    return found


def targets(registry: str) -> list[tuple[str, str]]:
    """The name and the table of each target."""
    rows = [line.split("\t") for line in read(registry).splitlines()]
    return [(row[0], row[2]) for row in rows]


def is_clean(ended: Ended) -> bool:
    status, printed, errors = ended
    return status == 0 and printed != "" and errors == ""


@needs.program()
class SpoiltFiles(Case):
    def test_stored_output(self) -> None:
        counts = dict.fromkeys(LEAST, 0)
        for command, words, path, status in commands():
            self.expect(f"{command} {' '.join(words)}", given(".", command, *words), (status, read(path), ""))
            counts[command] += 1
        for command, count in counts.items():
            self.expect(f"{count} runs of {command}", count >= LEAST[command])

    def test_each_stored_output_is_compared(self) -> None:
        stored = {it for command in LEAST for it in glob.glob(f"{SPOILT}/*.{command}")}
        self.expect("the files", {path for _, _, path, _ in commands()}, stored)

    def test_clean_targets(self) -> None:
        """The tables, and the rules with the tables, of both registries."""
        room = Room(self)
        library = f"{room.folder}/library"
        subprocess.run(["examples/library/build", needs.PROGRAM, library], check=True, capture_output=True)
        for name, registry in {"library": f"{library}/registry.tsv", "menu": "examples/menu/registry.tsv"}.items():
            found = targets(registry)
            self.expect(f"{len(found)} targets of {name}", len(found) >= LEAST_TARGETS[name])
            for target, table in found:
                self.expect(f"inspect {table}", is_clean(given(room.folder, "inspect", table)))
                rules = f"examples/{name}/{target}.rules"
                self.expect(f"lint {rules} {table}", is_clean(given(room.folder, "lint", rules, table)))

    def test_spoilt_files_are_not_clean(self) -> None:
        """What finds clean targets finds each warning, no output, and an error."""
        for command, words, path, status in commands():
            if status:
                self.expect(f"{command} {words[0]}", is_clean(given(".", command, *words)), False)
        for ended in (0, "", ""), (0, "a\n", "b\n"), (1, "a\n", ""):
            self.expect(f"{ended}", is_clean(ended), False)
