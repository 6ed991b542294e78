"""Each must-fail edit still applies to its crate, and has a name of its own there. Nothing is proved.

The gate tries those of crates/CRATE/must-fail/, whose number is limited. edits/try tries the others; the file
edits/tried has a sum of what decided about each, and the toolchain that refused it. An edit fails here if it, what its
crate's files say that can decide about it, the statements of lower crates that these depend on, or the logic of the
toolchain have changed since then."""
from __future__ import annotations

import os
import subprocess
import sys
import tempfile
from collections.abc import Iterable, Iterator, Mapping
from typing import Any

from fixtures import TOP, needs
from fixtures.cases import Case

sys.path.insert(0, f"{TOP}/edits")
import record
import stored

MOST_EDITS, MOST_CRATES = 67, 15
# More edits than this change a line with a premise.
LEAST_OF_PREMISES = 100
ARROW = "→"  # after a premise
Edits = list[tuple[str, str]]


def of_names(edits: Edits) -> Iterator[str]:
    """What is wrong with each edit: a crate and a path."""
    found: dict[tuple[str, str], str] = {}
    for crate, path in edits:
        if not os.path.isdir(f"crates/{crate}"):
            yield f"{path}: there is no crate {crate}"
            continue
        first = found.setdefault((crate, stored.name_of(path)), path)
        why = stored.fault(crate, path) if first == path else f"{first} has the same name"
        if why:
            yield f"{path}: {why}"


def changed_lines(crate: str, path: str) -> list[tuple[str, str]]:
    """The lines that an edit changes, before and after."""
    edit = stored.read(crate, path)
    files = [(edit.before[it].split("\n"), text.split("\n")) for it, text in edit.texts.items()]
    return [(old, new) for before, after in files for old, new in zip(before, after, strict=True) if old != new]


def of_premises(edits: Edits) -> Iterator[str]:
    """Which edits remove a premise of a statement and put none in its place. A proof that takes the premise does not
    fit what is left, whether it needs the premise or not, so such an edit shows nothing."""
    for crate, path in edits:
        if any(new.count(ARROW) < old.count(ARROW) for old, new in changed_lines(crate, path)):
            yield f"{path}: put a premise that says nothing, such as x ≡ x, in place of the one that it removes"


def number_of_premises(edits: Edits) -> int:
    """How many edits change a line with a premise."""
    return sum(any(ARROW in old for old, _ in changed_lines(crate, path)) for crate, path in edits)


def of_sums(sums: Mapping[str, str], tried: Mapping[str, Any]) -> Iterator[str]:
    """Which crates have edits about which something has changed since they were tried, or that were never tried."""
    changed = [edit for edit in sums if edit not in tried or tried[edit][0] != sums[edit]]
    if changed:
        these = " ".join(crates_of(changed))
        yield f"{len(changed)} edits are not as they were tried: run edits/try {these}, and commit {record.TRIED}"
    for edit in sorted({*tried} - {*sums}):
        yield f"{record.TRIED}: there is no edit {edit} in edits"


def crates_of(edits: Iterable[str]) -> list[str]:
    return sorted({edit.partition("/")[0] for edit in edits})


def of_toolchains(toolchain: str, tried: Mapping[str, Any]) -> Iterator[str]:
    """Which crates have edits that were refused by another logic than that of this toolchain."""
    logic = record.logic_of(toolchain)
    others = [edit for edit, (_, refused_by) in tried.items() if record.logic_of(refused_by) != logic]
    if others:
        yield f"tried by another logic than that of {toolchain}: run edits/try {' '.join(crates_of(others))}"


def of_numbers(gate: Edits, others: Edits) -> Iterator[str]:
    """Too many edits for the gate, or none."""
    crates = {crate for crate, _ in gate}
    if len(gate) > MOST_EDITS or len(crates) > MOST_CRATES:
        has = f"the gate has {len(gate)} edits in {len(crates)} crates"
        yield f"{has}, and time for {MOST_EDITS} in {MOST_CRATES}"
    if not gate or not others:
        yield f"{len(gate)} edits of the gate and {len(others)} others were found"


def faults() -> list[str]:
    gate, others = stored.of_the_gate(), stored.others()
    found = [*of_names([*gate, *others])]
    if not found:
        sums, edits = record.Sums(), [f"{crate}/{stored.name_of(path)}" for crate, path in others]
        found = [*of_sums({it: sums.of(it) for it in edits}, record.tried())]
    return found + [*of_numbers(gate, others)]


def line() -> str:
    return f"{len(stored.of_the_gate())} edits of the gate and {len(stored.others())} others apply"


class MustFailEdits(Case):
    def test_all_apply_and_were_tried(self) -> None:
        self.expect(line(), faults(), [])

    def test_all_keep_the_premises(self) -> None:
        edits = [*stored.of_the_gate(), *stored.others()]
        number = number_of_premises(edits)
        self.expect(f"{number} edits of lines with premises", number > LEAST_OF_PREMISES)
        self.expect("premises", [*of_premises(edits)], [])

    @needs.toolchain()
    def test_all_were_tried_by_this_toolchain(self) -> None:
        version = subprocess.run(["rt", "version"], stdout=subprocess.PIPE, text=True, check=True).stdout.strip()
        tried = record.tried()
        self.expect("edits that were tried", bool(tried), True)
        self.expect(version, [*of_toolchains(version, tried)], [])


# An edit that applies to the crate budget, and what is changed in it.
EDIT = "crates/budget/must-fail/cut_counts_its_items.edit"


class SpoiltEdits(Case):
    """The checks fail for edits and sums that are changed."""

    def test_an_edit_that_does_not_apply(self) -> None:
        with open(EDIT, encoding="utf-8") as file:
            text = file.read()
        self.expect("the edit", [*of_names([("budget", EDIT)])], [])
        with tempfile.TemporaryDirectory() as folder:
            for at, spoilt in enumerate((text.replace("old:", "old: x", 1), text.replace("file:", "file: x", 1), "")):
                path = f"{folder}/{at}.edit"
                with open(path, "w", encoding="utf-8") as file:
                    file.write(spoilt)
                self.expect(f"spoilt edit {at}", len([*of_names([("budget", path)])]), 1)

    def test_names(self) -> None:
        twice = [*of_names([("budget", EDIT), ("budget", EDIT.replace("budget/", "budget/../budget/"))])]
        self.expect("two edits of one name", [it.partition(": ")[2] for it in twice], [f"{EDIT} has the same name"])
        self.expect("no crate", [*of_names([("nowhere", EDIT)])], [f"{EDIT}: there is no crate nowhere"])

    def test_premises(self) -> None:
        law = "(a b : Text) → IsUriText a → IsUriText b → IsUriText (a ++ b) }"
        with tempfile.TemporaryDirectory() as folder:
            for at, (premise, wanted) in enumerate((("", 1), ("b ≡ b → ", 0), ("IsUriText a → ", 0))):
                path = f"{folder}/{at}.edit"
                with open(path, "w", encoding="utf-8") as file:
                    file.write(f"file: src/laws.rt\nold: {law}\nnew: {law.replace('IsUriText b → ', premise)}\n")
                self.expect(f"'{premise}' for a premise", len([*of_premises([("text_model", path)])]), wanted)

    def test_sums(self) -> None:
        tried = {"a/one": ("1", "toolchain"), "b/two": ("2", "toolchain")}
        self.expect("as they were tried", [*of_sums({"a/one": "1", "b/two": "2"}, tried)], [])
        for sums, these in (
            ({"a/one": "1", "b/two": "3"}, "run edits/try b,"),
            ({"a/one": "1", "b/two": "2", "c/three": "4"}, "run edits/try c,"),
            ({"a/one": "2", "b/two": "1", "a/four": "1"}, "3 edits are not as they were tried: run edits/try a b,"),
        ):
            found = [*of_sums(sums, tried)]
            self.expect(f"{sums}", [these in it for it in found], [True])
        found = [*of_sums({"a/one": "1"}, tried)]
        self.expect("an edit that is gone", found, ["edits/tried: there is no edit b/two in edits"])

    def test_toolchains(self) -> None:
        tried = {"a/one": ("1", "old"), "a/two": ("1", "old"), "b/three": ("2", "new")}
        self.expect("one toolchain", [*of_toolchains("old", {"a/one": ("1", "old")})], [])
        found = [*of_toolchains("new", tried)]
        self.expect("two", [it.endswith("run edits/try a") for it in found], [True])
        kits = {"a/one": ("1", "kit-1 logic 5a"), "b/two": ("2", "kit-2 logic 5a")}
        self.expect("two kits of one logic", [*of_toolchains("kit-3 logic 5a", kits)], [])
        found = [*of_toolchains("kit-1 logic 6b", kits)]
        self.expect("another logic of a kit", [it.endswith("run edits/try a b") for it in found], [True])

    def test_numbers(self) -> None:
        one: Edits = [("a", "a/1.edit")]
        none: Edits = []
        self.expect("few", [*of_numbers(one, one)], [])
        many, spread = one * (MOST_EDITS + 1), [(f"{it}", "") for it in range(MOST_CRATES + 1)]
        for gate, others in (many, one), (spread, one), (none, one), (one, none):
            self.expect(f"{len(gate)} and {len(others)}", len([*of_numbers(gate, others)]), 1)
