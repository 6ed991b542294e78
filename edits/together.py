"""Tries several edits of a crate in one check.

A function is proved from its body and from the contracts of what it calls. So edits of different functions do not touch
each other, if each changes a body, or what a law states: a function with an empty body. `rt check` names each function
that it does not prove, and what that calls of those: of such a function nothing is known yet, so its edit is tried in a
later round. What is left has to be tried alone: edits of types, constants and definitions, and those that seem not to
be refused."""
from __future__ import annotations

import dataclasses
import os
import re
import shutil
import subprocess
from collections.abc import Iterator

import stored
from statements import FUNCTION, head_from

# What the toolchain says of a place, of a function, and of one that has to wait for another.
PLACE = re.compile(r"(?:note: )?(?:\./)?((?:src|proofs)/[^:\s]+):(\d+):\d+: (.*)")
SAID = re.compile(r"fn (\S+): (.*)")
WAITS = re.compile(r"it calls .*which (?:is|are) not proved")
# A name in a proof that the edit took away says nothing of a contract.
NAMES = re.compile(r"has no field|is not in scope|has no `|was not admitted")
# What it says of a crate that it has checked, and of one that is not proved.
VERDICT, NOT_PROVED = "logic=", "logic=not-proved"
EMPTY = "{}"
# The trait of an `impl` block, if it has one, and its type.
IMPLEMENTED = re.compile(r"(?:unsafe )?impl(?:<[^{]*?>)? (?:(?:\w+::)*(\w+)[^{]*? for )?&?(?:'\w+ )?(\w+)")


@dataclasses.dataclass(frozen=True)
class Function:
    """The function that an edit changes: its file in the crate, the form of the name of its `impl` block, its name, its
    first and last line, and whether the edit changes the contract."""

    path: str
    block: str
    name: str
    first: int
    last: int
    is_law: bool

    def _modules(self) -> list[str]:
        names = self.path.removeprefix("src/").removesuffix(".rt").split("/")
        return [] if names in (["lib"], ["main"]) else names

    def is_at(self, path: str, line: int) -> bool:
        """Whether a place is in it or in its proof."""
        if path == self.path:
            return self.first <= line <= self.last
        module = "/".join(["proofs", *self._modules(), ""])
        return path.startswith(module) and self._is_here(path[len(module) :].split("/")[: 2 if self.block else 1])

    def _is_here(self, names: list[str]) -> bool:
        """Whether these names, of a block and a function, are its own."""
        *block, name = names
        return re.fullmatch(self.block, "::".join(block)) is not None and name == self.name

    def is_named(self, name: str) -> bool:
        """Whether the toolchain may mean this function by a name such as `crate::module::Type::name`."""
        _, *names = name.split("::")
        modules = self._modules()
        return names[: len(modules)] == modules and self._is_here(names[len(modules) :] or [""])


def functions_in(text: str) -> list[tuple[int, int, int, str, str]]:
    """The functions of a source: the lines, counted from 0, of the beginning, of the end of the contract and after the
    body, the form of the name of the `impl` block, and the name."""
    lines, found, block = text.split("\n"), [], ""
    for at, line in enumerate(lines):
        if implemented := IMPLEMENTED.match(line):
            # That of `From<AllocError>` for `Fault` has the name `FaultFromAllocError`.
            block = implemented[2] + (rf"{implemented[1]}\w*" if implemented[1] else "")
        elif line == "}":
            block = ""
        if begins := FUNCTION.match(line):
            head, end = head_from(lines, at, begins[1])
            found.append((at, at + len(head), end, block, begins[0].split()[-1]))
    return found


def function_of(crate: str, path: str) -> Function | None:
    """The one function that an edit changes, if it changes its body or, if that is empty, its contract alone."""
    edit = stored.read(crate, path)
    (file, after), *others = edit.texts.items()
    old, new = edit.before[file].split("\n"), after.split("\n")
    if others or not file.endswith(".rt") or len(old) != len(new):
        return None
    changed = {at for at, (one, two) in enumerate(zip(old, new)) if one != two}
    try:
        found = functions_in(edit.before[file])
    except ValueError:
        return None
    for first, body, end, block, name in found:
        is_law = old[end - 1].strip().endswith(EMPTY)
        if changed <= {*range(first + 1 if is_law else body, end)}:
            return Function(file, block, name, first + 1, end, is_law)
    return None


def chosen(functions: dict[str, Function]) -> dict[str, Function]:
    """One edit of each function."""
    found: dict[str, Function] = {}
    for edit, function in functions.items():
        if function not in found.values():
            found[edit] = function
    return found


def texts_of(crate: str, edits: list[str]) -> dict[str, str]:
    """The files that edits of different functions change, with the lines of each."""
    texts: dict[str, list[str]] = {}
    for name in edits:
        edit = stored.read(crate, f"edits/{crate}/{name}.edit")
        for path, after in edit.texts.items():
            old, new = edit.before[path].split("\n"), after.split("\n")
            lines = texts.setdefault(path, [*old])
            for at, (one, two) in enumerate(zip(old, new)):
                lines[at] = two if one != two else lines[at]
    return {path: "\n".join(lines) for path, lines in texts.items()}


def judged(said: str, functions: dict[str, Function]) -> tuple[dict[str, str], set[str]]:
    """Of these edits those that a contract refused, each with the file in which it was, and those of which nothing is
    known yet."""
    places = [(found[1], int(found[2]), found[3]) for line in said.split("\n") if (found := PLACE.match(line))]
    waiting = [found[1] for line in said.split("\n") if (found := SAID.match(line)) and WAITS.search(found[2])]
    refused: dict[str, str] = {}
    for edit, function in functions.items():
        for path, line, what in places:
            is_reason = "it is not proved" in what or "error" in what
            if is_reason and function.is_at(path, line) and not NAMES.search(what):
                refused.setdefault(edit, path)
    unknown = {edit for edit, function in functions.items() if any(map(function.is_named, waiting))}
    return {edit: path for edit, path in refused.items() if edit not in unknown}, unknown


def reason_in(said: str) -> str:
    """Why the toolchain checked nothing: its first line with an error, or else its last one."""
    lines = [line.strip() for line in said.split("\n") if line.strip()] or ["it says nothing"]
    return next((line for line in lines if "error" in line), lines[-1])


class Copy:
    """A crate in a copy of the crates, where edits of it are tried."""

    def __init__(self, folder: str, crate: str) -> None:
        self._folder, self._crate = f"{folder}/crates/{crate}", crate
        kept = f"crates/{crate}/out/incremental"
        if os.path.isdir(kept):
            shutil.copytree(kept, f"{self._folder}/out/incremental", dirs_exist_ok=True)

    def check(self, texts: dict[str, str]) -> str:
        """What the toolchain says of the crate with these texts."""
        before = {path: stored.text_of(f"crates/{self._crate}/{path}") for path in texts}
        self._write(texts)
        how = {"stdout": subprocess.PIPE, "stderr": subprocess.STDOUT, "text": True, "errors": "replace"}
        words = ["rt", "check", "--jobs", "1"]
        ran = subprocess.run(words, cwd=self._folder, stdin=subprocess.DEVNULL, check=False, **how)
        self._write(before)
        if VERDICT not in ran.stdout:
            # An edit that does not compile, or libraries of two builds, tell nothing of the others.
            print(f"{self._crate}: not checked: {reason_in(ran.stdout)}", flush=True)
        return ran.stdout if NOT_PROVED in ran.stdout else ""

    def _write(self, texts: dict[str, str]) -> None:
        for path, text in texts.items():
            with open(f"{self._folder}/{path}", "w", encoding="utf-8") as file:
                file.write(text)


def refused_of(folder: str, crate: str, names: list[str]) -> Iterator[dict[str, str]]:
    """Yields, round by round, those of a crate's edits that are refused together with others, each with the file in
    which it was."""
    all_of = {name: function_of(crate, f"edits/{crate}/{name}.edit") for name in names}
    left = {name: function for name, function in all_of.items() if function is not None}
    if len(left) < 2:
        return
    copy = Copy(folder, crate)
    while left:
        batch = chosen(left)
        refused, unknown = judged(copy.check(texts_of(crate, [*batch])), batch)
        proved = batch.keys() - refused.keys() - unknown
        if any(batch[name].is_law for name in proved):
            # What calls it was proved from another contract, so nothing else is taken from this round.
            refused = {}
        yield refused
        done = refused.keys() | proved
        print(f"{crate}: {len(refused)} of {len(batch)} edits refused together", flush=True)
        if not done:
            return
        left = {name: function for name, function in left.items() if name not in done}
