"""The contracts of the crates, read from their sources: each public call that has one, with the names of the clauses
that it ensures. The calls of crates of tests are left out."""
from __future__ import annotations

import glob
import os
import re
from collections.abc import Iterator
from typing import NamedTuple

from sources.allocating_calls import errors
from sources.allocating_calls import result_of

PATH = "docs/contracts.txt"
HEAD = """\
# Each public call that has a contract, with the names of the clauses that the contract ensures. If no name follows, it
# is one clause. The crates are in the order of crates.txt. This writes the file:
# cd tests && python3 -m sources.writing_contracts
"""
_IMPL = re.compile(r"impl\s*(?:<[^{]*?>\s+(?=[A-Z\w:&]))?(.*)")
_FUNCTION = re.compile(r"(\s*)(pub )?(?:ghost )?(?:const )?fn (\w+)")
_CLAUSE = re.compile(r"\bensures\s+(?:(\w+)\s+)?\{")

# A call: its crate, its type or trait, if it has one, and its name; and what is known of it: the names of its clauses,
# and whether it has a clause.
Call = tuple[str, "str | None", str]
Known = dict[Call, tuple[list[str], bool]]


class Block(NamedTuple):
    kind: str  # "trait" or "impl"
    trait: str | None
    owner: str | None  # the type


class Function(NamedTuple):
    module: str
    block: Block | None
    is_public: bool
    name: str
    clauses: list[str]  # one without a name is empty
    result: str  # its type


def text_of(path: str) -> str:
    with open(path, encoding="utf-8") as file:
        return file.read()


def without_comments(path: str) -> str:
    return re.sub(r"//[^\n]*", "", text_of(path))


def source_paths(top: str) -> list[str]:
    return sorted(glob.glob(f"{top}/crates/*/src/**/*.rt", recursive=True))


def full_name(call: Call) -> str:
    return "::".join(it for it in call if it)


def _owner_of(head: str) -> Block:
    """The block that has this head, without type parameters."""
    if "trait" in head.split("{")[0].split("<")[0].split():
        return Block("trait", _required(re.search(r"trait (\w+)", head))[1], None)
    found = _required(_IMPL.search(head))[1]
    found = re.sub(r"<[^<>]*(?:<[^<>]*>[^<>]*)*>", "", found)
    both = re.match(r"\s*([\w:&' ]+?)\s+for\s+([\w:&' ]+)", found)
    if both:
        return Block("impl", both[1].strip(), both[2].strip())
    return Block("impl", None, _required(re.match(r"\s*([\w:]*)", found))[1])


def _required(found: re.Match[str] | None) -> re.Match[str]:
    assert found
    return found


def _clauses_from(lines: list[str], number: int, indent: str) -> list[str]:
    """The names of the clauses of the function that begins on this line; one without a name is empty."""
    found: list[str] = []
    for at in range(number, len(lines)):
        line = lines[at]
        found += [name or "" for name in _CLAUSE.findall(line)]
        is_head = "ensures" in line or at == number and not re.search(r"[{;]\s*$|\{\s*\}$", line)
        if line == indent + "{" or line.strip() == "{}" or line.rstrip().endswith(";"):
            break
        if not is_head and re.search(r"\)\s*(?:->.*)?\{\s*\}?$", line) or at > number and line.startswith(indent + "}"):
            break
        if at == number and re.search(r"\{\s*$", line) and "ensures" not in line:
            break
    return found


class Sources:
    """The sources below a folder, which has crates/ and crates.txt."""

    def __init__(self, top: str) -> None:
        self.top = top
        lines = [line.partition("#")[0].strip() for line in text_of(f"{top}/crates.txt").split("\n")]
        self.every = [line.partition(":")[0].split()[0] for line in lines if line]
        self.crates = [it for it in self.every if not it.endswith("_tests")]
        self._functions = {it: [*self._read(it)] for it in self.every}

    def _read(self, crate: str) -> Iterator[Function]:
        source = f"{self.top}/crates/{crate}/src"
        for path in sorted(glob.glob(f"{source}/**/*.rt", recursive=True)):
            block, lines = None, without_comments(path).split("\n")
            for number, line in enumerate(lines):
                if re.match(r"(?:pub )?(?:unsafe )?(?:impl|trait)\b", line):
                    end = next(at for at in range(number, len(lines)) if "{" in lines[at])
                    block = _owner_of(" ".join(lines[number : end + 1]))
                elif line.startswith("}"):
                    block = None
                found = _FUNCTION.match(line)
                if found:
                    module, clauses = os.path.relpath(path, source)[:-3], _clauses_from(lines, number, found[1])
                    yield Function(module, block, bool(found[2]), found[3], clauses, result_of(lines, number))

    def given_out(self, crate: str) -> tuple[set[str], set[str]]:
        """The names that a crate's root gives out, and its public modules."""
        path = f"{self.top}/crates/{crate}/src/lib.rt"
        root = without_comments(path) if os.path.exists(path) else ""
        names: set[str] = set()
        for group in re.findall(r"pub use [\w:]+::(\{[^}]*\}|\w+)", root):
            names |= {it.strip().split(" as ")[-1] for it in group.strip("{}").split(",") if it.strip()}
        return names, set(re.findall(r"^pub mod (\w+)", root, re.M))

    def public_calls(self, crate: str) -> Iterator[tuple[str | None, Function]]:
        """Each public call of a crate, with its type or trait, if it has one."""
        names, modules = self.given_out(crate)
        for it in self._functions[crate]:
            if it.block is None:
                is_given_out = it.is_public and (it.name in names or it.module in modules or it.module == "lib")
            elif it.block.kind == "trait":
                is_given_out = it.block.trait in names
            else:
                is_known = it.block.owner in names or it.module in modules
                is_given_out = it.block.trait is None and it.is_public and is_known
            if is_given_out:
                yield (it.block.trait or it.block.owner) if it.block else None, it

    def trait_clauses(self) -> dict[tuple[str | None, str], set[str]]:
        found: dict[tuple[str | None, str], set[str]] = {}
        for it in [each for crate in self.every for each in self._functions[crate]]:
            if it.block and it.block.kind == "trait":
                found.setdefault((it.block.trait, it.name), set()).update(it.clauses)
        return found

    def contracts(self) -> Known:
        """The clauses of each public call of all crates."""
        known: Known = {}
        of_traits = self.trait_clauses()
        for crate in self.crates:
            for owner, it in self.public_calls(crate):
                known[crate, owner, it.name] = [name for name in it.clauses if name], bool(it.clauses)
            names, _ = self.given_out(crate)
            for it in self._functions[crate]:
                if it.block and it.block.kind == "impl" and it.block.trait and it.block.owner in names:
                    # What the trait ensures, its own row says.
                    ensured = () if it.block.trait == "Watch" else of_traits.get((it.block.trait, it.name), ())
                    more = [name for name in it.clauses if name and name not in ensured]
                    if more:
                        known[crate, it.block.owner, it.name] = more, True
        return known

    def calls_that_allocate(self) -> Iterator[str]:
        """The path of each public call whose result may be that an allocation failed."""
        failed = errors([without_comments(path) for path in source_paths(self.top)])
        for crate in self.crates:
            for owner, it in self.public_calls(crate):
                if failed & {*re.findall(r"\w+", it.result)}:
                    yield full_name((crate, owner, it.name))


def lines_of(known: Known) -> list[str]:
    """The lines of contracts.txt."""
    return [
        f"{full_name(call)}{': ' if clauses else ''}{' '.join(clauses)}"
        for call, (clauses, has_clause) in known.items()
        if has_clause
    ]
