"""One crate of all Rattle that only tests compile: the crates of tests and the programs of benches/ are modules of it,
and the blocks of code in the heads of crates are tests of it. It is made in a copy of the crates, and compiled once,
without proofs. Compiled separately, each would compile all crates that it uses again.

tests/unproved/blocks.rt.txt has the names that the blocks use."""
from __future__ import annotations

import glob
import os
import re
import shutil
from pathlib import Path

NAME = "joined"
BLOCKS = "tests/unproved/blocks.rt.txt"
_BENCH = "_bench"  # ends the module of a program of benches/
_PLACE = re.compile(r" *// The block of (\w+)\.")
_USES = re.compile(r"^ *use (\w+)", re.M)
_BUILT_IN = {"crate", "std"}
_TEST = re.compile(r"^\s*#\[test\]", re.M)
_NAMED_TEST = re.compile(r"^\s*#\[test\]\s*\n(?:\s*#\[.*\]\s*\n)*\s*fn (\w+)", re.M)
_MODULE = re.compile(r"^mod (\w+);", re.M)

Blocks = dict[str, list[tuple[int, list[str]]]]


class Root:
    """The root of the crate, which is put together from several files: its lines, each with where it is from."""

    def __init__(self) -> None:
        self.lines: list[str] = []
        self.places: list[str] = []

    def add(self, path: str, first: int, lines: list[str]) -> None:
        for number, line in enumerate(lines, first):
            self.lines.append(line)
            self.places.append(f"{path}:{number}")


def read(path: str | Path) -> str:
    return Path(path).read_text(encoding="utf-8")


def sources_of(crate: str) -> list[Path]:
    return sorted(Path("crates", crate, "src").rglob("*.rt"))


def crates_of_tests() -> list[str]:
    """The crates that have #[test] functions."""
    crates = {
        path.split("/")[1] for path in glob.glob("crates/*/src/**/*.rt", recursive=True) if _TEST.search(read(path))
    }
    return sorted(crates)


def tests_in(module: str, text: str) -> list[str]:
    """The full names of the #[test] functions in the text of a module. ValueError if one has no name."""
    names = _NAMED_TEST.findall(text)
    if len(names) != len(_TEST.findall(text)):
        raise ValueError(f"{module}: after each #[test] a function must begin")
    return [f"{module}::{name}" for name in names]


def tests_of(crate: str) -> list[str]:
    """The full names of the tests of a crate of tests, in the joined crate."""
    found = []
    for path in sources_of(crate):
        parts = path.relative_to("crates", crate, "src").with_suffix("").parts
        found += tests_in("::".join([crate, *(() if parts == ("lib",) else parts)]), read(path))
    return sorted(found)


def as_module(crate: str, text: str, names: list[str]) -> str:
    """A source of a crate as that of a module with its name. `names` are the modules of its root."""
    text = re.sub(r"\bcrate::", f"crate::{crate}::", text)
    return re.sub(rf"^use ({'|'.join(names)})\b", rf"use crate::{crate}::\1", text, flags=re.M) if names else text


def blocks_in(text: str) -> list[tuple[int, list[str]]]:
    """The blocks of Rattle in the head of a file: the number of their first line, and their lines."""
    head = [line[3:] for line in text.split("\n") if line.startswith("//!")]
    fences = [number for number, line in enumerate(head) if line.startswith(" ```")]
    return [
        (start + 2, head[start + 1 : end]) for start, end in zip(fences[::2], fences[1::2]) if head[start] != " ```text"
    ]


def blocks() -> Blocks:
    """The blocks of each crate that has one in its head."""
    found = {path.split("/")[1]: blocks_in(read(path)) for path in sorted(glob.glob("crates/*/src/lib.rt"))}
    return {crate: those for crate, those in found.items() if those}


def programs() -> list[str]:
    return sorted(glob.glob("benches/*.rt.txt"))


def filled(text: str, blocks: Blocks) -> tuple[Root, list[str]]:
    """The root with the blocks, and what is wrong: a place without a block, or a block without a place."""
    root, waiting, found = Root(), dict(blocks), []
    for number, line in enumerate(text.splitlines(), 1):
        place = _PLACE.fullmatch(line)
        if not place:
            root.add(BLOCKS, number, [line])
            continue
        if place[1] not in waiting:
            found.append(f"{BLOCKS}:{number}: the crate {place[1]} has no other block in its head")
        for first, lines in waiting.pop(place[1], []):
            root.add(f"crates/{place[1]}/src/lib.rt", first, lines)
    return root, found + [f"{BLOCKS} has no place for the blocks of {name}" for name in waiting]


def make(folder: str, root: Root) -> str:
    """Makes the crate in a copy of all crates in a folder, and returns its own folder."""
    shutil.copytree("crates", f"{folder}/crates", ignore=shutil.ignore_patterns("out", "must-fail"))
    own = Path(folder, "crates", NAME)
    (own / "src").mkdir(parents=True)
    used = _USES.findall("\n".join(root.lines))
    for crate in crates_of_tests():
        used += _used_by(crate)
        _add_crate(own / "src", crate, root)
    for path in programs():
        module = os.path.basename(path).partition(".")[0] + _BENCH
        shutil.copy(path, own / "src" / f"{module}.rt")
        root.add(path, 1, [f"mod {module};"])
        used += _USES.findall(read(path))
    (own / "src/lib.rt").write_text("\n".join(root.lines) + "\n", encoding="utf-8")
    line = f"{NAME}: {' '.join(sorted({*used} - _BUILT_IN))}\n"
    Path(folder, "crates.txt").write_text(f"{read('crates.txt')}\n{line}", encoding="utf-8")
    return str(own)


def _used_by(crate: str) -> list[str]:
    """The crates that a crate uses."""
    line = re.search(rf"^{crate}:(.*)$", read("crates.txt"), re.M)
    assert line, f"crates.txt has no line of {crate}"
    return line[1].split()


def _add_crate(folder: Path, crate: str, root: Root) -> None:
    """Adds a crate of tests as a module."""
    names = _MODULE.findall(read(f"crates/{crate}/src/lib.rt"))
    for path in sources_of(crate):
        below = path.relative_to("crates", crate, "src")
        target = folder / f"{crate}.rt" if str(below) == "lib.rt" else folder / crate / below
        target.parent.mkdir(parents=True, exist_ok=True)
        target.write_text(as_module(crate, read(path), names), encoding="utf-8")
    root.add(f"crates/{crate}/src/lib.rt", 1, ["#[cfg(test)]", f"mod {crate};"])


def placed(text: str, places: list[str]) -> str:
    """What the compiler says, with the files of the repository in place of those of the copy."""
    text = re.sub(r"\bsrc/lib\.rt:(\d+)", lambda it: places[int(it[1]) - 1], text)
    text = re.sub(rf"\bsrc/(\w+){_BENCH}\.rt\b", r"benches/\1.rt.txt", text)
    crates = "|".join(crates_of_tests())
    text = re.sub(rf"\bsrc/({crates})\.rt\b", r"crates/\1/src/lib.rt", text)
    return re.sub(rf"\bsrc/({crates})/", r"crates/\1/src/", text)


def passed_in(text: str) -> list[str]:
    """The full names of the tests that passed, by what `rt try --test` printed."""
    return sorted(re.findall(r"^test (\w+(?:::\w+)+) \.\.\. ok$", text, re.M))
