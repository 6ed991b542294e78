"""The parts of a citation that the rules of each target name, for the front door: it looks a number up that came with
an incomplete citation only if a rule can use the rest. The file `named` has a line for each target that names some:

    TARGET  date volume page
"""
from collections.abc import Iterable, Iterator
from pathlib import Path

_FILE = "named"
_HEADER, _COUNT = 10, slice(4, 6)  # of a code file, and the place of the number of its names
_KEYS = {
    "date": {"rft.date", "rft.year", "x.from", "x.to"},
    "volume": {"rft.volume"},
    "page": {"rft.spage", "rft.epage", "rft.pages"},
}


def write(folder: Path, codes: Iterable[tuple[str, bytes]]) -> None:
    """Writes the file of an index, for pairs of a target's name and its code file."""
    named = ((name, _parts_in(code)) for name, code in codes)
    lines = "".join(f"{name}\t{' '.join(parts)}\n" for name, parts in named if parts)
    (folder / _FILE).write_text(lines, encoding="ascii")


def _parts_in(code: bytes) -> list[str]:
    """The parts of a citation that a code file names."""
    names = set(_names_in(code))
    return [part for part, keys in _KEYS.items() if keys & names]


def _names_in(code: bytes) -> Iterator[str]:
    """The names of a code file, which has for each its kind, its length and its characters: docs/MACHINE.md."""
    at = _HEADER
    for _ in range(int.from_bytes(code[_COUNT], "big")):
        end = at + 2 + code[at + 1]
        yield code[at + 2 : end].decode("ascii")
        at = end
