"""Writes the files of the index. None of them has more than MOST_BYTES, so that the front door can read each."""
import hashlib
from collections.abc import Iterable
from pathlib import Path

MOST_BYTES = 4 << 20  # lines beyond them are left out; nginx gives the front door at most 8 MiB of a file


def digest(text: str) -> str:
    """The MD5 sum of a text: its first digits are the name of the file that has its lines."""
    return hashlib.md5(text.encode(), usedforsecurity=False).hexdigest()


def text_of(lines: Iterable[bytes]) -> bytes:
    """Lines as the text of a file."""
    text = b"".join(line + b"\n" for line in lines)
    return text if len(text) <= MOST_BYTES else text[: text.rindex(b"\n", 0, MOST_BYTES) + 1]


def write_lines(path: Path, lines: Iterable[bytes]) -> None:
    """Writes lines, each after a line end, so that the front door can look for the end of any."""
    path.write_bytes(b"\n" + text_of(lines))
