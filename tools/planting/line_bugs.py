"""The lines that can be taken out of a declaration, or of a script of the shell."""
from __future__ import annotations

import re
import subprocess
from collections.abc import Iterator

from planting.bug import Bug

# A line that alone opens or closes a block: without it, the file cannot be read at all.
_BRACKET = re.compile(r"\s*[{}()\[\]]*\s*$|.*[{(]\s*(#.*)?$")
_COMMENT = re.compile(r"\s*(#|//|;)")
# Nor can it without a line that has no letter or number. The pieces of a long command are lines of it.
_NOTHING = re.compile(r"\s*(#.*|\W*)$")


def _lines(path: str, text: str) -> Iterator[tuple[str, Bug]]:
    offset = 0
    for line in text.splitlines(keepends=True):
        yield line, Bug(path, "line", offset, offset + len(line), "")
        offset += len(line)


def of_declaration(path: str, text: str) -> list[Bug]:
    return [bug for line, bug in _lines(path, text) if not _BRACKET.match(line) and not _COMMENT.match(line)]


def of_script(path: str, text: str) -> list[Bug]:
    """Those without which the script cannot be read are among them."""
    return [bug for line, bug in _lines(path, text) if not _NOTHING.match(line)]


def parses(text: str) -> bool:
    """Whether bash can read a script, of whichever shell it is."""
    return subprocess.run(["bash", "-n"], input=text.encode(), capture_output=True, check=False).returncode == 0
