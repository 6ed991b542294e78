"""The file `tried`: which edits of this folder were refused, for which sources, by which toolchain."""
import hashlib
import os
import sys

import parts
import reached
import stored
from stored import text_of

sys.path.insert(0, "tools/prove")
from crates import read

TRIED = "edits/tried"
HEAD = """\
# edits/try writes this file: an edit, the sum of what decides about it when it was refused, and the toolchain that
# refused it.
"""


class Sums:
    """The sums of the edits as they are now."""

    def __init__(self):
        self._all = frozenset(read(".")[1])
        self._crates, self._below = {}, {}

    def of(self, edit):
        """Returns a sum of an edit CRATE/NAME, of the files of its crate that can decide about it, without comments and
        empty lines, and of the statements of lower crates that these and the edit depend on."""
        crate, text, deciding = edit.split("/")[0], text_of(path_of(edit)), self.deciding(edit)
        found = hashlib.sha256(text.encode())
        for path, counted in sorted(deciding.items()):
            found.update(repr((path, counted_lines(counted))).encode())
        found.update(repr(sorted(self._stated_below(crate, deciding, text))).encode())
        return found.hexdigest()[:16]

    def deciding(self, edit):
        """Returns the files of its crate that can decide about an edit, with what counts of each."""
        crate = edit.split("/")[0]
        if crate not in self._crates:
            self._crates[crate] = parts.Crate(crate)
        return self._crates[crate].deciding(stored.changed_by(crate, path_of(edit)))

    def _stated_below(self, crate, deciding, edit):
        key = frozenset(deciding.items())
        sources = [text for path, text in deciding.items() if path.endswith(".rt")]
        if key not in self._below:
            self._below[key] = {*reached.statements(crate, self._all, deciding.values(), sources).values()}
        return self._below[key] | {*reached.statements(crate, self._all, [edit], [*sources, edit]).values()}


def path_of(edit):
    return f"edits/{edit}.edit"


def counted_lines(text):
    """Returns the lines of a text that are neither comments nor empty."""
    return [line for line in text.split("\n") if line and not line.lstrip().startswith(("//", "--"))]


def tried():
    """Returns the sum and the toolchain of each edit, CRATE/NAME, when it was last tried and refused."""
    lines = text_of(TRIED).split("\n") if os.path.isfile(TRIED) else []
    rows = (line.split("\t") for line in lines if line and not line.startswith("#"))
    return {edit: (found, toolchain) for edit, found, toolchain in rows}


def logic_of(toolchain):
    """Returns the logic by which a toolchain proves, of what `rt version` prints: kits with one logic differ in their
    commands."""
    return toolchain.rpartition(" logic ")[2]


def write(rows):
    with open(TRIED, "w", encoding="utf-8") as file:
        file.write(HEAD)
        file.writelines(f"{edit}\t{found}\t{toolchain}\n" for edit, (found, toolchain) in sorted(rows.items()))
