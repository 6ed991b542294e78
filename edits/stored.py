"""The must-fail edits: those of the gate, crates/CRATE/must-fail/NAME.edit, and others,
edits/CRATE/NAME.edit."""
import functools
import glob
import os

PARTS = ("src", "specs", "proofs")


def of_the_gate():
    """Returns the edits of the gate, as pairs of a crate and a path."""
    return [(path.split("/")[1], path) for path in sorted(glob.glob("crates/*/must-fail/*.edit"))]


def others():
    """Returns the other edits, as pairs of a crate and a path."""
    return [(path.split("/")[1], path) for path in sorted(glob.glob("edits/*/*.edit"))]


def name_of(path):
    return os.path.basename(path)[: -len(".edit")]


class Bad(Exception):
    """An edit cannot be applied."""


class Edit:
    """An edit while it is read, line by line, and applied to the texts of its crate."""

    def __init__(self, crate):
        self.crate = crate
        self.path, self.old, self.before, self.texts = None, None, {}, {}

    def take(self, line):
        word, _, rest = line.partition(":")
        rest = rest[1:] if rest.startswith(" ") else rest
        if word == "file":
            self._open(rest.strip())
        elif word == "old":
            self.old = rest
        elif word == "new":
            self._replace(rest)
        elif line.strip():
            raise Bad(f"this line is not read: {line[:60]}")

    def _open(self, path):
        is_part = path.split("/")[0] in PARTS and os.path.normpath(path) == path
        if not is_part or not os.path.isfile(f"crates/{self.crate}/{path}"):
            raise Bad(f"no file {path} in src/, specs/ or proofs/ of {self.crate}")
        self.path, self.old = path, None
        if path not in self.texts:
            self.texts[path] = self.before[path] = text_of(f"crates/{self.crate}/{path}")

    def _replace(self, new):
        if self.path is None or not self.old:
            raise Bad("a line 'new:' without its lines 'file:' and 'old:'")
        count = self.texts[self.path].count(self.old)
        if count != 1:
            raise Bad(f"the text of a line 'old:' is {count} times in {self.path}, not once")
        self.texts[self.path] = self.texts[self.path].replace(self.old, new)
        self.old = None


def read(crate, path):
    """Returns an edit that was applied to the texts of its crate."""
    edit = Edit(crate)
    for line in text_of(path).split("\n"):
        edit.take(line)
    return edit


def changed_by(crate, path):
    """Returns the files of the crate that an edit changes, with their texts afterwards."""
    return {f"crates/{crate}/{part}": text for part, text in read(crate, path).texts.items()}


def fault(crate, path):
    """Returns why an edit cannot be applied to its crate, as the toolchain reads edits, or None."""
    try:
        edit = read(crate, path)
    except Bad as why:
        return str(why)
    if edit.old is not None:
        return "its last line 'old:' has no line 'new:'"
    return None if edit.texts != edit.before else "it changes nothing"


@functools.lru_cache(maxsize=None)
def text_of(path):
    with open(path, encoding="utf-8") as file:
        return file.read()
