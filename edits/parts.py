"""Which files of its own crate can decide that an edit is refused.

An edit of the body of a function is refused in the proof of that function, and so for nothing but its file, the proofs
of its file, and what these name. Any other edit changes what is stated, and can be refused wherever that is named. Of a
source that is only named, what counts is what it states: contracts, types and constants, but no body. Of a crate's root
its list of modules does not count: what a name means is told by the file to which it leads, and that counts."""
import functools
import glob
import os
import re

from reached import IMPLEMENTED, TYPE, WORD, longest, paths_in, sources_of
from statements import FUNCTION, head_from
from stored import PARTS, text_of

NAMED = re.compile(r"Rattle\.(\w+)\.(specs|proofs)\.([\w.]*\w)")
USE = re.compile(r"^ *(pub )?(?:ghost )?use ([^;]*);\n", re.M)
MODULE = re.compile(r"^(?:pub )?mod \w+;\n", re.M)
# Modules that the toolchain writes for a function of a source.
GENERATED = {"Goals", "Given"}
# The proofs of a crate's root are in no folder of their own.
ROOTS = ("/lib/", "/main/")


class Crate:
    """The files of a crate, and which of them name which."""

    def __init__(self, name):
        self.name, self._names = name, frozenset({name})
        found = [glob.glob(f"crates/{name}/{part}/**", recursive=True) for part in PARTS]
        self.paths = frozenset(path for paths in found for path in paths if os.path.isfile(path))
        self._of_types = {}
        for path in self.paths:
            if path.endswith(".rt"):
                for _, of in IMPLEMENTED.findall(text_of(path)):
                    self._of_types.setdefault(of, set()).add(path)

    def deciding(self, changed):
        """Returns the files that can decide about an edit, with what counts of each: `changed` has the text of each
        file that it changes, as it is afterwards."""
        bodies = frozenset(path for path, text in changed.items() if is_inside(text_of(path), text, path))
        return self._deciding(bodies, frozenset(changed) - bodies)

    @functools.lru_cache(maxsize=None)
    def _deciding(self, bodies, stated):
        judged = {path for path in self.paths if not stated.isdisjoint(self._reached_from(path))} | bodies
        judged |= {proof for path in judged for proof in self._proofs_of(path)} | stated
        found, left = {}, {(path, True) for path in judged} | {(f"crates/{self.name}/src/lib.rt", False)}
        while left:
            path, is_whole = left.pop()
            is_whole = is_whole or path in judged
            if path not in found:
                found[path] = text_of(path) if is_whole else statement(path)
                left |= {(it, False) for it in self._named_in(path, is_whole)}
        return found

    @functools.lru_cache(maxsize=None)
    def _reached_from(self, path):
        """Returns what a file names, and what that names, and so on, with its own proofs."""
        found, left = set(), {path}
        while left:
            it = left.pop()
            if it not in found:
                found.add(it)
                left |= self._named_in(it, it == path) | (self._proofs_of(it) if it == path else set())
        return found

    @functools.lru_cache(maxsize=None)
    def _proofs_of(self, path):
        """Returns the proofs of the functions of a source."""
        if not path.endswith(".rt") or "fn " not in text_of(path):
            return frozenset()
        module = path.replace("/src/", "/proofs/", 1)[:-len(".rt")] + "/"
        folder = f"crates/{self.name}/proofs/" if module.endswith(ROOTS) else module
        return frozenset(it for it in self.paths if it.startswith(folder))

    @functools.lru_cache(maxsize=None)
    def _named_in(self, path, is_whole):
        """Returns the files of this crate that a file names, or that what it states names."""
        text = text_of(path) if is_whole else statement(path)
        found = {*self._modules_in(text), *self._sources_in(text)}
        for it in [*found]:
            if it.endswith(".rt"):
                found |= {other for name in TYPE.findall(text_of(it)) for other in self._of_types.get(name, ())}
        return frozenset(found - {path})

    def _modules_in(self, text):
        for crate, part, module in NAMED.findall(text):
            if crate == self.name:
                yield from self._of_module(part, module.split("."))

    def _of_module(self, part, names):
        """Returns the file of a module; the source, if the toolchain writes the module; and all files if none is
        found."""
        is_written = part == "specs" and names[0] in ("declared", "contracts") or names[-1] in GENERATED
        if is_written:
            names = names if part == "proofs" else names[1:]
        found = longest(f"crates/{self.name}/{'src' if is_written else part}", names, ".rt" if is_written else ".antt")
        return [found] if found else self.paths

    def _sources_in(self, text):
        for path in paths_in(text):
            first, *rest = re.split("::| as ", path)
            if first == "crate" and rest:
                yield from (path for path, _ in sources_of(self.name, tuple(rest), self._names))


@functools.lru_cache(maxsize=None)
def statement(path):
    """Returns a file without the bodies of its functions, and without the imports that only bodies need."""
    if not path.endswith(".rt"):
        return text_of(path)
    text = without_bodies(text_of(path))
    is_root = path.endswith(("/src/lib.rt", "/src/main.rt"))
    if is_root:
        text = MODULE.sub("", text)
    words = {*WORD.findall(USE.sub("", text))}

    def is_needed(use):
        return bool(use[1]) and not is_root or not words.isdisjoint(last_names(use[2]))

    return USE.sub(lambda use: use[0] if is_needed(use) else "", text)


def last_names(imported):
    """Returns the names that an import brings in, and those of the modules in its braces."""
    head, _, names = imported.partition("{")
    return WORD.findall(names) or WORD.findall(head)[-1:]


def without_bodies(text):
    lines, found, at = text.split("\n"), [], 0
    while at < len(lines):
        function = FUNCTION.match(lines[at])
        if function:
            head, at = head_from(lines, at, function[1])
            found += head
        else:
            found.append(lines[at])
            at += 1
    return "\n".join(found)


def is_inside(old, new, path):
    """Whether an edit changes nothing of a source but bodies of functions."""
    try:
        return path.endswith(".rt") and without_bodies(old) == without_bodies(new)
    except ValueError:
        # The edit's own lines are not laid out, so nobody can tell where a body ends.
        return False
