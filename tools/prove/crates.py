"""The crates of crates.txt that a program depends on: their order, how long each takes, and what is proved."""

import hashlib
import os

import costs

PARTS = ("src", "specs", "proofs")
# For a crate that has no measured share of the time: how much the crates below add, per byte of their src/, and what
# each proof costs at least, in bytes of src/. The bytes of src/ predict far better than those of specs/ and proofs/.
BELOW = 0.02
LEAST = 1000


def read(root):
    """Returns the line of each crate that crates.txt lists, by name, and the names of its dependencies."""
    lines = {}
    with open(f"{root}/crates.txt", encoding="utf-8") as file:
        for row in file:
            row = row.partition("#")[0].strip()
            if row:
                lines[row.partition(":")[0].split()[0]] = row
    return lines, {name: row.partition(":")[2].replace(",", " ").split() for name, row in lines.items()}


class Crates:
    """A program and the crates that it depends on. In `names`, each comes after those that it depends on, the program
    last."""

    def __init__(self, root, program, kit):
        self.root, self.program = root, program
        self.proofs = f"{self.folder(program)}/out/proofs"
        self.lines, named = read(root)
        self.deps = {name: [dep for dep in deps if dep in named] for name, deps in named.items()}
        self.of_toolchain = {name: [dep for dep in deps if dep not in named] for name, deps in named.items()}
        self.names, self.below = [], {}
        self._visit(program)
        self.weight = self._weights(costs.read_shares(root))
        self.chain = self._chains()
        self.own = {name: self.own_sum(name) for name in self.names}
        self.sums = {}
        for name in self.names:
            parts = [kit, self.lines[name], self.own[name], *(self.sums[dep] for dep in self.deps[name])]
            self.sums[name] = hashlib.sha256(repr(parts).encode()).hexdigest()

    def _visit(self, name):
        for dep in self.deps[name]:
            if dep not in self.below:
                self._visit(dep)
        self.below[name] = {*self.deps[name]}.union(*(self.below[dep] for dep in self.deps[name]))
        self.names.append(name)

    def _weights(self, shares):
        """Returns what each crate takes of the time, in the unit of the shares that are known."""
        size = {name: self._size(name) for name in self.names}
        size = {it: LEAST + size[it] + BELOW * sum(size[low] for low in self.below[it]) for it in self.names}
        known = [name for name in self.names if name in shares]
        unit = sum(shares[it] for it in known) / sum(size[it] for it in known) if known else 1
        return {name: shares.get(name, unit * size[name]) for name in self.names}

    def _chains(self):
        """Returns, for each crate, the weight of the longest chain of crates from it up to the program."""
        above = {name: 0 for name in self.names}
        chain = {}
        for name in reversed(self.names):
            chain[name] = self.weight[name] + above[name]
            for dep in self.deps[name]:
                above[dep] = max(above[dep], chain[name])
        return chain

    def folder(self, name):
        return f"{self.root}/crates/{name}"

    def built(self, name):
        """Returns the path of the crate's library or, of the program, of its object file."""
        return f"{self.proofs}/{name}.{'o' if name == self.program else 'rlib'}"

    def log(self, name):
        return f"{self.proofs}/{name}.log"

    def _size(self, name):
        return sum(os.path.getsize(file) for file in files(self.folder(name), ("src",)))

    def own_sum(self, name):
        """Returns a sum of the crate's own sources."""
        folder, found = self.folder(name), hashlib.sha256()
        for path in files(folder, PARTS):
            with open(path, "rb") as file:
                text = file.read()
            found.update(f"{path[len(folder):]} {len(text)}\n".encode() + text)
        return found.hexdigest()

    def is_proved(self, name):
        """Returns whether the library that is built was proved from these sources, with this toolchain."""
        return name != self.program and _text(self._mark(name)) == self.sums[name]

    def unmark(self, name):
        """Removes the note before a new proof replaces the library."""
        if os.path.lexists(self._mark(name)):
            os.remove(self._mark(name))

    def mark_proved(self, name):
        """Notes that the crate was proved, unless its sources, or those of a crate below it, have changed since the
        start."""
        is_same = self.own_sum(name) == self.own[name] and all(map(self.is_proved, self.deps[name]))
        if name != self.program and is_same:
            with open(self._mark(name), "w", encoding="utf-8") as file:
                file.write(self.sums[name])

    def _mark(self, name):
        return f"{self.proofs}/{name}.sum"


def files(folder, parts):
    """Returns the paths of the files in these parts of a crate's folder, sorted."""
    found = []
    for part in parts:
        for below, _, names in os.walk(f"{folder}/{part}"):
            found += [f"{below}/{name}" for name in names]
    return sorted(found)


def _text(path):
    try:
        with open(path, encoding="utf-8") as file:
            return file.read()
    except OSError:
        return None
