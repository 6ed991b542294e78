"""What the proofs cost: the processor seconds of each crate, measured on this machine, and its share of the whole,
which is compared with shares.tsv. Machines differ, and shares hardly do. A crate is dearer if it takes a fifth more of
the whole than its line says."""

import os

TABLE = "tools/prove/shares.tsv"
HEAD = "crate\tpercent\n"
# How much more of the whole a crate may take than its line says. While other processes used the machine too, the same
# proof took up to 1.4 times as long.
MORE, MORE_IF_BUSY = 1.2, 1.2 * 1.4
# Seconds that a crate may take whatever its line says: of shorter proofs most is the start, which differs from run to
# run.
LEAST = 10


def read_shares(root):
    """Returns the percentages of TABLE by crate, none if there is no such file."""
    try:
        with open(f"{root}/{TABLE}", encoding="utf-8") as file:
            rows = [line.split("\t") for line in file.read().splitlines()[1:]]
    except FileNotFoundError:
        return {}
    return {name: float(share) for name, share in rows}


def text_of(seconds):
    """Returns the table for these seconds of each crate, the dearest crate first."""
    whole = sum(seconds.values())
    names = sorted(seconds, key=lambda name: (-seconds[name], name))
    return HEAD + "".join(f"{name}\t{100 * seconds[name] / whole:.2f}\n" for name in names)


def dearer(seconds, shares, busy=()):
    """Yields what is wrong: each crate that takes more of the whole than its share allows, and lines of other crates.
    Those in `busy` were proved while the machine had other work."""
    whole = sum(seconds.values())
    for name in sorted(seconds.keys() | shares.keys()):
        if name not in shares or name not in seconds:
            yield f"{name}: it has no line in {TABLE}" if name in seconds else f"{name}: {TABLE} has a line too much"
            continue
        expected = shares[name] * whole / 100
        if seconds[name] > (MORE_IF_BUSY if name in busy else MORE) * max(expected, LEAST):
            share = 100 * seconds[name] / whole
            yield f"{name}: {seconds[name]:.0f} s are {share:.2f} % of the whole, and {TABLE} says {shares[name]:.2f}"


class Record:
    """The last proof of each crate: its seconds of a processor, whether the machine had other work, and what was
    proved."""

    def __init__(self, crates):
        self.crates = crates
        self.path = f"{crates.proofs}/seconds.tsv"
        self.rows = {}
        if os.path.exists(self.path):
            with open(self.path, encoding="utf-8") as file:
                self.rows = {name: rest for name, *rest in (line.split("\t") for line in file.read().splitlines())}

    def add(self, name, seconds, is_busy):
        self.rows[name] = [f"{seconds:.2f}", "busy" if is_busy else "quiet", self.crates.sums[name]]
        with open(f"{self.path}.new", "w", encoding="utf-8") as file:
            file.writelines("\t".join([name, *rest]) + "\n" for name, rest in self.rows.items())
        os.replace(f"{self.path}.new", self.path)

    def current(self):
        """Returns the seconds of the crates that have not changed since their last proof."""
        rows = {name: self.rows[name] for name in self.crates.names if name in self.rows}
        return {name: float(row[0]) for name, row in rows.items() if row[2] == self.crates.sums[name]}

    def busy(self):
        return {name for name, row in self.rows.items() if row[1] == "busy"}

    def lacking(self):
        """Returns the crates that were not proved as they are now."""
        measured = self.current()
        return [name for name in self.crates.names if name not in measured]
