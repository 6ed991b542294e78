"""Compares what the proofs of the last build took with tools/prove/shares.tsv. Where a crate is dearer, make it
cheaper, or write the table anew and say in the commit what is worth it:

    python3 tools/prove/shares.py           prints the seconds and shares of all crates, and which crates are dearer
    python3 tools/prove/shares.py --write   writes the table, best after a build from nothing on a quiet machine

Exit status: 0 no crate is dearer, 1 some are, 2 wrong arguments, 3 some crates were not measured as they are now."""

import os
import sys

sys.dont_write_bytecode = True

import costs
from crates import Crates
from toolchain import Toolchain


def main(arguments):
    if arguments not in ([], ["--write"]):
        print("usage: python3 tools/prove/shares.py [--write]", file=sys.stderr)
        return 2
    root = os.path.dirname(os.path.dirname(os.path.dirname(os.path.realpath(__file__))))
    record = costs.Record(Crates(root, "openlink", Toolchain().version))
    if record.lacking():
        print(f"shares.py: not measured as they are now: {' '.join(record.lacking())}", file=sys.stderr)
        return 3
    seconds = record.current()
    if arguments:
        with open(f"{root}/{costs.TABLE}", "w", encoding="utf-8") as file:
            file.write(costs.text_of(seconds))
        return 0
    for line in costs.text_of(seconds).splitlines()[1:]:
        name, share = line.split("\t")
        print(f"{seconds[name]:8.1f} s {share:>6} % {name}{', on a busy machine' * (name in record.busy())}")
    found = [*costs.dearer(seconds, costs.read_shares(root), record.busy())]
    print(f"{sum(seconds.values()):8.1f} s in all, {len(found)} faults", *found, sep="\n")
    return 1 if found else 0


if __name__ == "__main__":
    sys.exit(main(sys.argv[1:]))
