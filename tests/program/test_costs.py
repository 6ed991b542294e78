"""What the last proof of each crate took, compared with tools/prove/shares.tsv. Only tools/prove measures it, which
./openlink and ./test call; where rt ci or nothing has proved the crates, it is not measured."""
from __future__ import annotations

import shutil
import sys

from fixtures import TOP
from fixtures import needs
from fixtures.cases import Case

sys.path.insert(0, f"{TOP}/tools/prove")
import costs
from crates import Crates
from toolchain import Toolchain


def record_of_proofs() -> costs.Record:
    return costs.Record(Crates(TOP, "openlink", Toolchain().version))


def lacking() -> str:
    """Which crates were not measured as they are now."""
    if not shutil.which("rt"):
        return "no toolchain"
    record = record_of_proofs()
    count = len(record.lacking())
    of = len(record.crates.names)
    return f"tools/prove has not proved {count} of {of} crates here as they are now" if count else ""


class Costs(Case):
    @needs.measured_proofs(lacking())
    def test_shares(self) -> None:
        record = record_of_proofs()
        found = [*costs.dearer(record.current(), costs.read_shares(TOP), record.busy())]
        self.expect("dearer crates: tools/prove/shares.py prints all, and writes the table", found, [])
