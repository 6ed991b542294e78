"""The merge gate, .ci/run, with stand-ins for ./test and rt: what it runs in which order, and what fails it."""
from __future__ import annotations

import os
import shutil
import subprocess
import tempfile
from pathlib import Path

from fixtures import TOP
from fixtures.cases import Case

# Each notes how it is called, and fails for the arguments in FAILS; rt also says what it says of an edit.
STANDIN = """#!/bin/sh
echo "${0##*/} $*" >>"$CALLS"
[ "${0##*/}" != rt ] || echo "$SAID"
[ "${0##*/} $*" != "$FAILS" ]
"""
CALLS = ["test --early", "test --crates", "rt ci", "test --program"]
EDIT = "rt: must-fail budget/some_bug.edit: "
REFUSED = f"{EDIT}refused, as it must be"
# What rt says of an edit that no contract refused.
UNREFUSED = (
    f"{EDIT}BAD EDIT: it does not compile",
    f"{REFUSED} (only because a proof file names what the edit took away, so this says little of the contract)",
    f"{REFUSED} (only by a limit of the prover, which gave no verdict, so this says less of the contract)",
)


class Gate(Case):
    def setUp(self) -> None:
        room = tempfile.TemporaryDirectory()
        self.addCleanup(room.cleanup)
        self.top = Path(room.name)
        for name in ("test", "bin/rt"):
            path = self.top / name
            path.parent.mkdir(exist_ok=True)
            path.write_text(STANDIN, encoding="utf-8")
            path.chmod(0o755)
        (self.top / ".ci").mkdir()
        shutil.copy(f"{TOP}/.ci/run", self.top / ".ci/run")

    def ran(self, said: str = REFUSED, fails: str = "", **more: str) -> tuple[int, list[str], str]:
        """The status, the calls, and what it says on standard error."""
        calls = self.top / "calls"
        calls.write_text("", encoding="utf-8")
        environment = {name: value for name, value in os.environ.items() if name != "CI"}
        path = f"{self.top}/bin:{os.environ['PATH']}"
        environment.update(PATH=path, CALLS=str(calls), SAID=said, FAILS=fails, **more)
        done = subprocess.run([self.top / ".ci/run"], env=environment, capture_output=True, text=True)
        return done.returncode, calls.read_text(encoding="utf-8").splitlines(), done.stderr

    def test_what_passes(self) -> None:
        for said in (REFUSED, f"{REFUSED}: returns-clause-ok", "only a line"):
            self.expect(said, self.ran(said)[:2], (0, CALLS))

    def test_edits_that_no_contract_refused(self) -> None:
        for line in UNREFUSED:
            status, calls, said = self.ran(f"{REFUSED}\n{line}")
            self.expect(line, (status, calls), (1, CALLS[:3]))
            self.expect(f"it names it: {said}", said, f"{line}\n.ci/run: mend or remove these edits\n")

    def test_steps_that_fail(self) -> None:
        for at, call in enumerate(CALLS):
            status, calls, _ = self.ran(fails=call)
            self.expect(f"{call} fails", (status != 0, calls), (True, CALLS[: at + 1]))

    def test_packages(self) -> None:
        """Of what tests lack, root installs it where the gate runs."""
        wanted = "test --install --early" if os.geteuid() == 0 else CALLS[0]
        self.expect("in the gate", self.ran(CI="true")[1], [wanted, *CALLS[1:]])
