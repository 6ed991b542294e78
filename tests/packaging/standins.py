"""A folder that stands for a machine, with commands on PATH that note how they are called. A script that is run there
finds these commands alone."""
from __future__ import annotations

import os
import shutil
import subprocess
import tempfile
from collections.abc import Mapping

from fixtures.cases import Case
from fixtures.patience import patience

# Notes its arguments, prints NAME.out, and NAME.errors as its errors, and ends with the first status of NAME.statuses,
# which it takes out; with 0 if there is none. deb-systemd-invoke reads its input first, as the policy of a machine may.
# It uses what the shell has, since PATH has no other command.
_STANDIN = r"""#!/bin/sh
set -f
name=${0##*/}
[ "$name" != deb-systemd-invoke ] || while read -r line; do :; done
line=$name
for word; do line="$line $word"; done
echo "$line" >>"$STANDINS/calls"
if [ -e "$STANDINS/$name.out" ]; then
  while IFS= read -r line; do printf '%s\n' "$line"; done <"$STANDINS/$name.out"
fi
if [ -e "$STANDINS/$name.errors" ]; then
  while IFS= read -r line; do printf '%s\n' "$line" >&2; done <"$STANDINS/$name.errors"
fi
[ -e "$STANDINS/$name.statuses" ] || exit 0
read -r status rest <"$STANDINS/$name.statuses" || exit 0
[ -n "$rest" ] || rest=0
echo "$rest" >"$STANDINS/$name.statuses"
exit "$status"
"""


class Machine:
    """The folder, its commands, and what they noted."""

    def __init__(self, case: Case, *commands: str) -> None:
        self.folder = tempfile.mkdtemp(prefix="machine.")
        case.addCleanup(shutil.rmtree, self.folder)
        self.make("calls", "")
        for name in commands:
            self.make(f"bin/{name}", _STANDIN, 0o755)

    def make(self, name: str, text: str, mode: int = 0o644) -> None:
        """Writes a file of the machine."""
        path = f"{self.folder}/{name}"
        os.makedirs(os.path.dirname(path), exist_ok=True)
        with open(path, "w", encoding="utf-8") as file:
            file.write(text)
        os.chmod(path, mode)

    def link(self, name: str, target: str) -> None:
        """Makes a link, which need lead to nothing."""
        os.makedirs(os.path.dirname(f"{self.folder}/{name}"), exist_ok=True)
        os.symlink(target, f"{self.folder}/{name}")

    def fails(self, command: str, *statuses: int) -> None:
        """The statuses with which a command ends: the first time, the second time .., and from then on 0. A list that
        ends with 0 is such a list; any other one goes on with its last status for a thousand times."""
        last = [] if statuses[-1] == 0 else [statuses[-1]] * 1000
        self.make(f"{command}.statuses", " ".join(str(it) for it in [*statuses, *last]) + "\n")

    def environment(self) -> dict[str, str]:
        return {"PATH": f"{self.folder}/bin", "STANDINS": self.folder, "OPENLINK_ROOT": self.folder}

    def run(self, script: str, *arguments: str, more: Mapping[str, str] | None = None) -> tuple[int, str, list[str]]:
        """Runs a script of the repository. Returns its status, its errors, and the calls."""
        self.make("calls", "")
        done = subprocess.run(
            ["/bin/sh", script, *arguments],
            env={**self.environment(), **(more or {})},
            check=False,
            stdin=subprocess.DEVNULL,
            capture_output=True,
            text=True,
            timeout=patience(60),
        )
        with open(f"{self.folder}/calls", encoding="utf-8") as file:
            return done.returncode, done.stderr, file.read().splitlines()
