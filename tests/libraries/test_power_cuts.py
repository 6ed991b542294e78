"""What openlink-library has said to be done is on the disk."""
from __future__ import annotations

import os
import re
import subprocess
import sys

from fixtures import needs
from fixtures.cases import Case
from fixtures.disk_calls import Losses
from fixtures.disk_calls import Trace
from fixtures.machine_of_libraries import Machine
from fixtures.machine_of_libraries import free_ports

_MAY_BE_LOST = re.compile(r"east/lock")
# A unit that is there again names a folder that is not: its process does not start.
_MAY_COME_BACK = re.compile(r"east/(current|lock|versions.*)|system/openlink@.*")


@needs.command("strace")
class PowerCuts(Case):
    def followed(self, machine: Machine, *words: str) -> None:
        """Follows a command that changes the libraries of a machine."""
        folders = [machine.path(it) for it in ("etc/openlink", "etc/systemd", "etc/nginx/conf.d")]
        trace = Trace(machine.path("calls.log"), *folders)
        done = subprocess.run(
            [*trace.before, sys.executable, "-S", "-B", f"{machine.share}/library", "--root", machine.folder, *words],
            env=machine.environment,
            capture_output=True,
            text=True,
        )
        self.expect(f"{words}: {done.stdout}{done.stderr}", done.returncode, 0)
        calls = trace.calls()
        self.expect(f"{words}: it waits for the disk", sum(call.is_sync() for call in calls) > 1)
        for folder in folders:
            found = trace.losses(folder, calls).but(_MAY_BE_LOST, _MAY_COME_BACK)
            self.expect(f"{words}: {folder}", found, Losses([], [], []))

    def test_add_and_remove(self) -> None:
        with Machine() as machine:
            self.followed(
                machine, "add", "east", "east.example.org", "--ports", str(free_ports(3)), "--mail", "a@b.org"
            )
            self.expect("the library", os.path.exists(machine.path("etc/openlink/east/site.conf")))
            self.followed(machine, "add", "west", "west.example.org", "--ports", str(free_ports(3)))
            os.mkdir(machine.path("etc/openlink/east/versions"))
            self.followed(machine, "remove", "east")
            self.expect("it is away", sorted(os.listdir(machine.path("etc/openlink"))), ["east.removed", "west"])
