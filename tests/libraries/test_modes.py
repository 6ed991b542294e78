"""The modes of what openlink-library makes, whatever the umask: nginx and the processes read it as other users, and
the logs of readers are for nginx and `adm` alone."""
from __future__ import annotations

import subprocess
import sys

from fixtures.cases import Case
from fixtures.machine_of_libraries import Machine
from fixtures.machine_of_libraries import free_ports
from fixtures.modes import UMASKS
from fixtures.modes import mode_of
from fixtures.modes import modes_below
from fixtures.modes import with_umask


class Modes(Case):
    def test_add(self) -> None:
        for umask in UMASKS:
            with Machine() as machine:
                port = free_ports(3)
                done = subprocess.run(
                    [
                        *with_umask(umask),
                        sys.executable,
                        "-S",
                        "-B",
                        f"{machine.share}/library",
                        "--root",
                        machine.folder,
                        "add",
                        "east",
                        "east.example.org",
                        "--ports",
                        str(port),
                        "--mail",
                        "east@example.org",
                    ],
                    env=machine.environment,
                    capture_output=True,
                    text=True,
                )
                self.expect(f"umask {umask}: {done.stdout}{done.stderr}", done.returncode, 0)
                for folder in (
                    machine.path("etc/openlink/east"),
                    machine.path(f"etc/systemd/system/openlink@{port + 1}.service.d"),
                ):
                    self.expect(f"umask {umask}: {folder}", modes_below(folder), ({0o755}, {0o644}))
                self.expect(
                    f"umask {umask}: the sites of nginx", modes_below(machine.path("etc/nginx/conf.d"))[1], {0o644}
                )
                logs = [machine.path("var/log/nginx", f"openlink.east.{it}") for it in ("log", "wanted.log")]
                self.expect(f"umask {umask}: the logs", [mode_of(it) for it in logs], [0o640] * 2)
