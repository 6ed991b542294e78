"""The modes of what a delivery makes on another machine, where root may have any umask: nginx there reads it as another
user, or it would not know that the machine is drained."""
from __future__ import annotations

import os
import pathlib
import shlex
import shutil
import tempfile

from fixtures import needs
from fixtures.cases import Case
from fixtures.library import PYTHON
from fixtures.library import UPDATE
from fixtures.modes import UMASKS
from fixtures.modes import mode_of
from fixtures.modes import modes_below
from openlink_update.machines import machines

STAMP = "20261122T000000Z"
# It has the place of ssh: the first argument is the host.
SHELL = """#!/bin/sh
umask {umask}
shift
exec sh -c "$*"
"""


@needs.command("rsync")
class Modes(Case):
    def setUp(self) -> None:
        super().setUp()
        self.folder = pathlib.Path(tempfile.mkdtemp())
        self.addCleanup(shutil.rmtree, self.folder)

    def machine(self, umask: str) -> machines.Machine:
        there, shell = self.folder / umask, self.folder / f"shell-{umask}"
        there.mkdir()
        update = shlex.join([*PYTHON, UPDATE, "--library", str(there)])
        shell.write_text(SHELL.format(umask=umask))
        shell.chmod(0o755)
        return machines.Machine("other", str(shell), update, there, 0)

    def test_files_of_commands(self) -> None:
        for umask in UMASKS:
            machine = self.machine(umask)
            machine.request("drain")
            machine.name_delivery(STAMP)
            self.expect(
                f"umask {umask}",
                {path.name: mode_of(str(path)) for path in machine.folder.iterdir()},
                {"drain": 0o644, "delivery": 0o644},
            )
            machine.ask()
            self.expect("its delivery", machine.delivery, STAMP)

    def test_files_of_rsync(self) -> None:
        """Files and folders have the modes that they have here, and folders above them can be entered."""
        source = self.folder / "source"
        (source / "sub").mkdir(parents=True)
        for path in (source / "table.txt", source / "sub" / "table.txt"):
            path.write_text("text\n")
            path.chmod(0o644)
        for path in (source, source / "sub"):
            path.chmod(0o755)
        for umask in UMASKS:
            machine = self.machine(umask)
            os.chmod(machine.folder, 0o755)
            machine._copy(f"{source}/", f"east/versions/{STAMP}.sent/")
            self.expect(f"umask {umask}", modes_below(str(machine.folder)), ({0o755}, {0o644}))
