"""What the process of a library's user has of the one that started it: none of its open files, and no rights."""
from __future__ import annotations

import contextlib
import io
import os
import tempfile
from pathlib import Path
from unittest import mock

from fixtures import needs
from fixtures.cases import Case
from fixtures.patience import patience
from openlink_update.rights import library_user
from openlink_update.rights.library_user import LibraryUser
from openlink_update.rights.limits import Limits
from openlink_update.rights.sandbox import Job
from openlink_update.rights.sandbox import Parent
from openlink_update.rights.sandbox import Sandbox


def _open_paths(_: Parent) -> str:
    """The files that this process has open, but for those that have ended meanwhile."""
    found = []
    for name in os.listdir("/proc/self/fd"):
        with contextlib.suppress(OSError):
            found.append(os.readlink(f"/proc/self/fd/{name}"))
    return "\n".join(found)


@needs.root()
class Child(Case):
    def test_files(self) -> None:
        """Those with numbers before and after the socket between both are closed."""
        with tempfile.TemporaryDirectory() as name, contextlib.ExitStack() as stack:
            top = Path(name)
            top.chmod(0o755)
            (top / "secret").write_text("s3cr3t", encoding="utf-8")
            files = [stack.enter_context((top / "secret").open("rb")) for _ in range(8)]
            user = library_user.claim(top, self.id())
            assert user, "a user is free"
            self.addCleanup(user.release)
            for file in files[3:5]:  # their numbers are the next ones that the system gives
                file.close()
            paths = Sandbox(user, Limits(seconds=patience(60))).run(Job(_open_paths)).split("\n")
            self.expect(f"{len(paths)} files", any(path.startswith("socket:") for path in paths))
            self.expect("files of its parent", [path for path in paths if path.startswith(name)], [])


GOES_ON = 7


def status_of(user: LibraryUser, parent: int) -> int:
    """How a process ends that becomes a user, if it has this parent."""
    child = os.fork()
    if child == 0:
        try:
            user.become(parent)
        finally:
            os._exit(GOES_ON)
    return os.waitstatus_to_exitcode(os.waitpid(child, 0)[1])


class Becoming(Case):
    def test_rights_that_stay(self) -> None:
        """A process that the system has not made another user ends before it does anything."""
        user = LibraryUser(61184, io.StringIO())
        calls = ("os.setgroups", "os.setresgid", "os.setresuid")
        with contextlib.ExitStack() as stack:
            made = [stack.enter_context(mock.patch(call)) for call in calls]
            self.expect("its end", status_of(user, os.getpid()), 1)
            self.expect("the calls are those of the child", [it.called for it in made], [False] * 3)

    @needs.root()
    def test_another_parent(self) -> None:
        """One whose parent has ended meanwhile has nobody who limits it, and ends too."""
        with tempfile.TemporaryDirectory() as name:
            user = library_user.claim(Path(name), self.id())
            assert user, "a user is free"
            self.addCleanup(user.release)
            self.expect("its parent", status_of(user, os.getpid()), GOES_ON)
            self.expect("another one", status_of(user, os.getpid() + 1), 1)
