"""Restarts that do not bring the new version: a process that answers counts as restarted only with its targets."""
from __future__ import annotations

import os
import signal
import subprocess
from pathlib import Path
from unittest import mock

from fixtures import needs
from fixtures.cases import Case
from fixtures.library import Library
from fixtures.patience import wait_until
from openlink_update import children
from openlink_update import library_run
from openlink_update.commands import update
from openlink_update.outcome import DEVICE
from openlink_update.outcome import Failure

OLD_ONE = "it has the targets of another version"


@needs.nginx()
@needs.program()
class Restarts(Case):
    def test_restart_that_does_nothing(self) -> None:
        """Without probes, the names of the targets alone say that a process still has the old version."""
        with Library() as library:
            os.unlink(library.input.path("probes.tsv"))
            first, port = library.current(), library.site.ports[0]
            library.input.names.remove("book-house")
            library.input.write_list()
            status, printed = library.run("--seconds", "1", restart="true")
            self.expect(
                f"a command that does nothing: {printed}",
                (status, library.current(), library.weeks_served(), library.left_behind()),
                (3, first, {"A"}, []),
            )
            self.expect_lines(
                "why",
                printed,
                f"openlink-update: the process at port {port} does not answer within 1 seconds: {OLD_ONE}",
                f"{first} is in use again",
            )
            status, printed = library.run()
            self.expect(f"a command that restarts: {printed}", (status, len(library.names())), (0, 4))

    def test_some_restarts_that_do_nothing(self) -> None:
        """The second process stays with the old version: the first goes back to it too."""
        with Library() as library:
            os.unlink(library.input.path("probes.tsv"))
            first, (_, port) = library.current(), library.site.ports
            library.input.names.remove("book-house")
            library.input.write_list()
            restart = f"sh -c '[ PORT = {port} ] || exec {library.restart}'"
            status, printed = library.run("--seconds", "1", restart=restart)
            self.expect(
                f"one that does nothing: {printed}",
                (status, library.current(), library.weeks_served(), library.left_behind()),
                (3, first, {"A"}, []),
            )
            self.expect_lines(
                "why",
                printed,
                f"openlink-update: the process at port {port} does not answer within 1 seconds: {OLD_ONE}",
            )


def is_alive(number: int) -> bool:
    """Whether a process has not ended."""
    path = Path(f"/proc/{number}/stat")
    try:
        return path.read_bytes().rpartition(b") ")[2][:1] not in (b"Z", b"X")
    except OSError:
        return False


class Trials(Case):
    def test_all_that_a_child_has_started(self) -> None:
        """nginx that tries probes has a worker, which ends with it."""
        words = ["sh", "-c", "sleep 1000 & echo $!; wait"]
        child = children.start(words, "/", stdout=subprocess.PIPE)
        assert child.stdout
        with child.stdout as output:
            worker = int(output.readline())
        self.expect("both live", (is_alive(child.pid), is_alive(worker)), (True, True))
        children.kill(child)
        self.expect("its status", child.returncode, -signal.SIGKILL)
        self.expect("the other", wait_until(lambda: not is_alive(worker)), True)
        children.kill(child)
        self.expect("once more", child.returncode, -signal.SIGKILL)


class Failing(Case):
    def test_error_of_the_system(self) -> None:
        """One that nothing expects, such as a full disk, has the status of the device."""
        fault = OSError(28, "No space left on device", "/var/lib/openlink/lock")
        with mock.patch.object(update, "_run", side_effect=fault):
            self.expect("the status", update.main([]), DEVICE)


class AfterAKill(Case):
    def test_order(self) -> None:
        """A run that was killed may have left a process that is being restarted. So the next one waits for all before
        it goes back."""
        run = mock.Mock()
        run.library.is_unsettled.return_value = True
        run.go_back.side_effect = Failure("here the test ends it")
        with self.assertRaises(Failure):
            library_run._work(run, mock.Mock(dry_run=False))
        calls = [name for name, _, _ in run.mock_calls]
        self.expect("what it does", calls, ["library.is_unsettled", "processes.wait_for_all", "go_back"])
