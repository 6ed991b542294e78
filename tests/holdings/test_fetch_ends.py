"""openlink-fetch: how a run ends, by a signal, by an error in one download, or killed."""
from __future__ import annotations

import os
import signal
from typing import NoReturn

from fixtures.fetch_input import Input
from fixtures.fetch_input import OLD
from fixtures.fetch_input import TABLE
from fixtures.fetch_input import ended
from fixtures.patience import wait_until
from fixtures.providers import HOSTS
from fixtures.providers import ProvidersCase
from openlink_update.fetch import downloads
from openlink_update.fetch import fetching
from openlink_update.fetch import sources
from openlink_update.outcome import Interrupted
from openlink_update.rights.limits import Limits
from openlink_update.rights.sandbox import Sandbox


class NoTransfer(downloads.Download):
    """A download that a signal ends while it starts."""

    def start(self) -> None:
        raise Interrupted


class Unexpected(downloads.Download):
    """A download whose reply these scripts can't read."""

    def __init__(self, address: str, step: str, error: Exception) -> None:
        super().__init__(address, [], [], "/nonexistent/body", 60, 0)
        setattr(self, step, self.fail)
        self.error = error

    def fail(self) -> NoReturn:
        raise self.error


def curls_of(parent: int) -> set[str]:
    """The numbers of the curl processes that a process has started, or its child, which is another user, and that
    run."""
    parents = {number: parent_of(number) for number in filter(str.isdigit, os.listdir("/proc"))}
    found = {it for it, above in parents.items() if str(parent) in (above, parents.get(above))}
    return {number for number in found if is_curl(number)}


def parent_of(number: str) -> str:
    try:
        with open(f"/proc/{number}/stat", encoding="ascii") as file:
            return file.read().rpartition(")")[2].split()[1]
    except OSError:  # it has ended
        return ""


def is_curl(number: str) -> bool:
    try:
        with open(f"/proc/{number}/cmdline", "rb") as file:
            return file.read().startswith(b"curl\0-q\0")
    except OSError:
        return False


class Ends(ProvidersCase):
    """Runs that do not end well."""

    def test_signal_at_a_start(self) -> None:
        """A signal while a transfer starts ends the run as at any other moment."""
        try:
            list(downloads.run([NoTransfer(self.address("/table.txt"), [], [], "/nonexistent", 1, 0)]))
        except Interrupted as ending:
            self.expect("its end", ending.__context__, None)
        else:
            self.expect("it ends", False)

    def test_unexpected_errors(self) -> None:
        """What goes wrong within one download, at any of its steps, is its own fault alone."""
        with Input() as folder:
            errors = {
                "start": ValueError("a secret"),
                "has_ended": RecursionError("a secret"),
                "end": KeyError("a secret"),
                "is_ready": OSError(28, "No space left on device", "body"),
            }
            bad = [Unexpected(self.address(f"/404?{step}", 1), step, error) for step, error in errors.items()]
            good = downloads.Download(
                f"http://{HOSTS[0]}:{self.providers.plain}/table.txt", [], [], folder.path("body"), 60, 0
            )
            done = [*downloads.run([*bad, good])]
            self.expect("all are done", {*done}, {*bad, good})
            self.expect("the good one is whole", (good.is_whole, folder.read("body")), (True, TABLE))
            said = {step: (it.fault or "").rstrip("0123456789") for step, it in zip(errors, bad)}
            self.expect(
                "their faults",
                said,
                {
                    "start": "ValueError at test_fetch_ends.py:",
                    "has_ended": "RecursionError at test_fetch_ends.py:",
                    "end": "KeyError at test_fetch_ends.py:",
                    "is_ready": "body: No space left on device",
                },
            )
            self.expect("one is this machine's", [step for step, it in zip(errors, bad) if it.has_failed], ["is_ready"])

    def test_unexpected_table(self) -> None:
        """An error in a table that came is the fault of its file alone."""
        table_in, lines = fetching.table_in, list[str]()

        def read(data: bytes, source: sources.Source) -> bytes:
            if source.file == "bad.txt":
                raise RecursionError("a secret")
            return table_in(data, source)

        plain = f"http://{HOSTS[0]}:{self.providers.plain}/table.txt"
        with Input() as folder:
            folder.write_sources(f"bad.txt\t{plain}\tplain http", f"table.txt\t{plain}?good\tplain http")
            fetching.table_in = read
            try:
                status = fetching.fetch(folder.folder, lines.append, 60, 0, user=Sandbox(None, Limits()))
            finally:
                fetching.table_in = table_in
            self.expect(
                "a table that cannot be read",
                (status, [line.rstrip("0123456789") for line in lines]),
                (
                    1,
                    [
                        "bad.txt: not fetched, and there is no old file: RecursionError at test_fetch_ends.py:",
                        f"table.txt: new, {len(TABLE)} bytes",
                        "2 files asked for, 1 new or changed, 1 not fetched",
                    ],
                ),
            )

    def test_ends(self) -> None:
        """A run that is ended or killed in the middle leaves the old file and no process; so does a full disk."""
        with Input(self.authority) as folder:
            folder.write_sources(f"drip.txt\t{self.address('/raw/drip')}")
            folder.write("drip.txt", OLD)
            for number, status in ((signal.SIGTERM, 4), (signal.SIGKILL, -9)):
                child = folder.begin()
                ours = wait_until(lambda: curls_of(child.pid))
                self.expect("it runs", len(ours), 1)
                self.expect(
                    "another run",
                    folder.fetch(),
                    (4, f"openlink-fetch: {folder.state('lock')}: another run has not ended\n"),
                )
                child.send_signal(number)
                got, printed = ended(child)
                self.expect(f"after {number.name}: {printed}", (got, folder.read("drip.txt")), (status, OLD))
                self.expect("no curl is left", wait_until(lambda: not any(map(is_curl, ours))))
            folder.write_sources(f"drip.txt\t{self.address('/table.txt')}")
            folder.write(folder.state("7"), OLD)
            self.expect(
                "the next run",
                (folder.fetch()[0], folder.read("drip.txt"), folder.names()),
                (0, TABLE, ["drip.txt", "sources.tsv"]),
            )
            folder.environment["PATH"] = folder.folder
            self.expect("no curl", folder.fetch(), (4, "openlink-fetch: no curl on this machine\n"))
