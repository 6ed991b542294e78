"""Updates of several libraries, one after the other: which are updated, what each is told, and signals."""
from __future__ import annotations

import os
import re
import signal
import socket

from fixtures import needs
from fixtures.cases import Case
from fixtures.machine_of_libraries import NAMES
from fixtures.machine_of_libraries import Library
from fixtures.machine_of_libraries import Machine
from fixtures.machine_of_libraries import deliver
from fixtures.machine_of_libraries import ended
from fixtures.machine_of_libraries import read
from fixtures.machine_of_libraries import started
from fixtures.machine_of_libraries import weeks
from fixtures.machine_of_libraries import write
from fixtures.weeks import HTML


def children_of(number):
    with open(f"/proc/{number}/task/{number}/children") as file:
        return [int(it) for it in file.read().split()]


@needs.nginx()
@needs.program()
class Turns(Case):
    """Each test finds the libraries in week A."""

    machine: Machine
    is_made = False
    libraries: list[Library]

    def setUp(self) -> None:
        super().setUp()
        kind = type(self)
        if kind.is_made:
            kind.machine.restore()
            return
        kind.machine = machine = Machine(has_desk=False)
        kind.addClassCleanup(machine.close)
        kind.libraries = started(self, machine)
        machine.keep()
        kind.is_made = True

    def test_some(self) -> None:
        """Only the libraries that are named, and each once."""
        machine, libraries = self.machine, self.libraries
        east, north, west = libraries
        deliver(libraries, "B")
        status, printed = machine.update("west", "east", "west")
        self.expect(f"two of three: {printed}", (status, weeks(libraries)[:2]), (0, ("BAB", True)))
        self.expect("in this order", re.findall(r"^(\w+):$", printed, re.M), ["west", "east"])
        self.expect("back", (machine.update("--back", "east")[0], weeks(libraries)[:2]), (0, ("AAB", True)))
        self.expect("a dry run", (machine.update("--dry-run", "east")[0], weeks(libraries)[:2]), (0, ("AAB", True)))
        unknown = f"openlink-update: {machine.path('etc/openlink/south')}: no such library: openlink-library list\n"
        self.expect("an unknown one", machine.update("east", "south"), (2, unknown))
        self.expect(
            "none", machine.update(), (2, "openlink-update: this machine has several libraries: name some, or --all\n")
        )
        for words in (("--all", "east"), ("--input", "/x", "east"), ("--input", "/x", "--all")):
            self.expect(f"{words}", machine.update(*words)[0], 2)

    def test_signals(self) -> None:
        """A signal ends the turns; the library whose turn it is goes back, and says so. A killed update is the matter
        of its library."""
        machine, libraries = self.machine, self.libraries
        east, north, west = libraries
        deliver(libraries, "B")
        before = machine.update("--all")[0], machine.library("mail")[0]
        self.expect("week B, and no reports", (before, weeks(libraries)), ((0, 0), ("BBB", True, ["none"] * 3)))
        deliver(libraries, "A")
        machine.close_gate(east)
        child = machine.begin("update", *machine.update_words("--all"))
        self.expect("at the restarts of the first", machine.wait_at_gate())
        child.send_signal(signal.SIGTERM)
        machine.open_gate()
        status, printed = ended(child)
        self.expect(f"SIGTERM: {printed}", (status, weeks(libraries)), (3, ("BBB", True, ["3", "none", "none"])))
        back = f"{os.path.basename(east.current() or 'none')} is in use again"
        self.expect_lines("SIGTERM", printed, "openlink-update: ended by SIGTERM", back)
        self.expect_lines("the report of the library", east.report()[1], "openlink-update: ended by SIGTERM", back)
        machine.close_gate(east)
        child = machine.begin("update", *machine.update_words("--all"))
        self.expect("once more", machine.wait_at_gate())
        for number in children_of(child.pid):
            os.kill(number, signal.SIGKILL)
        machine.open_gate()
        status, printed = ended(child)
        self.expect(f"one is killed: {printed}", (status, weeks(libraries)[2]), (4, ["KILL", "0", "0"]))
        self.expect("the next run", (machine.update("--all")[0], weeks(libraries)), (0, ("AAA", True, ["0", "0", "0"])))

    def test_mail(self) -> None:
        """Each library that has an address gets its own report, once."""
        machine, libraries = self.machine, self.libraries
        east, north, west = libraries
        write(east.path("mail"), "east@example.org\n")
        write(west.path("mail"), "west@example.org\n")
        deliver(libraries, "B")
        west.input.write("tidal-press.txt", HTML)
        status, printed = machine.update("--all")
        self.expect(f"the run: {printed}", (status, weeks(libraries)), (1, ("BBB", True, ["0", "0", "1"])))
        reports, subject = [it.report() for it in libraries], f"openlink-update of {{}} on {socket.gethostname()}: {{}}"
        self.expect(
            "reports name their own library",
            [[name for name in NAMES if f"/{name}/" in it[1]] for it in reports],
            [["east"], ["north"], ["west"]],
        )
        mails = [
            (subject.format("east", "0"), "east@example.org", reports[0][1]),
            (subject.format("west", "1"), "west@example.org", reports[2][1]),
        ]
        self.expect("mails", (machine.library("mail"), machine.mails()), ((0, ""), mails))
        self.expect(
            "once",
            (machine.library("mail"), machine.mails(), [it.report() for it in libraries]),
            ((0, ""), [], [None] * 3),
        )
        for library, text in zip(libraries, ("1\n  a reason\n", "KILL\n", "0\nall is new\n")):
            write(library.path("report"), text)
        self.expect(
            "those that failed",
            (machine.library("mail", "--failed"), machine.mails()),
            ((0, ""), [(subject.format("east", "1"), "east@example.org", "  a reason\n")]),
        )
        self.expect("the others are not kept", [it.report() for it in libraries], [None] * 3)
        for library in libraries:
            write(library.path("report"), "0\nall is new\n")
        os.rename(machine.path("bin/mail"), machine.path("bin/mail.away"))
        os.symlink("/bin/false", machine.path("bin/mail"))
        self.expect("no mail", machine.library("mail"), (4, "openlink-library: mail failed for east, west\n"))
        os.replace(machine.path("bin/mail.away"), machine.path("bin/mail"))
        self.expect(
            "later",
            (machine.library("mail")[0], [it[1] for it in machine.mails()]),
            (0, ["east@example.org", "west@example.org"]),
        )
        units = [read(f"packaging/systemd/openlink-{it}.service") for it in ("update", "walls")]
        self.expect(
            "the units",
            [
                "ExecStopPost=+-/usr/local/sbin/openlink-library mail\n" in units[0],
                "ExecStopPost=+-/usr/local/sbin/openlink-library mail --failed\n" in units[1],
                "openlink-update --fetch --all\n" in units[0],
                "openlink-update --walls --all\n" in units[1],
            ],
            [True] * 4,
        )

    def test_never_in_use(self) -> None:
        machine = self.machine
        machine.add("south")
        self.expect("a library that was never in use", machine.library("remove", "south")[0], 0)
