"""A bad file, list or probe of one library, and updates that cannot begin: they stop no other library. And a
library that was alone on its machine."""
from __future__ import annotations

import fcntl
import os

from fixtures import needs
from fixtures.cases import Case
from fixtures.machine_of_libraries import FEW
from fixtures.machine_of_libraries import SITE
from fixtures.machine_of_libraries import Machine
from fixtures.machine_of_libraries import deliver
from fixtures.machine_of_libraries import read
from fixtures.machine_of_libraries import started
from fixtures.machine_of_libraries import weeks
from fixtures.patience import wait_until
from fixtures.weeks import HTML


@needs.nginx()
@needs.program()
class Faults(Case):
    def test_bad_files(self) -> None:
        """Each run has other errors in the input of some of three libraries; the rest are new."""
        with Machine(has_desk=False) as machine:
            libraries = east, north, west = started(self, machine)
            table, targets = north.input.read("tidal-press.txt"), east.input.read("targets.tsv")
            deliver(libraries, "B")
            north.input.write("tidal-press.txt", HTML)
            status, printed = machine.update("--all")
            self.expect(
                f"a web page for a table: {printed}", (status, weeks(libraries)), (1, ("BBB", True, ["0", "1", "0"]))
            )
            path = north.input.path("tidal-press.txt")
            self.expect_lines("of its library", printed, "north:", f"  {path}: a web page, not a table")
            self.expect(
                "in its report alone", ["a web page" in it.report()[1] for it in libraries], [False, True, False]
            )
            self.expect("the old table", read(north.path("current/received/tidal-press.txt")), table.decode())
            deliver(libraries, "A")
            east.input.write("targets.tsv", targets.replace(b"\t", b" "))
            os.rename(north.path("input"), north.path("other"))
            status, printed = machine.update("--all")
            self.expect(
                f"a slip in a list, and no input: {printed}",
                (status, weeks(libraries)),
                (4, ("BBA", True, ["3", "4", "0"])),
            )
            east.input.write("targets.tsv", targets)
            os.rename(north.path("other"), north.path("input"))
            deliver(libraries, "B")
            north.input.write("probes.tsv", b"issn=0000-0000\tcoastal-law\n")
            west.input.write("targets.json", b"{")
            with open(east.path("lock"), "a") as lock:
                fcntl.flock(lock, fcntl.LOCK_EX)
                status, printed = machine.update("--all")
            self.expect(
                f"another run, a probe and no JSON: {printed}",
                (status, weeks(libraries)),
                (4, ("BBB", True, ["4", "3", "1"])),
            )
            self.expect("the old names", "The library west" in machine.get(west.host, "/find")[1])

    def test_beside_one_alone(self) -> None:
        """The library of a machine alone stays as it is when another is added."""
        with Machine(has_desk=False) as machine:
            alone, _ = machine.add_alone()
            site = read(machine.path(SITE))
            status, printed = machine.update("--all")
            self.expect(f"no other: {printed}", (status, "the library of openlink.conf:" in printed), (0, False))
            machine.start_nginx()
            before = machine.get("links.library.example.org", "/find")
            self.expect("its page", (before[0], "Example University Library" in before[1]), (200, True))
            east = machine.add("east", FEW)
            self.expect("its site stays", read(machine.path(SITE)), site)
            alone.deliver("B")
            status, printed = machine.update("--all")
            self.expect(f"both: {printed}", status, 0)
            self.expect_lines("both", printed, "the library of openlink.conf:", "east:")
            self.expect("the other site", wait_until(lambda: "The library east" in machine.get(east.host, "/find")[1]))
            self.expect("the first one", machine.get("links.library.example.org", "/find"), before)
            other = machine.get("127.0.0.1", "/find")
            # The page has its own address, for the browser's bookmark.
            text = other[1].replace("127.0.0.1", "links.library.example.org")
            self.expect("for any other name, too", (other[0], text), before)
            self.expect("its week", "/titles/pp" in machine.get("a", "/find?issn=3030-0002&date=1994&volume=5")[1])
            alone.deliver("A")
            east.input.deliver("B")
            self.expect("the first one alone", (machine.update()[0], east.week()), (0, "A"))
            self.expect("its links", "/journals/pp" in machine.get("a", "/find?issn=3030-0002&date=1994&volume=5")[1])
            report = machine.get("127.0.0.1", "/report.txt?issn=3030-0002", machine.local)
            self.expect("its local server", (report[0], "book-house" in report[1]), (200, True))
            self.expect("no report of it", os.path.exists(machine.path("etc/openlink/report")), False)
            self.expect(
                "remove",
                (machine.library("remove", "east")[0], machine.get("links.library.example.org", "/find")),
                (0, before),
            )
