"""Files that are rejected or doubtful, and probes, processes and commands that fail. The version before is served."""
from __future__ import annotations

import os

from fixtures import needs
from fixtures.cases import Case
from fixtures.library import Library
from fixtures.library import PROGRAM
from fixtures.library import ended
from fixtures.library import whole
from fixtures.made_titles import isbn
from fixtures.patience import patience
from fixtures.weeks import HTML

# The program, but a command that is killed: `compile` after it has begun to write.
KILLED = """#!/bin/sh
case $1 in {command}) [ "$1" != compile ] || echo OLK1 >"$3.new"; kill -9 $$ ;; esac
exec {program} "$@"
"""


def kept(case, name, library, reason, week, path=None):
    """A run with week B delivered keeps the old files of one target for this reason; the others are as in this week."""
    status, printed = library.run()
    case.expect(name, (status, library.weeks_served(), library.left_behind()), (1, {week}, []))
    case.expect_lines(
        name,
        printed,
        f"  {path or library.input.path('book-house.txt')}: {reason}",
        f"{library.current()} is in use; old files of book-house kept",
    )


@needs.nginx()
@needs.program()
class BadWeeks(Case):
    def test_bad_files(self) -> None:
        """Each error is in the files of book-house alone: the others are new, in turn of week B and A."""
        with Library() as library:
            for number in "123":
                library.input.add_row("book-house", f"Tides {number}\t\t{isbn(123456500 + int(number))}\t".encode())
            self.expect("three more books", library.run()[0], 0)
            table, rules = library.input.read("book-house.txt"), library.input.read("book-house.rules")
            rules_path = library.input.path("book-house.rules")
            cases = [
                ("a table that is an HTML page", "book-house.txt", HTML, "a web page, not a table"),
                (
                    "a table of no encoding",
                    "book-house.txt",
                    table + b"caf\x81\t9781234560102\n",
                    f"line {len(table.splitlines()) + 1} is neither UTF-8 nor windows-1252",
                ),
                ("an empty table", "book-house.txt", b"", "it is empty"),
                ("a table of a header alone", "book-house.txt", table.splitlines(keepends=True)[0], "rows 0"),
                (
                    "less than half of the table",
                    "book-house.txt",
                    b"".join(table.splitlines(keepends=True)[:2]),
                    f"less than half of the rows: 1, and {len(table.splitlines()) - 1} before; to allow it: less "
                    "than half of the rows",
                ),
                (
                    "a rule file with a slip",
                    "book-house.rules",
                    rules.replace(b"when given rft.spage", b"when given rft.spage "),
                    "rules: line 4: BadLine",
                ),
                (
                    "a misspelt name",
                    "book-house.rules",
                    rules.replace(b"given rft.spage", b"given rft.isssn"),
                    "rule 1, guard 2: unknown name rft.isssn, did you mean rft.issn",
                ),
                ("no table", "book-house.txt", None, "No such file or directory"),
            ]
            for number, (name, file, data, reason) in enumerate(cases):
                week = "BA"[number % 2]
                library.input.deliver(week)
                library.input.write("book-house.txt", table)
                library.input.write("book-house.rules", rules)
                if data is None:
                    os.unlink(library.input.path(file))
                else:
                    library.input.write(file, data)
                kept(self, name, library, reason, week, rules_path if file.endswith("rules") else None)
                with open(library.path("current", "received", "book-house.txt"), "rb") as served:
                    self.expect(f"{name}: the old table", served.read(), table)

    def test_code_cut_short(self) -> None:
        """A code file from others that is cut short, for a target with and without old files; then one in the version
        in use."""
        with Library() as library:
            with open(library.path("current", "code", "book-house.olk"), "rb") as file:
                code = file.read()
            library.input.write("book-house.olk", code)
            library.input.write(
                "targets.tsv", library.input.read("targets.tsv").replace(b"book-house.rules", b"book-house.olk")
            )
            status, printed = library.run()
            self.expect("a code file", (status, "book-house: rules changed" in printed), (0, True))
            library.input.deliver("B")
            library.input.write("book-house.olk", code[:-1])
            kept(
                self,
                "a code file cut short",
                library,
                f"load: Truncated at {len(code) - 1}",
                "B",
                library.input.path("book-house.olk"),
            )
            with open(library.input.path("targets.tsv"), "ab") as file:
                file.write(b"second-house\tbook-house.olk\tbook-house.txt\n")
            status, printed = library.run()
            stays = library.current()
            self.expect("a new target with it", (status, "second-house" in library.names()), (1, False))
            self.expect_lines(
                "a new target with it",
                printed,
                "second-house: left out, since it has no old files",
                f"nothing new: {stays} stays in use; old files of book-house kept; second-house left out",
            )
        with Library() as library:
            with open(library.path("current", "code", "coastal-law.olk"), "r+b") as file:
                file.truncate(50)
            status, printed = library.run()
            self.expect("the code in use cut short", (status, library.weeks_served()), (0, {"A"}))
            self.expect("it is said", "the links of the version in use are not known: " in printed)

    def test_lists(self) -> None:
        """A slip in the list of targets or in the probes: nothing is made."""
        with Library() as library:
            first = library.current()
            targets, probes = library.input.read("targets.tsv"), library.input.read("probes.tsv")
            for file, data, reason in (
                ("targets.tsv", targets + b"coastal law\ta\tb\n", "line 7: no target can have the name coastal law"),
                ("targets.tsv", targets + b"coastal-law\ta\tb\n", "line 7: a second target coastal-law"),
                (
                    "targets.tsv",
                    targets.replace(b"\t", b" "),
                    "line 2: not a name, a rule file, a table and allowed warnings, with tabs between them",
                ),
                ("targets.tsv", b"", "0 targets, and 1 to 256 are possible"),
                ("probes.tsv", probes + b"issn=1\n", "line 9 is not a query, a tab, and names of targets or none"),
            ):
                library.input.write("targets.tsv", targets)
                library.input.write(file, data)
                status, printed = library.run()
                self.expect(reason, (status, library.versions(), library.left_behind()), (3, [first], []))
                self.expect_lines(
                    reason, printed, f"openlink-update: {library.input.path(file)}: {reason}", f"{first} stays in use"
                )

    def test_probes(self) -> None:
        """A probe that fails before the link is moved, and one that fails at the ports."""
        with Library(probes=33) as library:
            first = library.current()
            library.input.deliver("B")
            library.input.replace("coastal-law.rules", "when given title_id", 'when rft.genre is "book"')
            status, printed = library.run()
            self.expect(
                "a lost link",
                (status, library.current(), library.weeks_served(), library.versions()),
                (3, first, {"A"}, [first]),
            )
            self.expect_lines(
                "a lost link",
                printed,
                "  missing coastal-law: no link",
                f"{first} stays in use",
                "  loses coastal-law https://coastal.example.com/journals/rcl",
                "openlink-update: 1 of 33 probes differ with the new version",
            )
            library.input.deliver("B")
            status, printed = library.run(restart="true")
            self.expect(
                "processes that were not restarted",
                (status, library.current(), library.weeks_served(), library.versions()),
                (3, first, {"A"}, [first]),
            )
            self.expect_lines(
                "processes that were not restarted",
                printed,
                f"{first} is in use again",
                "openlink-update: the processes at the ports have other links than the new version",
            )
            self.expect(
                "nothing is left", (library.left_behind(), library.run()[0], library.weeks_served()), ([], 0, {"B"})
            )
            library.input.write("probes.tsv", b"rft.issn=3030-0002&date=1994\tcatalogue\n")
            library.input.deliver("A")
            status, printed = library.run()
            self.expect(
                "a wrong probe", (status, "  the version in use differs too" in printed.splitlines()), (3, True)
            )

    def test_processes(self) -> None:
        """A process that is killed comes back; one that does not makes all go back."""
        with Library() as library:
            library.input.deliver("B")
            child = library.begin()
            for supervisor in library.site.supervisors:
                supervisor.child.kill()
            status, printed = ended(child)
            self.expect(f"killed processes come back: {printed}", (status, library.weeks_served()), (0, {"B"}))
            second = library.current()
            library.input.deliver("A")
            library.site.supervisors[1].is_down = True
            port, seconds = library.site.ports[1], whole(patience(1))
            status, printed = library.run("--seconds", seconds)
            self.expect("a process that does not start", (status, library.current()), (3, second))
            fault = f"the process at port {port} does not answer within {seconds} seconds: Connection refused"
            self.expect_lines(
                "a process that does not start", printed, f"openlink-update: {fault}", f"{second} again: {fault}"
            )
            self.expect(
                "the other process",
                library.menu(library.site.ports[0])["coastal-law"],
                "https://coastal.example.com/titles/pp",
            )
            library.site.supervisors[1].is_down = False
            self.expect(
                "the next run", (library.run()[0], library.weeks_served(), library.left_behind()), (0, {"A"}, [])
            )
            library.input.deliver("B")
            other = library.site.supervisors[1].child.pid
            library.site.supervisors[0].is_down = True
            self.expect("the first process does not start", library.run("--seconds", seconds)[0], 3)
            self.expect("no other is restarted before it answers", library.site.supervisors[1].child.pid, other)
            library.site.supervisors[0].is_down = False
            library.input.deliver("A")
            self.expect(
                "once it starts", (library.run()[0], library.weeks_served(), library.left_behind()), (0, {"A"}, [])
            )
            failing = f"sh -c 'if [ PORT = {port} ]; then echo no unit >&2; exit 5; fi; exec {library.restart}'"
            library.input.deliver("B")
            status, printed = library.run(restart=failing)
            self.expect(
                "a restart that fails",
                (status, library.weeks_served(), "status 5, no unit" in printed),
                (3, {"A"}, True),
            )

    def test_killed_commands(self) -> None:
        """A command of the program that is killed, with what it may leave: nothing is put in use."""
        with Library() as library:
            first, program = library.current(), library.aside("program")
            library.input.deliver("B")
            for command, status in (("compile", 4), ("inspect", 4), ("lint", 4), ("serve", 3)):
                with open(program, "w") as file:
                    file.write(KILLED.format(command=command, program=PROGRAM))
                os.chmod(program, 0o755)
                got, printed = library.run("--program", program)
                self.expect(
                    f"{command} is killed: {printed}",
                    (got, library.current(), library.weeks_served(), library.left_behind()),
                    (status, first, {"A"}, []),
                )
                self.expect_lines(f"{command} is killed", printed, f"{first} stays in use")
