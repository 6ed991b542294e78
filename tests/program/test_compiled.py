"""Rules give the same link, the same error and the same status whether they run with `link`, or are compiled and run
with `run`: each rule file of examples/ with its queries, rules with each kind of guard, and each template of the
examples of RFC 6570."""
from __future__ import annotations

import glob

from commands.test_rfc6570 import EXAMPLES, LISTS, QUERY
from fixtures.program import Program, ProgramCase

FIRST, LAST = "date_first_issue_online", "date_last_issue_online"
# The lines of rules, and queries.
GUARDS = [
    (
        f"rule\nwhen rft.date from {FIRST} to {LAST}",
        [
            f"rft.date=1999-05&{FIRST}=1995-01-01&{LAST}=",
            f"rft.date=1994&{FIRST}=1995",
            f"rft.date=1995&{FIRST}=1995&{LAST}=1995",
            "rft.date=1999",
            f"{FIRST}=1995",
        ],
    ),
    ("rule\nwhen x from 1 to 999999999", ["x=1234567890", "x=999999999", "x=0", "x=1"]),
    ("rule\nwhen x from * to 9", ["x=7b", "x=b7", "x=10", "x="]),
    ("rule\nwhen has x", ["x=", "", "x=1&x=2"]),
    ("rule\nwhen has rft.au", ["rft.au=", ""]),
    ("rule\nwhen given x", ["x=", "x=a", ""]),
    ("rule\nwhen lacks x", ["", "x=", "x=a"]),
    ("rule\nwhen lacks rft.au", ["", "rft.au=", "x=a"]),
    ('rule\nwhen x is "a\\"b"', ["x=a%22b", "x=a", ""]),
    ('rule\nwhen x is ""', ["x=", "x=a", ""]),
    ('rule\nwhen rft.au holds "Li"', ["rft.au=Wu&rft.au=Li", "rft.au=Li&rft.au=Wu", "rft.au=Wu", ""]),
    ("rule\nwhen rft.au counts 2 to *", ["rft.au=A&rft.au=B", "rft.au=A", ""]),
    ("rule\nwhen rft.au counts 0 to 0", ["", "rft.au=A"]),
    ("rule\nwhen rft.au counts n to *", ["n=2&rft.au=A", "n=b&rft.au=A", "rft.au=A", "n=1"]),
    ("list x\nrule\nwhen x counts 1 to 2\nwhen lacks rft.au", ["x=1", "x=1&x=2&x=3", "x=1&rft.au=A"]),
    ("rule\nwhen has x\nlink {x}\n\nrule\nwhen has n", ["x=1", "n=1", "x=1&n=1", ""]),
]
# Lines of rules that are refused both ways.
REFUSED = ['rule\nwhen rft.au is "x"', "rule\nwhen x counts 1 to 2"]
LINK = "\nlink http://e.org/{rft.date}{?x,n,rft.au*}\n"
DECLARED = "".join(f"list {name}\n" for name in LISTS[1::2])


class Agreement:
    """The rules of one file, by both ways."""

    def __init__(self, program: Program, rules: str) -> None:
        self.program = program
        program.write("some.rules", rules)
        self.compiled = program.run(["compile", "some.rules", "some.olk"])
        self.is_refused = self.compiled[0] != 0

    def faults(self, query: str, is_refused: bool = False) -> list[str]:
        """What differs for a query, and whether the rules are refused as they are said to be."""
        by_link = self.program.run(["link", "some.rules", query])
        by_code = self.compiled if self.is_refused else self.program.run(["run", "some.olk", query])
        found = [f"by link {by_link}, by code {by_code}"] if by_link != by_code else []
        status, printed, said = self.compiled
        shows_size = not printed.startswith(b"openlink") and printed.endswith(b" bytes\n") and not said
        if is_refused != self.is_refused or is_refused != (status == 3) or not is_refused and not shows_size:
            found.append(f"compile gave {self.compiled}")
        # A link, or none; a refused file has neither.
        if by_link[0] not in ((3,) if is_refused else (0, 1)) or (by_link[0] == 0) != (by_link[1] != b""):
            found.append(f"link gave {by_link}")
        return found


class CompiledRules(ProgramCase):
    def agree(self, rules: str, queries: list[str], is_refused: bool = False) -> list[str]:
        agreement = Agreement(self.program, rules)
        for query in queries:
            self.expect(f"{rules!r} for {query}", agreement.faults(query, is_refused), [])
        return queries

    def test_examples(self) -> None:
        paths, count = sorted(glob.glob("examples/*.rules")), 0
        for path in paths:
            with open(path, encoding="utf-8") as rules, open(path[: -len("rules")] + "query", encoding="utf-8") as file:
                count += len(self.agree(rules.read(), file.read().splitlines()))
        self.expect(f"{len(paths)} files with {count} queries", len(paths) >= 6 and count >= 12)

    def test_guards(self) -> None:
        count = sum(len(self.agree(rules + LINK, queries)) for rules, queries in GUARDS)
        self.expect(f"{count} queries", count >= 45)

    def test_refused_rules(self) -> None:
        for rules in REFUSED:
            self.agree(rules + LINK, ["rft.au=x", "x=1"], is_refused=True)

    def test_templates_of_the_standard(self) -> None:
        templates = [it for it, _ in EXAMPLES if "{" in it]
        self.expect(f"{len(templates)} templates", len(templates) >= 100)
        for template in templates:
            self.agree(f"{DECLARED}\nrule\nlink {template}\n", [QUERY, ""])


class Stub:
    """A program that answers each command with the same."""

    def __init__(self, answers: dict[str, tuple[int, bytes, bytes]]) -> None:
        self.answers = answers

    def write(self, name: str, content: str) -> None:
        pass

    def run(self, arguments: list[str]) -> tuple[int, bytes, bytes]:
        return self.answers.get(arguments[0], self.answers["link"])


NOTHING, USAGE, BYTES = (0, b"", b""), (2, b"", b"openlink: usage\n"), (0, b"9 bytes\n", b"")
# What programs answer, and whether the comparison accepts it.
STUBS = [
    ({"link": NOTHING}, False),
    ({"link": USAGE}, False),
    ({"link": (0, b"a\n", b""), "compile": BYTES}, True),
    ({"link": (1, b"", b""), "compile": BYTES}, True),
    ({"link": (0, b"a\n", b""), "compile": BYTES, "run": (0, b"b\n", b"")}, False),
    ({"link": (0, b"a\n", b""), "compile": BYTES, "run": (1, b"", b"")}, False),
    ({"link": NOTHING, "compile": BYTES}, False),
    ({"link": (3, b"", b"openlink: rules: line 1: BadLine\n")}, False),
]


class OtherPrograms(ProgramCase):
    """The comparison fails for a program that does nothing, or always the same."""

    def test_stubs(self) -> None:
        for answers, is_right in STUBS:
            found = Agreement(Stub(answers), "rule\nlink a\n").faults("")  # type: ignore[arg-type]
            self.expect(f"{answers}: {found}", not found, is_right)
