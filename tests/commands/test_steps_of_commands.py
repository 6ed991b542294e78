"""Which of several errors of a command is named: that of its first step."""
import itertools
import socket

from fixtures.assembler import code
from fixtures.program import ProgramCase
from fixtures.targets import ANY_LINK

# Steps of commands in their order: for each step an argument without an error, and arguments with one, and the error.
QUERIES = ["x=1", ("url_ver=1", 3, "query: WrongVersion"), ("a" * 65537, 3, "query: TooLong")]
PLACES = ["new.olk", ("no/new.olk", 4, "device: no/new.olk")]
COMMANDS = [
    (["expand"], [["{x}", ("{", 3, "template: Unclosed at 0")], QUERIES]),
    (
        ["link"],
        [
            [
                "good.rules",
                ("no/such.rules", 4, "device: no/such.rules"),
                (".", 4, "device: ."),
                ("bad.rules", 3, "rules: line 1: BadLine"),
            ],
            QUERIES,
        ],
    ),
    (
        ["run"],
        [
            [
                "good.olk",
                ("none.olk", 4, "device: none.olk"),
                ("cut.olk", 3, "load: Truncated at 17"),
                ("jump.olk", 3, "load: JumpOut at 0"),
                ("kind.olk", 3, "load: KindMismatch at 0, r0"),
            ],
            QUERIES,
        ],
    ),
    (
        ["compile"],
        [
            [
                "good.rules",
                ("none.rules", 4, "device: none.rules"),
                ("bad.rules", 3, "rules: line 1: BadLine"),
                ("large.rules", 3, "compile: TooManyInstructions"),
            ],
            PLACES,
        ],
    ),
    (["upgrade"], [["good.olk", ("none.olk", 4, "device: none.olk"), ("cut.olk", 3, "code: Truncated at 17")], PLACES]),
]

TARGETS = [
    ["good.olk", ("none.olk", 4, "device: none.olk"), ("jump.olk", 3, "load: JumpOut at 0")],
    ["good.tsv", ("none.tsv", 4, "device: none.tsv"), ("empty.tsv", 3, "table: NoHeader")],
]


def write_files(program):
    program.write("good.rules", "rule\nlink {x}\n")
    program.write("bad.rules", "rul\n")
    program.write("large.rules", "rule\nlink " + "{a}" * 585 + "\n")
    program.write("good.olk", ANY_LINK)
    program.write("cut.olk", code([], [], "HALT")[:-1])
    program.write("jump.olk", code([], [], "JUMP 2, HALT"))
    program.write("kind.olk", code([], [], "PUT r0 u, HALT"))
    program.write("good.tsv", "print_identifier\n1\n")
    program.write("empty.tsv", "")


def first_fault(steps):
    return next((step for step in steps if isinstance(step, tuple)), None)


class StepsOfCommands(ProgramCase):
    def test_steps_of_commands(self):
        write_files(self.program)
        for command, alternatives in COMMANDS:
            for steps in itertools.product(*alternatives):
                arguments = command + [step[0] if isinstance(step, tuple) else step for step in steps]
                fault = first_fault(steps)
                if fault:
                    self.program.fails(arguments, *fault[1:])
                else:
                    self.program.expect(arguments, self.program.run(arguments)[0], 0)

    def test_steps_of_targets(self):
        """A target's code, its table, its name; then the next line; and the query after all."""
        write_files(self.program)
        names = ["alpha", ("a:b", 3, "BadTargetName")]
        for code_step, table_step, name_step in itertools.product(*TARGETS, names):
            steps = [code_step, table_step, name_step]
            path, table, name = [step[0] if isinstance(step, tuple) else step for step in steps]
            for last in ("", "two\tcells\n", "gamma\tnone.olk\tnone.tsv\n"):
                self.program.write("registry", f"{name}\t{path}\t{table}\n{last}")
                for query in QUERIES:
                    fault = first_fault(steps)
                    if fault:
                        expected = (fault[1], f"target {name}: {fault[2]}")
                    elif last:
                        expected = (3, "registry: line 2") if "two" in last else (4, "target gamma: device: none.olk")
                    else:
                        expected = query[1:] if isinstance(query, tuple) else None
                    text = query[0] if isinstance(query, tuple) else query
                    if expected:
                        self.program.fails(["resolve", "registry", text], *expected)
                    else:
                        self.program.finds_no_link(["resolve", "registry", text])

    def test_service(self):
        """The arguments, the registry, the port."""
        write_files(self.program)
        self.program.write("registry", "alpha\tgood.olk\tgood.tsv\n")
        self.program.write("bad", "alpha\n")
        with socket.create_server(("127.0.0.1", 0)) as taken:
            port = str(taken.getsockname()[1])
            self.program.fails(["serve", "registry", port, "1"], 4, f"device: 127.0.0.1:{port}")
            for free in (port, "0", "65535"):
                self.program.fails(["serve", "none.txt", free, "1"], 4, "device: none.txt")
                self.program.fails(["serve", "bad", free, "1"], 3, "registry: line 1")
                for count in ("0", "1000001", "", "x", "+1", "-1"):
                    self.program.fails(["serve", "none.txt", free, count], 2, "usage")
            for other in ("65536", "", "x", "-1", "+0", " 0"):
                self.program.fails(["serve", "none.txt", other, "1"], 2, "usage")

    def test_options(self):
        """`--list` comes before the template."""
        cases = [["{x}", "--list", "a", "x=1"], ["{x}", "x=1", "--list", "a"], ["--list", "a", "{x}", "x=1", "x"]]
        for arguments in cases + [["--list", "a", "{x}"], ["--list", "a"], ["--list"], ["{x}"], []]:
            self.program.fails(["expand", *arguments], 2, "usage")
        # The errors of a template and a query do not show where the arguments are wrong.
        self.program.fails(["expand", "{", "--list", "a", "url_ver=1"], 2, "usage")
        self.program.prints(["expand", "--list", "--list", "{x}", "x=1"], "1")
