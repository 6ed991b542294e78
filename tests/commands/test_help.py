"""What the program says of itself, and arguments that are no command."""
from fixtures.program import ProgramCase

COMMANDS = [
    "expand",
    "link",
    "compile",
    "verify",
    "show",
    "upgrade",
    "run",
    "inspect",
    "lint",
    "explain",
    "resolve",
    "read",
    "find",
    "serve",
]

NO_COMMANDS = [
    [],
    ["unfold", "{x}", "x=1"],
    ["--help", "expand"],
    ["expand", "--help"],
    ["help", "serve"],
    ["-h", "-h"],
    ["--version", "1"],
    ["version"],
    ["-V"],
    ["--Help"],
    ["--help "],
    [""],
]


def printed(program, argument):
    """What the one argument prints, with status 0 and no error."""
    status, output, errors = program.run([argument])
    program.expect(f"status and fault of openlink {argument}", (status, errors), (0, b""))
    return output.decode()


class HelpText(ProgramCase):
    def test_help_names_each_command(self):
        text = printed(self.program, "--help")
        for name in COMMANDS:
            self.program.expect(f"the help names {name}", f"\n  openlink {name} " in text)
        for argument in "-h", "help":
            self.program.expect(f"openlink {argument}", printed(self.program, argument), text)

    def test_version(self):
        line = printed(self.program, "--version")
        self.program.expect("the line begins and ends", (line[:9], line[-1:]), ("openlink ", "\n"))
        for part in line[9:-1].split("."):
            self.program.expect(f"{part!r} is a number", part.isascii() and part.isdigit())

    def test_no_commands(self):
        for arguments in NO_COMMANDS:
            self.program.fails(arguments, 2, "usage")
