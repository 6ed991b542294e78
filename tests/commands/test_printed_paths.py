"""Control characters in the path of `device: PATH`: a line of their own, and no command to a terminal."""
from fixtures.assembler import HALT
from fixtures.program import ProgramCase

# The end of a path, and how it is printed.
ENDS = [
    ("\n", "\\x0a"),
    ("\t", "\\x09"),
    ("\r", "\\x0d"),
    ("\x01", "\\x01"),
    ("\x1b[2J", "\\x1b[2J"),
    ("\x1f", "\\x1f"),
    ("\x7f", "\\x7f"),
    (" ", " "),
    ("~", "~"),
    ("\\x0a", "\\x0a"),
    ("\x80", "\x80"),
    ("é", "é"),
    ("\u2028", "\u2028"),
]


class PrintedPaths(ProgramCase):
    def test_paths_of_arguments(self):
        self.program.write("good.rules", "rule\nlink http://e.org/\n")
        for end, printed in ENDS:
            for arguments in ["show", f"none{end}"], ["link", f"none{end}", ""], ["resolve", f"none{end}", ""]:
                self.program.fails(arguments, 4, f"device: none{printed}")
            on_targets = ["inspect", f"none{end}"], ["lint", "good.rules", f"none{end}"]
            for arguments in *on_targets, ["serve", f"none{end}", "0", "1"]:
                self.program.fails(arguments, 4, f"device: none{printed}")
            self.program.fails(["compile", "good.rules", f"none/a{end}"], 4, f"device: none/a{printed}")

    def test_paths_of_targets(self):
        """No cell of a registry has a tab or a line end."""
        self.program.write("good.olk", HALT)
        self.program.write("good.tsv", "x\n1\n")
        for end, printed in ENDS:
            if end in "\t\n\r":
                continue
            for code, table in (f"none{end}", "good.tsv"), ("good.olk", f"none{end}"):
                self.program.write("registry", f"alpha\t{code}\t{table}\n")
                self.program.fails(["resolve", "registry", ""], 4, f"target alpha: device: none{printed}")
