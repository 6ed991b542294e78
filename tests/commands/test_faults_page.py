"""What docs/ERRORS.md says to do about an error, done: its commands run in the folder of the test, and the error is
gone or its place is found."""
import os
import re
import subprocess

from fixtures.program import ProgramCase

PAGE = os.path.abspath("docs/ERRORS.md")
# Bytes that are not UTF-8, after two characters of one and of three bytes: a lone byte, a character over U+10FFFF, a
# length that UTF-8 does not have, half of a pair of UTF-16, and a character that is cut short.
WRONG = [b"\x80", b"\xf4\x90\x80\x80", b"\xf8\x88\x80\x80\x80", b"\xed\xa0\x80", b"\xe2\x82"]
RULE = "rule\nlink http://e.org/\n"


def commands_of(kind, holding):
    """The commands in the entry of this kind that name this file."""
    with open(PAGE, encoding="utf-8") as page:
        entries = re.findall(rf"^- `{kind}`.*$", page.read(), re.M)
    return [it for entry in entries for it in re.findall(r"`([^`]+)`", entry) if re.search(rf"\b{holding}\b", it)]


def shell(program, command):
    return subprocess.run(["bash", "-c", command], cwd=program.folder, capture_output=True, text=True)


class FaultsPage(ProgramCase):
    def test_wrong_byte_is_found(self):
        for holding, front in ("RULES", "# \u20ac"), ("TABLE", "a \u20ac"):
            find = commands_of("NotUtf8", holding)[0]
            for wrong in WRONG:
                self.program.write(holding, front.encode() + wrong + b"\n")
                arguments, fault = {
                    "RULES": (["link", "RULES", ""], "rules: line 0: NotUtf8"),
                    "TABLE": (["inspect", "TABLE"], "table: NotUtf8"),
                }[holding]
                self.program.fails(arguments, 3, fault)
                place = re.search(r"position (\d+)", shell(self.program, find).stderr)
                self.program.expect(f"{find} on {wrong}", place and int(place[1]), len(front.encode()))

    def test_ends_of_lines(self):
        """Lines of rules that end with CR alone are one line."""
        self.program.write("RULES", RULE.replace("\n", "\r"))
        self.program.fails(["link", "RULES", ""], 3, "rules: line 1: BadLine")
        with open(PAGE, encoding="utf-8") as page:
            mend = re.search(r"end with CR alone.*\): `([^`]+)`", page.read())[1]
        shell(self.program, mend)
        self.program.prints(["link", "NEW", ""], "http://e.org/")

    def test_dash_is_a_file(self):
        self.program.fails(["inspect", "-"], 4, "device: -")
        self.program.write("-", "print_identifier\n")
        self.program.gives(["inspect", "-"], 1, self.program.run(["inspect", "./-"])[1], "")

    def test_long_names(self):
        """A file system has names of at most 255 bytes, and `.new` is added. The file has a header of ten bytes, a
        literal of thirteen with three before it, and three instructions of eight."""
        self.program.write("RULES", RULE)
        for length in 251, 252, 255:
            name = "n" * length
            if length == 251:
                self.program.prints(["compile", "RULES", name], "50 bytes")
            else:
                self.program.fails(["compile", "RULES", name], 4, f"device: {name}")
