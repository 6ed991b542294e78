"""Files that are empty, as large as they may be, larger, or without an end, and what can't be read."""
import fcntl
import os
import struct
import termios

from fixtures.program import ProgramCase
from fixtures.targets import ANY_LINK


def largest_code():
    """A code file with as many names, literals, instructions and bytes as one may have: 256 names of 100 bytes, 1,024
    literals, of which the first has 3,574 bytes and the others none, and 4,096 instructions."""
    names = b"\x00\x64" + b"n" * 100
    literals = b"\x00\x0d\xf6" + b"u" * 3574 + b"\x00\x00\x00" * 1023
    return b"OLK1\x01\x00\x04\x00\x10\x00" + names * 256 + literals + b"\x01\x00\x00\x00\x00\x00\x00\x00" * 4096


# A command, the arguments after the path that it reads, and the error where a file has more than 65,536 bytes.
COMMANDS = [
    ("show", [], "code: TooLong at 65536"),
    ("verify", [], "load: TooLong at 65536"),
    ("link", ["x=1"], "rules: line 0: TooLong"),
    ("compile", ["new.olk"], "rules: line 0: TooLong"),
    ("upgrade", ["new.olk"], "code: TooLong at 65536"),
    ("resolve", ["x=1"], "registry: line 0"),
    ("find", ["x=1"], "registry: line 0"),
]


def left_in_pipe(program, arguments, count, fault):
    """The command fails on the pipe `pipe` with that many bytes in it; returns how many of them it leaves there."""
    pipe = os.open(f"{program.folder}/pipe", os.O_RDWR)
    try:
        fcntl.fcntl(pipe, 1031, 2**17)  # F_SETPIPE_SZ
        os.write(pipe, b"\n" * count)
        program.fails(arguments, 3, fault)
        return struct.unpack("i", fcntl.ioctl(pipe, termios.FIONREAD, b"\0" * 4))[0]
    finally:
        os.close(pipe)


class Files(ProgramCase):
    def test_an_empty_file(self):
        self.program.write("empty", "")
        self.program.fails(["show", "empty"], 3, "code: BadMagic at 0")
        self.program.finds_no_link(["link", "empty", "x=1"])

    def test_a_byte_order_mark(self):
        self.program.write("marked.olk", b"\xef\xbb\xbfOLK1\0\0\0\0\0\x01\x01\0\0\0\0\0\0\0")
        self.program.fails(["show", "marked.olk"], 3, "code: BadMagic at 0")
        self.program.write("marked.rules", b"\xef\xbb\xbfrule\nlink http://e.org/\n")
        self.program.fails(["link", "marked.rules", ""], 3, "rules: line 1: BadLine")

    def test_the_largest_rules(self):
        rules = "rule\nlink http://e.org/\n".ljust(65_536, "#")
        self.program.write("long.rules", rules)
        self.program.prints(["link", "long.rules", ""], "http://e.org/")
        self.program.write("longer.rules", rules + "#")
        self.program.fails(["link", "longer.rules", ""], 3, "rules: line 0: TooLong")

    def test_the_largest_code(self):
        code = largest_code()
        self.program.expect("the length of the code", len(code), 65_536)
        self.program.write("largest.olk", code)
        self.program.prints(["upgrade", "largest.olk", "upgraded.olk"], "65536 bytes")
        self.program.expect("the upgraded code", self.program.read("upgraded.olk") == b"OLK2" + code[4:])
        status, listing, errors = self.program.run(["show", "largest.olk"])
        lines = listing.split(b"\n")
        self.program.expect("the listing", (status, len(lines), lines[-1], errors), (0, 5378, b"", b""))
        self.program.expect("its first line", lines[0], b"OLK1 names 256 literals 1024 instructions 4096")
        self.program.expect("its last line", lines[5376:5377], [b"4095 HALT"])
        self.program.write("longer.olk", code + b"\0")
        self.program.fails(["show", "longer.olk"], 3, "code: TooLong at 65536")

    def test_one_byte_past_the_limit_is_read(self):
        """And no more of a file without an end."""
        os.mkfifo(f"{self.program.folder}/pipe")
        for command, rest, fault in COMMANDS:
            self.program.fails([command, "/dev/zero", *rest], 3, fault)
            left = left_in_pipe(self.program, [command, "pipe", *rest], 65_537 + 10, fault)
            self.program.expect(f"the bytes that {command} leaves", left, 10)
        self.program.expect("new.olk exists", self.program.has("new.olk"), False)

    def test_a_table_without_an_end(self):
        self.program.write("any.olk", ANY_LINK)
        self.program.write("registry", "alpha\tany.olk\t/dev/zero\nbeta\t/dev/zero\tnone\n")
        self.program.fails(["resolve", "registry", ""], 3, "target alpha: table: TooLong")
        self.program.write("registry", "alpha\t/dev/zero\tnone\n")
        self.program.fails(["resolve", "registry", ""], 3, "target alpha: load: TooLong at 65536")

    def test_what_cannot_be_read(self):
        """A folder can be opened, but not read."""
        for path in ".", "none/none", "none":
            for command, rest, _ in COMMANDS:
                self.program.fails([command, path, *rest], 4, f"device: {path}")
        self.program.expect("new.olk exists", self.program.has("new.olk"), False)
