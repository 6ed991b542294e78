"""Names of targets: 1 to 64 ASCII letters, digits, `-`, `_` and `.`, and each once."""
import string

from fixtures.program import ProgramCase, as_bytes
from fixtures.targets import ANY_LINK

ALLOWED = string.ascii_letters + string.digits + "-_."

# Bytes that end a cell or a line of the registry.
SEPARATORS = b"\t\n\r"

# Names with characters beyond ASCII, or with what other files of names allow.
OTHERS = [
    "",
    "a:b",
    "a b",
    " a",
    "a ",
    "a/b",
    "a\\b",
    "a,b",
    "a;b",
    '"a"',
    '"a',
    "'a'",
    "a@b",
    "a+b",
    "a%20b",
    "a*",
    "a#b",
    "#a",
    "é",
    "aé",
    "ß",
    "\uff41",
    "\u0430",
    "1\uff12",
    "\u0663",
    "a\u00a0",
    "a\u2013b",
    "a\u2010b",
    "a\u200b",
    "a\ufeffb",
    "\u0131",
    "\u212a",
    "\u00aa",
    "\u00b2",
    "a" * 65,
    "." * 65,
    "é" * 32,
    "é" * 64,
]

# Names that are allowed, besides those of one character.
NAMES = ["a" * 64, "-" * 64, "..", "--", "__", ".a", "-a", "_a", "a.", "a-", "a_", "A-b_c.9", "Alpha", "alpha", "ALPHA"]


def printed(name):
    """A name of bytes as a message has it: without control characters, as those of paths."""
    return b"".join(b"\\x%02x" % byte if byte < 0x20 or byte == 0x7F else bytes([byte]) for byte in name)


def write_files(program):
    program.write("code", ANY_LINK)
    program.write("table", "print_identifier\n1\n")


def write_named(program, names):
    program.write("registry", b"".join(as_bytes(name) + b"\tcode\ttable\n" for name in names))


class TargetNames(ProgramCase):
    def test_names(self):
        write_files(self.program)
        names = list(ALLOWED) + [f"a{character}b" for character in ALLOWED] + NAMES
        write_named(self.program, names)
        self.program.prints(
            ["resolve", "registry", "rft.issn=1"], "\n".join(f"{name}\thttp://e.org/" for name in names)
        )

    def test_all_other_bytes(self):
        """As a name's first byte, within it and as its last. What is no cell of text is an error of the registry."""
        write_files(self.program)
        for byte in range(256):
            if chr(byte) in ALLOWED:
                continue
            one = bytes([byte])
            is_cell = byte < 128 and byte not in SEPARATORS
            for name in (one + b"b", b"a" + one + b"b", b"a" + one) if byte < 128 else (b"a" + one + b"b",):
                write_named(self.program, [name])
                if name in (b"\nb", b"\rb"):
                    # An empty line, which is skipped, and a name without the byte.
                    self.program.prints(["resolve", "registry", "rft.issn=1"], "b\thttp://e.org/")
                else:
                    fault = b"target " + printed(name) + b": BadTargetName" if is_cell else b"registry: line 1"
                    self.program.fails(["resolve", "registry", "rft.issn=1"], 3, fault)

    def test_other_names(self):
        write_files(self.program)
        for name in OTHERS:
            write_named(self.program, [name])
            self.program.fails(["resolve", "registry", "rft.issn=1"], 3, f"target {name}: BadTargetName")

    def test_names_that_come_twice(self):
        write_files(self.program)
        for name in ("a", "A-b_c.9", "a" * 64):
            write_named(self.program, ["first", name, "last", name, "é"])
            self.program.fails(["resolve", "registry", "rft.issn=1"], 3, f"target {name}: BadTargetName")
