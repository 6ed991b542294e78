"""Code files: their listings, their files of version 2, and why bytes are no code file."""
from fixtures.assembler import LIST_FILE, code
from fixtures.program import ProgramCase

LIST_LISTING = """OLK1 names 1 literals 1 instructions 6
name 0 list list
literal 0 link ","
0 LIST r0 n0
1 EACH r1 r0 5
2 SEP l0
3 PUT r1 u
4 NEXT
5 HALT"""

# A rule with the link `http://e.org/{rft.issn}`.
ISSN = code(
    [("text", "rft.issn")],
    [("link", "http://e.org/"), ("compare", ""), ("link", ","), ("compare", "1")],
    "EMIT l0, CONST r4 l1, TEXT r0 n0, UNDEF r0 8, EMPTY r4 6, EMIT l2, CONST r4 l3, PUT r0 u, HALT, FAIL",
)

ISSN_LISTING = """OLK1 names 1 literals 4 instructions 10
name 0 text rft.issn
literal 0 link "http://e.org/"
literal 1 compare ""
literal 2 link ","
literal 3 compare "1"
0 EMIT l0
1 CONST r4 l1
2 TEXT r0 n0
3 UNDEF r0 8
4 EMPTY r4 6
5 EMIT l2
6 CONST r4 l3
7 PUT r0 u
8 HALT
9 FAIL"""

# Operations, operands that are out of their range, and bytes of literals that are not printed as they are.
ODD = code(
    [],
    [("compare", '"a\\\n\u00e9~'), ("compare", " \x1f\x7f")],
    "? 3 0 0 0 7, ? 7 1 2 0 7, ? 10 1 0 0 7, ? 11 1 2 0 7, ? 12 1 2 0 7, ? 14 1 0 1 0, ? 15 1 9999 1 0, "
    "? 15 1 10000 1 0, ? 15 1 0 0 0, ? 14 1 0 2 0, ? 1 0 0 0 1, ? 0 0 0 0 0",
)

ODD_LISTING = r"""OLK1 names 0 literals 2 instructions 12
literal 0 compare "\x22a\x5c\x0a\xc3\xa9~"
literal 1 compare " \x1f\x7f"
0 JUMP 7
1 NUMBER r1 r2 7
2 NOLIST r1 7
3 DIFFER r1 r2 7
4 LESS r1 r2 7
5 PUT r1 ur
6 CUT r1 9999 ur
7 ? 15 1 10000 1 0
8 ? 15 1 0 0 0
9 ? 14 1 0 2 0
10 ? 1 0 0 0 1
11 ? 0 0 0 0 0"""

# A file, and its listing.
LISTINGS = [
    (LIST_FILE, LIST_LISTING),
    (ISSN, ISSN_LISTING),
    (ODD, ODD_LISTING),
    (code([], [], "? 19 1 0 0 0", version=2), "OLK2 names 0 literals 0 instructions 1\n0 COUNT r1 r0"),
    (code([], [], "? 19 1 0 0 0"), "OLK1 names 0 literals 0 instructions 1\n0 ? 19 1 0 0 0"),
    (b"OLK1\0\0\0\0\0\x01\x13\x01\0\x02\0\x03\0\x04", "OLK1 names 0 literals 0 instructions 1\n0 ? 19 1 2 3 4"),
]


def upgrades(program, file):
    """The new file is the old one, with the digit of version 2."""
    program.write("old.olk", file)
    program.prints(["upgrade", "old.olk", "new.olk"], f"{len(file)} bytes")
    program.expect("the upgraded file", program.read("new.olk"), b"OLK2" + file[4:])


# Bytes, and why they are no code file.
HEADERS = [
    (b"", "BadMagic at 0"),
    (b"OLK0\0\0\0\0\0\x01\x01\0\0\0\0\0\0\0", "BadMagic at 0"),
    (b"OLK3\0\0\0\0\0\x01\x01\0\0\0\0\0\0\0", "BadMagic at 0"),
    (b"OLK1\x01\x01\0\0\0\x01", "TooMany at 4"),  # 257 names
    (b"OLK2\x01\x01\0\0\0\x01", "TooMany at 4"),  # in the other version too
    (b"OLK1\0\0\x04\x01\0\x01", "TooMany at 6"),  # 1,025 literals
    (b"OLK1\0\0\0\0\x10\x01", "TooMany at 8"),  # 4,097 instructions
    (b"OLK1\0\0\0\0\0\0", "NoCode at 8"),
    (b"OLK1\x01\x01\0\0\0\0", "TooMany at 4"),  # and no instruction
    (b"OLK1\x01\x01\0\0\0", "Truncated at 9"),  # a count cut short
    (b"\0" * 65_537, "TooLong at 65536"),
]

ENTRIES = [
    (b"OLK1\0\x01\0\0\0\x01", "Truncated at 10"),  # no names
    (b"OLK1\0\x01\0\0\0\x01\x02", "BadKind at 10"),  # and no length
    (b"OLK1\0\x01\0\0\0\x01\0\0", "BadName at 11"),  # a zero length, and no text
    (b"OLK1\0\0\0\x01\0\x01\0\0", "Truncated at 12"),  # half a length
    (b"OLK1\0\0\0\x01\0\x01\0\0\x03a%4", "BadLiteral at 13"),  # a lone percent sign
    (b"OLK1\0\0\0\x01\0\x01\x01\0\x02a\xc3", "BadLiteral at 13"),  # half a character
]

# A byte's place in the list's file, what it is changed to, and the error then.
CHANGES = [
    (10, 0x02, "BadKind at 10"),
    (11, 0x3A, "Truncated at 68"),
    (11, 0x00, "BadName at 11"),
    (12, 0x20, "BadName at 12"),
    (15, 0x7F, "BadName at 15"),
    (16, 0x02, "BadKind at 16"),
    (19, 0x25, "BadLiteral at 19"),
]


def is_refused(program, file, fault):
    """By the commands that read code, and by those that verify it."""
    program.write("bad.olk", file)
    program.fails(["show", "bad.olk"], 3, f"code: {fault}")
    program.fails(["verify", "bad.olk"], 3, f"load: {fault}")


class CodeFiles(ProgramCase):
    def test_listings(self):
        for file, listing in LISTINGS:
            self.program.write("some.olk", file)
            self.program.prints(["show", "some.olk"], listing)

    def test_upgrades(self):
        for file, _ in LISTINGS:
            upgrades(self.program, file)
        upgrades(self.program, b"OLK2" + LIST_FILE[4:])

    def test_all_limits(self):
        """256 names, 1,024 literals and 4,096 instructions."""
        file = code([("list", "a")] * 256, [("link", "b")] * 1_024, ["HALT"] * 4_096, version=2)
        self.program.expect("bytes", len(file), 37_642)
        upgrades(self.program, file)
        _, listing, _ = self.program.run(["show", "old.olk"])
        self.program.expect("lines", len(listing.splitlines()), 5_377)

    def test_longest_file(self):
        text = "a" * 65_515
        file = code([], [("compare", text)], "HALT")
        self.program.expect("bytes", len(file), 65_536)
        upgrades(self.program, file)
        self.program.prints(
            ["show", "old.olk"], f'OLK1 names 0 literals 1 instructions 1\nliteral 0 compare "{text}"\n0 HALT'
        )

    def test_faults(self):
        for file, fault in HEADERS + ENTRIES:
            is_refused(self.program, file, fault)

    def test_changed_bytes(self):
        for place, value, fault in CHANGES:
            is_refused(self.program, LIST_FILE[:place] + bytes([value]) + LIST_FILE[place + 1 :], fault)

    def test_cut_and_lengthened_files(self):
        for length in range(68):
            is_refused(self.program, LIST_FILE[:length], "BadMagic at 0" if length < 4 else f"Truncated at {length}")
        is_refused(self.program, LIST_FILE + b"\0", "Trailing at 68")
