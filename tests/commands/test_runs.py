"""Runs of accepted code: the link that it gives for a query, or that it gives none."""
from fixtures.assembler import LIST_FILE, code
from fixtures.program import ProgramCase

# A name that the code declares as a list is a list of the query too, so `list` has no text.
NAMES = [
    ("text", "x"),
    ("list", "list"),
    ("text", "absent"),
    ("list", "absent"),
    ("text", "list"),
    ("text", "rft.issn"),
]
LITERALS = [
    ("link", ","),
    ("compare", "12a"),
    ("compare", ""),
    ("compare", "7"),
    ("compare", "1234567890"),
    ("compare", "%41%42"),
    ("compare", "3"),
    ("compare", "1"),
    ("link", ";"),
    ("link", "http://e.org/"),
]
NO_LINK = None
BOTH = (1, 2)

COLOURS = "list=red&list=green&list=blue"
VARIABLES = "x=a/%C3%A9&" + COLOURS

# The members of the list, with commas between them.
LIST_CODE = "LIST r0 n1, EACH r1 r0 5, SEP l0, PUT r1 u, NEXT, HALT"

# The text of a name, if there is one.
OPTIONAL = "TEXT r2 n0, UNDEF r2 3, PUT r2 u, HALT"

# A rule that links by the ISSN.
RULE = "EMIT l9, CONST r4 l2, TEXT r0 n5, UNDEF r0 8, EMPTY r4 6, EMIT l0, CONST r4 l7, PUT r0 u, HALT, FAIL"

# Counts of one list, compared.
COUNTS = "LIST r0 n1, COUNT r1 r0, COUNT r63 r0, LESS r1 r63 5, HALT, FAIL"


def expect_link(program, version, instructions, query, link):
    program.write("some.olk", code(NAMES, LITERALS, instructions, version))
    if link is NO_LINK:
        program.finds_no_link(["run", "some.olk", query])
    else:
        program.prints(["run", "some.olk", query], link)


# The versions of a code, its instructions, a query, and the link.
ENDINGS = [
    (BOTH, LIST_CODE, COLOURS, "red,green,blue"),
    (BOTH, LIST_CODE, VARIABLES, "red,green,blue"),
    ((2,), COUNTS, COLOURS, ""),
    ((1,), OPTIONAL, "x=a", "a"),
    ((1,), LIST_CODE, "", ""),
    ((1,), OPTIONAL, "", ""),
    ((1,), RULE, "", "http://e.org/"),
    ((1,), "EMIT l0, FAIL", "", NO_LINK),
    ((1,), RULE, "rft.issn=1234-5678", "http://e.org/1234-5678"),
]

# What each instruction does where `x` is a text and `list` has three members: instructions, and the link.
EFFECTS = [
    ("HALT", ""),
    ("FAIL", NO_LINK),
    ("EMIT l0, FAIL", NO_LINK),
    ("JUMP 2, FAIL, HALT", ""),
    ("TEXT r0 n4, UNDEF r0 3, FAIL, HALT", ""),
    ("LIST r0 n1, NOLIST r0 3, HALT, FAIL", ""),
    ("CONST r0 l1, PUT r0 u, HALT", "12a"),
    ("CONST r15 l1, PUT r15 u, HALT", "12a"),
    ("CONST r0 l1, NUMBER r1 r0 4, LESS r1 r1 4, HALT, FAIL", ""),
    ("CONST r0 l2, NUMBER r0 r0 3, FAIL, HALT", ""),
    ("CONST r0 l4, NUMBER r0 r0 3, FAIL, HALT", ""),
    ("CONST r1 l1, CONST r0 l2, NUMBER r1 r0 4, FAIL, PUT r1 u, HALT", "12a"),
    ("TEXT r0 n2, UNDEF r0 3, FAIL, HALT", ""),
    ("TEXT r0 n0, UNDEF r0 3, HALT, FAIL", ""),
    ("CONST r0 l2, EMPTY r0 3, FAIL, HALT", ""),
    ("CONST r0 l1, EMPTY r0 3, HALT, FAIL", ""),
    ("LIST r0 n3, NOLIST r0 3, FAIL, HALT", ""),
    ("CONST r0 l1, CONST r1 l1, DIFFER r0 r1 4, HALT, FAIL", ""),
    ("CONST r0 l1, CONST r1 l2, DIFFER r0 r1 4, FAIL, HALT", ""),
    ("CONST r0 l1, NUMBER r0 r0 6, CONST r1 l3, NUMBER r1 r1 6, LESS r1 r0 7, FAIL, FAIL, HALT", ""),
    ("CONST r0 l1, NUMBER r0 r0 6, CONST r1 l3, NUMBER r1 r1 6, LESS r0 r1 6, HALT, FAIL", ""),
    ("EMIT l0, EMIT l0, HALT", ",,"),
    ("CONST r0 l5, PUT r0 ur, PUT r0 u, HALT", "%41%42%2541%2542"),
    ("CONST r0 l5, CUT r0 1 ur, EMIT l0, CUT r0 1 u, HALT", "%41,%25"),
    (LIST_CODE, "red,green,blue"),
    ("LIST r0 n1, EACH r0 r0 4, PUT r0 u, NEXT, HALT", "redgreenblue"),
    ("LIST r0 n1, EACH r1 r0 4, JUMP 3, NEXT, EACH r1 r0 7, PUT r1 u, NEXT, HALT", "redgreenblue"),
]

# The same in version 2 alone.
SECOND_EFFECTS = [
    (COUNTS, ""),
    # As many members as the number that CONST r2 l6 begins with, and not one fewer or more.
    ("LIST r0 n1, COUNT r1 r0, CONST r2 l6, NUMBER r3 r2 7, LESS r1 r3 7, LESS r3 r1 7, HALT, FAIL", ""),
    ("LIST r0 n3, COUNT r1 r0, CONST r2 l7, NUMBER r3 r2 6, LESS r1 r3 6, FAIL, HALT", ""),
    ("LIST r0 n1, COUNT r0 r0, LESS r0 r0 3, HALT", ""),
    ("CONST r63 l1, PUT r63 u, HALT", "12a"),
]

# Versions, instructions that branch both ways, and the link where `x` is a text and `list` has three members, and where
# there is nothing.
BRANCHES = [
    (BOTH, OPTIONAL, "a%2F%C3%A9", ""),
    (BOTH, "TEXT r0 n0, UNDEF r0 5, CUT r0 2 ur, CUT r0 3 u, PUT r0 ur, HALT", "a/a%2F%C3%A9a/%C3%A9", ""),
    (BOTH, "JUMP 2, FAIL, CONST r0 l5, PUT r0 u, CUT r0 1 ur, HALT", "%2541%2542%41", "%2541%2542%41"),
    (BOTH, "LIST r0 n1, NOLIST r0 3, EMIT l0, HALT", ",", ""),
    (BOTH, "CONST r0 l1, CONST r1 l5, DIFFER r0 r1 4, EMIT l0, DIFFER r0 r0 6, EMIT l8, HALT", ";", ";"),
    # 7 is below 12, and neither 12 below 7 nor 12 below 12.
    (
        BOTH,
        "CONST r0 l1, CONST r1 l3, NUMBER r0 r0 9, NUMBER r1 r1 9, LESS r1 r0 6, EMIT l8, LESS r0 r1 9, LESS r0 r0 9, "
        "EMIT l0, HALT",
        ",",
        ",",
    ),
    # No number.
    (BOTH, "CONST r0 l5, NUMBER r1 r0 3, EMIT l0, HALT", "", ""),
    (BOTH, "CONST r0 l2, EMPTY r0 3, EMIT l0, CONST r1 l5, EMPTY r1 6, EMIT l8, HALT", ";", ";"),
    ((2,), "LIST r0 n1, COUNT r1 r0, CONST r2 l1, NUMBER r2 r2 6, LESS r1 r2 6, EMIT l0, HALT", "", ""),
    (
        BOTH,
        "LIST r0 n1, CONST r3 l1, EACH r1 r0 9, SEP l0, PUT r1 u, DIFFER r1 r3 7, EMIT l8, CONST r1 l5, NEXT, HALT",
        "red,green,blue",
        "",
    ),
]


class Runs(ProgramCase):
    def test_endings(self):
        for versions, instructions, query, link in ENDINGS:
            for version in versions:
                expect_link(self.program, version, instructions, query, link)

    def test_effects(self):
        for instructions, link in EFFECTS:
            for version in BOTH:
                expect_link(self.program, version, instructions, VARIABLES, link)
        for instructions, link in SECOND_EFFECTS:
            expect_link(self.program, 2, instructions, VARIABLES, link)

    def test_branches(self):
        for versions, instructions, link, bare_link in BRANCHES:
            for version in versions:
                expect_link(self.program, version, instructions, VARIABLES, link)
                expect_link(self.program, version, instructions, "", bare_link)

    def test_list_file(self):
        self.program.write("list.olk", LIST_FILE)
        self.program.prints(["run", "list.olk", VARIABLES], "red,green,blue")
        self.program.write("short.olk", LIST_FILE[:67])
        self.program.fails(["run", "short.olk", VARIABLES], 3, "load: Truncated at 67")

    def test_upgraded_list_file(self):
        self.program.write("list.olk", LIST_FILE)
        self.program.prints(["upgrade", "list.olk", "new.olk"], "68 bytes")
        self.program.prints(["run", "new.olk", VARIABLES], "red,green,blue")

    def test_long_links(self):
        member = "a" * 1_000
        expect_link(self.program, 1, LIST_CODE, "&".join([f"list={member}"] * 20), ",".join([member] * 20))
        expect_link(self.program, 1, LIST_CODE, "&".join(["list=m"] * 4_096), ",".join(["m"] * 4_096))
        expect_link(self.program, 1, OPTIONAL, "x=" + "+" * 40_000, "%20" * 40_000)
