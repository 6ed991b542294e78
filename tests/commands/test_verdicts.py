"""Code that is accepted, with the bounds of its steps and its output, and why other code is not."""
from fixtures.assembler import LIST_FILE, code, instruction
from fixtures.program import ProgramCase

# A text, a list, and link and comparison texts by turns.
NAMES = [("text", "x"), ("list", "list")]
LITERALS = [("link", ","), ("compare", "abc"), ("link", ";"), ("compare", "de")]

# The text of a name, if there is one.
OPTIONAL = "TEXT r2 n0, UNDEF r2 3, PUT r2 u, HALT"


def decides(program, file, verdict):
    program.write("some.olk", file)
    if verdict == "ok":
        status, printed, fault = program.run(["verify", "some.olk"])
        program.expect(f"verdict of {file}", (status, printed[:3], fault), (0, b"ok\n", b""))
    else:
        program.fails(["verify", "some.olk"], 3, f"load: {verdict}")


# The version of the list's code, the place of an instruction, the one that replaces it, and the verdict.
FORMS = [
    (1, 0, "LIST r0 n0", "ok"),
    (1, 0, "JUMP 3", "CrossesLoop at 0"),
    (1, 0, "JUMP 0", "JumpNotForward at 0"),
    (1, 0, "JUMP 6", "JumpOut at 0"),
    (1, 5, "EMIT l0", "FallsOff at 5"),
    (1, 2, "? 19 0 0 0 0", "UnknownOp at 2"),
    (1, 4, "? 18 1 0 0 0", "BadField at 4"),
    (1, 0, "LIST r16 n0", "BadRegister at 0"),
    (1, 0, "LIST r0 n1", "BadIndex at 0"),
    (1, 0, "TEXT r0 n0", "WrongTableKind at 0"),
    (1, 0, "SEP l0", "StraySep at 0"),
    (1, 1, "EACH r1 r0 4", "BadLoop at 1"),
    (1, 2, "EACH r2 r0 5", "NestedLoop at 2"),
    (1, 5, "NEXT", "StrayNext at 5"),
    (2, 0, "LIST r16 n0", "KindMismatch at 1, r0"),
    (2, 0, "LIST r64 n0", "BadRegister at 0"),
]

# Instructions, and the verdict in both versions.
KINDS = [
    ("TEXT r2 n0, PUT r2 u, HALT", "KindMismatch at 1, r2"),
    (OPTIONAL, "ok"),
    ("TEXT r0 n0, UNDEF r0 2, PUT r0 u, HALT", "KindMismatch at 2, r0"),
    ("LIST r0 n1, CONST r2 l1, EACH r1 r0 6, PUT r2 u, LIST r2 n1, NEXT, HALT", "KindMismatch at 3, r2"),
    ("LIST r0 n1, CONST r2 l1, EACH r1 r0 5, LIST r2 n1, NEXT, HALT", "ok"),
    ("LIST r0 n1, EACH r1 r0 3, NEXT, PUT r1 u, HALT", "KindMismatch at 3, r1"),
    ("CONST r0 l1, NUMBER r1 r0 2, LESS r1 r1 3, HALT", "KindMismatch at 2, r1"),
    ("CONST r0 l1, NUMBER r1 r0 3, LESS r1 r1 3, HALT", "ok"),
    ("LIST r0 n1, EACH r1 r0 4, HALT, NEXT, PUT r1 u, HALT", "KindMismatch at 4, r1"),
    ("CONST r0 l1, EMPTY r0 3, LIST r0 n1, PUT r0 u, HALT", "KindMismatch at 3, r0"),
    # The head rises from a text to a text or Undefined, and in the next turn of the walk a list comes.
    (
        "LIST r0 n1, CONST r2 l1, CONST r3 l1, EACH r1 r0 9, UNDEF r2 5, EMPTY r3 7, LIST r3 n1, TEXT r2 n0, NEXT, "
        "HALT",
        "KindMismatch at 5, r3",
    ),
    ("TEXT r2 n0, JUMP 3, PUT r2 u, HALT", "ok"),
]

COMMA = [("link", ",")]
ISSN = [("link", "http://e.org/"), ("compare", ""), ("link", ","), ("compare", "1")]

# The version, the names, the literals and the instructions of a code, and its bounds: M counts the members of lists, E
# the bytes of texts and members.
BUDGETS = [
    (
        1,
        [("list", "list")],
        COMMA,
        "LIST r0 n0, EACH r1 r0 5, SEP l0, PUT r1 u, NEXT, HALT",
        "steps 3 + 3*M\nbytes 0 + 1*M + 3*E + 0*M*E",
    ),
    (
        1,
        [("text", "rft.issn")],
        ISSN,
        "EMIT l0, CONST r4 l1, TEXT r0 n0, UNDEF r0 8, EMPTY r4 6, EMIT l2, CONST r4 l3, PUT r0 u, HALT, FAIL",
        "steps 10 + 0*M\nbytes 17 + 0*M + 3*E + 0*M*E",
    ),
    # A body that writes another text over its element.
    (
        1,
        [("list", "list")],
        [("compare", "abc")],
        "LIST r0 n0, EACH r1 r0 5, CONST r1 l0, PUT r1 u, NEXT, HALT",
        "steps 3 + 3*M\nbytes 0 + 9*M + 0*E + 3*M*E",
    ),
    (1, [("text", "x")], [], OPTIONAL, "steps 4 + 0*M\nbytes 0 + 0*M + 3*E + 0*M*E"),
    # A body that writes a number over its element.
    (
        2,
        [("list", "list")],
        [],
        "LIST r0 n0, EACH r1 r0 5, PUT r1 u, COUNT r1 r0, NEXT, HALT",
        "steps 3 + 3*M\nbytes 0 + 0*M + 0*E + 3*M*E",
    ),
]


class Verdicts(ProgramCase):
    def test_form(self):
        for version, place, text, verdict in FORMS:
            start = 20 + 8 * place
            file = b"OLK%d" % version + LIST_FILE[4:start] + instruction(text) + LIST_FILE[start + 8 :]
            decides(self.program, file, verdict)

    def test_kinds(self):
        for instructions, verdict in KINDS:
            for version in (1, 2):
                decides(self.program, code(NAMES, LITERALS, instructions, version), verdict)

    def test_budgets(self):
        for version, names, literals, instructions, bounds in BUDGETS:
            self.program.write("some.olk", code(names, literals, instructions, version))
            self.program.prints(["verify", "some.olk"], f"ok\n{bounds}")
