"""Budgets that `verify` prints: which instructions write the element, and the bound at its limit."""
from fixtures.assembler import OPERATIONS, code
from fixtures.program import ProgramCase

NAMES = [("text", "t"), ("list", "l")]
LITERALS = [("link", "ab"), ("compare", "abc")]

# The operands of each operation whose first register is the element, r0, or which has no first register.
# EACH and NEXT are left out: a body has no EACH, and its NEXT is its last instruction.
OPERANDS = {
    "HALT": "",
    "FAIL": "",
    "JUMP": "4",
    "TEXT": "r0 n0",
    "LIST": "r0 n1",
    "CONST": "r0 l1",
    "NUMBER": "r0 r2 4",
    "UNDEF": "r0 4",
    "EMPTY": "r0 4",
    "NOLIST": "r0 4",
    "DIFFER": "r0 r2 4",
    "LESS": "r0 r2 4",
    "EMIT": "l0",
    "PUT": "r0 u",
    "CUT": "r0 2 ur",
    "SEP": "l0",
    "COUNT": "r0 r1",
}
WRITE = {"TEXT", "LIST", "CONST", "NUMBER", "COUNT"}
# The same with another first register, and the element second where there is one.
OTHER_OPERANDS = {
    "TEXT": "r2 n0",
    "LIST": "r2 n1",
    "CONST": "r2 l1",
    "NUMBER": "r2 r0 4",
    "UNDEF": "r2 4",
    "EMPTY": "r2 4",
    "NOLIST": "r2 4",
    "DIFFER": "r2 r0 4",
    "LESS": "r2 r0 4",
    "COUNT": "r2 r0",
}


def lines_of(steps, bytes_):
    return "ok\nsteps {} + {}*M\nbytes {} + {}*M + {}*E + {}*M*E".format(*steps, *bytes_)


def verify(program, names, literals, lines, steps, bytes_, version=2):
    program.write("code", code(names, literals, lines, version))
    program.prints(["verify", "code"], lines_of(steps, bytes_))


def in_body(line):
    """A loop with the element r0, whose body jumps over the line, so that the line needs no kinds."""
    return ["LIST r1 n1", "EACH r0 r1 6", "JUMP 4", line, "PUT r0 u", "NEXT", "HALT"]


# Codes whose steps are all taken: literals, instructions, the numbers of steps, and those of bytes.
# The names are a text and a list, `t` and `l`.
ABC = [("compare", "abc")]
CODES = [
    # The element is written, so each turn may print any text.
    (ABC, "LIST r0 n1, EACH r1 r0 5, CONST r1 l0, PUT r1 u, NEXT, HALT", (3, 3), (0, 9, 0, 3)),
    # It is printed first, and written then.
    (ABC, "LIST r0 n1, EACH r1 r0 5, PUT r1 u, CONST r1 l0, NEXT, HALT", (3, 3), (0, 9, 0, 3)),
    ([], "LIST r0 n1, EACH r1 r0 5, PUT r1 u, TEXT r1 n0, NEXT, HALT", (3, 3), (0, 0, 0, 3)),
    ([], "LIST r0 n1, EACH r1 r0 5, CUT r1 7 ur, LIST r1 n1, NEXT, HALT", (3, 3), (0, 0, 0, 3)),
    ([], "LIST r0 n1, EACH r1 r0 5, PUT r1 u, COUNT r1 r0, NEXT, HALT", (3, 3), (0, 0, 0, 3)),
    (ABC, "CONST r2 l0, LIST r0 n1, EACH r1 r0 6, PUT r1 u, NUMBER r1 r2 5, NEXT, HALT", (4, 3), (0, 9, 0, 3)),
    # It is compared, and printed.
    (ABC, "CONST r2 l0, LIST r0 n1, EACH r1 r0 6, DIFFER r1 r2 5, PUT r1 u, NEXT, HALT", (4, 3), (0, 0, 3, 0)),
    (ABC, "CONST r2 l0, LIST r0 n1, EACH r1 r0 6, EMPTY r1 5, PUT r1 u, NEXT, HALT", (4, 3), (0, 0, 3, 0)),
    # It is written before the loop or after it.
    (ABC, "CONST r1 l0, LIST r0 n1, EACH r1 r0 5, PUT r1 u, NEXT, HALT", (4, 2), (0, 0, 3, 0)),
    (ABC, "LIST r0 n1, EACH r1 r0 4, PUT r1 u, NEXT, CONST r1 l0, HALT", (4, 2), (0, 0, 3, 0)),
    (ABC, "LIST r0 n1, EACH r1 r0 4, PUT r1 u, NEXT, CONST r1 l0, PUT r1 u, HALT", (5, 2), (9, 0, 6, 0)),
    # Two loops with one element: the one that writes it, and the other.
    (
        ABC,
        "LIST r0 n1, EACH r1 r0 4, PUT r1 u, NEXT, EACH r1 r0 8, CONST r1 l0, PUT r1 u, NEXT, HALT",
        (4, 5),
        (0, 9, 3, 3),
    ),
]


class Budgets(ProgramCase):
    def test_which_instructions_write(self):
        """A PUT of the element counts 3 bytes for each of E; if the body writes it, 9 bytes and 3*E for each of M."""
        self.program.expect("operations", set(OPERANDS) | {"EACH", "NEXT"}, {*OPERATIONS} - {"?"})
        for operation, operands in OPERANDS.items():
            puts = 2 if operation in ("PUT", "CUT") else 1
            emitted = 2 if operation in ("EMIT", "SEP") else 0
            bytes_ = (0, 9, 0, 3) if operation in WRITE else (0, emitted, 3 * puts, 0)
            for version in (2,) if operation == "COUNT" else (1, 2):
                verify(self.program, NAMES, LITERALS, in_body(f"{operation} {operands}"), (3, 4), bytes_, version)

    def test_other_registers(self):
        """What writes another register leaves the element, also where it reads it."""
        for operation, operands in OTHER_OPERANDS.items():
            verify(self.program, NAMES, LITERALS, in_body(f"{operation} {operands}"), (3, 4), (0, 0, 3, 0))
        for line in ("PUT r2 u", "CUT r2 1 ur", "CUT r1 9999 u"):
            verify(self.program, NAMES, LITERALS, in_body(line), (3, 4), (0, 9, 3, 3))

    def test_codes(self):
        for literals, lines, steps, bytes_ in CODES:
            verify(self.program, NAMES, literals, lines, steps, bytes_)

    def test_element_written(self):
        lines = "LIST r0 n0, EACH r1 r0 5, CONST r1 l0, PUT r1 u, NEXT, HALT"
        for version in (1, 2):
            verify(self.program, [("list", "l")], ABC, lines, (3, 3), (0, 9, 0, 3), version)
        self.program.prints(["run", "code", "l=1&l=2&l=3"], "abcabcabc")

    def test_limit_of_bytes(self):
        """16 times 3 bytes for each of 21,845 letters, and 16 of a link text, are 1,048,576."""
        letters = "x" * 21845
        lines = ["TEXT r0 n0", "UNDEF r0 19"] + ["PUT r0 u"] * 16 + ["EMIT l0", "HALT"]
        # The bytes of the link text, the text, and whether the code runs.
        cases = [(15, letters, True), (16, letters, True), (17, letters, False), (16, letters + "x", False)]
        for length, text, runs in cases + [(64, letters[1:], True), (65, letters[1:], False)]:
            self.program.write("code", code([("text", "t")], [("link", "y" * length)], lines))
            if runs:
                self.program.prints(["run", "code", f"t={text}"], text * 16 + "y" * length)
            else:
                self.program.fails(["run", "code", f"t={text}"], 3, f"over budget: {48 * len(text) + length}")
        # Texts that the code does not print count as well.
        self.program.fails(["run", "code", f"t={letters}&u=x"], 3, f"over budget: {48 * 21846 + 65}")
