"""Equality of texts, byte for byte, in rules and in code; and which texts have a number."""
from fixtures.assembler import code
from fixtures.program import ProgramCase

# The characters that a text of a rule can show, and all of ASCII.
PRINTABLE = [chr(number) for number in range(0x20, 0x7F)]
ASCII = [chr(number) for number in range(128)]

# Two texts that are not equal.
UNEQUAL = [
    ("a", "A"),
    ("a", ""),
    ("a", "ab"),
    ("ab", "b"),
    ("a", "aa"),
    ("1", "01"),
    ("1", "1.0"),
    ("a", " a"),
    ("a", "a "),
    ("-", "–"),
    ("é", "e"),
    ("é", "É"),
    ("\u00e9", "e\u0301"),
    ("ß", "ss"),
    ("a", "\u0430"),
    ("+", " "),
    ("%41", "A"),
    ("Li", "li"),
]
EQUAL = ["", "a", "A", "é", "e\u0301", "Smith, J", "%41", "a" * 300]

# Values, and the number of each: that of the 1 to 9 digits of ASCII that it begins with.
NUMBERS = [
    ("5", 5),
    ("0", 0),
    ("00", 0),
    ("000000005", 5),
    ("999999999", 999999999),
    ("5-", 5),
    ("5x6", 5),
    ("5%2E5", 5),
    ("5+6", 5),
    ("12%283%29", 12),
    ("007x", 7),
    ("", None),
    ("a1", None),
    ("0000000001a", None),
    ("0000000005", None),
    ("1000000000", None),
    ("1234567890", None),
    ("1234567890x", None),
    ("%2B5", None),
    ("-5", None),
    ("+5", None),
    ("%205", None),
    ("%095", None),
    ("%0A5", None),
    ("%005", None),
    ("x5", None),
    ("%235", None),
    ("%2E5", None),
    ("%E2%88%925", None),
    ("%EF%BC%95", None),
    ("%D9%A5", None),
    ("%C2%B2", None),
    ("%E2%85%A4", None),
    ("V", None),
    ("%EF%BB%BF5", None),
]


def quoted(text):
    return '"' + text.replace("\\", "\\\\").replace('"', '\\"') + '"'


def encoded(text):
    return "".join(f"%{byte:02X}" for byte in text.encode())


def write_rule(program, *lines):
    program.write("rules", "\n".join(["rule", *lines, ""]))


def gives_link(program, holds, query):
    if holds:
        program.prints(["link", "rules", query], "e")
    else:
        program.finds_no_link(["link", "rules", query])


class Comparisons(ProgramCase):
    def test_each_character(self):
        """A rule for each character; the link says which of them holds."""
        for condition, key in [("x is", "x"), ("rft.au holds", "rft.au")]:
            rules = [f"rule\nwhen {condition} {quoted(one)}\nlink {ord(one)}\n" for one in PRINTABLE]
            self.program.write("rules", "".join(rules))
            for one in ASCII:
                arguments = ["link", "rules", f"{key}={encoded(one)}"]
                if one in PRINTABLE:
                    self.program.prints(arguments, str(ord(one)))
                else:
                    self.program.finds_no_link(arguments)

    def test_texts(self):
        for condition, key in [("x is", "x"), ("rft.au holds", "rft.au")]:
            for one, other in UNEQUAL + [(other, one) for one, other in UNEQUAL]:
                write_rule(self.program, f"when {condition} {quoted(one)}", "link e")
                self.program.finds_no_link(["link", "rules", f"{key}={encoded(other)}"])
            for text in EQUAL:
                write_rule(self.program, f"when {condition} {quoted(text)}", "link e")
                self.program.prints(["link", "rules", f"{key}={encoded(text)}"], "e")

    def test_code(self):
        """The code has the empty link where its two texts differ, and none where they are equal."""
        lines = "CONST r0 l0, CONST r1 l1, DIFFER r0 r1 4, FAIL, HALT"
        for one, other in UNEQUAL + [(other, one) for one, other in UNEQUAL]:
            self.program.write("code", code([], [("compare", one), ("compare", other)], lines))
            self.program.prints(["run", "code", ""], "")
        for text in EQUAL:
            self.program.write("code", code([], [("compare", text), ("compare", text)], lines))
            self.program.finds_no_link(["run", "code", ""])

    def test_numbers(self):
        """The condition without bounds holds where there is a number."""
        write_rule(self.program, "when x from * to *", "link e")
        cases = [(value, number is not None) for value, number in NUMBERS]
        cases += [(encoded(one) + "5", one.isdigit()) for one in ASCII] + [("5" + encoded(one), True) for one in ASCII]
        for value, is_number in cases:
            gives_link(self.program, is_number, f"x={value}")

    def test_exact_numbers(self):
        for value, number in NUMBERS:
            for bound in (0, 1, 5, 7, 12, 999999999):
                write_rule(self.program, f"when x from {bound} to {bound}", "link e")
                gives_link(self.program, number == bound, f"x={value}")

    def test_bounds(self):
        """A bound whose text has no number sets no condition."""
        for bounds, holds in [("n to *", lambda number: number <= 5), ("* to n", lambda number: number >= 5)]:
            write_rule(self.program, f"when x from {bounds}", "link e")
            for value, number in NUMBERS:
                gives_link(self.program, number is None or holds(number), f"x=5&n={value}")
