"""The first error of a template: its kind and its place (RFC 6570, sections 2.1 to 2.4); templates at the limits."""
from fixtures.program import ProgramCase

LITERALS = [
    ("a}", "BadLiteral", 1),
    ("{a}}", "BadLiteral", 3),
    ("a b", "BadLiteral", 1),
    ("%", "BadLiteral", 0),
    ("a%4", "BadLiteral", 1),
    ("%4g", "BadLiteral", 0),
    ("%%41", "BadLiteral", 0),
    ("%41%", "BadLiteral", 3),
    ("\x7f", "BadLiteral", 0),
    ("é^", "BadLiteral", 2),
    ("é%4", "BadLiteral", 2),
    ("\ufdd0", "BadLiteral", 0),
    ("\ue000\ufdd0", "BadLiteral", 3),
    ("\U0001fffe", "BadLiteral", 0),
    ("\U000e0001", "BadLiteral", 0),
]

# An expression ends with the first `}`.
BRACES = [
    ("{", "Unclosed", 0),
    ("{a", "Unclosed", 0),
    ("{=a", "Unclosed", 0),
    ("{a b", "Unclosed", 0),
    ("{a}{b", "Unclosed", 3),
    ("{}", "EmptyExpression", 0),
    ("a{}", "EmptyExpression", 1),
    ("{}}", "EmptyExpression", 0),
    ("{a{b}", "BadName", 1),
    ("{{a}}", "BadName", 1),
]

# Reserved operators, more than one operator, and an operator without a name.
OPERATORS = [
    ("{=a}", "ReservedOperator", 1),
    ("{,a}", "ReservedOperator", 1),
    ("{!a}", "ReservedOperator", 1),
    ("{@a}", "ReservedOperator", 1),
    ("{|a}", "ReservedOperator", 1),
    ("{|}", "ReservedOperator", 1),
    ("{+=a}", "BadName", 2),
    ("{++a}", "BadName", 2),
    ("{..a}", "BadName", 2),
    ("{$a}", "BadName", 1),
    ("{.}", "BadName", 2),
    ("x{+}", "BadName", 3),
]

NAMES = [
    ("{+,a}", "BadName", 2),
    ("{a,}", "BadName", 3),
    ("{a,,b}", "BadName", 3),
    ("{a b}", "BadName", 1),
    ("{ a}", "BadName", 1),
    ("{a }", "BadName", 1),
    ("{a, b}", "BadName", 3),
    ("{a-b}", "BadName", 1),
    ("{a.}", "BadName", 1),
    ("{a..b}", "BadName", 1),
    ("{a/b}", "BadName", 1),
    ("{a%4}", "BadName", 1),
    ("{a%4g}", "BadName", 1),
    ("{é}", "BadName", 1),
    ("{aé}", "BadName", 1),
    ("{a,é}", "BadName", 3),
    ("é{a b}", "BadName", 3),
    ("é{?a,bé}", "BadName", 6),
    ("{:3}", "BadName", 1),
    ("{*}", "BadName", 1),
    ("{a.:3}", "BadName", 1),
    ("{?a=b}", "BadName", 2),
]

MODIFIERS = [
    ("{a:}", "BadModifier", 2),
    ("{a:0}", "BadModifier", 2),
    ("{a:01}", "BadModifier", 2),
    ("{a,b:01}", "BadModifier", 4),
    ("{a:10000}", "BadModifier", 2),
    # Numbers of 33 and of 65 bits that end as 1 does.
    ("{a:4294967297}", "BadModifier", 2),
    ("{a:18446744073709551617}", "BadModifier", 2),
    ("{a:+1}", "BadModifier", 2),
    ("{a: 1}", "BadModifier", 2),
    ("{a:1 }", "BadModifier", 2),
    ("{a:1a}", "BadModifier", 2),
    ("{a:a}", "BadModifier", 2),
    ("{a:é}", "BadModifier", 2),
    ("{a::1}", "BadModifier", 2),
    ("{a:1:1}", "BadModifier", 2),
    ("{a:3*}", "BadModifier", 2),
    ("{a*:3}", "BadModifier", 2),
    ("{a**}", "BadModifier", 2),
    ("{a*3}", "BadModifier", 2),
    ("{a*b}", "BadModifier", 2),
    ("€{a:0}", "BadModifier", 5),
]

# Templates with several errors: the leftmost one is named.
SEVERAL = [
    ("{a b,c:0}", "BadName", 1),
    ("{a:0,b c}", "BadModifier", 2),
    ("{ab,c:0,d e}", "BadModifier", 5),
    ("{+ab,cd*e}", "BadModifier", 7),
    ("{a b}^", "BadName", 1),
    ("^{a b}", "BadLiteral", 0),
    ("{a:0}{}", "BadModifier", 2),
    ("{}{a:0}", "EmptyExpression", 0),
    ("^{", "BadLiteral", 0),
]

# A template has at most 8,192 bytes, and a name at most 255.
TOO_LONG = [
    ("a" * 8193, "TooLong", 8192),
    ("}" + "a" * 8192, "TooLong", 8192),
    ("é" * 4096 + "a", "TooLong", 8192),
    ("{" + "{" * 8192 + "}", "TooLong", 8192),
    ("a" * 8191 + "}", "BadLiteral", 8191),
    ("{" + "a" * 256 + "}", "BadName", 1),
    ("{" + "a" * 256 + ":0}", "BadName", 1),
    ("{" + "%41" * 85 + "a}", "BadName", 1),
    ("{" + "a" * 255 + ":0}", "BadModifier", 256),
]

# Templates of the greatest length or with a name of the greatest length, and their expansion if no name is defined.
LONGEST = [
    ("a" * 8192, "a" * 8192),
    ("é" * 4096, "%C3%A9" * 4096),
    ("{" + "a" * 255 + "}", ""),
    ("{" + "%41" * 85 + ":9999}", ""),
    ("{ab" + ",a" * 4094 + "}", ""),
]


def fail(program, templates):
    for template, kind, place in templates:
        program.fails(["expand", template, ""], 3, f"template: {kind} at {place}")


class TemplateErrors(ProgramCase):
    def test_literals(self):
        fail(self.program, LITERALS)

    def test_braces_and_operators(self):
        fail(self.program, BRACES + OPERATORS)

    def test_names(self):
        fail(self.program, NAMES)

    def test_modifiers(self):
        fail(self.program, MODIFIERS)

    def test_several_errors(self):
        fail(self.program, SEVERAL)

    def test_limits(self):
        fail(self.program, TOO_LONG)
        for template, expansion in LONGEST:
            self.program.prints(["expand", template, ""], expansion)
