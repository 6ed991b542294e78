"""The first error of a rule file that `link` refuses: its line and its kind."""
from fixtures.program import ProgramCase

# Lines that have none of the forms.
BAD_LINES = [
    (" ", "line 1: BadLine"),
    (";", "line 1: BadLine"),
    (" #", "line 1: BadLine"),
    ("\ufeffrule", "line 1: BadLine"),
    ("\ufeffrule\nlink a", "line 1: BadLine"),
    ("Rule", "line 1: BadLine"),
    ("rule ", "line 1: BadLine"),
    (" rule", "line 1: BadLine"),
    ("rule\r", "line 1: BadLine"),
    ("rule\r\r\nlink a", "line 1: BadLine"),
    ("rule\rlink a", "line 1: BadLine"),
    ("list", "line 1: BadLine"),
    ("list ", "line 1: BadLine"),
    ("list  x", "line 1: BadLine"),
    ("list x ", "line 1: BadLine"),
    ("list x y", "line 1: BadLine"),
    ("#\nlist a b", "line 2: BadLine"),
    ("list a..b", "line 1: BadLine"),
    ("list\tx", "line 1: BadLine"),
    ("rule\nlink", "line 2: BadLine"),
    ("rule\nlinka", "line 2: BadLine"),
    ("rule\nwhen", "line 2: BadLine"),
    ("rule\n \nrule", "line 2: BadLine"),
    (";\nrule\nlink a", "line 1: BadLine"),
]

ORDER_OF_LINES = [
    ("when has x", "line 1: BadLine"),
    ("link a", "line 1: BadLine"),
    ("list x\nlink a", "line 2: BadLine"),
    ("list x\nwhen has x", "line 2: BadLine"),
    ("rule\nlist x", "line 2: BadLine"),
    ("rule\nlink a\nlink b", "line 3: BadLine"),
    ("rule\nlink a\nwhen has x", "line 3: BadLine"),
    ("rule\nlink a\nlist x", "line 3: BadLine"),
]

# Rules without a link.
NO_LINK = [
    ("rule", "line 1: NoLink"),
    ("rule\nrule", "line 1: NoLink"),
    ("#\nrule\n\nwhen has x\n#", "line 2: NoLink"),
    ("# one\nrule\nlink a\n\nrule\nwhen has x\nrule", "line 5: NoLink"),
    ("rule\nlink a\nrule\nwhen has x\nrule\nlink b", "line 3: NoLink"),
    ("rule\nrule\nlist x", "line 1: NoLink"),
    ("rule\nlist x\nrule", "line 2: BadLine"),
]

TEMPLATES = [
    ("rule\nlink {a", "line 2: Template Unclosed"),
    ("rule\nlink  a", "line 2: Template BadLiteral"),
    ("rule\nlink a\r", "line 2: Template BadLiteral"),
    ("rule\n\nlink {a b}", "line 3: Template BadName"),
    ("rule\nlink " + "a" * 8193, "line 2: Template TooLong"),
    ("rule\nlink {}", "line 2: Template EmptyExpression"),
    ("rule\nlink {=a}", "line 2: Template ReservedOperator"),
    ("rule\nlink {a b}", "line 2: Template BadName"),
    ("rule\nlink {a:0}", "line 2: Template BadModifier"),
    # The kinds of names.
    ("rule\nlink {rft.au:3}", "line 2: KindMismatch"),
    ("rule\nlink a{x}b{y,rft_id:9999}", "line 2: KindMismatch"),
    ("list y\nrule\nlink {y:1}", "line 3: KindMismatch"),
]

# Of several errors, that of the first line is named. On one line, BadLine comes before an error of the template, which
# comes before KindMismatch.
SEVERAL = [
    ("link {a", "line 1: BadLine"),
    ("when given rft.au", "line 1: BadLine"),
    ("rule\nlink {rft.au:3}{", "line 2: Template Unclosed"),
    ("rule\nlink {rft.au:3} ", "line 2: Template BadLiteral"),
    ("rule\nlink {a\nlist x", "line 2: Template Unclosed"),
    ("rule\nwhen given rft.au\nlink {a", "line 2: KindMismatch"),
    ("rule\nwhen given rft.au\nrule", "line 2: KindMismatch"),
    ('rule\nwhen x is "a\\"\nlink b', "line 2: BadLine"),
    ("rule\nwhen rft.au from x to 1 2\nlink b", "line 2: BadLine"),
]

# A rule file has at most 65,536 bytes, of UTF-8.
WHOLE_FILES = [
    ("#" * 65537, "line 0: TooLong"),
    (b"\xff" * 65537, "line 0: TooLong"),
    (b"\xff" * 65536, "line 0: NotUtf8"),
    (b"#\xff", "line 0: NotUtf8"),
    (b"rule\nrule\xc3", "line 0: NotUtf8"),
]

# What comes after `when ` and is not a guard.
NO_GUARDS = [
    "",
    "has",
    "has ",
    "has  x",
    "has x ",
    "has x y",
    "Has x",
    "lacks",
    "lacks x,y",
    "given ",
    'given "x"',
    "x",
    "x is",
    "x is ",
    "x is a",
    'x is "',
    'x is "a',
    'x is a"',
    "x is 'a'",
    'x is "a" ',
    'x is  "a"',
    'x IS "a"',
    'x is "a"b"',
    'x is "a\\"',
    'x is "a\\b"',
    'x is "a\\\\\\"',
    'a..b is "a"',
    "rft.au holds",
    'rft.au holds "',
    'rft.au holds "a',
    "rft.au holds a",
    "x from",
    "x from 1",
    "x from 1 to",
    "x from 1 to ",
    "x from 1 2",
    "x from 1 TO 2",
    "x from 1 to 2 ",
    "x from  1 to 2",
    "x from 1  to 2",
    "x from 1 to  2",
    "x from 1 to 2 to 3",
    "x from 1-2",
    "x from -1 to 2",
    "x from +1 to 2",
    "x from 1 to **",
    "x from 1 to 1234567890",
    "x from 0000000000 to 1",
    "x from a..b to 1",
    "x between 1 to 2",
    "rft.au counts",
    "rft.au counts 1",
    "rft.au counts 1 to",
    "rft.au counts 1 to 2 ",
    "rft.au counts 1 to 1234567890",
    "rft.au counts 1 2",
]

# Lines that use a list as a text, or a text as a list, where `y` is a declared list.
MISUSES = [
    "when given rft.au",
    "when given rft_id",
    "when given y",
    'when rft.au is "a"',
    'when y is ""',
    'when x holds "a"',
    'when rft.date holds ""',
    "when rft_id from 1 to 2",
    "when rft.au from 1 to 2",
    "when x from rft.au to 2",
    "when x from rft_id to 2",
    "when x from 1 to y",
    "when x counts 1 to 2",
    "when has counts 1 to 2",
    "when rft.au counts rft_id to 2",
    "when rft.au counts 1 to rft_id",
    "when y counts 1 to y",
    "link {rft.au:3}",
    "link a{?x,y:1}",
]

# The same where `counts` is a declared list.
MISUSES_OF_COUNTS = [
    "when x from 1 to counts",
    "when counts counts 1 to counts",
    "when rft.au counts 1 to counts",
    "link a{?x,counts:1}",
]


def fail(program, rules):
    for content, error in rules:
        program.write("faulty.rules", content)
        expected = (3, b"", f"openlink: rules: {error}\n".encode())
        program.expect(f"{content!r:.200}", program.run(["link", "faulty.rules", ""]), expected)


class RuleErrors(ProgramCase):
    def test_lines(self):
        fail(self.program, BAD_LINES + ORDER_OF_LINES + NO_LINK)

    def test_templates(self):
        fail(self.program, TEMPLATES)

    def test_several_errors(self):
        fail(self.program, SEVERAL)

    def test_whole_files(self):
        fail(self.program, WHOLE_FILES)
        self.program.write("long.rules", "#" * 65536)
        self.program.finds_no_link(["link", "long.rules", ""])

    def test_guards(self):
        fail(self.program, [(f"list y\nrule\nwhen {guard}\nlink a", "line 3: BadLine") for guard in NO_GUARDS])

    def test_misused_names(self):
        for name, lines in [("y", MISUSES), ("counts", MISUSES_OF_COUNTS)]:
            fail(self.program, [(f"list {name}\nrule\n{line}\nlink a", "line 3: KindMismatch") for line in lines])
