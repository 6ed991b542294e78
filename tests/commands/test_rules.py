"""Rule files that `link` takes: their names, guards and links."""
from fixtures.program import ProgramCase

# A name of a `list` line, and whether it is one.
NAMES = [
    ("rft.au", True),
    ("rft_id", True),
    ("a", True),
    ("_", True),
    ("9", True),
    ("12", True),
    ("A.b.%4a", True),
    ("%41", True),
    ("%41b", True),
    ("a%C3_", True),
    ("", False),
    (".", False),
    (".a", False),
    ("a.", False),
    ("a..b", False),
    ("a-b", False),
    ("a b", False),
    ("a:1", False),
    ("a*", False),
    ("%", False),
    ("%4", False),
    ("%4g", False),
    ("a%4", False),
    ("a%", False),
    ("é", False),
    ("aé", False),
    ("n" * 255, True),
    ("n" * 256, False),
]

TEXTS = "x=&seven=7b&word=b7&quoted=a%22b&slash=%5C&has=x&12=&to=5&counts=1&two=2&nine=999999999&ten=1234567890"

MEMBERS = "rft.au=Wu&rft.au=Li&by=a"

# A guard, and whether it holds.
GUARDS = [
    ("has x", True),
    ("has z", False),
    ("has 12", True),
    ("lacks z", True),
    ("lacks x", False),
    ("given x", False),
    ("given seven", True),
    ('quoted is "a\\"b"', True),
    ('slash is "\\\\"', True),
    ('z is ""', False),
    ('has is "x"', True),
    ("seven from * to 9", True),
    ("word from * to 9", False),
    ("word from * to *", False),
    ("to from to to to", True),
    ("nine from 1 to 999999999", True),
    ("ten from 1 to 999999999", False),
    # Of lists.
    ('rft.au holds "Li"', True),
    ('by holds "Li"', False),
    ("has by", True),
    ("lacks rft_id", True),
    ("rft.au counts 2 to *", True),
    ("by counts 2 to *", False),
    ("by counts * to 1", True),
    ("rft.au counts * to 1", False),
    ("rft_id counts 0 to 0", True),
    ("rft_id counts 1 to *", False),
    ("by counts two to *", False),
    ("by counts word to *", True),
    ("rft.au counts * to word", True),
    ("by counts counts to counts", True),
    ("rft.au counts counts to counts", False),
]

# A guard where `y` is a declared list, a query, and whether the guard holds.
OTHER_GUARDS = [
    ("has 12", "12=", True),
    ("has rft.au", "rft.au=", True),
    ("has rft.au", "rft.aulast=a", False),
    ("lacks y", "x=a", True),
    ("lacks y", "y=", False),
    ('has is "x"', "has=x", True),
    ('has is "x"', "x=", False),
    ("given from 1 to 2", "given=2", True),
    ("given from 1 to 2", "given=3", False),
    ('is is "is"', "is=is", True),
    ('x is ""', "x=", True),
    ('x is ""', "x=+", False),
    ('x is " "', "x=+", True),
    ('x is "a\\\\"', "x=a%5C", True),
    ('x is "\\""', "x=%22", True),
    ('x is "é"', "x=%C3%A9", True),
    ('y holds "to"', "y=a&y=to", True),
    ('y holds "to"', "y=a", False),
    ("x from to to to", "x=5&to=5", True),
    ("x from to to to", "x=5&to=6", False),
    ("x from * to *", "x=5", True),
    ("x from 000000001 to 999999999", "x=1", True),
    ("x from 000000001 to 999999999", "x=0", False),
    ("x from 1a to b2", "x=5&1a=4&b2=6", True),
    ("x from 1a to b2", "x=5&1a=6&b2=6", False),
    ("x from 1a to b2", "x=5&1a=4&b2=4", False),
    ("y counts 0 to x", "y=a&x=1", True),
    ("y counts 0 to x", "y=a&y=b&x=1", False),
]

# A rule file, and how many rules it has.
NUMBERS_OF_RULES = [
    ("", 0),
    ("#", 0),
    ("list x\nlist rft.au\nlist x", 0),
    ("rule\nlink a", 1),
    ("rule\r\n#\r\n\r\nlink a\r\n", 1),
    ("rule\nlink ", 1),
    ("list 12\nrule\nlink {12*}\nrule\nwhen has x\nlink b\n", 2),
    ("#\ufeff\nrule\nlink {x:9999}{rft.au}", 1),
]

COVERAGE = "rule\nwhen rft.date from date_first_issue_online to date_last_issue_online\nlink http://e.org/{rft.date}"

SEVERAL = "rule\nwhen rft.au counts 2 to *\nlink http://e.org/{rft.au}"

TWO_GUARDS = "# two guards\r\nrule\r\nwhen has a\r\n\r\nwhen lacks b\r\nlink {a}"

# A rule file, a query, and the link, or None.
LINKS = [
    # A coverage bounds the year.
    (
        COVERAGE,
        "rft.date=1999-05&date_first_issue_online=1995-01-01&date_last_issue_online=",
        "http://e.org/1999-05",
    ),
    (COVERAGE, "rft.date=1994&date_first_issue_online=1995-01-01&date_last_issue_online=", None),
    # The first rule whose guards hold gives the link.
    (SEVERAL, "rft.au=A&rft.au=B", "http://e.org/A,B"),
    (SEVERAL, "rft.au=A", None),
    ("rule\nlink a\nrule\nlink b", "", "a"),
    ("rule\nwhen has x\nwhen lacks x\nlink a\nrule\nlink b", "", "b"),
    ("list 12\nrule\nlink ", "", ""),
    ("", "", None),
    # Comments and blank lines are none, and CR LF ends lines.
    (TWO_GUARDS, "a=1", "1"),
    (TWO_GUARDS, "a=1&b=1", None),
    (TWO_GUARDS, "", None),
]


class Rules(ProgramCase):
    def test_names(self):
        for name, is_name in NAMES:
            self.program.write("list.rules", f"list {name}\n")
            if is_name:
                self.program.finds_no_link(["link", "list.rules", ""])
            else:
                self.program.fails(["link", "list.rules", ""], 3, "rules: line 1: BadLine")

    def test_guards(self):
        for guard, holds in GUARDS:
            self.program.write("guard.rules", f"list by\nrule\nwhen {guard}\nlink http://e.org/")
            arguments = ["link", "guard.rules", f"{TEXTS}&{MEMBERS}"]
            if holds:
                self.program.prints(arguments, "http://e.org/")
            else:
                self.program.finds_no_link(arguments)

    def test_other_guards(self):
        for guard, query, holds in OTHER_GUARDS:
            self.program.write("guard.rules", f"list y\nrule\nwhen {guard}\nlink a")
            expected = (0, b"a\n", b"") if holds else (1, b"", b"")
            self.program.expect(f"{guard}, {query}", self.program.run(["link", "guard.rules", query]), expected)

    def test_numbers_of_rules(self):
        self.program.write("one.tsv", "print_identifier\n1\n")
        for rules, number in NUMBERS_OF_RULES:
            self.program.write("some.rules", rules)
            self.program.expect(
                rules, self.program.run(["lint", "some.rules", "one.tsv"])[1].split(b"\n")[0], b"rules %d" % number
            )

    def test_links(self):
        for rules, query, link in LINKS:
            self.program.write("some.rules", rules)
            if link is None:
                self.program.finds_no_link(["link", "some.rules", query])
            else:
                self.program.prints(["link", "some.rules", query], link)
