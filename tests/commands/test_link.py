"""Rule files given to `link`: which links they give, and why they are refused."""
from fixtures.program import ProgramCase

COVERAGE = "rule\nwhen rft.date from date_first_issue_online to date_last_issue_online\nlink http://e.org/{rft.date}\n"
VOLUME = "rule\nwhen rft.volume from 1 to 999999999\nlink http://e.org/v\n"

# Rules, a query, and the link, or None.
LINKS = [
    (
        COVERAGE,
        "rft.date=1999-05&date_first_issue_online=1995-01-01&date_last_issue_online=",
        "http://e.org/1999-05",
    ),
    (COVERAGE, "rft.date=1994&date_first_issue_online=1995-01-01&date_last_issue_online=", None),
    # A number has at most nine digits.
    (VOLUME, "rft.volume=1234567890", None),
    (VOLUME, "rft.volume=999999999", "http://e.org/v"),
]

# The guard of a rule, a query, and whether there is a link.
GUARDS = [
    ("has x", "x=", True),
    ("given x", "x=", False),
    ("lacks x", "", True),
    ('x is "a\\"b"', "x=a%22b", True),
    ('rft.au holds "Li"', "rft.au=Wu&rft.au=Li", True),
    ("x from * to 9", "x=7b", True),
    ("x from * to 9", "x=b7", False),
]

# Rules, and their error.
REFUSED = [
    ("rule\nwhen x from 1 to 1234567890\nlink a\n", "line 2: BadLine"),
    ('rule\nwhen rft.au is "x"\nlink http://e.org/\n', "line 2: KindMismatch"),
    ("rule\nrule\n", "line 1: NoLink"),
    ("rule\nlink {a\n", "line 2: Template Unclosed"),
    ("when has x\n", "line 1: BadLine"),
    ("rule\nlink {rft.au:3}\n", "line 2: KindMismatch"),
    ("#" * 65_537, "line 0: TooLong"),
]


def links(program, rules, query, link):
    program.write("some.rules", rules)
    if link is None:
        program.finds_no_link(["link", "some.rules", query])
    else:
        program.prints(["link", "some.rules", query], link)


class LinkCommand(ProgramCase):
    def test_links(self):
        for rules, query, link in LINKS:
            links(self.program, rules, query, link)

    def test_guards(self):
        for guard, query, holds in GUARDS:
            links(self.program, f"rule\nwhen {guard}\nlink http://e.org/\n", query, "http://e.org/" if holds else None)

    def test_refusals(self):
        for rules, fault in REFUSED:
            self.program.write("bad.rules", rules)
            self.program.fails(["link", "bad.rules", ""], 3, f"rules: {fault}")

    def test_other_arguments(self):
        self.program.write("none.rules", "")
        self.program.finds_no_link(["link", "none.rules", "x=1"])
        self.program.fails(["link", "none.rules"], 2, "usage")
        self.program.fails(["link", "none.rules", "x=1", "y"], 2, "usage")
        self.program.fails(["link", "no/such.rules", ""], 4, "device: no/such.rules")
        self.program.fails(["link", "none.rules", "url_ver=1"], 3, "query: WrongVersion")
