"""`find`: the links for a query of any source, each target once."""
from fixtures.program import ProgramCase

RULES = "rule\nlink {+title_url}{?rft.volume}\n"
FIRST = "print_identifier\ttitle_url\n1234-567X\thttp://e.org/a\n"
SECOND = "print_identifier\ttitle_url\n2049-3630\thttp://e.org/n\n1234-567X\thttp://e.org/b\n"
# A target that answers every request.
SEARCH = "print_identifier\ttitle_url\nANY\thttp://s.org/\n"
REGISTRY = (
    "search\trules.olk\tsearch.txt\npress\trules.olk\tfirst.txt\npress.2\trules.olk\tsecond.txt\n"
    "shop\trules.olk\tsecond.txt\n"
)

# A query of a source, and its links: the parts of a target are one, and the links of its own request lead.
LINKS = [
    (
        "issn=1234567x&volume=12",
        "press\thttp://e.org/a?rft.volume=12\nshop\thttp://e.org/b?rft.volume=12\nsearch\thttp://s.org/?rft.volume=12",
    ),
    (
        "?issn=2049-3630&amp;volume=Vol. 3",
        "press\thttp://e.org/n?rft.volume=3\nshop\thttp://e.org/n?rft.volume=3\nsearch\thttp://s.org/?rft.volume=3",
    ),
    ("ctx_ver=Z39.88-2005&rft.issn=0000-0000", "search\thttp://s.org/"),
]


class FindCommand(ProgramCase):
    def setUp(self):
        super().setUp()
        self.program.write("rules.txt", RULES)
        status, _, _ = self.program.run(["compile", "rules.txt", "rules.olk"])
        self.expect("the status of compile", status, 0)
        for name, table in ("first", FIRST), ("second", SECOND), ("search", SEARCH):
            self.program.write(f"{name}.txt", table)
        self.program.write("registry.tsv", REGISTRY)

    def test_links(self):
        for query, lines in LINKS:
            self.program.prints(["find", "registry.tsv", query], lines)

    def test_no_links(self):
        self.program.write("press.tsv", "press\trules.olk\tfirst.txt\n")
        self.program.finds_no_link(["find", "press.tsv", "issn=2049-3630"])

    def test_refusals(self):
        self.program.fails(["find", "registry.tsv", "a" * 65_537], 3, "query: TooLong")
        self.program.fails(["find", "no/registry.tsv", ""], 4, "device: no/registry.tsv")
        self.program.fails(["find", "registry.tsv"], 2, "usage")
