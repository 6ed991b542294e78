"""Registries given to `resolve`: their menus, and why they are refused."""
from fixtures.program import ProgramCase

ALPHA = "rule\nwhen rft.date from date_first_issue_online to date_last_issue_online\nlink {+title_url}\n"
BETA = "rule\nlink javascript:x\n"
# Two rows of one journal, in two years.
TABLE = (
    "print_identifier\ttitle_url\tdate_first_issue_online\tdate_last_issue_online\n"
    "1234-567X\thttp://e.org/a\t1990\t1995\n1234-567X\thttp://e.org/b\t2000\t\n"
)
MENU = "alpha\talpha.olk\ttable.txt\nbeta\tbeta.olk\ttable.txt\n"

# A registry, the status and the error.
REFUSED = [
    ("alpha\talpha.olk\ttable.txt\nalpha\tbeta.olk\ttable.txt\n", 3, "target alpha: BadTargetName"),
    ("alpha\talpha.olk\ttable.txt\n\nbeta\tbeta.olk\n", 3, "registry: line 2"),
    ("alpha\tnone.olk\ttable.txt\n", 4, "target alpha: device: none.olk"),
    ("alpha\ttable.txt\ttable.txt\n", 3, "target alpha: load: BadMagic at 0"),
]


def make_targets(program):
    program.write("alpha.rules", ALPHA)
    program.write("beta.rules", BETA)
    for name in "alpha", "beta":
        status, _, _ = program.run(["compile", f"{name}.rules", f"{name}.olk"])
        program.expect(f"the status of compile {name}.rules", status, 0)
    program.write("table.txt", TABLE)


class ResolveCommand(ProgramCase):
    def test_menus(self):
        make_targets(self.program)
        self.program.write("menu.txt", MENU)
        found = "rft.issn=1234567x&rft.date=2003"
        self.program.prints(["resolve", "menu.txt", found], "alpha\thttp://e.org/b")
        # A link that is not one of the web is left out, and what the request says does not replace the row's.
        hostile = found + "&title_url=http%3A%2F%2Fevil.example"
        self.program.prints(["resolve", "menu.txt", hostile], "alpha\thttp://e.org/b")
        self.program.finds_no_link(["resolve", "menu.txt", "rft.issn=0000-0000"])
        self.program.finds_no_link(["resolve", "menu.txt", "rft.issn=1234567x"])
        self.program.fails(["resolve", "menu.txt", "ctx_ver=Z39.88-2005"], 3, "query: WrongVersion")

    def test_refusals(self):
        make_targets(self.program)
        for registry, status, fault in REFUSED:
            self.program.write("faulty.txt", registry)
            # The registry's error comes before the query's.
            self.program.fails(["resolve", "faulty.txt", "ctx_ver=Z39.88-2005"], status, fault)

    def test_other_arguments(self):
        self.program.fails(["resolve", "no/menu.txt", ""], 4, "device: no/menu.txt")
        self.program.fails(["resolve", "menu.txt"], 2, "usage")
        self.program.fails(["resolve", "menu.txt", "", ""], 2, "usage")
