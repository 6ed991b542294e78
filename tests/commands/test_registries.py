"""Registry files: which are taken, which error is the first, and what a row and a request have together."""
from fixtures.assembler import FAIL
from fixtures.program import ProgramCase
from fixtures.service import expect_replies, reply_of, request_of
from fixtures.targets import JOURNAL, write_registry

QUERY = "rft.issn=1234567x"

# A header and one row.
TABLE = "title_url\nhttp://e.org/a\n"


def write_files(program):
    program.write("code.olk", FAIL)
    program.write("table.txt", TABLE)
    program.write("empty.txt", "")


def takes(program, registry):
    """The registry file has no error; nor has a request a link of its targets."""
    program.write("registry.txt", registry)
    program.finds_no_link(["resolve", "registry.txt", QUERY])


def refuses(program, registry, status, fault):
    program.write("registry.txt", registry)
    program.fails(["resolve", "registry.txt", QUERY], status, fault)


# Registry files without an error.
TAKEN = [
    b"",
    b"\n\r\n",
    b"alpha\tcode.olk\ttable.txt\n",
    b"\xef\xbb\xbfalpha\tcode.olk\ttable.txt",
    b"a\tcode.olk\ttable.txt\r\n\r\nb\tcode.olk\ttable.txt\r\n",
]

# A registry file, the status, and its first error.
REFUSED = [
    (b"alpha\tcode.olk\n", 3, "registry: line 1"),
    (b"alpha\tcode.olk\ttable.txt\t\n", 3, "registry: line 1"),
    (b"alpha\tcode.olk\ttable.txt\n\nbeta\n", 3, "registry: line 2"),
    (b"alph\xff\tcode.olk\ttable.txt\n", 3, "registry: line 1"),
    # The error of a target on an earlier line comes first.
    (b"a b\tcode.olk\ttable.txt\nbeta\n", 3, "target a b: BadTargetName"),
    (b"alpha\tcode.olk\ttable.txt\nalpha\tcode.olk\ttable.txt\n", 3, "target alpha: BadTargetName"),
    (b"alpha\ttable.txt\tcode.olk\n", 3, "target alpha: load: BadMagic at 0"),
    (b"alpha\tnone.olk\ttable.txt\n", 4, "target alpha: device: none.olk"),
    (b"alpha\tcode.olk\tnone.txt\n", 4, "target alpha: device: none.txt"),
    (b"alpha\tcode.olk\tempty.txt\n", 3, "target alpha: table: NoHeader"),
    # A folder is opened, and can't be read.
    (b"alpha\t/\ttable.txt\n", 4, "target alpha: device: /"),
    (b"alpha\tcode.olk\t/\n", 4, "target alpha: device: /"),
    # Of the errors of one target, that of its code comes first, and that of its name last.
    (b"a b\ttable.txt\tnone.txt\n", 3, "target a b: load: BadMagic at 0"),
    (b"a b\tnone.olk\tempty.txt\n", 4, "target a b: device: none.olk"),
    (b"a b\tcode.olk\tempty.txt\n", 3, "target a b: table: NoHeader"),
    # Control characters of a name are printed as those of a path.
    (b"\x1b[2J\x07\tcode.olk\ttable.txt\n", 3, "target \\x1b[2J\\x07: BadTargetName"),
    (b"a\x7f\x00\x0bb\tnone.olk\ttable.txt\n", 4, "target a\\x7f\\x00\\x0bb: device: none.olk"),
    # It has a byte more than it may have.
    (b"\n" * 65_537, 3, "registry: line 0"),
]


def reports(program, report):
    """The report of registry for the query."""
    expect_replies(program, [(request_of(f"/report?{QUERY}"), reply_of(200, report))])


LONGEST = "abcdefghijklmnopqrstuvwxyzABCDEFGHIJKLMNOPQRSTUVWXYZ0123456789-_"
NAMES = ["alpha", "Alpha", ".", LONGEST]
NO_NAMES = ["alpha", "", "caf\u00e9", "a&b", LONGEST + "."]


def lines(names):
    return "".join(f"{name}\tcode.olk\ttable.txt\n" for name in names)


# Only the second row has a link. It has no cell for the last date, so the request's value counts.
RULES = (
    'list list\nrule\nwhen date_first_issue_online is "2000"\n'
    "link {+title_url}{?print_identifier,date_first_issue_online,date_last_issue_online,rft.issn,x,list*}\n"
)
WITH_CELLS = (
    "rft.issn=1234567x&title_url=http%3A%2F%2Fevil.example&list=a&x=1&list=b&x=2" "&date_last_issue_online=2005"
)
LINK = (
    "http://e.org/b?print_identifier=1234-567X&date_first_issue_online=2000&date_last_issue_online=2005"
    "&rft.issn=1234567x&x=1&list=a&list=b"
)


class Registries(ProgramCase):
    def test_the_first_fault(self):
        write_files(self.program)
        for registry in TAKEN + [b"\n" * 65_536]:
            takes(self.program, registry)
        for registry, status, fault in REFUSED:
            refuses(self.program, registry, status, fault)

    def test_a_registry_that_cannot_be_read(self):
        for path in "none.txt", "/":
            self.program.fails(["resolve", path, QUERY], 4, f"device: {path}")

    def test_targets_stand_in_the_order_of_the_file(self):
        write_registry(self.program, [("b", FAIL, JOURNAL), ("a", FAIL, TABLE)])
        reports(self.program, "b\tno link\na\tno row\n")

    def test_names_of_targets(self):
        write_files(self.program)
        for name in NO_NAMES:
            refuses(self.program, lines(NAMES + [name]), 3, f"target {name}: BadTargetName")
        takes(self.program, lines(NAMES))
        self.program.write("registry", lines(NAMES))
        reports(self.program, f"alpha\tno row\nAlpha\tno row\n.\tno row\n{LONGEST}\tno row\n")

    def test_a_registry_of_256_targets_is_full(self):
        write_files(self.program)
        numbered = [f"t{number}" for number in range(256)]
        self.program.write("registry", lines(numbered))
        reports(self.program, "".join(f"{name}\tno row\n" for name in numbered))
        # That there is no room is decided before the name is looked at.
        for name in "one-more", "a b", "t0":
            refuses(self.program, lines(numbered + [name]), 3, f"target {name}: Full")

    def test_a_row_comes_before_its_request(self):
        write_registry(self.program, [("alpha", RULES, JOURNAL)])
        self.program.prints(["resolve", "registry", WITH_CELLS], f"alpha\t{LINK}")
