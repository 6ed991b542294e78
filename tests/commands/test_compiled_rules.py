"""Rules that are compiled: the listing and the size of their code, its limits, and the links that it gives."""
from commands.test_code_files import ISSN_LISTING
from fixtures.program import ProgramCase

COUNTS = "rule\nwhen rft.au counts 2 to *\nlink http://e.org/{rft.au}\n"

COUNTS_LISTING = """OLK2 names 1 literals 5 instructions 18
name 0 list rft.au
literal 0 compare "2"
literal 1 link "http://e.org/"
literal 2 compare ""
literal 3 link ","
literal 4 compare "1"
0 LIST r0 n0
1 COUNT r1 r0
2 CONST r2 l0
3 NUMBER r3 r2 5
4 LESS r1 r3 17
5 EMIT l1
6 CONST r4 l2
7 LIST r0 n0
8 NOLIST r0 16
9 EMPTY r4 11
10 EMIT l3
11 CONST r4 l4
12 EACH r5 r0 16
13 SEP l3
14 PUT r5 u
15 NEXT
16 HALT
17 FAIL"""

# Rules, the bytes of their code file, its listing, and its bounds.
LISTINGS = [
    (
        "rule\nlink http://e.org/{rft.issn}\n",
        127,
        ISSN_LISTING,
        "steps 10 + 0*M\nbytes 17 + 0*M + 3*E + 0*M*E",
    ),
    (COUNTS, 193, COUNTS_LISTING, "steps 15 + 3*M\nbytes 14 + 1*M + 3*E + 0*M*E"),
]


def names_to(last):
    """One rule whose template is one expression of names from `1000` on."""
    return "rule\nlink {" + ",".join(map(str, range(1_000, last + 1))) + "}\n"


def guards_to(last):
    """A rule with guards of texts from `1000` on."""
    return "rule\n" + "".join(f'when a is "{text}"\n' for text in range(1_000, last + 1)) + "link b\n"


def link_of(part, times):
    """A rule whose link is one part, repeated."""
    return f"rule\nlink {part * times}\n"


def long_links(letters):
    """A rule of 500 expressions, and five rules whose links have that many letters each."""
    return link_of("{a}", 500) + "".join(link_of(letter, letters) for letter in "bcdef")


# Rules, and why they are not compiled.
REFUSALS = [
    (names_to(1_256), "TooManyNames"),
    (guards_to(2_024), "TooManyLiterals"),
    (link_of("{a}", 585), "TooManyInstructions"),
    (long_links(8_000), "FileTooLong"),
]


def counts(program, rules):
    """Of the code: the numbers of the header, and the bytes of its file."""
    program.write("some.rules", rules)
    status, _, fault = program.run(["compile", "some.rules", "some.olk"])
    program.expect("compile", (status, fault), (0, b""))
    file = program.read("some.olk")
    names, literals, instructions = (int.from_bytes(file[at : at + 2], "big") for at in (4, 6, 8))
    return names, literals, instructions, len(file)


COVERAGE = "rule\nwhen rft.date from date_first_issue_online to date_last_issue_online\nlink http://e.org/{rft.date}\n"
NINE_DIGITS = "rule\nwhen rft.volume from 1 to 999999999\nlink http://e.org/v\n"
TWO_RULES = "rule\nwhen has rft.issn\nlink http://e.org/i/{rft.issn}\n\nrule\nlink http://e.org/t/{rft.title}\n"
HOLDS = 'rule\nwhen rft.au holds "Li"\nlink http://e.org/{?rft.au*}\n'
QUOTED = 'rule\nwhen x is "a\\"b"\nlink http://e.org/\n'
NO_LINK = None

# Rules, a query, and the link of their code.
LINKS = [
    (COVERAGE, "rft.date=1999-05&date_first_issue_online=1995-01-01", "http://e.org/1999-05"),
    (COVERAGE, "rft.date=1994&date_first_issue_online=1995", NO_LINK),
    (NINE_DIGITS, "rft.volume=999999999", "http://e.org/v"),
    (NINE_DIGITS, "rft.volume=1234567890", NO_LINK),
    (TWO_RULES, "rft.title=A+B", "http://e.org/t/A%20B"),
    (TWO_RULES, "rft.title=A+B&rft.issn=1", "http://e.org/i/1"),
    (HOLDS, "rft.au=Wu&rft.au=Li", "http://e.org/?rft.au=Wu&rft.au=Li"),
    (HOLDS, "rft.au=Wu", NO_LINK),
    (COUNTS, "rft.au=A&rft.au=B", "http://e.org/A,B"),
    (COUNTS, "rft.au=A", NO_LINK),
    (QUOTED, "x=a%22b", "http://e.org/"),
]


class CompiledRules(ProgramCase):
    def test_listings(self):
        for rules, size, listing, bounds in LISTINGS:
            self.program.write("some.rules", rules)
            self.program.prints(["compile", "some.rules", "some.olk"], f"{size} bytes")
            self.program.expect("bytes", len(self.program.read("some.olk")), size)
            self.program.prints(["show", "some.olk"], listing)
            self.program.prints(["verify", "some.olk"], f"ok\n{bounds}")

    def test_refusals(self):
        for rules, fault in REFUSALS:
            self.program.write("some.rules", rules)
            self.program.fails(["compile", "some.rules", "some.olk"], 3, f"compile: {fault}")
            self.program.expect("a code file", self.program.has("some.olk"), False)

    def test_limits(self):
        names, _, instructions, _ = counts(self.program, names_to(1_255))
        self.program.expect("256 names", (names, instructions), (256, 1_539))
        _, _, instructions, size = counts(self.program, link_of("{a}", 584))
        self.program.expect("4,090 instructions", (instructions, size), (4_090, 32_744))
        # The rules whose file is too long, with shorter links.
        _, _, instructions, size = counts(self.program, long_links(7_480))
        self.program.expect("3,512 instructions", (instructions, size), (3_512, 65_535))

    def test_links(self):
        for rules, query, link in LINKS:
            self.program.write("some.rules", rules)
            status, _, fault = self.program.run(["compile", "some.rules", "some.olk"])
            self.program.expect("compile", (status, fault), (0, b""))
            for arguments in (["run", "some.olk", query], ["link", "some.rules", query]):
                if link is NO_LINK:
                    self.program.finds_no_link(arguments)
                else:
                    self.program.prints(arguments, link)
