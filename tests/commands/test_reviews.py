"""The commands that look into the files of one target: `inspect`, `lint` and `explain`."""
import resource

from fixtures import needs
from commands.test_output import DEVICE, run_into
from fixtures.program import ProgramCase

HEADER = "print_identifier\tonline_identifier\ttitle_id\ttitle_url\n"
CLEAN_TABLE = HEADER + "2901-0012\t2908-0142\tats\thttps://e.org/ats\n2915-0272\t\thel\thttps://e.org/hel\n"
CLEAN_FINDINGS = 'rows 2\nidentifiers 3\nrows of one identifier 1, "29010012"\n'
RULES = "rule\nwhen given rft.volume\nlink https://e.org/{title_id}/{rft.volume}\n"
FILES = {"good.rules": RULES, "good.tsv": CLEAN_TABLE, "bad.rules": "rul\n", "bad.tsv": b"\xff\n", "no.tsv": ""}

# Arguments that are no command.
NO_COMMANDS = [
    ["inspect"],
    ["inspect", "good.tsv", "good.tsv"],
    ["lint"],
    ["lint", "good.rules"],
    ["lint", "good.rules", "good.tsv", "x=1"],
    ["explain", "good.rules", "good.tsv"],
    ["explain", "good.rules", "good.tsv", "x=1", "x=1"],
    ["Inspect", "good.tsv"],
]

# Arguments, the status and the first error: of the rules, then of the table, then of the query.
ERRORS = [
    (["inspect", "none.tsv"], 4, "device: none.tsv"),
    (["inspect", "bad.tsv"], 3, "table: NotUtf8"),
    (["inspect", "no.tsv"], 3, "table: NoHeader"),
    (["lint", "none.rules", "none.tsv"], 4, "device: none.rules"),
    (["lint", "bad.rules", "none.tsv"], 3, "rules: line 1: BadLine"),
    (["lint", "good.rules", "none.tsv"], 4, "device: none.tsv"),
    (["lint", "good.rules", "bad.tsv"], 3, "table: NotUtf8"),
    (["explain", "bad.rules", "bad.tsv", "url_ver=1"], 3, "rules: line 1: BadLine"),
    (["explain", "good.rules", "bad.tsv", "url_ver=1"], 3, "table: NotUtf8"),
    (["explain", "good.rules", "none.tsv", "url_ver=1"], 4, "device: none.tsv"),
    (["explain", "good.rules", "good.tsv", "url_ver=1"], 3, "query: WrongVersion"),
    (["explain", "good.rules", "good.tsv", "a&" * 4097], 3, "query: TooManyPairs"),
]

# Tables that are beyond a limit, and their error.
LARGE_TABLES = [
    ("a" * 16_777_217, "TooLong"),
    ("x\n" + "a\n" * 200_001, "TooManyRows"),
    ("x\n" + "a" * 65_537, "RowTooLong"),
]

# What a query for the good files gives: the status and the lines.
EXPLANATIONS = [
    ("rft.issn=2999-0000", 1, "no row\n"),
    ("rft.issn=2901-0012&rft.volume=7", 0, "row 0\n  rule 1 holds: https://e.org/ats/7\n"),
    # The request's value does not hide the row's.
    ("rft.issn=29010012&rft.volume=7&title_id=x", 0, "row 0\n  rule 1 holds: https://e.org/ats/7\n"),
    (
        "rft.eissn=2908-0142",
        1,
        "row 0\n  rule 1, guard 1 fails: given rft.volume\n    rft.volume undefined\n" "  no rule holds\n",
    ),
    (
        "rft.eissn=2908-0142&rft.volume=",
        1,
        'row 0\n  rule 1, guard 1 fails: given rft.volume\n    rft.volume ""\n' "  no rule holds\n",
    ),
]

LISTS = """list subject
rule
when subject holds "law"
when rft.au counts 2 to most
link https://e.org/{rft.au}
"""

# The second row's cell hides the list of its name, and is a text, so that the rules see nothing.
LIST_TABLE = "print_identifier\tsubject\n1\t\n2\tlaw\n"

LIST_EXPLANATIONS = [
    ("rft.issn=1&subject=tides&subject=law&rft.au=Li&rft.au=Wu", 0, "row 0\n  rule 1 holds: https://e.org/Li,Wu\n"),
    (
        "rft.issn=1&subject=tides&subject=sea",
        1,
        'row 0\n  rule 1, guard 1 fails: subject holds "law"\n    subject list of 2\n  no rule holds\n',
    ),
    (
        "rft.issn=1&subject=law&rft.au=Li&most=3",
        1,
        'row 0\n  rule 1, guard 2 fails: rft.au counts 2 to most\n    rft.au list of 1\n    most "3"\n'
        "  no rule holds\n",
    ),
    (
        "rft.issn=1&subject=law",
        1,
        "row 0\n  rule 1, guard 2 fails: rft.au counts 2 to most\n    rft.au undefined\n    most undefined\n"
        "  no rule holds\n",
    ),
    (
        "rft.issn=2&subject=law",
        1,
        'row 1\n  rule 1, guard 1 fails: subject holds "law"\n    subject undefined\n  no rule holds\n',
    ),
]


def write_files(program):
    for name, content in FILES.items():
        program.write(name, content)


class Reviews(ProgramCase):
    def test_arguments(self):
        write_files(self.program)
        for arguments in NO_COMMANDS:
            self.program.fails(arguments, 2, "usage")

    def test_errors_in_order(self):
        write_files(self.program)
        for arguments, status, error in ERRORS:
            self.program.fails(arguments, status, error)

    def test_large_files(self):
        write_files(self.program)
        for table, error in LARGE_TABLES:
            self.program.write("large.tsv", table)
            for arguments in ["inspect", "large.tsv"], ["lint", "good.rules", "large.tsv"]:
                self.program.fails(arguments, 3, f"table: {error}")
        self.program.write("large.rules", "#" * 65_537)
        self.program.fails(["lint", "large.rules", "good.tsv"], 3, "rules: line 0: TooLong")
        self.program.write("full.tsv", "x\n" + "a\n" * 200_000)
        findings = (
            "rows 200000\nidentifiers 0\nno column print_identifier\nno column online_identifier\n"
            'unknown column "x"\nrows without an identifier 200000, first 0\n'
        )
        self.program.gives(["inspect", "full.tsv"], 1, findings, "")

    def test_statuses(self):
        write_files(self.program)
        self.program.gives(["inspect", "good.tsv"], 0, CLEAN_FINDINGS, "")
        self.program.gives(["lint", "good.rules", "good.tsv"], 0, "rules 1\n", "")
        self.program.write("header.tsv", HEADER)
        self.program.gives(["inspect", "header.tsv"], 1, "rows 0\nidentifiers 0\n", "")
        self.program.write("open.rules", "rule\nlink none:\n")
        self.program.gives(["lint", "open.rules", "good.tsv"], 0, "rules 1\nrule 1, link: never a web link\n", "")
        self.program.write("empty.rules", "")
        self.program.gives(["lint", "empty.rules", "good.tsv"], 1, "rules 0\n", "")
        # A column whose cell one row lacks: a request can give its value.
        self.program.write("cell.rules", "rule\nlink https://{online_identifier}/\n")
        warned = "rules 1\nrule 1, link: a request can set the host by online_identifier\n"
        self.program.gives(["lint", "cell.rules", "good.tsv"], 1, warned, "")

    def test_explanations(self):
        write_files(self.program)
        for query, status, lines in EXPLANATIONS:
            self.program.gives(["explain", "good.rules", "good.tsv", query], status, lines, "")
        self.program.write("lists.rules", LISTS)
        self.program.write("lists.tsv", LIST_TABLE)
        for query, status, lines in LIST_EXPLANATIONS:
            self.program.gives(["explain", "lists.rules", "lists.tsv", query], status, lines, "")

    def test_bytes_outside_ascii(self):
        self.program.write("accent.rules", 'rule\nwhen x is "\u00e9\t\\""\nlink https://e.org/\n')
        self.program.write("one.tsv", "print_identifier\n1\n")
        lines = (
            'row 0\n  rule 1, guard 1 fails: x is "\\xc3\\xa9\\x09\\""\n    x "\\xc3\\xa9\\x22\\x5c"\n'
            "  no rule holds\n"
        )
        self.program.gives(["explain", "accent.rules", "one.tsv", "rft.issn=1&x=%C3%A9%22%5C"], 1, lines, "")
        long = (
            'row 0\n  rule 1, guard 1 fails: x is "\\xc3\\xa9\\x09\\""\n    x "' + "a" * 60 + '"...\n  no rule holds\n'
        )
        self.program.gives(["explain", "accent.rules", "one.tsv", "rft.issn=1&x=" + "a" * 61], 1, long, "")

    def test_a_row_without_a_web_link(self):
        """The next row is tried where the link of a row is no web link."""
        self.program.write(
            "first.rules", "rule\nwhen given title_id\nlink none:{title_id}\n\nrule\nlink HTTPS://e.org/\n"
        )
        self.program.write("two.tsv", "print_identifier\ttitle_id\n1\ta\n1\t\n")
        lines = (
            "row 0\n  rule 1 holds: none:a\n  not a web link\n"
            "row 1\n  rule 1, guard 1 fails: given title_id\n    title_id undefined\n"
            "  rule 2 holds: HTTPS://e.org/\n"
        )
        self.program.gives(["explain", "first.rules", "two.tsv", "rft.issn=1"], 0, lines, "")

    def test_the_hundredth_row(self):
        """Of 150 matching rows, the rules that fail are printed for the first hundred."""
        self.program.write("last.rules", 'rule\nwhen title_id is "149"\nlink https://e.org/{title_id}\n')
        self.program.write("many.tsv", "print_identifier\ttitle_id\n" + "".join(f"1\t{row}\n" for row in range(150)))
        lines = "".join(
            f'row {row}\n  rule 1, guard 1 fails: title_id is "149"\n' f'    title_id "{row}"\n  no rule holds\n'
            for row in range(100)
        )
        lines += "".join(f"row {row}\n  no rule holds\n" for row in range(100, 149))
        lines += "row 149\n  rule 1 holds: https://e.org/149\n"
        self.program.gives(["explain", "last.rules", "many.tsv", "rft.issn=1"], 0, lines, "")

    def test_output_fails(self):
        write_files(self.program)
        for arguments in (
            ["inspect", "good.tsv"],
            ["lint", "good.rules", "good.tsv"],
            ["explain", "good.rules", "good.tsv", "rft.issn=29010012"],
        ):
            full = run_into(self.program, "/dev/full", 3, 1, arguments)
            self.program.expect(f"{arguments[0]} into a full output", full, (4, b"", DEVICE))
            narrow = run_into(self.program, f"{self.program.folder}/narrow", 3, 1, arguments)
            self.program.expect(f"{arguments[0]} into 3 bytes", narrow, (4, b"", DEVICE))
            beginning = b"rul" if arguments[0] == "lint" else b"row"
            self.program.expect(f"the 3 bytes of {arguments[0]}", self.program.read("narrow"), beginning)

    @needs.limits_of_addresses()
    def test_a_table_without_memory(self):
        """A table of almost 16 MiB, and the program may have no more than 32 MiB."""
        self.program.write("large.tsv", "x\n" + ("a" * 65_535 + "\n") * 255)

        def limit():
            resource.setrlimit(resource.RLIMIT_AS, (2**25, 2**25))

        given = self.program.run(["inspect", "large.tsv"], preexec_fn=limit)
        self.program.expect("a table without memory", given, (4, b"", b"openlink: out of memory\n"))
