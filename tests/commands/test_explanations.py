"""What `explain` prints for the rules, the table and the query of a target, and an output that fails within it."""
from commands.test_output import DEVICE, run_into
from fixtures.program import ProgramCase
from fixtures.targets import JOURNAL

COVERAGE = "rule\nwhen rft.date from date_first_issue_online to date_last_issue_online\nlink http://e.org/{rft.date}\n"

NEITHER_ROW = """row 0
  rule 1, guard 1 fails: rft.date from date_first_issue_online to date_last_issue_online
    rft.date "1998"
    date_first_issue_online "1990"
    date_last_issue_online "1995"
  no rule holds
row 1
  rule 1, guard 1 fails: rft.date from date_first_issue_online to date_last_issue_online
    rft.date "1998"
    date_first_issue_online "2000"
    date_last_issue_online undefined
  no rule holds
"""

SECOND_ROW = """row 0
  rule 1, guard 1 fails: rft.date from date_first_issue_online to date_last_issue_online
    rft.date "2003"
    date_first_issue_online "1990"
    date_last_issue_online "1995"
  no rule holds
row 1
  rule 1 holds: http://e.org/2003
"""

IN_THE_SECOND_ROW = "rft.issn=1234567x&rft.date=2003"


def explains(program, rules, table, query, status, lines):
    program.write("some.rules", rules)
    program.write("some.tsv", table)
    program.gives(["explain", "some.rules", "some.tsv", query], status, lines, "")


ONE_ROW = "print_identifier\n1234-567X\n"


class Explanations(ProgramCase):
    def test_rows_of_a_title(self):
        explains(self.program, COVERAGE, JOURNAL, "rft.issn=1234567x&rft.date=1998", 1, NEITHER_ROW)
        explains(self.program, COVERAGE, JOURNAL, IN_THE_SECOND_ROW, 0, SECOND_ROW)
        explains(self.program, COVERAGE, JOURNAL, "rft.issn=0000-0000", 1, "no row\n")

    def test_a_row_hides_the_request(self):
        rules = 'rule\nwhen title_url is "x"\nlink {+title_url}\nrule\nlink {+title_url}\n'
        lines = (
            "row 0\n"
            '  rule 1, guard 1 fails: title_url is "x"\n'
            '    title_url "http://e.org/a"\n'
            "  rule 2 holds: http://e.org/a\n"
        )
        explains(self.program, rules, JOURNAL, "rft.issn=1234567x&title_url=x", 0, lines)

    def test_names_as_they_are_declared(self):
        """A list without members, a list that has some, and a text whose name the rules declare a list."""
        rules = (
            "list print_identifier\n"
            "rule\n"
            "when rft_id counts 1 to *\n"
            "link a\n"
            "rule\n"
            "when rft.au counts 3 to rft.n\n"
            "link b\n"
            "rule\n"
            "when has print_identifier\n"
            "link c\n"
            "rule\n"
            "link mailto:d\n"
        )
        lines = (
            "row 0\n"
            "  rule 1, guard 1 fails: rft_id counts 1 to *\n"
            "    rft_id undefined\n"
            "  rule 2, guard 1 fails: rft.au counts 3 to rft.n\n"
            "    rft.au list of 2\n"
            '    rft.n ""\n'
            "  rule 3, guard 1 fails: has print_identifier\n"
            "    print_identifier undefined\n"
            "  rule 4 holds: mailto:d\n"
            "  not a web link\n"
        )
        explains(self.program, rules, ONE_ROW, "rft.issn=1234567x&rft.au=Wu&rft.au=Li&rft.n=", 1, lines)

    def test_control_bytes(self):
        """The guard's text has an escape character, and the value a line feed."""
        rules = 'rule\nwhen has rft.issn\nwhen x is "\x1b[2J"\nlink http://e.org/\n'
        lines = 'row 0\n  rule 1, guard 2 fails: x is "\\x1b[2J"\n    x "a\\x0ab"\n  no rule holds\n'
        explains(self.program, rules, ONE_ROW, "rft.issn=1234567x&x=a%0Ab", 1, lines)

    def test_a_hundred_rows_in_detail(self):
        rows = ["  rule 1, guard 1 fails: has x\n    x undefined\n"] * 100 + [""] * 2
        lines = "".join(f"row {row}\n{details}  no rule holds\n" for row, details in enumerate(rows))
        table = "print_identifier\n" + "1234-567X\n" * 102
        explains(self.program, "rule\nwhen has x\nlink http://e.org/\n", table, "rft.issn=1234567x", 1, lines)

    def test_output_fails_within_a_row(self):
        """The output has room for nothing, for a part of the first row, or for all but the last of 240 bytes."""
        self.program.write("some.rules", COVERAGE)
        self.program.write("some.tsv", JOURNAL)
        for room in (0, 5, 200, 239, 240):
            arguments = ["explain", "some.rules", "some.tsv", IN_THE_SECOND_ROW]
            given = run_into(self.program, f"{self.program.folder}/narrow", room, 1, arguments)
            self.program.expect(f"{room} bytes", given, (0, b"", b"") if room == 240 else (4, b"", DEVICE))
            self.program.expect(f"the first {room} bytes", self.program.read("narrow"), SECOND_ROW.encode()[:room])
