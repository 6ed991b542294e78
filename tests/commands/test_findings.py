"""What `lint` finds in the rules of a target, and `inspect` in its table."""
from fixtures.program import ProgramCase


def finds(program, rules, table, printed, status):
    program.write("some.rules", rules)
    program.write("some.tsv", table)
    program.gives(["lint", "some.rules", "some.tsv"], status, printed, "")


TABLE = (
    "print_identifier\ttitle_url\ttitle_id\tTitle_Name\trft.au\n"
    "1234-5679\thttp://e.org/a\tj1\tA\tB\n"
    "2049-3630\thttp://e.org/b\tj2\tA\tB\n"
)

# The link of a rule without guards, what is found in it, or None, and the status.
LINKS = [
    ("http://e.org/{x.doi,x.pmid,x.oclc,x.issn,x.eissn,x.isbn,x.from,x.to}", None, 0),
    ("http://e.org/{x.y}", "unknown name x.y", 1),
    ("http://e.org/{x.dio}", "unknown name x.dio, did you mean x.doi", 1),
    ("none:", "never a web link", 0),
    ("https:/{/rft.date}", "a request can set the host by rft.date", 1),
    ("https://e.org{/rft.date}", None, 0),
    # The slash is written only if there is a date.
    ("https://e.org{/rft.date}foo", "a request can set the host by rft.date", 1),
    ("https://e.org{/rft.date}/foo", None, 0),
    ("https://e.org{/rft.date}{?rft.issue}", None, 0),
    ("https://e.org", None, 0),
    ("https://", "a row may give no host, or one with @", 1),
    ("https:///e.org/", "a row may give no host, or one with @", 1),
    ("https://me@e.org/", "a row may give no host, or one with @", 1),
    ("https://e.org/@", None, 0),
    ("{+title_url}{rft.date}", None, 0),
    ("https://{title_id}{rft.date}", "a request can set the host by rft.date", 1),
    ("https://{title_id}.e.org/{rft.date}", None, 0),
    ("https://{rft.au}/", "a request can set the host by rft.au", 1),
    ("http:/e.org/{rft.date}", "never a web link", 0),
]

# The cells of two rows, and whether each has a host that no request sets in `https://{+host}/{rft.issue}`.
HOSTS = [
    (("e.org", "f.org"), True),
    (("e.org/a", "f.org?b"), True),
    (("e.org#@", "f.org:80"), True),
    (("e.org", "/"), False),
    (("e.org", "#"), False),
    (("e.org", "?f.org"), False),
    (("e.org", "//f.org"), False),
    (("e.org", "me@f.org"), False),
    (("@e.org", "f.org"), False),
    (("e.org", ""), False),
]

# Tables without identifiers, how many rows they have, and the lines of their columns and of cells past the header.
ROWS = [
    # A name may be empty. Of two byte order marks one is text.
    ("a\t\n1\t2\n", 1, 'unknown column "a"\n', ""),
    ("\ufeff\ufeffa\n1\n", 1, 'unknown column "\\xef\\xbb\\xbfa"\n', ""),
    ("a\n1\t2\n", 1, 'unknown column "a"\n', "rows longer than the header 1, first 0\n"),
    # LF, CR LF and CR end lines; blank ones are skipped, and one of tabs is not.
    ("a\r\n\r\n1\r\n2", 2, 'unknown column "a"\n', ""),
    ("a\r\r1\r2", 2, 'unknown column "a"\n', ""),
    ("\n\na\n\n1\n\n", 1, 'unknown column "a"\n', ""),
    ("a\tb\n\t\n", 1, 'unknown column "a"\nunknown column "b"\n', ""),
]


class Findings(ProgramCase):
    def test_requests_that_choose_the_host(self):
        rules = "rule\nwhen given rft.isssn\nlink https://e.org{x}\nrule\nlink {+title_url}\nrule\nlink none:\n"
        table = "print_identifier\ttitle_url\n1234-5679\thttp://e.org/a\n2049-3630\t\n"
        printed = (
            "rules 3\n"
            "rule 1, guard 1: unknown name rft.isssn, did you mean rft.issn\n"
            "rule 1, link: unknown name x\n"
            "rule 1, link: a request can set the host by x\n"
            "rule 2, link: a request can set the host by title_url\n"
            "rule 3 is never reached\n"
        )
        finds(self.program, rules, table, printed, 1)

    def test_no_link_before_the_last_rule(self):
        rules = "rule\nwhen given rft.isssn\nlink https://e.org{x}\nrule\nlink none:\nrule\nlink {+title_url}\n"
        table = "print_identifier\ttitle_url\n1234-5679\thttp://e.org/a\n2049-3630\thttp://e.org/b\n"
        printed = (
            "rules 3\n"
            "rule 1, guard 1: unknown name rft.isssn, did you mean rft.issn\n"
            "rule 1, link: unknown name x\n"
            "rule 1, link: a request can set the host by x\n"
            "rule 2, link: never a web link\n"
            "rule 3 is never reached\n"
        )
        finds(self.program, rules, table, printed, 1)

    def test_links(self):
        for link, found, status in LINKS:
            line = f"rule 1, link: {found}\n" if found else ""
            finds(self.program, f"rule\nlink {link}", TABLE, f"rules 1\n{line}", status)

    def test_cells_with_hosts(self):
        for cells, has_host in HOSTS:
            table = "print_identifier\thost\n" + "".join(f"1234-5679\t{cell}\n" for cell in cells)
            names = ["host"] * ("" in cells) + ["rft.issue"] if not has_host else []
            lines = "".join(f"rule 1, link: a request can set the host by {name}\n" for name in names)
            rules = "rule\nlink https://{+host}/{rft.issue}\n"
            finds(self.program, rules, table, f"rules 1\n{lines}", 0 if has_host else 1)
            # No name follows the host.
            found = "a request can set the host by host" if "" in cells else "a row may give no host, or one with @"
            lines = "" if has_host else f"rule 1, link: {found}\n"
            finds(self.program, "rule\nlink https://{+host}/a/\n", table, f"rules 1\n{lines}", 0 if has_host else 1)

    def test_no_rules(self):
        finds(self.program, "", TABLE, "rules 0\n", 1)

    def test_names_and_bounds(self):
        rules = "rule\nwhen has title_name\nlink http://e.org/{num_first_vol_online}"
        printed = (
            "rules 1\n"
            "rule 1, guard 1: unknown name title_name, did you mean Title_Name\n"
            "rule 1, link: no column num_first_vol_online\n"
        )
        finds(self.program, rules, TABLE, printed, 1)
        rules = "rule\nwhen rft.volume from 5 to 5\nwhen rft.volume from 5 to 4\nlink http://e.org/{issn}"
        printed = (
            "rules 1\n" "rule 1, guard 2: never holds\n" "rule 1, link: unknown name issn, did you mean rft.issn\n"
        )
        finds(self.program, rules, TABLE, printed, 1)

    def test_a_table(self):
        self.program.write(
            "some.tsv",
            "Print Identifier\tonline_identifier\tdate_first_issue_online\tx\n"
            "1234-5679\t2049-3630\t1995\t\n1234-5679\t\t3/1/1995\ta\tb\n",
        )
        printed = (
            "rows 2\n"
            "identifiers 1\n"
            "no column print_identifier\n"
            'unknown column "Print Identifier", did you mean print_identifier\n'
            'unknown column "x"\n'
            "rows without an identifier 1, first 1\n"
            'rows of one identifier 1, "20493630"\n'
            'date_first_issue_online not a date 1, first 1 "3/1/1995"\n'
            "rows longer than the header 1, first 1\n"
        )
        self.program.gives(["inspect", "some.tsv"], 1, printed, "")

    def test_columns_of_coverage(self):
        self.program.write(
            "some.tsv", "print_identifier\tonline_identifier\tcoverage_from\tcoverage_to\n1234-5679\t\t\t\n"
        )
        printed = 'rows 1\nidentifiers 1\nrows of one identifier 1, "12345679"\n'
        self.program.gives(["inspect", "some.tsv"], 0, printed, "")
        self.program.write("some.tsv", "print_identifier\tonline_identifier\tCoverage from\n1234-5679\t\t\n")
        printed = (
            'rows 1\nidentifiers 1\nunknown column "Coverage from", did you mean coverage_from\n'
            'rows of one identifier 1, "12345679"\n'
        )
        self.program.gives(["inspect", "some.tsv"], 1, printed, "")

    def test_rows_of_tables(self):
        for table, rows, columns, longer in ROWS:
            self.program.write("some.tsv", table)
            printed = (
                f"rows {rows}\nidentifiers 0\nno column print_identifier\nno column online_identifier\n{columns}"
                f"rows without an identifier {rows}, first 0\n{longer}"
            )
            self.program.gives(["inspect", "some.tsv"], 1, printed, "")
        # Only a header.
        self.program.write("some.tsv", "print_identifier\n")
        self.program.gives(["inspect", "some.tsv"], 1, "rows 0\nidentifiers 0\nno column online_identifier\n", "")
