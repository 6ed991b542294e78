"""Holdings tables of a target, as the menu and the report of one target show them: rows, cells, limits, errors."""
from fixtures.program import ProgramCase
from fixtures.service import Service, request_of


def with_table(program, table):
    """A registry of one target, whose code is that of the last rules."""
    program.write("table.txt", table)
    program.write("registry", "t\tsome.olk\ttable.txt\n")


def with_rules(program, *guards):
    """Code of one rule, which gives the address and the cell `row`."""
    lines = "".join(f"when {guard}\n" for guard in guards)
    program.write("some.rules", f"rule\n{lines}link http://e.org/{{row}}\n")
    status, _, fault = program.run(["compile", "some.rules", "some.olk"])
    program.expect(f"the code of {guards}", (status, fault), (0, b""))


def links(program, query, link):
    """The link that the menu has of the target, or None."""
    arguments = ["resolve", "registry", query]
    if link is None:
        program.finds_no_link(arguments)
    else:
        program.prints(arguments, f"t\t{link}")


def report(program, query):
    """The page /report of a service of the registry."""
    with Service(program, 1) as service:
        return service.reply(request_of(f"/report?{query}")).partition(b"\r\n\r\n")[2]


def numbered(table, end="\n"):
    """The table with a column `row` after the others: how many rows are before each."""
    header, *rows = table.removesuffix(end).split(end)
    lines = [header + "\trow"] + [f"{row}\t{number}" for number, row in enumerate(rows)]
    return "".join(line + end for line in lines)


TITLES = (
    "print_identifier\ttitle_url\tdate_first_issue_online\tdate_last_issue_online\n"
    "1234-567X\thttp://e.org/a\t1990\t1995\n"
    "1234-567X\thttp://e.org/b\t2000\t\n"
)

IDENTIFIERS = (
    "online_identifier\tprint_identifier\n"
    "2049-3630\t0028-0836\n"
    "\t-\n"
    "978-0-14-243724-7\t9780142437247\n"
    "2049 3630\t1234-567x\n"
    "\xe9-1\t\n"
)

# All columns of NISO RP-9-2014, with a byte order mark and CR LF: a journal, a book by volume, and a title that moved
# in between to another publisher.
KBART = (
    "\ufeffpublication_title\tprint_identifier\tonline_identifier\t"
    "date_first_issue_online\tnum_first_vol_online\tnum_first_issue_online\t"
    "date_last_issue_online\tnum_last_vol_online\tnum_last_issue_online\ttitle_url\tfirst_author\ttitle_id\t"
    "embargo_info\tcoverage_depth\tnotes\tpublisher_name\tpublication_type\t"
    "date_monograph_published_print\tdate_monograph_published_online\tmonograph_volume\tmonograph_edition\t"
    "first_editor\tparent_publication_title_id\tpreceding_publication_title_id\taccess_type\r\n"
    "Journal of Marine Letters\t0099-1234\t2099-123x\t1998-01\t1\t1\t2012-12\t15\t4\t"
    "https://old.example.com/jml\t\tjml\tP1Y\tfulltext\t\xabmoved\xbb\tOld Press\tserial\t\t\t\t\t\t\t\tP\r\n"
    "Handbook of Tides\t978-0-00-000001-0\t978-0-00-000002-7\t\t\t\t\t\t\t"
    "https://books.example.com/tides/2\tMelville\ttides-2\t\tfulltext\t\tSea House\tmonograph\t"
    "2009\t2010-05-01\t2\t3\tHawthorne\ttides\t\tP\r\n"
    "Journal of Marine Letters\t0099-1234\t2099-123X\t2013-01\t16\t1\t\t\t\t"
    "https://new.example.com/marine\t\tmarine\t\tfulltext\t\tNew Press\tserial\t\t\t\t\t\t\tjml\tF\r\n"
)

# A table, a query, a row, and the first row at or after it that the query asks for, or None.
FOUND_ROWS = [
    (TITLES, "rft.issn=1234567x", 0, 0),
    (TITLES, "rft.issn=1234567x", 1, 1),
    (TITLES, "rft.issn=1234567x", 2, None),
    (IDENTIFIERS, "rft.issn=0028-0836", 0, 0),
    (IDENTIFIERS, "rft.eissn=20493630", 0, 0),
    (IDENTIFIERS, "rft.eissn=20493630", 1, 3),
    (IDENTIFIERS, "rft.eissn=20493630", 4, None),
    # A row whose two identifiers are equal is one match.
    (IDENTIFIERS, "rft.isbn=9780142437247", 0, 2),
    (IDENTIFIERS, "rft.isbn=9780142437247", 3, None),
    # The earliest row of several identifiers.
    (IDENTIFIERS, "rft.issn=1234567X&rft.isbn=9780142437247", 0, 2),
    (IDENTIFIERS, "rft.issn=1234567X&rft.isbn=9780142437247", 3, 3),
    (IDENTIFIERS, "", 0, None),
    (IDENTIFIERS, "rft.title=2049-3630", 0, None),
    # Equal identifiers are requested once.
    (IDENTIFIERS, "rft.issn=0028-0836&rft.eissn=0028-0836&rft.isbn=", 0, 0),
    (IDENTIFIERS, "rft.issn=0028-0836&rft.eissn=0028-0836&rft.isbn=", 1, None),
    # Only first values count, and only ASCII letters are raised.
    (IDENTIFIERS, "rft.issn=1&rft.issn=0028-0836", 0, None),
    (IDENTIFIERS, "rft.isbn=%C3%A9%201", 0, 4),
    (IDENTIFIERS, "rft.isbn=%C3%891", 0, None),
    # What is empty when it is normalised is no identifier.
    (IDENTIFIERS, "rft.issn=-&rft.eissn=+", 0, None),
    # A header alone.
    ("print_identifier\n", "rft.issn=1", 0, None),
    (TITLES.splitlines()[0] + "\n", "rft.issn=1234567x", 0, None),
    (KBART, "rft.issn=00991234&rft.eissn=2099-123X", 0, 0),
    (KBART, "rft.issn=00991234&rft.eissn=2099-123X", 1, 2),
    (KBART, "rft.issn=00991234&rft.eissn=2099-123X", 3, None),
    (KBART, "rft.isbn=9780000000027", 0, 1),
]

BOTH_TITLES = "rft.issn=1234567x"
JOURNAL = "rft.issn=00991234"
BOOK = "rft.isbn=9780000000027"

# A table, a query that asks for a row, the row, the name of a column, and its cell, or None.
CELLS = [
    (TITLES, BOTH_TITLES, 1, "title_url", "http://e.org/b"),
    (TITLES, BOTH_TITLES, 1, "date_last_issue_online", None),
    (TITLES, BOTH_TITLES, 1, "date_first_issue_online", "2000"),
    (TITLES, BOTH_TITLES, 0, "publisher_name", None),
    (KBART, JOURNAL, 0, "publication_title", "Journal of Marine Letters"),
    (KBART, JOURNAL, 0, "notes", "\xabmoved\xbb"),
    (KBART, JOURNAL, 0, "embargo_info", "P1Y"),
    (KBART, JOURNAL, 0, "access_type", "P"),
    (KBART, BOOK, 1, "date_first_issue_online", None),
    (KBART, BOOK, 1, "monograph_volume", "2"),
    (KBART, BOOK, 1, "parent_publication_title_id", "tides"),
    (KBART, JOURNAL, 2, "date_last_issue_online", None),
    (KBART, JOURNAL, 2, "preceding_publication_title_id", "jml"),
    (KBART, JOURNAL, 2, "access_type", "F"),
    # The row is put before its request.
    (KBART, BOOK + "&publisher_name=Another", 1, "title_url", "https://books.example.com/tides/2"),
    (KBART, BOOK + "&publisher_name=Another", 1, "publisher_name", "Sea House"),
    (KBART, BOOK + "&publisher_name=Another", 1, "rft.isbn", "9780000000027"),
]


def guard_of(name, cell):
    """The guard that the column has this cell, or none; a quote is written with a backslash before it."""
    if cell is None:
        return f"lacks {name}"
    quoted = cell.replace('"', '\\"')
    return f'{name} is "{quoted}"'


# A table, one of its rows, which has the identifier 7, the name of a column, and its cell there, or None. One case for
# each choice of the profile.
LINES_AND_CELLS = [
    # Any order of columns, and those without a meaning.
    ("other\ttitle_url\tprint_identifier\n1\tu\t7\n", 0, "other", "1"),
    # The first column of a name, also where its cell is empty.
    ("a\ta\tprint_identifier\n1\t2\t7\n", 0, "a", "1"),
    ("a\ta\tprint_identifier\n\t2\t7\n", 0, "a", None),
    # Exact names.
    ("A\tprint_identifier\na1\t7\n", 0, "a", None),
    # Quotes, spaces and `#` are plain.
    ('a\tprint_identifier\n"1"\t7\n', 0, "a", '"1"'),
    ('a\tb\tprint_identifier\n"1\t2"\t7\n', 0, "b", '2"'),
    ("a\tprint_identifier\n 1 \t7\n", 0, "a", " 1 "),
    ("a\tprint_identifier\n \t7\n", 0, "a", " "),
    ("a\tprint_identifier\n#1\t7\n", 0, "a", "#1"),
    # LF, CR LF and CR end lines; blank ones are skipped.
    ("a\tprint_identifier\r\n\r\n1\t7\r\n2\t7", 0, "a", "1"),
    ("a\tprint_identifier\r\n\r\n1\t7\r\n2\t7", 1, "a", "2"),
    ("a\tprint_identifier\r\r1\t7\r2\t7", 0, "a", "1"),
    ("a\tprint_identifier\r\r1\t7\r2\t7", 1, "a", "2"),
    ("\n\na\tprint_identifier\n\n1\t7\n\n", 0, "a", "1"),
    # A line of tabs is a row of empty cells.
    ("a\tprint_identifier\n\t\n1\t7\n", 1, "a", "1"),
    ("print_identifier\ta\tb\n7\t\t\n", 0, "b", None),
    # One byte order mark is dropped, a second is text.
    ("\ufeffa\tprint_identifier\n1\t7\n", 0, "a", "1"),
    ("\ufeff\ufeffa\tprint_identifier\n1\t7\n", 0, "a", None),
    # Missing cells, and cells past the header.
    ("print_identifier\tb\n7\n", 0, "b", None),
    ("print_identifier\n7\t2\n", 0, "b", None),
    # As long as a line may be; the tabs count, and so do cells past the header, and the end of the line does not.
    ("a\tprint_identifier\n" + "1" * 65534 + "\t7", 0, "b", None),
    ("print_identifier\n7" + "\t" * 65535 + "\r\n", 0, "b", None),
]

LONGEST = b"a" * 65536
LONGER = b"a" * 65537

# The bytes of a table, and the kind of its first error, or None where it is read.
TABLES = [
    (b"", "NoHeader"),
    (b"\n\r\n\r", "NoHeader"),
    (b"\xef\xbb\xbf\r\n", "NoHeader"),
    # A line of one space is not blank, so it is a header.
    (b" ", None),
    (b"\n \n", None),
    (b"\xff", "NotUtf8"),
    (b"a\n\xe2\x82\n", "NotUtf8"),
    (b"\xed\xa0\x80", "NotUtf8"),
    (b"x\n" + LONGEST, None),
    (b"x\n" + LONGER + b"\n", "RowTooLong"),
    (b"x\n" + b"\t" * 65536 + b"\r\n", None),
    (b"x\n" + b"\t" * 65537 + b"\r\n", "RowTooLong"),
    # The tabs between cells count, even beyond the columns of the header.
    (b"a\n" + b"\t" * 65536, None),
    (b"a\n" + b"\t" * 65537, "RowTooLong"),
    # The header has the same limit, of which a byte order mark takes nothing.
    (LONGEST, None),
    (LONGER, "RowTooLong"),
    (b"\xef\xbb\xbf" + LONGEST, None),
    (LONGER + b"\nb\n", "RowTooLong"),
    # Neither the header nor blank lines are rows.
    (b"x\n" + b"a\n" * 200000 + b"\n\r\n", None),
    (b"a\n\n" + b"1\n" * 200000, None),
    (b"a\n\n" + b"1\n" * 200001, "TooManyRows"),
    (b"a\n" + b"\n" * 200001, None),
    # The row too many is refused before its length is looked at, and a line before it first.
    (b"x\n" + b"a\n" * 200000 + LONGER, "TooManyRows"),
    (LONGER + b"\na" * 200001, "RowTooLong"),
    (b"a" * 16777216, "RowTooLong"),
    (b"\xff" * 16777217, "TooLong"),
]


class Tables(ProgramCase):
    def test_number_column(self):
        self.program.expect("a numbered table", numbered("a\tb\n1\t2\n3\t\n"), "a\tb\trow\n1\t2\t0\n3\t\t1\n")
        with_rules(self.program, "row from 1 to *")
        with_table(self.program, numbered(TITLES))
        self.program.expect("the report", report(self.program, "rft.issn=1234567x"), b"t\tlink 1\n")

    def test_found_rows(self):
        for table, query, first, row in FOUND_ROWS:
            with_rules(self.program, f"row from {first} to *")
            with_table(self.program, numbered(table, "\r\n" if "\r\n" in table else "\n"))
            links(self.program, query, None if row is None else f"http://e.org/{row}")

    def test_cells(self):
        for table, query, row, name, cell in CELLS:
            with_rules(self.program, f"row from {row} to {row}", guard_of(name, cell))
            with_table(self.program, numbered(table, "\r\n" if "\r\n" in table else "\n"))
            links(self.program, query, f"http://e.org/{row}")

    def test_lines_and_cells(self):
        for table, row, name, cell in LINES_AND_CELLS:
            with_rules(self.program, guard_of(name, cell))
            with_table(self.program, table)
            self.program.expect(
                f"the report of {table[:60]!r}", report(self.program, "rft.issn=7"), f"t\tlink {row}\n".encode()
            )

    def test_faults(self):
        with_rules(self.program)
        for table, kind in TABLES:
            with_table(self.program, table)
            if kind:
                self.program.fails(["resolve", "registry", "rft.issn=7"], 3, f"target t: table: {kind}")
            else:
                links(self.program, "rft.issn=7", None)
