"""Which keys of a request and which columns of a table identify a title: three keys, two columns, each with each."""
from fixtures.program import ProgramCase
from fixtures.service import expect_replies, reply_of, request_of
from fixtures.targets import ANY_LINK, write_registry

KEYS = ["rft.issn", "rft.eissn", "rft.isbn"]
COLUMNS = ["print_identifier", "online_identifier"]

# The other columns of KBART, and names that are not quite those of the two.
OTHER_COLUMNS = """
publication_title date_first_issue_online num_first_vol_online num_first_issue_online date_last_issue_online
num_last_vol_online num_last_issue_online title_url first_author title_id embargo_info coverage_depth notes
publisher_name publication_type date_monograph_published_print date_monograph_published_online monograph_volume
monograph_edition first_editor parent_publication_title_id preceding_publication_title_id access_type issn eissn isbn
rft.issn rft.eissn rft.isbn identifier print_identifiers online_identifiers rint_identifier Print_Identifier
PRINT_IDENTIFIER Online_identifier ONLINE_IDENTIFIER print-identifier online-identifier printidentifier
onlineidentifier "print_identifier" "online_identifier"
""".split() + [
    "print identifier",
    "online identifier",
    "print_identifier ",
    " online_identifier",
]

# Keys of journals and books, of OpenURL 0.1 and of other entities, and names that are not quite those of the three.
OTHER_KEYS = """
rft.aulast rft.aufirst rft.auinit rft.auinit1 rft.auinitm rft.ausuffix rft.au rft.aucorp rft.atitle rft.title
rft.jtitle rft.stitle rft.btitle rft.date rft.chron rft.ssn rft.quarter rft.volume rft.part rft.issue rft.spage
rft.epage rft.pages rft.tpages rft.artnum rft.coden rft.sici rft.bici rft.genre rft.place rft.pub rft.edition
rft.series rft.object_id rft_id rft_dat rft.eisbn eisbn issn eissn isbn ISSN RFT.ISSN RFT.EISSN RFT.ISBN rft.ISSN
rft.EISSN rft.ISBN Rft.issn rft.Issn rft_issn rft-issn rftissn rft..issn .issn rft.issn. rft.issns rft.iss rft.issnl
rfe.issn rfr.issn req.issn svc.issn res.issn x.issn x.isbn print_identifier online_identifier title_id +rft.issn
rft.issn+ rft.issn%00
""".split()

TABLE = "print_identifier\tonline_identifier\n1\t2\n3\t\n\t4\n5\t5\n4\t1\n"

# A query, and the row of the table that gives the link; none where no row has an identifier of the query.
ROWS = [
    ("rft.issn=1", 0),
    ("rft.issn=2", 0),
    ("rft.eissn=1", 0),
    ("rft.eissn=2", 0),
    ("rft.isbn=1", 0),
    ("rft.isbn=2", 0),
    ("rft.issn=3", 1),
    ("rft.isbn=4", 2),
    ("rft.eissn=5", 3),
    ("rft.issn=6", None),
    ("rft.issn=", None),
    ("rft.issn=&rft.eissn=&rft.isbn=", None),
    ("rft.issn=9&rft.eissn=5", 3),
    ("rft.issn=9&rft.eissn=8&rft.isbn=5", 3),
    ("rft.issn=&rft.isbn=5", 3),
    ("rft.issn=5&rft.isbn=3", 1),
    ("rft.isbn=5&rft.eissn=4&rft.issn=3", 1),
    ("rft.issn=5&rft.eissn=4", 2),
]

# The first and the second value of a key, and the row that gives the link.
TWICE = [("", "3", None), ("9", "3", None), ("-", "3", None), ("3", "", 1), ("3", "5", 1), ("5", "3", 3)]


def found(row):
    return reply_of(200, f"alpha\t{'no row' if row is None else f'link {row}'}\n")


class Keys(ProgramCase):
    def test_keys_and_columns(self):
        """Each key on a table for each column alone."""
        columns = COLUMNS + OTHER_COLUMNS
        write_registry(
            self.program,
            [(f"c{number}", ANY_LINK, f"x\t{column}\ty\nu\t1234-5678\tv\n") for number, column in enumerate(columns)],
        )
        none = "".join(f"c{number}\tno row\n" for number in range(len(columns)))
        some = "".join(f"c{at}\t{'link 0' if column in COLUMNS else 'no row'}\n" for at, column in enumerate(columns))
        cases = [(request_of(f"/report?{key}=12345678"), reply_of(200, some)) for key in KEYS]
        cases += [(request_of(f"/report?{key}=12345678"), reply_of(200, none)) for key in OTHER_KEYS]
        expect_replies(self.program, cases)

    def test_rows(self):
        write_registry(self.program, [("alpha", ANY_LINK, TABLE)])
        expect_replies(self.program, [(request_of(f"/report?{query}"), found(row)) for query, row in ROWS])

    def test_first_values(self):
        """Of a key that comes twice the first value counts, also an empty one."""
        write_registry(self.program, [("alpha", ANY_LINK, TABLE)])
        cases = []
        for key in KEYS:
            for first, second, row in TWICE:
                cases.append((request_of(f"/report?{key}={first}&{key}={second}"), found(row)))
            cases.append((request_of(f"/report?{key}&{key}=3"), found(None)))
            cases.append((request_of(f"/report?{key}=&x=1&{key}=3&{key}=5"), found(None)))
        expect_replies(self.program, cases)
