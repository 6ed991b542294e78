"""How many bytes a row and its request have together: those of the row's cells, and of the request's values for which
the row has no cell. Code that might print more than a link may have is not run, and the report names its bound."""
from fixtures.assembler import TWENTY_TEXTS, code
from fixtures.program import ProgramCase
from fixtures.service import expect_replies, reply_of, request_of
from fixtures.targets import JOURNAL, write_registry

# Prints 32 times 32,768 bytes, a comma for each member of `list`, and the text of `x`, which may take three times the
# bytes of the row and the request.
MEASURE = code(
    [("text", "x"), ("list", "list")],
    [("link", "a" * 32_768), ("link", ",")],
    ["EMIT l0"] * 32
    + ["LIST r0 n1", "EACH r1 r0 36", "EMIT l1", "NEXT", "TEXT r2 n0", "UNDEF r2 39", "PUT r2 u", "HALT"],
)

# A query, and for the journal's second row the members of `list` and the bytes. Its cells have 27 bytes.
MEASURED = [
    ("rft.issn=1234567x", 0, 27 + 8),
    ("rft.issn=1234567x&title_url=http%3A%2F%2Fevil.example", 0, 27 + 8),
    ("rft.issn=1234567x&date_last_issue_online=2005", 0, 27 + 8 + 4),
    (
        "rft.issn=1234567x&title_url=http%3A%2F%2Fevil.example&list=a&x=1&list=b&x=2&date_last_issue_online=2005",
        2,
        27 + 8 + 2 + 1 + 4,
    ),
]


def expect_bound(program, name, query, bound):
    report = f"{name}\tover budget {bound}\n"
    expect_replies(program, [(request_of(f"/report?{query}"), reply_of(200, report))])
    program.finds_no_link(["resolve", "registry", query])


class RowBytes(ProgramCase):
    def test_a_row_comes_before_its_request(self):
        write_registry(self.program, [("alpha", MEASURE, JOURNAL)])
        for query, members, bytes_ in MEASURED:
            expect_bound(self.program, "alpha", query, 32 * 32_768 + members + 3 * bytes_)

    def test_the_bound_is_that_of_the_last_row(self):
        """A request's text of 15,000 bytes, a cell of 5,000, the other cells and the ISSN: 60 times 20,035 bytes."""
        letters = "a" * 5_000
        write_registry(
            self.program,
            [
                (
                    "delta",
                    TWENTY_TEXTS,
                    "print_identifier\ttitle_url\tdate_first_issue_online\tdate_last_issue_online\ty\n"
                    f"1234-567X\thttp://e.org/a\t1990\t1995\tb\n1234-567X\thttp://e.org/b\t2000\t\t{letters}\n",
                ),
            ],
        )
        expect_bound(self.program, "delta", "rft.issn=1234567x&x=" + "a" * 15_000, 1_202_100)
