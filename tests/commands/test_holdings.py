"""Cells of tables with spaces at their ends, what they count, the limit of a table's bytes, and rows that are much
shorter than the header."""
from fixtures.assembler import code
from fixtures.program import ProgramCase
from fixtures.service import expect_replies, reply_of, request_of
from fixtures.targets import ANY_LINK, write_registry

# Writes 1,048,576 bytes, the most that a link may have, and a text: 3 bytes for each byte of the row and the request.
SCALE = code(
    [("text", "a")], [("link", "l" * 32768)], ["EMIT l0"] * 32 + ["TEXT r0 n0", "UNDEF r0 35", "PUT r0 u", "HALT"]
)

# The cells of the columns a and b, what `http://e.org/{a}|{b}` gives, and the bytes of the two.
CELLS = [
    (" x ", "y ", "%20x%20!y%20", 5),
    ("x", "y", "x!y", 2),
    (" ", "  ", "%20!%20%20", 3),
    ("\u00a0x", "y\u3000", "%C2%A0x!y%E3%80%80", 7),
    (' "x" ', "'y'", "%20%22x%22%20!%27y%27", 8),
    ("", " ", "!%20", 1),
    ("\x0b", "\x0c", "%0B!%0C", 2),
    ("é", "", "%C3%A9!", 2),
]
LINK = "rule\nlink http://e.org/{a}!{b}\n"

MOST = 16777216
MARK = b"\xef\xbb\xbf"

# Tables by their bytes, and their first error.
LIMITS = [
    ("a" * (MOST + 1), "TooLong"),
    (MARK + b"a" * (MOST - 2), "TooLong"),
    (b"\n" * (MOST + 1), "TooLong"),
    (b"\xff" * (MOST + 1), "TooLong"),
    ("a" * MOST, "RowTooLong"),
    (MARK + b"a" * (MOST - 3), "RowTooLong"),
    (b"\n" * MOST, "NoHeader"),
    (b"\xff" * MOST, "NotUtf8"),
]


def table(first, second):
    return f"print_identifier\ta\tb\n1\t{first}\t{second}\n"


class Holdings(ProgramCase):
    def test_cells_keep_their_spaces(self):
        self.program.write("rules", LINK)
        self.program.prints(["compile", "rules", "code"], "191 bytes")
        compiled = self.program.read("code")
        write_registry(self.program, [(f"t{at}", compiled, table(*cells)) for at, (*cells, _, _) in enumerate(CELLS)])
        menu = [f"t{at}\thttp://e.org/{link}" for at, (_, _, link, _) in enumerate(CELLS)]
        self.program.prints(["resolve", "registry", "rft.issn=1"], "\n".join(menu))

    def test_cells_count_with_their_spaces(self):
        write_registry(self.program, [(f"t{at}", SCALE, table(*cells)) for at, (*cells, _, _) in enumerate(CELLS)])
        # The identifiers of the row and of the request are a byte each.
        counts = [f"t{at}\tover budget {1048576 + 3 * (2 + count)}\n" for at, (_, _, _, count) in enumerate(CELLS)]
        expect_replies(self.program, [(request_of("/report?rft.issn=1"), reply_of(200, "".join(counts)))])

    def test_limit_of_bytes(self):
        for content, fault in LIMITS:
            write_registry(self.program, [("alpha", ANY_LINK, content)])
            self.program.fails(["resolve", "registry", "rft.issn=1"], 3, f"target alpha: table: {fault}")
        write_registry(self.program, [("alpha", ANY_LINK, MARK + b"print_identifier\n1\n" + b"\n" * (MOST - 22))])
        self.program.prints(["resolve", "registry", "rft.issn=1"], "alpha\thttp://e.org/")

    def test_short_rows_of_a_wide_table(self):
        """With a step for each column of each row, this would take longer than a run may take."""
        columns = "\t".join(["print_identifier"] + ["c"] * 32_000 + ["online_identifier", "last"])
        table = columns + "\n" + "1\n" * 199_999 + "1" + "\t" * 32_002 + "x\n"
        write_registry(self.program, [("wide", "rule\nwhen given last\nlink http://e.org/{last}\n", table)])
        self.program.prints(["resolve", "registry", "rft.issn=1"], "wide\thttp://e.org/x")
