"""How identifiers are compared: without `-` and spaces, small ASCII letters as capitals, all else as it is."""
from fixtures.program import ProgramCase
from fixtures.service import expect_replies, reply_of, request_of
from fixtures.targets import ANY_LINK, write_registry

# All of ASCII, and the characters that a cell can have.
ASCII = [chr(number) for number in range(128)]
IN_CELLS = [character for character in ASCII if character not in "\t\n\r"]

# A column, and a key for it.
COLUMNS = [("print_identifier", "rft.issn"), ("online_identifier", "rft.eissn"), ("online_identifier", "rft.isbn")]

# Identifiers of a request, encoded, that are those of the cell 0028-083X.
EQUAL = [
    "0028-083X",
    "0028083X",
    "0028-083x",
    "0028083x",
    "0028+083X",
    "0028%20083x",
    "0028%2D083X",
    "+0-0+2-8--0++83X-",
    "00280%38%33%78",
]

# Those that are not: other characters of ASCII, other hyphens, spaces and letters, and other lengths.
OTHER = [
    "0028.083X",
    "0028%E2%80%93083X",
    "0028%E2%80%90083X",
    "0028%E2%80%91083X",
    "0028%E2%88%92083X",
    "0028%C2%AD083X",
    "0028%C2%A0083X",
    "0028%E2%80%89083X",
    "0028%E3%80%80083X",
    "0028%09083X",
    "0028%0A083X",
    "0028_083X",
    "0028/083X",
    "0028:083X",
    "0028%2B083X",
    "0028%252D083X",
    "0028%00083X",
    "%220028-083X%22",
    "%EF%BB%BF0028-083X",
    "0028-083%EF%BC%B8",
    "0028-083%CE%A7",
    "028-083X",
    "0028-083",
    "0028-083XX",
    "00028-083X",
    "urn:ISSN:0028-083X",
    "ISSN+0028-083X",
    "",
    "-",
]

# Cells, and identifiers of a request that are not theirs.
CELLS = [
    ("0028–0836", "00280836"),
    ("0028.0836", "00280836"),
    ("0028\u00a00836", "00280836"),
    ('"00280836"', "00280836"),
    ("é1", "%C3%89 1"),
    ("É1", "%C3%A9 1"),
    ("ı1", "I1"),
    ("I1", "%C4%B1 1"),
    ("S1", "%C5%BF 1"),
    ("SS1", "%C3%9F 1"),
    ("K1", "%E2%84%AA 1"),
    ("-", "-"),
    (" ", "+"),
    ("-", ""),
]


def normal(text):
    """The text without `-` and spaces, with capitals for small letters of ASCII."""
    return "".join(chr(ord(one) - 32) if "a" <= one <= "z" else one for one in text if one not in "- ")


def reported(line):
    return reply_of(200, f"alpha\t{line}\n")


class Identifiers(ProgramCase):
    def test_all_characters(self):
        cells = [f"1{character}2" for character in IN_CELLS]
        for column, key in COLUMNS:
            write_registry(self.program, [("alpha", ANY_LINK, "\n".join([column, *cells, ""]))])
            cases = []
            for character in ASCII:
                rows = [row for row, cell in enumerate(cells) if normal(cell) == normal(f"1{character}2")]
                request = request_of(f"/report?{key}=1%{ord(character):02X}2")
                cases.append((request, reported(f"link {rows[0]}" if rows else "no row")))
            expect_replies(self.program, cases)

    def test_dropped_characters(self):
        """Those that a cell may have between its letters, and be found without; they are two."""
        targets = [(f"byte-{ord(one)}", ANY_LINK, f"print_identifier\nA{one}B\n") for one in IN_CELLS]
        write_registry(self.program, targets)
        self.program.prints(["resolve", "registry", "rft.issn=AB"], "byte-32\thttp://e.org/\nbyte-45\thttp://e.org/")

    def test_one_cell(self):
        for column, key in COLUMNS:
            write_registry(self.program, [("alpha", ANY_LINK, f"{column}\n0028-083X\n")])
            cases = [(request_of(f"/report?{key}={value}"), reported("link 0")) for value in EQUAL]
            cases += [(request_of(f"/report?{key}={value}"), reported("no row")) for value in OTHER]
            expect_replies(self.program, cases)

    def test_other_cells(self):
        for cell, value in CELLS:
            write_registry(self.program, [("alpha", ANY_LINK, f"notes\tprint_identifier\nx\t{cell}\n")])
            self.program.finds_no_link(["resolve", "registry", f"rft.issn={value}"])
