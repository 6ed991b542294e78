"""Cells of vendors that have one reading, and those that have two, which stay."""
from __future__ import annotations

import gzip
from unittest import mock

from fixtures.cases import Case
from fixtures.spreadsheet_files import archive_of
from openlink_update.outcome import Refused
from openlink_update.tables import cells
from openlink_update.tables import dropped_rows
from openlink_update.tables import embargo_words
from openlink_update.tables import preparation
from openlink_update.tables.table import Table

HEAD = "publication_title\tprint_identifier\tonline_identifier\tdate_first_issue_online\ttitle_url"
EMBARGOES = {
    "1 year": "P1Y",
    "12 Months": "P12M",
    "6 months delay": "P6M",
    "18 mois": "P18M",
    "2 Jahre": "P2Y",
    "1 an": "P1Y",
    "un an": "P1Y",
    "2 années": "P2Y",
    "1 año": "P1Y",
    "6 meses": "P6M",
    "2 anni": "P2Y",
    "12 maanden": "P12M",
    "12-month embargo": "P12M",
    "Embargo: 12 months": "P12M",
    "moving wall of 3 years": "P3Y",
    "delayed by six months": "P6M",
    "Sperrfrist: 12 Monate": "P12M",
    "12 months after publication": "P12M",
    "365 days": "P365D",
    "6 weeks": "P42D",
    "6 mo.": "P6M",
    "2 yrs": "P2Y",
    "(1 year)": "P1Y",
    "None": "",
    "no embargo": "",
    # Two readings, or none.
    "last 5 years only": "last 5 years only",
    "5 years available": "5 years available",
    "1-2 years": "1-2 years",
    "6 to 12 months": "6 to 12 months",
    "1.5 years": "1.5 years",
    "1,5 Jahre": "1,5 Jahre",
    "1 year 6 months": "1 year 6 months",
    "-1 year": "-1 year",
    "some months": "some months",
    "years": "years",
    "0 months": "0 months",
    "6 M": "6 M",
    "12": "12",
    "1 year; 2 years": "1 year; 2 years",
    "1 year or less": "1 year or less",
    "١ year": "١ year",
}
# Embargoes in the languages that providers write: each word for a number, a unit and what may stand around them.
IN_LANGUAGES = {
    "P1Y": (
        "one year, 1 yr, embargoed 1 year, 1 year delay, 1 year rolling wall, period of 1 year, 1 year by publisher, "
        "1 year delays, ein Jahr, Sperrfrist von einem Jahr, 1 Jahr Verzug, Verzögerung 1 Jahr, 1 Jahr nach "
        "Erscheinen, une année, retard d'un an, décalage de 1 an, barrière mobile 1 an, 1 an après parution, una año, "
        "retraso de 1 año, demora 1 año, 1 año tras publicación, uno anno, ritardo di 1 anno, 1 anno dopo, een jaar, "
        "1 jaar vertraging, 1 jaar na"
    ),
    "P2Y": "two years, 2 yrs, zwei Jahre, deux ans, deux années, dos años, due anni, twee jaren",
    "P3Y": "three years, drei Jahren, trois ans, tres años, tre anni, drie jaar",
    "P4M": "four months, 4 month, vier Monate, quatre mois, cuatro meses, quattro mesi, 4 mes",
    "P5M": "five mos, fünf Monaten, cinq mois, cinco meses, cinque mesi, vijf maanden, 5 mese",
    "P6M": "six mo, sechs Monat, seis meses, sei mesi, zes maanden, 6 mth, 6 maand",
    "P7D": "eine Woche, una semana",
    "P9M": "nine mths, neun Monate, neuf mois, nueve meses, nove mesi, negen maanden",
    "P10D": "ten days, zehn Tage, zehn Tagen, dix jours, diez días, dieci giorni, tien dagen, 10 day, 10 Tag, 10 jour",
    "P11D": "11 día, 11 giorno, 11 dag",
    "P12M": "twelve months, zwölf Monate, douze mois, doce meses, dodici mesi, twaalf maanden",
    "P14D": "2 weeks, 2 week, 2 wk, 2 wks, 2 Wochen, 2 Woche, 2 semaines, 2 semaine, 2 semanas, 2 semana, 2 settimane, "
    "2 settimana, 2 weken",
    "P18M": "eighteen months, achtzehn Monate, dieciocho meses, diciotto mesi, achttien maanden",
    "P24M": "twentyfour months, vierundzwanzig Monate, vingtquatre mois, veinticuatro meses, ventiquattro mesi",
    "": "none, No Embargo, keine, kein Embargo, aucun, aucun embargo, sin embargo, nessuno, geen, 0",
}
# The cells of two identifiers, and what becomes of them.
NUMBERS = {
    ("2901-0012, 2908-0142", ""): ("2901-0012", "2908-0142"),
    ("", "2901-0012; 2908-0142"): ("2908-0142", "2901-0012"),
    ("2901-0012 2908-0142", ""): ("2901-0012", "2908-0142"),
    ("2901-0012 / 2908-0142", "2908-0142"): ("2901-0012", "2908-0142"),
    ("2901-0012 (online), 2908-0142 (print)", ""): ("2908-0142", "2901-0012"),
    ("eISSN 2901-0012; pISSN 2908-0142", ""): ("2908-0142", "2901-0012"),
    ("2901-0012 und 2908-0142", ""): ("2901-0012", "2908-0142"),
    ("2901-001x|2908-0142".replace("|", "; "), ""): ("2901-001x", "2908-0142"),
    ("2901-0012, 2908-0142", "2915-0272"): ("2901-0012", "2915-0272"),
    ("2901-0012, 2908-0142, 2915-0272", ""): ("2901-0012", "2908-0142"),
    ("978-0-306-40615-7, 9780804429573", ""): ("978-0-306-40615-7", "9780804429573"),
    ("978-0-306-40615-7", ""): ("978-0-306-40615-7", ""),
    ("978 0 306 40615 7", ""): ("978 0 306 40615 7", ""),
    ("2901-0012; 2908-0142;", ""): ("2901-0012", "2908-0142"),
    ("2901-0012; ; 2908-0142", ""): ("2901-0012", "2908-0142"),
    ("2901-0012, soon", "2908-0142"): ("2901-0012, soon", "2908-0142"),
    ("ISSN: 2901-0012", "ISSN 2908-0142"): ("2901-0012", "2908-0142"),
    ("ISSN-L 2901-0012", "e-ISSN:2908-0142"): ("2901-0012", "2908-0142"),
    ("ISBN-13: 9780306406157", "urn:isbn:9780804429573"): ("9780306406157", "9780804429573"),
    ("ISSN 2901-0012 (print)", "Online: 2908-0142"): ("2901-0012", "2908-0142"),
    ("ISSN", "2908-0142"): ("ISSN", "2908-0142"),
    ("ISSNs of 2901", "2908-0142"): ("ISSNs of 2901", "2908-0142"),
    ("2901001 (print)", "2908-0142"): ("2901001 (print)", "2908-0142"),
    ("2908-0142 / 2901-0012", "2908-0142"): ("2901-0012", "2908-0142"),
    ("2901-0012 (print online), 2908-0142", ""): ("2901-0012", "2908-0142"),
    ("", "2901-0012 (print online), 2908-0142"): ("2908-0142", "2901-0012"),
    ("29010012", "29080142"): ("29010012", "29080142"),
}
# Words after a number that name its column.
OF_PRINT = "print, p-ISSN, pISSN, paper, hardcover, cloth, pbk, hbk, Druck, imprimé, impreso"
OF_ONLINE = "online, e-ISSN, eISSN, electronic, elektronisch, ebook, e-book, web, digital, en ligne, en línea"
# What is no hyphen and looks like one: a soft hyphen, dashes, a bullet, a minus, and the forms of other scripts.
DASHES = "\xad\u2010\u2011\u2012\u2013\u2014\u2015\u2043\u2212\ufe58\ufe63\uff0d"


def table(*rows: str, head: str = HEAD) -> bytes:
    return "".join(f"{row}\n" for row in (head, *rows)).encode()


def rows_of(*files: bytes) -> list[list[str]]:
    return preparation.prepare([(f"file {number}", data) for number, data in enumerate(files)]).table.rows


def said(*files: bytes) -> list[str]:
    return preparation.prepare([("file", data) for data in files]).lines


class Cells(Case):
    def test_embargoes(self) -> None:
        for cell, wanted in EMBARGOES.items():
            self.expect(cell, embargo_words.standard(cell), wanted)
        for wanted, cells_of_one in IN_LANGUAGES.items():
            for cell in cells_of_one.split(", "):
                self.expect(cell, embargo_words.standard(cell), wanted)
        head = f"{HEAD}\tembargo_info"
        rows = [
            f"Tides {number}\t2901-0012\t\t1995\t\t{cell}" for number, cell in enumerate(("1 year", "P6M", "p1y", ""))
        ]
        data = table(*rows, head=head)
        self.expect("cells of a table", [row[5] for row in rows_of(data)], ["P1Y", "P6M", "p1y", ""])
        self.expect("what is said", said(data), ["embargoes in words written as KBART does: 1 cell"])

    def test_numbers(self) -> None:
        for (one, other), wanted in NUMBERS.items():
            rows = rows_of(table(f"Tides\t{one}\t{other}\t1995\t"))
            self.expect(f"{one} and {other}", tuple(rows[0][1:3]), wanted)
        cells = ("2901-0012, 2908-0142\t2915-0272", "2901-0012, 2908-0142\t", "ISSN: 2922-0408\t")
        lines = [
            "several numbers in a cell of identifiers: 2 cells",
            "second numbers put in the other column: 1 cell",
            "numbers for which there was no cell, left out: 1 number",
            "words before an identifier removed: 1 cell",
        ]
        self.expect("what is said", said(table(*(f"T\t{it}\t1995\t" for it in cells))), lines)
        plain = said(table("T\t29010012, 29080142\t2915-0272\t1995\t"))
        self.expect("numbers without hyphens", plain, [lines[0].replace("2 cells", "1 cell"), lines[2]])

    def test_words_of_columns(self) -> None:
        """The first of two numbers goes to the column that a word after it names."""
        two = ("2901-0012", "2908-0142")
        for word in OF_PRINT.split(", "):
            rows = rows_of(table(f"Tides\t\t{two[0]} ({word}), {two[1]}\t1995\t"))
            self.expect(f"of print: {word}", tuple(rows[0][1:3]), two)
        for word in OF_ONLINE.split(", "):
            rows = rows_of(table(f"Tides\t{two[0]} ({word}), {two[1]}\t\t1995\t"))
            self.expect(f"of online: {word}", tuple(rows[0][1:3]), two[::-1])

    def test_dashes(self) -> None:
        for dash in DASHES:
            rows = rows_of(table(f"Tides\t2901{dash}0012\t\t1995\t"))
            self.expect(f"a dash U+{ord(dash):04X}", [row[1] for row in rows], ["2901-0012"])

    def test_one_column(self) -> None:
        """A table with one column of identifiers gets the other, before cells that have no column."""
        head = "publication_title\tonline_identifier\tdate_first_issue_online"
        rows = ("Tides\t2901-0012, 2908-0142\t1995\tmore", "Piers\t2915-0272", "Quays\t2922-0408\t1996")
        data = table(*rows, head=head)
        prepared = preparation.prepare([("file", data)])
        self.expect("its columns", prepared.table.columns[3:], ("print_identifier",))
        self.expect("its rows", prepared.table.rows[0][1:], ["2901-0012", "1995", "2908-0142", "more"])
        others = [["Piers", "2915-0272"], ["Quays", "2922-0408", "1996"]]
        self.expect("rows that have no cell after it", prepared.table.rows[1:], others)

    def test_addresses(self) -> None:
        for cell, wanted in (
            ("www.press.example.com/1", "https://www.press.example.com/1"),
            ("WWW.press.example.com", "https://WWW.press.example.com"),
            ("http://www.press.example.com", "http://www.press.example.com"),
            ("wwwpress.example.com", "wwwpress.example.com"),
            ("press.example.com/www.", "press.example.com/www."),
        ):
            self.expect(cell, rows_of(table(f"Tides\t2901-0012\t\t1995\t{cell}"))[0][4], wanted)

    def test_order_of_dates_is_of_a_file(self) -> None:
        """One file may have the day first, and another the month."""
        days = table("A\t2901-0012\t\t3/4/1995\t", "B\t2908-0142\t\t13/4/1995\t")
        months = table("C\t2915-0272\t\t3/4/1995\t", "D\t2922-0408\t\t4/13/1995\t")
        alone = table("E\t2929-0538\t\t3/4/1995\t")
        found = [row[3] for row in rows_of(days, months, alone)]
        self.expect("dates", found, ["1995-04-03", "1995-04-13", "1995-03-04", "1995-04-13", "1995"])
        both = table("A\t2901-0012\t\t3/4/1995\t", "B\t2908-0142\t\t13/4/1995\t", "C\t2915-0272\t\t4/13/1995\t")
        self.expect("a column with both", rows_of(both)[0][3], "1995")
        other = f"{HEAD}\tdate_last_issue_online"
        data = table("A\t2901-0012\t\t3/4/1995\t\t13/4/1999", head=other)
        self.expect("another column says nothing", rows_of(data)[0][3], "1995")
        mixed = table("A\t2901-0012\t\t3/4-1995\t", "B\t2908-0142\t\t13/4/1995\t")
        self.expect("two separators", rows_of(mixed)[0][3], "1995")
        times = table("A\t2901-0012\t\t3/4/1995 12:00 AM\t", "B\t2908-0142\t\t4/13/1995 12:00:00 AM\t")
        self.expect("with times", [row[3] for row in rows_of(times)], ["1995-03-04", "1995-04-13"])
        cells_of = ("3/4/1995", "13/4/1995", "5/5/1995", "4/0/1995", "0/4/1995")
        data = table(*(f"{name}\t2901-0012\t\t{cell}\t" for name, cell in zip("ABCDE", cells_of)), "F\t2901-0012")
        said = [line for line in preparation.prepare([("one", data)]).lines if "order" in line]
        self.expect("decided", said, ["dates whose order the rest of their column decides: 1 cell"])

    def test_last_dates(self) -> None:
        """A whole cell that means today is none, and no cell that begins so."""
        data = "Tides\t2901-0012\t\t1995\t\t{}"
        for cells_of, is_today in (
            (("present", "CURRENT", "9999", "9999-12", "9999-12-31"), True),
            (("presently unknown", "current volume", "to present", "99990"), False),
        ):
            for cell in cells_of:
                rows = rows_of(table(data.format(cell), head=f"{HEAD}\tdate_last_issue_online"))
                self.expect(cell, rows[0][5], "" if is_today else cell)

    def test_words_with_a_full_stop(self) -> None:
        data = table("Tides\t2901-0012 pr.\t2908-0142 (el.)\t1995\t")
        self.expect("numbers", rows_of(data)[0][1:3], ["2901-0012", "2908-0142"])
        self.expect("what is said", said(data), ["words after an identifier removed: 2 cells"])

    def test_footers(self) -> None:
        """Of each file, at its end alone, and never a row with a number."""
        one = table("A\t2901-0012\t\t1995\t", "Total\t1", "", "(c) Press")
        two = table("B\t2908-0142\t\t1995\t", "C\tsoon\t\t1995\t")
        prepared = preparation.prepare([("one", one), ("two", two)])
        self.expect("rows", [row[0] for row in prepared.table.rows], ["A", "B"])
        self.expect("dropped", [row[1] for row in prepared.dropped], ["C"])
        middle = table("A\t2901-0012\t\t1995\t", "Total\t1", "B\t2908-0142\t\t1995\t")
        self.expect("in the middle", [row[1] for row in preparation.prepare([("file", middle)]).dropped], ["Total"])
        last = table("A\t2901-0012\t\t1995\t", "\t2908-0142")
        self.expect("a number alone", [row[1] for row in rows_of(last)], ["2901-0012", "2908-0142"])
        every = table("A\t2901-0012\t\t1995\t", "All\t any ")
        self.expect("the word for all requests", [row[1] for row in rows_of(every)], ["2901-0012", "any"])
        quoted = table("A\t2901-0012\t\t1995\t", 'Source: "Press"')
        line = "below the table, left out: 1 row, the first \"Source: 'Press'\""
        self.expect("quotation marks in a quotation", said(quoted), [line])


class Zips(Case):
    """Of several members, the one that begins like a table."""

    def test_members(self) -> None:
        good = table("A\t2901-0012\t\t1995\t")
        refused = "file: a zip file with {} members: name one by `member PATTERN` in sources.tsv"
        for name, members, wanted in (
            ("a readme", {"readme.txt": b"read me", "t.txt": good}, ""),
            ("a page", {"readme.html": b"<html>", "t.txt": good}, ""),
            ("a picture", {"logo.png": b"\x89PNG\r\n\x1a\n" + bytes(99), "t.txt": good}, ""),
            ("a packed table", {"t.txt.gz": gzip.compress(good)}, ""),
            ("a packed table and a readme", {"readme.txt": b"read me", "t.txt.gz": gzip.compress(good)}, ""),
            (
                "half of a packed table",
                {"t.txt.gz": gzip.compress(good)[:-9]},
                "file: a gzip file that is cut short or damaged",
            ),
            ("two tables", {"a.txt": good, "b.txt": good}, refused.format(2)),
            ("a table and an archive", {"a.txt": good, "b.zip": archive_of({"c": good})}, refused.format(2)),
            ("none", {"a.txt": b"x", "b.txt": b"y"}, refused.format(2)),
        ):
            try:
                got = "" if rows_of(archive_of(members)) else "no rows"
            except Refused as refusal:
                got = refusal.reasons[0].replace("file 0", "file")
            self.expect(name, got, wanted)
        packed = archive_of({"readme.txt": b"read me", "t.txt.gz": gzip.compress(good)})
        self.expect("what is said", said(packed), ["other members of the zip file, left out: 1 file"])


class Rows(Case):
    def test_rows_with_one_hash(self) -> None:
        """Of equal rows the first stays, and of others with its hash too."""
        rows = [["a", "1"], ["b", "2"], ["b", "2"], ["a", "1"], ["c", "3"], ["c", "3"]]
        with mock.patch.object(cells, "hash", lambda _: 1, create=True):
            left, lines = cells._without_repetitions([], rows)
        self.expect("rows", left, [["a", "1"], ["b", "2"], ["c", "3"]])
        self.expect("what is said", lines, ["the same as an earlier row, left out: 3 rows"])

    def test_bytes_of_a_table(self) -> None:
        """Lines end as the program reads them, blank ones are none, and no byte is too many."""
        for data, columns, rows in (
            (b"\xef\xbb\xbfa\tb\n1\t2\n", ("a", "b"), [["1", "2"]]),
            (b"a\r\n\r\n1\r\r2", ("a",), [["1"], ["2"]]),
            (b"\na\n \n\n", ("a",), [[" "]]),
            (b"a\n1\xff\n", ("a",), [["1\ufffd"]]),
            (b"\n", (), []),
            (b"", (), []),
        ):
            found = Table.parse(data)
            self.expect(f"{data!r}", (found.columns, found.rows), (columns, rows))

    def test_two_columns_of_one_name(self) -> None:
        self.expect("the first", Table(["a", "b", "a"], []).place("a"), 0)

    def test_any(self) -> None:
        """The word for all requests counts with spaces and hyphens too, as in the program."""
        rows = [["a", "ANY"], ["b", "a-n-y"], ["c", "an y"], ["d", "any1"]]
        left, dropped = dropped_rows.separate(Table(["publication_title", "print_identifier"], rows))
        self.expect("rows", [row[0] for row in left.rows], ["a", "b", "c"])
        self.expect("dropped", [row[1] for row in dropped], ["d"])
