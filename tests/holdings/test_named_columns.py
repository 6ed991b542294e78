"""The names that the line of a target gives to the columns of its files: which header is found by them, and what is
said
of columns that are missing."""
from __future__ import annotations

from fixtures import needs
from fixtures.cases import Case
from fixtures.spreadsheet_files import ods
from fixtures.spreadsheet_files import xlsx
from fixtures.updates import Library
from holdings.shapes import PLAIN
from holdings.shapes import tabs
from openlink_update import target_options
from openlink_update.outcome import Refused
from openlink_update.received import column_names
from openlink_update.tables import preparation

GERMAN = "Titel;ISSN, print;Verlag;Beginn\nTides;2901-0012;Press;1995\n"
ALL = 'columns Titel=publication_title, "ISSN, print"=print_identifier, Verlag=-, Beginn=date_first_issue_online'
SERVED = tabs("publication_title|print_identifier|date_first_issue_online\nTides|2901-0012|1995\n")
HAS = 'it has: "Titel", "ISSN, print", "Verlag", "Beginn"'
NO_HEADER = "no header publication_title, -, print_identifier, date_first_issue_online"


def read(cell: str, *files: str | bytes) -> tuple[str, list[str]] | list[str]:
    """The table of files with the fourth cell of a line, and what is said; or the reasons against it."""
    given = [(f"file {number}", it if isinstance(it, bytes) else it.encode()) for number, it in enumerate(files, 1)]
    try:
        prepared = preparation.prepare(given, target_options.parse(cell)[0])
        return prepared.table.to_bytes().decode(), prepared.lines
    except Refused as refusal:
        return refusal.reasons


def table(cell: str, *files: str) -> str:
    found = read(cell, *files)
    return found[0] if isinstance(found, tuple) else str(found)


class Names(Case):
    def test_header(self) -> None:
        """It is found by names of the line too: three that are known, or all of the line."""
        said = ["semicolons between cells: 1 row", "named by `columns`: 3 columns", "left out by `columns`: 1 column"]
        self.expect("all names", read(ALL, GERMAN), (SERVED, said))
        above = f"Verlagsliste;;;\n{GERMAN}"
        self.expect("below a line", table(ALL, above), SERVED)
        one = "columns Titel=publication_title"
        self.expect("the only one of a line", table(one, "Titel;x\nTides;y\n"), "publication_title\tx\nTides\ty\n")
        mixed = "columns Titel=publication_title, Verlag=-, Ende=-"
        text = "x\nTitel;Print Identifier;Online Identifier\nTides;2901-0012;\n"
        self.expect(
            "one of it and two of KBART",
            table(mixed, text),
            "publication_title\tprint_identifier\tonline_identifier\nTides\t2901-0012\t\n",
        )
        fewer = "x\nTitel;Print Identifier;mine\nTides;2901-0012;\n"
        says = "no header with the names of `columns` or of KBART; it has: "
        self.expect("two alone", read(mixed, fewer), [f'file 1: {says}"Titel", "Print Identifier", "mine"'])
        twice = mixed.replace("Titel", "Print Identifier").replace("publication_title", "print_identifier")
        wanted = [f'file 1: {says}"Titel", "Print Identifier", "mine"']
        self.expect("a name of both counts once", read(f"{twice}, Titel=publication_title", fewer), wanted)

    def test_spellings(self) -> None:
        """Case, spaces and quotes around a name make no difference."""
        for name in ("titel", "TITEL", " Titel ", '"Titel"', "'Titel'", "\u201cTitel\u201d", "Titel\xa0"):
            text = f"{name}\tprint_identifier\tonline_identifier\nTides\t2901-0012\t\n"
            got = table("columns Titel=publication_title", text)
            self.expect(repr(name), got.split("\t")[0], "publication_title")
        text = "GROSSE TITEL\tprint_identifier\tonline_identifier\nTides\t2901-0012\t\n"
        got = table("columns Große Titel=publication_title", text)
        self.expect("a letter that capitals lack", got.split("\t")[0], "publication_title")
        text = "ISSN  print\tprint_identifier\tx\nTides\t2901-0012\t\n"
        self.expect(
            "spaces in it", table('columns "ISSN print"=publication_title', text).split("\t")[0], "publication_title"
        )

    def test_two_spellings(self) -> None:
        """The first of two spellings of a name gets it, unless a column has the name itself."""
        for cells, wanted in (
            (["Print Identifier", "print-identifier"], ["print_identifier", "print-identifier"]),
            (["Print Identifier", "print_identifier"], ["Print Identifier", "print_identifier"]),
        ):
            self.expect(f"{cells}", column_names.spelled(cells), wanted)

    def test_kbart_names_stay(self) -> None:
        text = PLAIN.replace("|", "\t").replace("title_url", "Link")
        self.expect("with one more", table("columns Link=title_url", text), tabs(PLAIN))

    def test_dropped_rows_of_cells(self) -> None:
        """Short and long rows keep their places."""
        text = "Titel;Verlag;ISSN\nTides;Press;2901-0012;more\nPiers\n;;2915-0272\n"
        cell = "columns Titel=publication_title, Verlag=-, ISSN=print_identifier; dropped up to 9"
        wanted = "publication_title\tprint_identifier\nTides\t2901-0012\tmore\n\t2915-0272\n"
        self.expect("rows", table(cell, text), wanted)

    def test_several_dropped(self) -> None:
        text = "A;Titel;B;C;ISSN;D\na;Tides;b;c;2901-0012;d\n"
        cell = "columns Titel=publication_title, ISSN=print_identifier, A=-, B=-, C=-, D=-"
        self.expect("they go", table(cell, text), "publication_title\tprint_identifier\nTides\t2901-0012\n")
        names = "no header -, publication_title, -, -, print_identifier, -"
        self.expect(
            "without a header",
            table(names, text.splitlines()[1]),
            "publication_title\tprint_identifier\nTides\t2901-0012\n",
        )

    def test_a_column_named_as_none(self) -> None:
        """A hyphen, which leaves a column out, is no name that another column may not have."""
        text = "Titel;-;ISSN;Verlag\nTides;a;2901-0012;b\n"
        cell = "columns Titel=publication_title, ISSN=print_identifier, Verlag=-"
        wanted = "publication_title\t-\tprint_identifier\nTides\ta\t2901-0012\n"
        self.expect("one is left out", table(cell, text), wanted)

    def test_own_columns(self) -> None:
        text = "publication_title\tprint_identifier\tFach\nTides\t2901-0012\tsea\n"
        got = table("columns Fach=x_subject", text)
        self.expect("one of its own", got.splitlines()[0], "publication_title\tprint_identifier\tx_subject")


class Missing(Case):
    """What is missing is said with the names that the file has."""

    def test_names_of_the_line(self) -> None:
        other = GERMAN.replace("Titel", "Haupttitel")
        has = HAS.replace("Titel", "Haupttitel")
        self.expect("a name that is served", read(ALL, other), [f'no column "Titel", which `columns` names; {has}'])
        said = f'no column "Titel", which `columns` names; {has}'
        self.expect("names of two files", read(ALL, other, other), [said])
        self.expect("beside one that cannot be read", read(ALL, other, ""), ["file 2: it is empty"])
        without = "Titel;ISSN, print;Beginn\nTides;2901-0012;1995\n"
        found = read(ALL, without)
        self.expect(
            "one that is left out",
            found[1] if isinstance(found, tuple) else found,
            ["semicolons between cells: 1 row", "named by `columns`: 3 columns", 'no column "Verlag" to leave out'],
        )
        self.expect("the table", table(ALL, without), SERVED)
        short = "Titel;ISSN, print;Verlag\nPiers;2915-0272;Press\n"
        self.expect("the second file lacks it", table(ALL, GERMAN, short), f"{SERVED}Piers\t2915-0272\t\n")
        head, _, row = SERVED.partition("\n")
        self.expect("the first file lacks it", table(ALL, short, GERMAN), f"{head}\nPiers\t2915-0272\t\n{row}")
        self.expect("in one of two files", table(ALL, GERMAN, PLAIN.replace("|", "\t")).count("\n"), 3)

    def test_kinds(self) -> None:
        head = ["publication_title", "print_identifier", "date_first_issue_online", "title_url"]
        row = ["Tides", "2901-0012", "1995", "https://press.example.com/"]
        for place, what in ((0, "a title"), (1, "an ISSN or ISBN"), (2, "a date"), (3, "")):
            names, cells = ([*it[:place], *it[place + 1 :]] for it in (head, row))
            found = read("", "\t".join(names) + "\n" + "\t".join(cells) + "\n")
            has = ", ".join(f'"{name}"' for name in names)
            wanted = [f"no column has {what}; the file has: {has}"] if what else []
            self.expect(what, found[1] if isinstance(found, tuple) else found, wanted)
        found = read("", "\n".join(["Titel;ISSN;Jahr", "Tides;2901-0012;1995"]))
        said = 'no column has a title or an ISSN or ISBN or a date; the file has: "Titel", "ISSN", "Jahr"'
        self.expect("a header that is not known", found[1] if isinstance(found, tuple) else found, [said])
        found = read("no header publication_title, -, print_identifier", "Tides\tPress\t2901-0012\n")
        said = 'no column has a date; the file has: "publication_title", "print_identifier"'
        self.expect("names of the line", found[1] if isinstance(found, tuple) else found, [said])

    def test_names_of_two_files(self) -> None:
        """Each is shown once, those of the first file first."""
        one = "publication_title\tprint_identifier\tx\nTides\t2901-0012\t\n"
        other = "publication_title\ty\tprint_identifier\nPiers\t\t2915-0272\n"
        said = 'no column has a date; the file has: "publication_title", "print_identifier", "x", "y"'
        found = read("", one, other)
        self.expect("names", found[1] if isinstance(found, tuple) else found, [said])

    def test_names_of_a_sheet(self) -> None:
        """Those that are shown are of its fullest row among the first twenty, since a title may be above them."""
        rows = [["Titles of a press"], ["Titel", "ISSN", "Jahr"], *[["Tides", "2901-0012"]] * 18, ["a", "b", "c", "d"]]
        said = 'no header with the names of `columns` or of KBART; it has: "Titel", "ISSN", "Jahr"'
        for name, data in (("xlsx", xlsx(rows)), ("ods", ods(rows))):
            self.expect(name, read("columns Title=publication_title", data), [f"file 1: {said}"])

    def test_names_of_strangers(self) -> None:
        """They are shown in one line that is safe and not long."""
        names = ["\x1b[2J\u202ex" + "y" * 99, *(f"n{number}" for number in range(40))]
        found = read("", "\t".join(names) + "\na\n")
        line = found[1][-1] if isinstance(found, tuple) else ""
        self.expect("unsafe characters", line.split("; ")[1][:22], 'the file has: "?[2J?xy')
        self.expect("the last of thirty", line[-21:], '"n27", "n28", and 11 more'[-21:])

    def test_two_readings(self) -> None:
        twice = "ISSN\tISSN\tTitel\n2901-0012\t2908-0142\tTides\n"
        cell = "columns ISSN=print_identifier, Titel=publication_title"
        says = 'file 1: 2 columns are named "issn": which one `columns` means is unknown'
        self.expect("two columns of a name", read(cell, twice), [says])
        both = "print_identifier\tISSN\tTitel\n2901-0012\t2908-0142\tTides\n"
        says = (
            'file 1: it has a column print_identifier beside "ISSN", which `columns` calls so: leave one out, '
            "print_identifier=-"
        )
        self.expect("a column that has the name", read(cell, both), [says])
        got = table(f"{cell}, print_identifier=-", both)
        self.expect("as the line says", got, "print_identifier\tpublication_title\n2908-0142\tTides\n")


@needs.program()
class Update(Case):
    def test_names_that_a_table_lacks(self) -> None:
        """They are said where the table is left out, and after the line is corrected it is served."""
        with Library() as library:
            library.write("german.csv", GERMAN)
            library.write("other.txt", PLAIN.replace("|", "\t"))
            library.targets = {"german": ("german.csv", ""), "other": ("other.txt", "")}
            library.write_targets()
            says = (
                'no column has a title or an ISSN or ISBN or a date; the file has: "Titel", '
                '"ISSN, print", "Verlag", "Beginn"'
            )
            self.expect_lines("left out", library.update()[1], f"  {library.path('german.csv')}: {says}")
            cell = f"{ALL}; no column online_identifier"
            library.targets["german"] = ("german.csv", cell)
            library.write_targets()
            self.expect("served", (library.update()[0], library.table("german")), (0, SERVED))
            library.targets["german"] = ("german.csv", cell.replace("Verlag=-", "Verlag=publisher_name"))
            library.write_targets()
            printed = library.update()[1]
            lines = ["german: options changed, 1 row added, 1 gone", "  named by `columns`: 4 columns"]
            self.expect_lines("another name", printed, *lines)


class NoHeader(Case):
    def test_separators(self) -> None:
        for separator in "\t;,":
            text = separator.join(["Tides", "Press", "2901-0012", "1995"]) + "\n"
            self.expect(repr(separator), table(NO_HEADER, text), SERVED)
        text = '"Tides; Waves","Press","2901-0012","1995"\n'
        self.expect("in quotes", table(NO_HEADER, text), SERVED.replace("Tides", "Tides; Waves"))
        for end in (";", "; ", ";;\xa0"):
            text = f"Tides;Press;2901-0012;1995{end}\n"
            self.expect(f"empty cells at the end, {end!r}", table(NO_HEADER, text), SERVED)
        title = "Tides, a, b, c, d"
        text = f"{title};Press;2901-0012;1995\n"
        self.expect("more of another one", table(NO_HEADER, text), SERVED.replace("Tides", title))

    def test_widths(self) -> None:
        says = (
            "file 1: no header: 4 names, but the longest line has other numbers of cells: 3 with tabs, 1 "
            "with commas, 1 with semicolons"
        )
        self.expect("no line has as many", read(NO_HEADER, "Tides\tPress\t2901-0012\n"), [says])
        none = says.replace("3 with", "0 with").replace("1 with", "0 with")
        for text in ("", "\n\n"):
            self.expect(f"no line: {text!r}", read(NO_HEADER, text), [none])
        text = "Tides;Press;2901-0012;1995\nPiers;Press;2915-0272;1995;x\n"
        self.expect("a longer row", read(NO_HEADER, text), ["file 1: no header: 4 names, and row 2 has 5 cells"])
        text = "Tides;Press;2901-0012;1995\nPiers;Press;2915-0272\n"
        self.expect("a shorter one", table(NO_HEADER, text), f"{SERVED}Piers\t2915-0272\n")

    def test_header(self) -> None:
        """A file that gets a header some day is not read as rows."""
        text = "publication_title;publisher_name;print_identifier;date_first_issue_online\nTides;Press;2901-0012;1995\n"
        has = '"publication_title", "publisher_name", "print_identifier", "date_first_issue_online"'
        self.expect("it has one", read(NO_HEADER, text), [f"file 1: it has a header, so `no header` is wrong: {has}"])
