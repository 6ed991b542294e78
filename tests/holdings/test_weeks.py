"""Two weeks of forty targets through openlink-update: the tables that are served, what the mail says, and the old
tables that stay."""
from __future__ import annotations

import gzip
import os

from fixtures import needs
from fixtures.cases import Case
from fixtures.made_titles import issn
from fixtures.updates import Library
from fixtures.updates import without_columns
from holdings.shapes import COLUMNS
from holdings.shapes import FILES
from holdings.shapes import PLAIN
from holdings.shapes import ROW
from holdings.shapes import bytes_of
from holdings.shapes import of_rows
from holdings.shapes import row
from holdings.shapes import tabs
from holdings.shapes import zipped

# What the files of these shapes need to be used, and those that no words allow.
ALLOWED = {
    "words after a number": "not an ISSN or ISBN",
    "a first date is not today": "date_first_issue_online not a date",
    "rows without an identifier": "dropped up to 2; not an ISSN or ISBN",
    "cells after the last column": "rows longer than the header",
    "a first date after the last": "first dates after the last ones up to 2",
}
LEFT_OUT = ("a table without identifiers' columns", "two names below a line")
WHOLE, LOST = 7271, 6544  # rows, and those whose numbers are gone a week later


def name_of(case: str) -> str:
    return "".join(char if char.isascii() and char.isalnum() else "-" for char in case)


def many_rows(lost: int = 0) -> str:
    rows = [row(f"Title {number}", "" if number < lost else issn(number), "") for number in range(WHOLE)]
    return of_rows(*rows)


def write_first_week(library: Library) -> None:
    """A target for each shape, and more of several files, of patterns, and with many rows."""
    for case, (came, _, _) in FILES.items():
        if case not in LEFT_OUT:
            library.targets[name_of(case)] = (f"{name_of(case)}.txt", ALLOWED.get(case, ""))
            library.write(f"{name_of(case)}.txt", bytes_of(came))
    library.targets["several"] = ("parts/journals.txt; parts/books_*.csv", "")
    library.write("parts/journals.txt", tabs(PLAIN))
    library.write("parts/books_2026-10-01.csv", "Print Identifier,publication_title,title_id\n0-306-40615-2,Tides,t1\n")
    library.targets["newest"] = ("new/Press_*_2026*.txt", "")
    library.write("new/Press_All_2026-10-01.txt", tabs(PLAIN))
    library.write("new/Press_All_2025-12-01.txt", "not this one")
    library.targets["collapse"] = ("collapse.txt", "not an ISSN or ISBN; rows without an identifier")
    library.write("collapse.txt", tabs(many_rows()))
    library.targets["fewer"] = ("fewer.txt", "")
    library.write("fewer.txt", tabs(of_rows(row(), row("Tides"), row("Piers"), row("Ports"))))
    library.targets["gone"] = ("gone_*.txt", "")
    library.write("gone_2026-10-01.txt", tabs(PLAIN))
    library.write_targets()


def lines_of_index(library: Library, number: str) -> list[str]:
    """The lines that the index has for a number."""
    folder = os.path.join(library.library, "current", "index", "keys")
    texts = [library.served("index", "keys", name) for name in os.listdir(folder)]
    return [line for text in texts for line in (text or "").splitlines() if line.startswith(f"{number}\t")]


def write_second_week(library: Library) -> None:
    """Four targets have good new files, and seven bad ones."""
    library.write("parts/books_2026-11-01.csv", "print_identifier,publication_title,title_id\n0-306-40615-2,Waves,t1\n")
    library.write("new/Press_All_2026-11-01.txt", tabs(of_rows(row("Tides"))))
    library.write("gzip.txt", gzip.compress(tabs(of_rows(row(), row("Tides"))).encode()))
    library.write("zip.txt", zipped({"other": of_rows(row(first="1 May 1995"))}))
    library.write("as-it-should-be.txt", "<!DOCTYPE html>\n<title>Sign in</title>\n")
    library.write("commas.txt", gzip.compress(tabs(PLAIN).encode())[:-5])
    library.write("semicolons.txt", zipped({"a": PLAIN, "b": PLAIN}))
    library.write("collapse.txt", tabs(many_rows(LOST)))
    library.write("fewer.txt", tabs(PLAIN))
    library.write("dashes.txt", tabs(of_rows(row("Tides", "2901~0012", ""))))
    library.targets["gone"] = ("went_*.txt", "")
    library.write_targets()


BAD = {
    "as-it-should-be": ("as-it-should-be.txt", "a web page, not a table"),
    "commas": ("commas.txt", "a gzip file that is cut short or damaged"),
    "semicolons": ("semicolons.txt", "a zip file with 2 members: name one by `member PATTERN` in sources.tsv"),
    "collapse": (
        "collapse.txt",
        f"{LOST} of {WHOLE} rows dropped, and 146 may be: no identifier: {LOST}; to "
        f"allow it: dropped up to {LOST}; the first: "
        "Title 0 1995-03-01 https://press.example.com/ats",
    ),
    "fewer": ("fewer.txt", "less than half of the rows: 1, and 4 before; to allow it: less than half of the rows"),
    "dashes": ("dashes.txt", "rows 0"),
    "gone": ("went_*.txt", "no file has such a name"),
}


@needs.program()
class TwoWeeks(Case):
    """A library with each shape of file."""

    def expect_first_week(self, library: Library, status: int, printed: str) -> None:
        self.expect(f"the first week: {printed}", status, 0)
        for case, (_, served, told) in FILES.items():
            if case not in LEFT_OUT:
                self.expect(f"the table {case}", library.table(name_of(case)), without_columns(tabs(served)))
                lines = printed.split(f"\n{name_of(case)}: new, ")[-1].splitlines()[1:]
                self.expect(
                    f"what the mail says of {case}", lines[: len(told) + 1][: len(told)], [f"  {line}" for line in told]
                )
        joined = tabs(f"{COLUMNS}|title_id\n{ROW}|\nTides|9780306406157|||||t1\n")
        self.expect("several files", library.table("several"), without_columns(joined))
        self.expect_lines(
            "several files",
            printed,
            "several: new, 2 rows",
            f"  {library.path('parts/books_2026-10-01.csv')}: commas between cells: 1 row",
        )
        self.expect("the newest file", library.table("newest"), without_columns(tabs(PLAIN)))
        self.expect(
            "the dropped rows",
            library.served("dropped", "rows-without-an-identifier.txt"),
            tabs(
                f"reason|{COLUMNS}\nno identifier|{row('No number', '', '')}\nno ISSN or ISBN|"
                f"{row('Rounded', '9.78123E+12', '-')}\n"
            ),
        )
        self.expect("no list without dropped rows", library.served("dropped", "several.txt"), None)
        self.expect(
            "the files as they came",
            (library.served("received", "several.txt"), library.served("received", "several.txt.2")),
            (tabs(PLAIN), "Print Identifier,publication_title,title_id\n0-306-40615-2,Tides,t1\n"),
        )
        self.expect("the index has the prepared table", "Tides" in "".join(lines_of_index(library, "9780306406157")))

    def test_two_weeks(self) -> None:
        with Library() as library:
            write_first_week(library)
            self.expect_first_week(library, *library.update())
            kept = os.listdir(os.path.join(library.library, "current"))
            self.expect("what only the update needs is gone", [it for it in kept if it == "prepared"], [])
            before = {name: library.table(name) for name in library.targets}
            write_second_week(library)
            status, printed = library.update()
            self.expect(f"the second week: {printed}", status, 1)
            for name, (file, reason) in BAD.items():
                self.expect_lines(
                    name, printed, f"{name}: kept its old rules and table", f"  {library.path(file)}: {reason}"
                )
                self.expect(f"{name}: the old table", library.table(name), before[name])
            self.expect_lines(
                "good files",
                printed,
                "several: 1 row added, 1 gone",
                "newest: 1 row added, 1 gone",
                "gzip: 1 row added, 0 gone",
                "zip: 1 row added, 1 gone",
                "  dates in the standard's form: 1 cell",
            )
            changed = {"several", "newest", "gzip", "zip"}
            self.expect(
                "other tables are the same", {name for name in before if library.table(name) != before[name]}, changed
            )
            self.expect(
                "targets that are named",
                {
                    line.split(":")[0]
                    for line in printed.splitlines()[:-1]
                    if not line.startswith(" ") and "probes.tsv" not in line
                },
                changed | {*BAD},
            )
            status, printed = library.update()
            self.expect(
                "again",
                (status, [line for line in printed.splitlines() if line.startswith("nothing new: ")] != []),
                (1, True),
            )

    def test_allowed_collapse(self) -> None:
        """The number of rows that may be dropped is the operator's to say."""
        with Library() as library:
            library.targets["collapse"] = ("collapse.txt", f"dropped up to {LOST}; less than half of the rows")
            library.write("collapse.txt", tabs(many_rows(LOST)))
            library.write_targets()
            status, printed = library.update()
            self.expect_lines(
                "rows that may be dropped", printed, f"collapse: new, {WHOLE - LOST} rows", f"  dropped: {LOST} rows"
            )
            self.expect(
                "the rows that are served", (status, library.table("collapse").count("\n")), (0, WHOLE - LOST + 1)
            )
            self.expect("the rows that are listed", library.served("dropped", "collapse.txt").count("\n"), LOST + 1)
            self.expect("nothing new", library.update()[1].splitlines()[-1].startswith("nothing new: "))
            library.targets["collapse"] = (" ; ", "")
            library.write_targets()
            self.expect("no table", library.update()[0], 3)
