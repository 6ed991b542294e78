"""Files of every shape as they come, the tables that are served of them, and what is said, all written by hand. Here |
stands for a tab, and a table of two lines has the header COLUMNS."""
from __future__ import annotations

import gzip
import io
import zipfile

COLUMNS = (
    "publication_title|print_identifier|online_identifier|date_first_issue_online|date_last_issue_online|" "title_url"
)
ROW = "Annals of Tidal Studies|2901-0012|2908-0142|1995-03-01||https://press.example.com/ats"
PLAIN = f"{COLUMNS}\n{ROW}\n"
COMMAS = PLAIN.replace("|", ",")


def tabs(text: str) -> str:
    return text.replace("|", "\t")


def row(
    title: str = "Annals of Tidal Studies",
    print_id: str = "2901-0012",
    online_id: str = "2908-0142",
    first: str = "1995-03-01",
    last: str = "",
) -> str:
    return f"{title}|{print_id}|{online_id}|{first}|{last}|https://press.example.com/ats"


def of_rows(*rows: str) -> str:
    return "\n".join([COLUMNS, *rows]) + "\n"


def zipped(members: dict[str, str]) -> bytes:
    data = io.BytesIO()
    with zipfile.ZipFile(data, "w", zipfile.ZIP_DEFLATED) as archive:
        for name, text in members.items():
            member = zipfile.ZipInfo("x")
            member.filename = name  # which may be empty
            archive.writestr(member, tabs(text), zipfile.ZIP_DEFLATED)
    return data.getvalue()


# The name of a case: what came (a text, or bytes), the table that is served, and what is said of it.
FILES: dict[str, tuple[str | bytes, str, list[str]]] = {
    "as it should be": (PLAIN, PLAIN, []),
    "lines that end with CR LF": (PLAIN.replace("\n", "\r\n"), PLAIN, []),
    "lines that end with CR": (PLAIN.replace("\n", "\r"), PLAIN, []),
    "no end of the last line": (PLAIN[:-1], PLAIN, []),
    "blank lines": (PLAIN.replace("\n", "\n\n"), PLAIN, []),
    "a byte order mark": ("\ufeff" + PLAIN, PLAIN, []),
    "gzip": (gzip.compress(tabs(PLAIN).encode()), PLAIN, []),
    "zip": (zipped({"table": PLAIN}), PLAIN, []),
    "zip with a folder and what macOS adds": (zipped({"a/": "", "a/b": PLAIN, "__MACOSX/b": "x"}), PLAIN, []),
    "UTF-16, the low byte first": (b"\xff\xfe" + tabs(PLAIN).encode("utf-16-le"), PLAIN, ["UTF-16: 2 lines"]),
    "UTF-16, the high byte first": (b"\xfe\xff" + tabs(PLAIN).encode("utf-16-be"), PLAIN, ["UTF-16: 2 lines"]),
    "windows-1252": (
        tabs(of_rows(row("Études – L’eau"), row("Tides"))).encode("cp1252"),
        of_rows(row("Études – L’eau"), row("Tides")),
        ["not UTF-8, read as windows-1252: 1 line"],
    ),
    "windows-1252 with lines that end with CR": (
        tabs(of_rows(row("Études"), row("Café"))).replace("\n", "\r").encode("cp1252"),
        of_rows(row("Études"), row("Café")),
        ["not UTF-8, read as windows-1252: 2 lines"],
    ),
    "UTF-8 with a line of windows-1252": (
        tabs(of_rows(row("Études"))).encode() + tabs(row("Caf\xe9")).encode("cp1252"),
        of_rows(row("Études"), row("Café")),
        ["not UTF-8, read as windows-1252: 1 line"],
    ),
    "commas": (COMMAS, PLAIN, ["commas between cells: 1 row"]),
    "semicolons": (PLAIN.replace("|", ";"), PLAIN, ["semicolons between cells: 1 row"]),
    "commas with quotes": (
        COLUMNS.replace("|", ",")
        + '\n"Tides, Currents and ""Storms""",2901-0012,,"1995",,\n"Two\nlines",,2908-0142,,,\n',
        of_rows('Tides, Currents and "Storms"|2901-0012||1995||', "Two lines||2908-0142|||"),
        ["commas between cells: 2 rows"],
    ),
    "commas, and a tab in a cell": (COMMAS.replace("Annals of", "Annals\tof"), PLAIN, ["commas between cells: 1 row"]),
    "UTF-16 with commas below a line": (
        ("\ufeffTitles of November\n" + COMMAS).encode("utf-16-le"),
        PLAIN,
        ["UTF-16: 3 lines", "commas between cells: 1 row", "above the header, left out: 1 line"],
    ),
    "lines above the header": ("Tidal Press\n\nTitles|3\n" + PLAIN, PLAIN, ["above the header, left out: 2 lines"]),
    "nineteen lines above it": ("x\n" * 19 + PLAIN, PLAIN, ["above the header, left out: 19 lines"]),
    "names in another spelling": (
        ' Publication Title |"PRINT_IDENTIFIER"|Online identifier|Date-first-issue online|'
        f'date_last_issue_online|"title_url"\n{ROW}\n',
        PLAIN,
        ["names of columns as the standard spells them: 5 cells"],
    ),
    "a name in two spellings": (
        f"Title URL|{COLUMNS}|Shelf\nx|{ROW}|A 7\n",
        f"Title URL|{COLUMNS}|Shelf\nx|{ROW}|A 7\n",
        [],
    ),
    "quotes around cells": (
        of_rows(row('"Annals of ""Tidal"" Studies"', '"2901-0012"', '="2908-0142"'), row('"Race" and "Class"')),
        of_rows(row('Annals of "Tidal" Studies'), row('"Race" and "Class"')),
        ["quotes around a cell removed: 3 cells"],
    ),
    "quotes within quotes around cells": (
        of_rows(row('"""Annals of Tidal Studies"""', '"=""2901-0012"""', '" ""2908-0142"" "')),
        PLAIN,
        ["quotes around a cell removed: 3 cells"],
    ),
    "spaces at the ends": (
        of_rows(row("  Annals of Tidal Studies\xa0", " 2901-0012"), row('" Tides "'), "| ||  ||"),
        of_rows(row(), row("Tides")),
        ["quotes around a cell removed: 1 cell", "spaces at the ends removed: 5 cells", "empty, left out: 1 row"],
    ),
    "dashes": (
        of_rows(row("Tides – Studies", "2901–0012", "2908\u20110142")),
        of_rows(row("Tides – Studies")),
        ["dashes in identifiers replaced by hyphens: 2 cells"],
    ),
    "words after a number": (
        of_rows(
            row(print_id="2901-0012 (Print)", online_id="2908-0142(online)"),
            row(print_id="978-1-234-56087-4 [pbk.]", online_id="2901-001x online"),
            row(online_id="12 (online)"),
        ),
        of_rows(row(), row(print_id="978-1-234-56087-4", online_id="2901-001x"), row(online_id="12 (online)")),
        ["words after an identifier removed: 4 cells"],
    ),
    # The last digits by hand: of 978-0-306-40615-? 100 - 93 = 7; of 978-0-8044-2957-? 100 - 97 = 3.
    "ISBNs of ten digits": (
        of_rows(row(print_id="0-306-40615-2", online_id="080442957X"), row(print_id="9780306406157")),
        of_rows(row(print_id="9780306406157", online_id="9780804429573"), row(print_id="9780306406157")),
        ["ISBNs of ten digits written with thirteen: 2 cells"],
    ),
    "last dates that mean today": (
        of_rows(
            *(row(last, last=last) for last in ("present", "Current", "9999", "9999-12-31", "31/12/9999", "2001-05"))
        ),
        of_rows(
            *(
                row(title, last=last)
                for title, last in (
                    ("present", ""),
                    ("Current", ""),
                    ("9999", ""),
                    ("9999-12-31", ""),
                    ("31/12/9999", ""),
                    ("2001-05", "2001-05"),
                )
            )
        ),
        ["dates in the standard's form: 1 cell", "last dates that mean today removed: 5 cells"],
    ),
    "a first date is not today": (of_rows(row(first="present")), of_rows(row(first="present")), []),
    "rows without an identifier": (
        of_rows(row(), row("No number", "", ""), row("Rounded", "9.78123E+12", "-"), row("One of two", "soon")),
        of_rows(row(), row("One of two", "soon")),
        ["dropped: 2 rows"],
    ),
    "rows that occur again": (
        of_rows(row(), row("Tides"), row(), row("Tides", first="1/3/1995"), row('"Tides"'), row(last="1999")),
        of_rows(row(), row("Tides"), row("Tides", first="1995"), row(last="1999")),
        [
            "quotes around a cell removed: 1 cell",
            "dates cut to their year: 1 cell",
            "the same as an earlier row, left out: 2 rows",
        ],
    ),
    "a first date after the last": (
        of_rows(
            row(last="1994"),
            row("Tides", last="1995-03"),
            row("Piers", last="1995-02-28"),
            row("Quays", last="1995-03-01"),
            row("Locks", first="1995-03-15", last="1995-03"),
            row("Weirs", first="1995", last="1995-06-30"),
            row("Moles", first="1995-03", last="1995-03-01"),
        ),
        of_rows(
            row(last="1994"),
            row("Tides", last="1995-03"),
            row("Piers", last="1995-02-28"),
            row("Quays", last="1995-03-01"),
            row("Locks", first="1995-03-15", last="1995-03"),
            row("Weirs", first="1995", last="1995-06-30"),
            row("Moles", first="1995-03", last="1995-03-01"),
        ),
        ["first dates after the last ones: 2 rows, the first with 1995-03-01 and 1994"],
    ),
    "a target that answers every request": ("print_identifier\nANY\n", "print_identifier\nANY\n", []),
    "one in small letters": ("print_identifier\nany\n", "print_identifier\nany\n", []),
    "a table without identifiers' columns": (
        "publication_title|title_url|notes\nA|b|c\n",
        "publication_title|title_url|notes\nA|b|c\n",
        ['no column has an ISSN or ISBN or a date; the file has: "publication_title", "title_url", "notes"'],
    ),
    "a table of own columns": (
        "print_identifier|shelf\n2901-0012| A 7\n",
        "print_identifier|shelf\n2901-0012|A 7\n",
        [
            "spaces at the ends removed: 1 cell",
            'no column has a title or a date; the file has: "print_identifier", "shelf"',
        ],
    ),
    "two names below a line": (
        "Report\npublication_title|print_identifier\nA|2901-0012\n",
        "Report\npublication_title|print_identifier\nA|2901-0012\n",
        [
            "no column has a title or an ISSN or ISBN or a date; the file has: "
            '"publication_title", "print_identifier"'
        ],
    ),
    "cells after the last column": (f"{PLAIN[:-1]}|more\n", f"{PLAIN[:-1]}|more\n", []),
    "short rows": (f"{COLUMNS}\nTides|2901-0012\n", f"{COLUMNS}\nTides|2901-0012\n", []),
}


def bytes_of(text: str | bytes) -> bytes:
    return text if isinstance(text, bytes) else tabs(text).encode()
