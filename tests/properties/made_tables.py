"""Tables as providers send them: rows with numbers, dates and titles in many forms, with tabs, commas or semicolons, in
several encodings. Each is a file, and what is in it."""
from __future__ import annotations

import csv
import dataclasses
import io
from typing import Any

from properties.property_case import strategies as st

COLUMNS = ("publication_title", "print_identifier", "online_identifier", "date_first_issue_online")
COLUMNS += ("date_last_issue_online", "title_url", "embargo_info", "notes")
_SPELLINGS = ("{}", " {} ", '"{}"', "{}", "{}")
_ISSNS = [f"{2900 + number}-001{number}" for number in range(10)]
_ISBNS = [f"978012345{number:03}{number % 10}" for number in range(10)]
_AROUND = ("{}",) * 6 + (" {}", "{} ", '"{}"', '="{}"', "{} (online)", "{} [print]", "{} online", '"""{}"""', "\xa0{}")
_DASHES = ("-", "-", "-", "", "\u2010", "\u2013", "\u2212")
_JUNK = ("", "", "-", "n/a", "12", "1234567", "2901-001", "29010-0012", "ANYWHERE", "(online)", '"', "'")
_DATES = ("", "1995", "1995-03", "1995-03-01", "15/12/2004", "1.3.1995", "Dec 2004", "2009-02-29", "12 T10:00", "9999")
_DATES += ("present", "Current", "1995-1998", "19992004", "20050301", "2005-03-01T00:00:00", "Spring 2005", "c1995")
_DATES += ("1995-1998 00:00", '"1995"', '"""1995"""', " 2001 ", "12/31/2004 12:00:00 AM", "-", "T10:00", " T1:00")
_LETTERS = "abc XYZ 0123456789 -–'\"=,;.:/()[]&<>é\u0301ß漢\xa0\u2003\t\n#%+"


@dataclasses.dataclass(frozen=True)
class Row:
    mark: str  # a text that no other row has
    cells: tuple[str, ...]
    numbers: tuple[str, ...]  # those in its cells of identifiers, as the table that is served has them


@dataclasses.dataclass(frozen=True)
class File:
    data: bytes
    rows: list[Row]
    written: list[Row]  # in the file, the first perhaps once more at its end


def _numbers() -> Any:
    """A cell of an identifier, and the number in it, or ''."""

    def written(number: str, around: str, dash: str, has_ten: bool) -> tuple[str, str]:
        if "-" in number:
            return around.format(number.replace("-", dash)), number if dash else number.replace("-", "")
        return around.format(number), number

    good = st.builds(
        written, st.sampled_from(_ISSNS + _ISBNS), st.sampled_from(_AROUND), st.sampled_from(_DASHES), st.booleans()
    )
    return st.one_of(good, good, st.sampled_from(_JUNK).map(lambda text: (text, "")))


def _texts() -> Any:
    return st.one_of(st.just(""), st.text(_LETTERS, max_size=8), st.text(max_size=3).map(_plain))


def _plain(text: str) -> str:
    """Without what no file of text has."""
    return text.encode("utf-8", "ignore").decode("utf-8").replace("\0", "").replace("\ufeff", "")


def _dates() -> Any:
    return st.one_of(st.sampled_from(_DATES), st.text('0123456789-/. TZ:"', max_size=12))


def _rows() -> Any:
    def row(title: str, one: Any, two: Any, first: str, last: str, notes: str, width: int) -> Any:
        cells = (title, one[0], two[0], first, last, "https://x.example.org/", "", notes, "more", "", "than")
        return cells[:width], tuple(number for _, number in (one, two) if number)

    widths = st.one_of(st.just(len(COLUMNS)), st.integers(3, 11))
    return st.builds(row, _texts(), _numbers(), _numbers(), _dates(), _dates(), _texts(), widths)


def _written(header: list[str], rows: list[tuple[str, ...]], separator: str, end: str) -> str:
    """The text of a table; cells with tabs have none of them. A CR is in quotes if lines end with one, or none."""
    if separator == "\t":
        lines = [
            "\t".join(" ".join(cell.split("\t")).replace("\n", " ").replace("\r", " ") for cell in row)
            for row in [tuple(header), *rows]
        ]
        return end.join([*lines, ""])
    out = io.StringIO()
    cells = [[cell if "\r" in end else cell.replace("\r", " ") for cell in row] for row in [tuple(header), *rows]]
    csv.writer(out, delimiter=separator, lineterminator=end).writerows(cells)
    return out.getvalue()


def files() -> Any:
    """Files with a header. The title of each row ends with its mark."""

    def file(made: Any, repeated: bool, spelling: str, separator: str, end: str, encoding: str, above: int) -> File:
        rows = []
        for number, (cells, numbers) in enumerate(made):
            mark = f"row{number}."
            rows.append(Row(mark, (f"{cells[0]}x{mark}", *cells[1:]), numbers))
        written = [*rows, *rows[:1] * repeated]
        lines = [row.cells for row in written]
        text = "a line above\n" * above + _written([spelling.format(it) for it in COLUMNS], lines, separator, end)
        return File(text.encode(encoding, "ignore"), rows, written)

    return st.builds(
        file,
        st.lists(_rows(), max_size=4),
        st.booleans(),
        st.sampled_from(_SPELLINGS),
        st.sampled_from("\t\t,;"),
        st.sampled_from(("\n", "\r\n")),
        st.sampled_from(("utf-8", "utf-8", "utf-8-sig", "utf-16", "cp1252")),
        st.integers(0, 2),
    )
