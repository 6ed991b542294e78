"""Cells of a table in the form that the program reads. Each function is a step: it takes the header and the rows, whose
cells it may change, and returns the rows that are left with lines that say what it did, and to how many cells or
rows."""
import re
from collections.abc import Callable

from openlink_update.received.column_names import DATES, IDENTIFIERS
from openlink_update.shown_text import Count, lines_of_counts
from openlink_update.tables import embargo_words, numbers_in_cells
from openlink_update.tables.cell_dates import standard as standard_date
from openlink_update.tables.embargo import Embargo
from openlink_update.tables.identifiers import form_of, standard as standard_number

_Rows = list[list[str]]
_Step = Callable[[list[str], _Rows], tuple[_Rows, list[str]]]

_LAST, _EMBARGO, _ADDRESS = "date_last_issue_online", "embargo_info", "title_url"
_W = ("w", "W")
_QUOTED = re.compile(r'=?"((?:[^"]|"")*)"')
_DASHES = re.compile("[\xad\u2010-\u2015\u2043\u2212\ufe58\ufe63\uff0d]")
_NUMBER_AND_WORDS = re.compile(r"([0-9][0-9Xx -]{6,16}?)(?:\s*[(\[][^()\[\]]*[)\]]|\s+[A-Za-z]+\.?)", re.A)
_OPEN_END = re.compile(r"present|current|9999(?:-\d\d(?:-\d\d)?)?", re.A | re.I)
_LEAST = 10  # characters of an identifier with words, or of an ISBN
ANY = "ANY"  # the identifier of a target that answers every request


def _change_cells(header: list[str], rows: _Rows, names: tuple[str, ...], change: Callable[[str], str]) -> int:
    """Changes the filled cells of some columns, and returns how many have changed; of two columns with one name the
    first counts."""
    count = 0
    for place in [header.index(name) for name in names if name in header]:
        for row in rows:
            if len(row) > place and row[place]:
                new = change(row[place])
                count += new != row[place]
                row[place] = new  # equal or not: `change` may return the same text for many cells
    return count


def _without_quotes(header: list[str], rows: _Rows) -> tuple[_Rows, list[str]]:
    """Without the quotes that a spreadsheet puts around a whole cell, however often it was saved."""
    count = 0
    for row in rows:
        if '"' not in "".join(row):
            continue
        for place, cell in enumerate(row):
            while '"' in cell and (match := _QUOTED.fullmatch(cell.strip())):
                cell = match[1].replace('""', '"')
            count += cell != row[place]
            row[place] = cell
    return rows, lines_of_counts(Count("quotes around a cell removed", count, "cell"))


def _without_spaces(header: list[str], rows: _Rows) -> tuple[_Rows, list[str]]:
    """Without spaces at both ends of a cell, and without rows that have no text."""
    count, left = 0, []
    for row in rows:
        cells = list(map(str.strip, row))
        if cells != row:
            count += sum(cell != old for cell, old in zip(cells, row))
            row[:] = cells
        if any(row):
            left.append(row)
    return left, lines_of_counts(
        Count("spaces at the ends removed", count, "cell"), Count("empty, left out", len(rows) - len(left), "row")
    )


def _with_identifiers(header: list[str], rows: _Rows) -> tuple[_Rows, list[str]]:
    """With identifiers as the standard has them: hyphens in place of other dashes, no words after a number, such as
    (online), or before it, such as ISSN:, one number in a cell, and ISBNs of thirteen digits in place of ten."""
    dashes = after = before = isbns = 0
    zeros, several = numbers_in_cells.with_zeros(header, rows), numbers_in_cells.apart(header, rows)

    def identifier(cell: str) -> str:
        nonlocal dashes, after, before, isbns
        if not cell.isascii():
            old, cell = cell, _DASHES.sub("-", cell)
            dashes += cell != old
        if len(cell) >= _LEAST:
            old, cell = cell, _number_alone(cell)
            after += cell != old
            old, cell = cell, numbers_in_cells.without_words(cell)
            before += cell != old
            old, cell = cell, _long_isbn(cell)
            isbns += cell != old
        return cell

    _change_cells(header, rows, IDENTIFIERS, identifier)
    return rows, zeros + several + lines_of_counts(
        Count("dashes in identifiers replaced by hyphens", dashes, "cell"),
        Count("words after an identifier removed", after, "cell"),
        Count("words before an identifier removed", before, "cell"),
        Count("ISBNs of ten digits written with thirteen", isbns, "cell"),
    )


def _number_alone(cell: str) -> str:
    match = None if cell[-1].isdigit() else _NUMBER_AND_WORDS.fullmatch(cell)
    return match[1] if match and form_of(match[1]) else cell


def _long_isbn(cell: str) -> str:
    form = form_of(cell)
    return standard_number(form) if len(form) == 10 else cell


def _with_dates(header: list[str], rows: _Rows) -> tuple[_Rows, list[str]]:
    """With dates in the standard's form, and no last date where it means today."""
    known = {"": ""}
    changed = are_years = 0
    for place in [header.index(name) for name in DATES if name in header]:
        for row in rows:
            if len(row) > place:
                cell = row[place]
                new = known.get(cell)
                if new is None:
                    new = known[cell] = standard_date(cell)
                if new != cell:
                    changed += 1
                    are_years += len(new) == 4
                row[place] = new  # equal or not: one text takes the place of many cells
    opened = _change_cells(header, rows, (_LAST,), lambda cell: "" if _OPEN_END.fullmatch(cell) else cell)
    return rows, lines_of_counts(
        Count("dates in the standard's form", changed - are_years, "cell"),
        Count("dates cut to their year", are_years, "cell"),
        Count("last dates that mean today removed", opened, "cell"),
    )


def _with_embargoes(header: list[str], rows: _Rows) -> tuple[_Rows, list[str]]:
    """With embargoes in words as the standard writes them, where they have one reading."""
    place = header.index(_EMBARGO) if _EMBARGO in header else len(header)
    cells = {row[place] for row in rows if len(row) > place}  # the same ones come again
    words = {cell: embargo_words.standard(cell) for cell in cells if cell and Embargo.parse(cell) is None}
    changes = {cell: new for cell, new in words.items() if new != cell}
    changed = [row for row in rows if len(row) > place and row[place] in changes] if changes else []
    for row in changed:
        row[place] = changes[row[place]]
    return rows, lines_of_counts(Count("embargoes in words written as KBART does", len(changed), "cell"))


def _with_addresses(header: list[str], rows: _Rows) -> tuple[_Rows, list[str]]:
    """With whole addresses in place of those that begin with www."""
    place = header.index(_ADDRESS) if _ADDRESS in header else len(header)
    short = [row for row in rows if len(row) > place and row[place][:1] in _W and row[place][:4].lower() == "www."]
    for row in short:
        row[place] = f"https://{row[place]}"
    return rows, lines_of_counts(Count("addresses made https", len(short), "cell"))


def _without_repetitions(header: list[str], rows: _Rows) -> tuple[_Rows, list[str]]:
    """Without rows of which an earlier one has the same cells."""
    first: dict[int, list[str]] = {}  # rows by the hash of their cells, which take less memory than the cells
    others: set[tuple[str, ...]] = set()  # rows with the hash of another one
    left = []
    for row in rows:
        same = first.setdefault(hash("\t".join(row)), row)
        if same is row:
            left.append(row)
        elif same != row and tuple(row) not in others:
            others.add(tuple(row))
            left.append(row)
    return left, lines_of_counts(Count("the same as an earlier row, left out", len(rows) - len(left), "row"))


STEPS: tuple[_Step, ...] = (
    _without_quotes,
    _without_spaces,
    _with_identifiers,
    _with_dates,
    _with_embargoes,
    _with_addresses,
    _without_repetitions,
)
