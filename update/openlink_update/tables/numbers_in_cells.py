"""Identifiers as cells of the two columns have them besides a number alone: after a word such as `ISSN:`, two in one
cell, and without the zeros that a spreadsheet has taken away."""
import re

from openlink_update.received.column_names import IDENTIFIERS
from openlink_update.shown_text import Count, lines_of_counts
from openlink_update.tables.identifiers import form_of

_Rows = list[list[str]]
_WORD = re.compile(
    r"(?:urn:)?(?:print|online|electronic|linking|[pel])?[ -]?(?:ISSN|ISBN)(?:-?L|-?1[03])?\b *(?:[(\[][a-z ]*[)\]])? *"
    r"[:.=]? *",
    re.A | re.I,
)
_NUMBER = re.compile(r"([0-9][0-9 -]*[0-9Xx])(?: *[(\[][^()\[\]]*[)\]]| +[A-Za-z]+\.?)?", re.A)
_BEFORE = re.compile(r"(?:print|online|electronic) *:? *", re.A | re.I)
_BETWEEN = re.compile(r" *(?:[;,/|&+]| und | and | et | y | or ) *| +(?=(?:[pel]-?)?IS[SB]N)|(?<=[)\]]) +", re.A | re.I)
_OF_PRINT = re.compile(r"\bp(?:-?ISSN|rint)\b|paper|hard|cloth|\b[ph]bk\b|druck|imprim|impres", re.A | re.I)
_OF_ONLINE = re.compile(r"\be-?ISSN\b|online|electr|elektr|e-?book|\bweb\b|digital|en l", re.A | re.I)
_LEAST_OF_TWO = 17  # characters
_MOST_OF_TWO = 200
_LEAST_DIGITS, _ISSN, _ISBN = 5, 8, 10


def without_words(cell: str) -> str:
    """The number of a cell without words beside it that say what it is; the cell itself if it has no number."""
    return _alone(cell) or cell


def _alone(part: str) -> str:
    """The number in a part of a cell, without words before and after it; '' if there is none."""
    match = _WORD.match(part)
    text = part[match.end() :] if match else part
    found = _NUMBER.fullmatch(_BEFORE.sub("", text, count=1))
    return found[1] if found and form_of(found[1]) else ""


def _numbers_in(cell: str) -> list[tuple[str, int | None]]:
    """The numbers of a cell that has several and nothing else, each with the column that its words name."""
    for parts in (_BETWEEN.split(cell), cell.split()):
        parts = [part for part in parts if part.strip()]
        numbers = [_alone(part.strip()) for part in parts]
        if len(parts) > 1 and all(numbers):
            return [(number, _kind(part)) for number, part in zip(numbers, parts)]
    return []


def _kind(part: str) -> int | None:
    """The column of a number by the words beside it."""
    is_print, is_online = _OF_PRINT.search(part) is not None, _OF_ONLINE.search(part) is not None
    return None if is_print == is_online else int(is_online)


def apart(header: list[str], rows: _Rows) -> list[str]:
    """Gives each of two numbers in one cell a cell of its own: that which its words name, or else the first stays, and
    the second goes to the other column, if that is empty. Returns what is said of it."""
    found = moved = left = 0
    for column, name in enumerate(IDENTIFIERS):
        place = header.index(name) if name in header else len(header)
        for row in [row for row in rows if len(row) > place and len(row[place]) >= _LEAST_OF_TWO]:
            is_long = len(row[place]) > _MOST_OF_TWO or form_of(row[place]) != ""
            numbers = [] if is_long else _numbers_in(row[place])
            if numbers:
                found += 1
                was_moved, count = _place(row, (place, _other(header, rows, 1 - column)), numbers, column)
                moved, left = moved + was_moved, left + count
    return lines_of_counts(
        Count("several numbers in a cell of identifiers", found, "cell"),
        Count("second numbers put in the other column", moved, "cell"),
        Count("numbers for which there was no cell, left out", left, "number"),
    )


def _other(header: list[str], rows: _Rows, column: int) -> int:
    """The place of a column of identifiers, which is added if the table has none."""
    name = IDENTIFIERS[column]
    if name not in header:
        width = len(header)
        header.append(name)
        for row in rows:
            if len(row) > width:
                row.insert(width, "")
    return header.index(name)


def _place(
    row: list[str], places: tuple[int, int], numbers: list[tuple[str, int | None]], column: int
) -> tuple[bool, int]:
    """Puts the numbers of a cell into a row. Returns whether one went to the other column, and how many were left."""
    own, other = places
    row += [""] * (max(places) + 1 - len(row))
    old = form_of(row[other])
    mine = [number for number, kind in numbers if kind != 1 - column and form_of(number) != old]
    theirs = [number for number, kind in numbers if kind == 1 - column]
    if not mine:
        mine, theirs = theirs[:1] if row[other] else [""], theirs
    if not theirs and not row[other]:
        theirs = mine[1:]
    row[own] = mine[0]
    is_free = not row[other] and bool(theirs)
    if is_free:
        row[other] = theirs[0]
    kept = {form_of(row[own]), form_of(row[other])}
    return is_free, sum(form_of(number) not in kept for number, _ in numbers)


def with_zeros(header: list[str], rows: _Rows) -> list[str]:
    """Gives numbers the zeros back that a spreadsheet has taken away, where the check digit fits then; none in a column
    in which most of them do not fit, since it has other numbers. Returns what is said of it."""
    count = 0
    for place in [header.index(name) for name in IDENTIFIERS if name in header]:
        short = [row for row in rows if len(row) > place and row[place].isdecimal() and _is_short(row[place])]
        fitting = [(row, whole) for row, whole in ((row, _whole(row[place])) for row in short) if whole]
        if len(fitting) * 2 >= len(short):
            for row, whole in fitting:
                row[place] = whole
            count += len(fitting)
    return lines_of_counts(Count("zeros that identifiers had lost at their beginning", count, "cell"))


def _is_short(cell: str) -> bool:
    return _LEAST_DIGITS <= len(cell) < _ISBN and len(cell) != _ISSN and cell.isascii()


def _whole(digits: str) -> str:
    """An ISSN or ISBN of ten digits with its zeros; '' if its check digit does not fit."""
    text = digits.zfill(_ISSN if len(digits) < _ISSN else _ISBN)
    total = sum(int(digit) * (len(text) - place) for place, digit in enumerate(text))
    if total % 11:
        return ""
    return f"{text[:4]}-{text[4:]}" if len(text) == _ISSN else text
