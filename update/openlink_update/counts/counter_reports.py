"""Reads COUNTER reports of titles (TR, and its views TR_B1 to TR_J4) of Release 5 and 5.1 as providers give them: lines
with tabs, commas or semicolons between the cells, a head of named cells, and a table with a column for each month. The
requests of a title are those of all its rows, whatever their year of publication, access and platform. Every byte is a
provider's: a report that has another form, or is too large, is refused with the line that says where."""
import csv
import dataclasses
import io
import re
from collections import Counter
from collections.abc import Iterator, Sequence

from openlink_update import shown_text
from openlink_update.outcome import Unreadable
from openlink_update.tables import identifiers

MOST_BYTES = 2**26  # of a report
START = 200  # bytes in which it begins
_MOST_ROWS = 500_000
_MOST_TITLES = 100_000
_MOST_CELLS = 1_000_000  # of titles and months that have requests
_MOST_COLUMNS = 200
_MOST_HEAD = 50  # lines before the table
_MOST_TITLE = 500  # characters
_MOST_SHOWN = 60  # characters of a cell in a line
_BEGINNING = re.compile(rb"\s*\"?Report_Name\"?\s*[,;\t]")
_BOMS = {b"\xef\xbb\xbf": "utf-8", b"\xff\xfe": "utf-16-le", b"\xfe\xff": "utf-16-be"}
_NAME = re.compile(r"TR(_[BJ][1-4])?", re.A)
_RELEASE = re.compile(r"5(\.\d)?", re.A)
_MONTH = re.compile(r"([A-Z][a-z]{2})-(\d{4})|(\d{4})-(0[1-9]|1[0-2])", re.A)
_MONTHS = ("Jan", "Feb", "Mar", "Apr", "May", "Jun", "Jul", "Aug", "Sep", "Oct", "Nov", "Dec")
_NUMBER = re.compile(r"\d{1,12}", re.A)
_NUMBERS = ("Online_ISSN", "Print_ISSN", "ISBN")
_METRIC, _TITLE = "Metric_Type", "Title"
UNIQUE, TOTAL = "Unique_Item_Requests", "Total_Item_Requests"


@dataclasses.dataclass
class Title:
    """A title of a report, with its numbers and its requests by month and metric."""

    title: str
    numbers: tuple[str, ...]
    requests: Counter[tuple[str, str]] = dataclasses.field(default_factory=Counter)


@dataclasses.dataclass(frozen=True)
class _Columns:
    places: dict[str, int]
    months: tuple[tuple[int, str], ...]  # the place of a column, and its month


def is_report(data: bytes) -> bool:
    """Whether a file begins as a report does."""
    return _BEGINNING.match(_text_of(data[:START], errors="replace").encode()) is not None


def titles_in(data: bytes) -> list[Title]:
    """The titles of a report, each once. Unreadable says what is wrong, and in which line."""
    if len(data) > MOST_BYTES:
        raise Unreadable(f"more than {MOST_BYTES:,} bytes")
    try:
        text = _text_of(data)
    except UnicodeDecodeError as fault:
        raise Unreadable("neither UTF-8 nor UTF-16") from fault
    if "\0" in text:
        raise Unreadable("it has bytes of zero")
    rows = _rows_of(text)
    columns = _columns_of(rows)
    titles: dict[tuple[str, ...], Title] = {}
    cells = 0
    for count, (line, row) in enumerate(rows):
        if count == _MOST_ROWS:
            raise Unreadable(f"line {line}: more than {_MOST_ROWS:,} rows")
        if any(row):
            cells += _add_row(titles, columns, line, row)
        if len(titles) > _MOST_TITLES or cells > _MOST_CELLS:
            raise Unreadable(f"line {line}: more titles and months than are read")
    return list(titles.values())


def _text_of(data: bytes, errors: str = "strict") -> str:
    for mark, encoding in _BOMS.items():
        if data.startswith(mark):
            return data.removeprefix(mark).decode(encoding, errors)
    return data.decode("utf-8", errors)


def _rows_of(text: str) -> Iterator[tuple[int, list[str]]]:
    """The cells of each row, and the number of the line in which it ends."""
    head = text[:1000].split("\n", 1)[0]
    separator = max("\t,;", key=head.count)
    reader = csv.reader(io.StringIO(text, newline=""), delimiter=separator, strict=True)
    try:
        for row in reader:
            if len(row) > _MOST_COLUMNS:
                raise Unreadable(f"line {reader.line_num}: more than {_MOST_COLUMNS} cells")
            yield reader.line_num, [cell.strip() for cell in row]
    except csv.Error as fault:
        raise Unreadable(f"line {reader.line_num}: {fault}") from fault


def _columns_of(rows: Iterator[tuple[int, list[str]]]) -> _Columns:
    """Reads the head, and the line with the names of the columns."""
    head: dict[str, str] = {}
    for line, row in rows:
        if line > _MOST_HEAD:
            break
        if _METRIC in row and _TITLE in row:
            _check_head(head)
            return _columns_in(line, row)
        if len(row) > 1:
            head[row[0]] = row[1]
    _check_head(head)
    raise Unreadable(f"no line with the columns {_TITLE} and {_METRIC} within the first {_MOST_HEAD}")


def _check_head(head: dict[str, str]) -> None:
    if "Report_ID" not in head or "Release" not in head:
        raise Unreadable("line 1: no COUNTER report: Report_ID or Release is missing")
    for name, form, what in ("Report_ID", _NAME, "a report of titles (TR)"), ("Release", _RELEASE, "Release 5"):
        if not form.fullmatch(head[name]):
            raise Unreadable(f"{name}: not {what}: {shown_text.line_of(head[name], _MOST_SHOWN)}")


def _columns_in(line: int, row: list[str]) -> _Columns:
    places = {name: place for place, name in enumerate(row)}
    months = tuple((place, month) for place, month in enumerate(map(_month_of, row)) if month)
    if not months:
        raise Unreadable(f"line {line}: no column of a month, such as Jan-2026")
    if len({month for _, month in months}) < len(months):
        raise Unreadable(f"line {line}: two columns of one month")
    if not places.keys() & {*_NUMBERS}:
        raise Unreadable(f"line {line}: none of the columns {', '.join(_NUMBERS)}")
    return _Columns(places, months)


def _month_of(name: str) -> str:
    found = _MONTH.fullmatch(name)
    if not found:
        return ""
    if found[3]:
        return name
    return f"{found[2]}-{_MONTHS.index(found[1]) + 1:02}" if found[1] in _MONTHS else ""


def _add_row(titles: dict[tuple[str, ...], Title], columns: _Columns, line: int, row: Sequence[str]) -> int:
    """Adds the requests of a row to those of its title; returns how many months are new."""
    metric = _cell(row, columns.places, _METRIC)
    if not metric:
        raise Unreadable(f"line {line}: no {_METRIC}")
    if metric not in (UNIQUE, TOTAL):
        return 0
    numbers = tuple(filter(None, (_number_in(_cell(row, columns.places, name)) for name in _NUMBERS)))
    title = _cell(row, columns.places, _TITLE)[:_MOST_TITLE]
    requests = titles.setdefault(numbers or (title,), Title(title, numbers)).requests
    before = len(requests)
    for place, month in columns.months:
        cell = row[place] if place < len(row) else ""
        if cell and not _NUMBER.fullmatch(cell):
            raise Unreadable(f"line {line}: not a number in {month}: {shown_text.line_of(cell, _MOST_SHOWN)}")
        if cell and int(cell):
            requests[month, metric] += int(cell)
    return len(requests) - before


def _cell(row: Sequence[str], places: dict[str, int], name: str) -> str:
    place = places.get(name, len(row))
    return row[place] if place < len(row) else ""


def _number_in(cell: str) -> str:
    return identifiers.standard(identifiers.form_of(cell))
