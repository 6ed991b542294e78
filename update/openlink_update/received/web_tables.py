"""The table of a web page. Pages come from strangers, and the parser of the standard library looks at the rest of a
page again and again if its marks are never closed, so a page is divided into tags and texts here, in one pass."""
import html
import re
from collections.abc import Iterator, Sequence

from openlink_update.outcome import Unreadable
from openlink_update.received import limits
from openlink_update.received.column_names import PLAIN, Naming, shown
from openlink_update.received.headers import MOST_ABOVE
from openlink_update.received.sheets import Sheet, clean
from openlink_update.shown_text import Count, lines_of_counts

_MOST_MB = 64
_MOST_BYTES = _MOST_MB * 2**20  # of a page
_MOST_TAG = 20_000  # characters
_LEAST = 2  # rows, and cells of a row, of a table that is one
_TAG = re.compile(r"</?([a-zA-Z][a-zA-Z0-9]{0,30})")
_SKIPPED = {"<!--": "-->", "<!": ">", "<?": ">"}  # how what is no text begins and ends
_RAW = ("script", "style", "textarea", "title", "template", "noscript")  # elements whose text is none of the page
_ATTRIBUTE = re.compile(r"""([^\s<>/=]+)(?:\s*=\s*(?:"([^"]*)"|'([^']*)'|([^\s"'<>]+)))?""")
_NUMBER = re.compile(r"\s*(\d{1,9})", re.A)
_WHOLE = re.compile(r"""(?:[^>"']|"[^"]*"|'[^']*')*>""")
_MOST_OPEN = 1000  # tags with a quotation mark that is not closed in them
_MOST_DEPTH = 64  # of tables in tables
_WEB = ("http://", "https://", "www.")
_ADDRESS = "title_url"


class _Linked(str):
    """The text of a cell that has a link."""

    link = ""


class _Table:
    """A table of a page while it is read."""

    def __init__(self) -> None:
        self.sheet = Sheet()
        self.has_another = False  # in a cell: it only lays out the page
        self._row: list[str] = []
        self._is_open = False  # whether a row is
        self._pieces: list[str] | None = None  # of the cell that is open
        self._link, self._columns, self._rows = "", 1, 1  # of this cell
        self._below: dict[int, tuple[int, str]] = {}  # by place: the rows that a cell above still covers
        self._number = self._size = 0

    def is_table(self) -> bool:
        return not self.has_another and sum(len(row) >= _LEAST for row in self.sheet.rows) >= _LEAST

    def text(self, text: str) -> None:
        if self._pieces is not None:
            self._size += len(text)
            limits.check_row(self._size, self._number)
            self._pieces.append(text)

    def begin_cell(self, tag: str) -> None:
        self.end_cell()
        if not self._is_open:
            self.begin_row()
        self._pieces, self._link = [], ""
        self._columns, self._rows = _span(tag, "colspan"), _span(tag, "rowspan")

    def link(self, tag: str) -> None:
        """Takes the first address in a cell."""
        if not self._link:
            address = _unescaped(_attribute(tag, "href")).strip()
            self._link = address if address.lower().startswith(_WEB) else ""

    def end_cell(self) -> None:
        if self._pieces is None:
            return
        text, self._pieces = " ".join(clean(_unescaped("".join(self._pieces))).split()), None
        if self._link:
            text, link = _Linked(text), self._link
            text.link = clean(link)
        self._fill()
        limits.check_columns(len(self._row) + self._columns, lambda: self._number, "row")
        for _ in range(self._columns):
            if self._rows > 1:
                self._below[len(self._row)] = self._rows - 1, text
            self._row.append(text)
            text = str(text)

    def _fill(self) -> None:
        """Puts the cells that cells above cover."""
        while (place := len(self._row)) in self._below:
            left, text = self._below.pop(place)
            if left > 1:
                self._below[place] = left - 1, text
            self._row.append(text)

    def begin_row(self) -> None:
        self.end_row()
        self._row, self._is_open, self._number, self._size = [], True, self._number + 1, 0

    def end_row(self) -> None:
        self.end_cell()
        if self._is_open:
            self._fill()
            self.sheet.add(self._row, self._number)
        self._is_open = False


def _attribute(tag: str, name: str) -> str:
    """The value of the first attribute of a tag with this name; "" if there is none."""
    if name not in tag.lower():
        return ""
    return next((it[2] or it[3] or it[4] or "" for it in _ATTRIBUTE.finditer(tag) if it[1].lower() == name), "")


def _span(tag: str, name: str) -> int:
    """Over how many columns or rows a cell goes."""
    found = _NUMBER.match(_attribute(tag, name))
    return max(int(found[1]), 1) if found else 1


def _marks(page: str) -> Iterator[tuple[str, str]]:
    """Yields the names of tags, "" for texts, each with the whole tag or text. A tag that ends begins with a slash."""
    place = open_quotes = 0
    while (start := page.find("<", place)) >= 0:
        if start > place:
            yield "", page[place:start]
        name = _TAG.match(page, start)
        skipped = next((end for begin, end in _SKIPPED.items() if page.startswith(begin, start)), "")
        if skipped:
            place = _after(page, skipped, start)
        elif not name:
            yield "", "<"
            place = start + 1
        else:
            whole = _WHOLE.match(page, start, start + _MOST_TAG)
            open_quotes += whole is None
            place = whole.end() if whole else _after(page, ">", start, start + _MOST_TAG)
            if open_quotes > _MOST_OPEN or place - start > _MOST_TAG or page[place - 1] != ">":
                raise Unreadable("a web page whose tags do not end")
            tag = page[start:place]
            kind = name[1].lower()
            yield ("/" if tag[1] == "/" else "") + kind, tag
            if kind in _RAW and tag[1] != "/":
                found = re.compile(f"</{kind}", re.I).search(page, place)
                place = found.start() if found else len(page)
    if place < len(page):
        yield "", page[place:]


def _after(page: str, end: str, start: int, most: int | None = None) -> int:
    """The place after the end of what begins at a place; the end of the page if it does not end before a place."""
    found = page.find(end, start, most)
    return found + len(end) if found >= 0 else len(page)


def _unescaped(text: str) -> str:
    try:
        return html.unescape(text)
    except ValueError:  # a character with thousands of digits
        return text


def _tables_of(page: str) -> list[Sheet]:
    """The tables of a page that have rows and columns. Unreadable if it asks for a password."""
    open_tables, found = list[_Table](), list[Sheet]()
    for name, whole in _marks(page):
        if name == "input" and _attribute(whole, "type").lower() == "password":
            raise Unreadable("a web page that asks for a password")
        if name == "table":
            if open_tables:
                open_tables[-1].has_another = True
            if len(open_tables) == _MOST_DEPTH:
                raise Unreadable(f"a web page with tables more than {_MOST_DEPTH} deep")
            open_tables.append(_Table())
        elif open_tables:
            table = open_tables[-1]
            if name == "/table":
                table.end_row()
                open_tables.pop()
                found += [table.sheet] if table.is_table() else []
            else:
                _take(table, name, whole)
    return found


def _take(table: _Table, name: str, whole: str) -> None:
    """Gives a table a tag, or a text."""
    match name:
        case "":
            table.text(whole)
        case "td" | "th":
            table.begin_cell(whole)
        case "/td" | "/th":
            table.end_cell()
        case "tr":
            table.begin_row()
        case "/tr":
            table.end_row()
        case "a":
            table.link(whole)
        case "br" | "p" | "div" | "li":
            table.text(" ")


def sheet_of(page: str, naming: Naming | None = None) -> Sheet:
    """The one table of a page; of several, the one that has a header with known names. A naming demands that it has
    one."""
    if len(page) > _MOST_BYTES:
        raise Unreadable(f"a web page of more than {_MOST_MB} MB")
    tables = _tables_of(page)
    if not tables:
        raise Unreadable("a web page without a table")
    headed = [sheet for sheet in tables if any(map((naming or PLAIN).is_header, sheet.rows[:MOST_ABOVE]))]
    if len(headed) == 1 or len(tables) == 1 and (naming is None or naming.header):
        return headed[0] if len(headed) == 1 else tables[0]
    if len(tables) == 1:
        names = max(tables[0].rows[:MOST_ABOVE], key=lambda row: sum(map(bool, row)))
        raise Unreadable(f"a web page whose table has no header of known names; it has: {shown(names)}")
    raise Unreadable(f"a web page with {len(tables)} tables, of which {len(headed)} have a header of known names")


def settle(columns: Sequence[str], rows: list[list[str]]) -> list[str]:
    """Writes the address of a link in place of its text in the column of addresses. Returns what is said of it."""
    if _ADDRESS not in columns:
        return []
    place, count = columns.index(_ADDRESS), 0
    for row in rows:
        cell = row[place] if len(row) > place else ""
        if isinstance(cell, _Linked) and not cell.lower().startswith(_WEB):
            row[place] = cell.link
            count += 1
    return lines_of_counts(Count("addresses of links in place of their texts", count, "cell"))
