"""Spreadsheets as .ods (OASIS Open Document): of each cell what people see but for the forms of numbers and dates.
Cells
and rows that are repeated are made only where text comes after them."""
import datetime

from openlink_update.outcome import Unreadable
from openlink_update.received import xml_parts
from openlink_update.received.limits import MOST_LINE_BYTES, check_columns
from openlink_update.received.packages import Package
from openlink_update.received.sheets import FROM_1900, Day, Sheet, chosen, clean, number_of

MAIN = "content.xml"
_MANIFEST = "META-INF/manifest.xml"
_ODF = "urn:oasis:names:tc:opendocument:xmlns:"
_TABLE, _TEXT, _OFFICE = (f"{_ODF}{name}:1.0 " for name in ("table", "text", "office"))
_ENCRYPTED = f"{_ODF}manifest:1.0 encryption-data"
_DAY = len("2026-11-29")
_MOST_SPACES = 100  # of an element that stands for several
_MOST_REPEATED = 10**9


class _Names:
    """Takes the names of the sheets, and whether anything is encrypted."""

    def __init__(self) -> None:
        self.names: list[str] = []
        self.is_encrypted = False
        self._depth = 0

    def start(self, name: str, attributes: dict[str, str]) -> None:
        if name == f"{_TABLE}table":
            if self._depth == 0:
                self.names.append(attributes.get(f"{_TABLE}name", ""))
            self._depth += 1
        self.is_encrypted |= name == _ENCRYPTED

    def end(self, name: str) -> None:
        self._depth -= name == f"{_TABLE}table"

    def text(self, text: str) -> None:
        """Nothing is to be done."""


class _Rows:
    """Takes the rows of the sheet with a number."""

    def __init__(self, sheet: Sheet, wanted: int) -> None:
        self._sheet, self._wanted = sheet, wanted
        self._tables = -1  # before this one
        self._depth = 0  # tables that are open: those in cells are no part of the sheet
        self._notes = 0
        self._row: list[str] = []
        self._empty = 0  # cells after those of the row
        self._number = self._size = 0
        self._of_row: dict[str, str] = {}
        self._of_cell: dict[str, str] = {}
        self._pieces: list[str] = []
        self._is_text = False

    def _is_wanted(self) -> bool:
        return self._depth == 1 and self._tables == self._wanted and self._notes == 0

    def start(self, name: str, attributes: dict[str, str]) -> None:
        if name == f"{_TABLE}table":
            self._tables += self._depth == 0
            self._depth += 1
        elif name == f"{_TABLE}null-date":
            self._set_base(attributes.get(f"{_TABLE}date-value", ""))
        elif not self._is_wanted():
            self._notes += name == f"{_OFFICE}annotation"
        elif name in (f"{_TABLE}table-cell", f"{_TABLE}covered-table-cell"):
            self._of_cell, self._pieces = attributes, []
        elif name == f"{_TABLE}table-row":
            self._of_row, self._row, self._empty, self._size = attributes, [], 0, 0
        elif name == f"{_TEXT}p":
            self._is_text = True
            if self._pieces:
                self._pieces.append(" ")
        elif name == f"{_TEXT}s":
            self._pieces.append(" " * min(_count(attributes, f"{_TEXT}c"), _MOST_SPACES))
        elif name in (f"{_TEXT}tab", f"{_TEXT}line-break"):
            self._pieces.append(" ")
        elif name == f"{_OFFICE}annotation":
            self._notes += 1

    def text(self, text: str) -> None:
        if self._is_text and self._is_wanted():
            self._size += len(text)
            if self._size > MOST_LINE_BYTES:
                raise Unreadable(f"row {self._number + 1:,} has more than {MOST_LINE_BYTES:,} bytes: is it a table?")
            self._pieces.append(text)

    def end(self, name: str) -> None:
        if name == f"{_TABLE}table":
            self._depth -= 1
        elif name == f"{_OFFICE}annotation":
            self._notes -= 1
        elif not self._is_wanted():
            return
        elif name == f"{_TEXT}p":
            self._is_text = False
        elif name in (f"{_TABLE}table-cell", f"{_TABLE}covered-table-cell"):
            self._put(self._value(), _count(self._of_cell, f"{_TABLE}number-columns-repeated"))
        elif name == f"{_TABLE}table-row":
            count = _count(self._of_row, f"{_TABLE}number-rows-repeated")
            self._sheet.add(self._row, self._number + 1, count)
            self._number += count

    def _set_base(self, text: str) -> None:
        try:
            self._sheet.base = datetime.date.fromisoformat(text)
        except ValueError:
            self._sheet.base = FROM_1900

    def _put(self, cell: str, count: int) -> None:
        if not cell:
            self._empty += count
            return
        width = len(self._row) + self._empty + count
        check_columns(width, lambda: self._number + 1, "row")
        self._row += [""] * self._empty
        self._row += [cell] * count
        self._empty = 0

    def _value(self) -> str:
        """The text of a cell, or its number or date if it has one."""
        kind = self._of_cell.get(f"{_OFFICE}value-type", "")
        if kind == "date":
            day = self._of_cell.get(f"{_OFFICE}date-value", "")[:_DAY]
            return Day(clean(day)) if day else ""
        if kind == "float":
            return number_of(self._of_cell.get(f"{_OFFICE}value", "")[: _DAY * 4])
        text = clean("".join(self._pieces))
        if text.startswith("#") and self._of_cell.get(f"{_TABLE}formula") and text.rstrip("!?").isupper():
            self._sheet.errors += 1
            return ""
        return text


def _count(attributes: dict[str, str], name: str) -> int:
    """How often something is there."""
    text = attributes.get(name, "1")
    return min(int(text[:12]), _MOST_REPEATED) if text.isdecimal() else 1


def read(package: Package, name: str) -> Sheet:
    """The sheet of a document with a name, or the first one."""
    names = _Names()
    if _MANIFEST in package.names:
        xml_parts.read(package.chunks(_MANIFEST), names)
        if names.is_encrypted:
            raise Unreadable("a spreadsheet with a password: save it without one")
    xml_parts.read(package.chunks(MAIN), names)
    wanted = int(chosen([(title, True, str(number)) for number, title in enumerate(names.names)], name))
    sheet = Sheet()
    xml_parts.read(package.chunks(MAIN), _Rows(sheet, wanted))
    return sheet
