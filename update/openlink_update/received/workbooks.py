"""Spreadsheets as .xlsx (ECMA-376), in its transitional and its strict form: of each cell what people see but for the
forms of numbers. Formulas have the values that were stored with them. Links to other files are not followed."""
import posixpath
import re

from openlink_update.outcome import Unreadable
from openlink_update.received import xml_parts
from openlink_update.received.limits import MOST_LINE_BYTES, check_columns
from openlink_update.received.packages import Package
from openlink_update.received.sheets import FROM_1900, FROM_1904, Sheet, chosen, clean, day_of, number_of

_SPACES = (
    "http://schemas.openxmlformats.org/spreadsheetml/2006/main ",
    "http://purl.oclc.org/ooxml/spreadsheetml/main ",
)
_LINKS = "http://schemas.openxmlformats.org/package/2006/relationships Relationship"
_IDS = (
    "http://schemas.openxmlformats.org/officeDocument/2006/relationships id",
    "http://purl.oclc.org/ooxml/officeDocument/relationships id",
)
_ESCAPE = re.compile("_x([0-9A-Fa-f]{4})_")
_MOST_TEXTS = 4_000_000  # that cells share
_OF_DATES = {
    14: 10,
    15: 10,
    16: 10,
    17: 7,
    22: 10,
    **{number: 10 for number in (*range(27, 32), *range(34, 37))},
    **{number: 10 for number in range(50, 59)},
}  # forms of numbers, and the characters of a date that they show
_NO_LETTERS = re.compile(r'"[^"]*"|\\.|_.|\*.|\[[^\]]*\]')
_TOO_LONG = "x" * (MOST_LINE_BYTES + 1)  # in place of a longer text: a row that has it is refused
_ROW, _CELL, _VALUE, _PHONETIC = range(4)


def _codes(names: dict[str, int]) -> dict[str, int]:
    return {space + name: code for name, code in names.items() for space in _SPACES}


class _Tags:
    """Takes the attributes of some elements."""

    def __init__(self, *names: str) -> None:
        self.found: list[tuple[str, dict[str, str]]] = []
        self._names = {
            space + name: name for name in names for space in (*_SPACES, _LINKS.removesuffix("Relationship"))
        }
        self._inside: list[str] = []

    def start(self, name: str, attributes: dict[str, str]) -> None:
        known = self._names.get(name)
        if known:
            self.found.append((known, attributes))

    def end(self, name: str) -> None:
        """Nothing is to be done."""

    def text(self, text: str) -> None:
        """Nothing is to be done."""


class _Texts:
    """Takes the texts that cells share."""

    def __init__(self) -> None:
        self.texts: list[str] = []
        self._codes = _codes({"si": _CELL, "t": _VALUE, "rPh": _PHONETIC})
        self._pieces: list[str] = []
        self._is_text = self._is_phonetic = False
        self._size = 0

    def start(self, name: str, attributes: dict[str, str]) -> None:
        code = self._codes.get(name)
        if code == _CELL:
            self._pieces, self._size = [], 0
        elif code == _VALUE:
            self._is_text = not self._is_phonetic
        elif code == _PHONETIC:
            self._is_phonetic = True

    def text(self, text: str) -> None:
        if self._is_text:
            self._size += len(text)
            if self._size <= MOST_LINE_BYTES:
                self._pieces.append(text)

    def end(self, name: str) -> None:
        code = self._codes.get(name)
        if code == _VALUE:
            self._is_text = False
        elif code == _PHONETIC:
            self._is_phonetic = False
        elif code == _CELL:
            if len(self.texts) == _MOST_TEXTS:
                raise Unreadable(f"a spreadsheet with more than {_MOST_TEXTS:,} texts: is it a table of holdings?")
            text = "".join(self._pieces) if self._size <= MOST_LINE_BYTES else _TOO_LONG
            self.texts.append(_unescaped(text))


def _unescaped(text: str) -> str:
    """A text without the escapes of characters that XML has not."""
    if "_x" in text:
        text = (
            _ESCAPE.sub(lambda match: chr(int(match[1], 16)), text)
            .encode("utf-16", "surrogatepass")
            .decode("utf-16", "replace")
        )
    return clean(text)


class _Rows:
    """Takes the rows of a sheet."""

    def __init__(self, sheet: Sheet, texts: list[str], lengths: list[int]) -> None:
        self._sheet, self._texts, self._lengths = sheet, texts, lengths
        self._codes = _codes({"row": _ROW, "c": _CELL, "v": _VALUE, "t": _VALUE, "rPh": _PHONETIC})
        self._row: list[str] = []
        self._number = self._size = 0
        self._kind = self._style = ""
        self._pieces: list[str] = []
        self._is_value = self._is_phonetic = False
        self._places: dict[str, int] = {}
        self._place = 0

    def start(self, name: str, attributes: dict[str, str]) -> None:
        code = self._codes.get(name)
        if code == _CELL:
            self._kind, self._style = attributes.get("t", "n"), attributes.get("s", "")
            reference = attributes.get("r", "")
            self._place = self._column(reference.rstrip("0123456789")) if reference else self._place + 1
            self._pieces = []
        elif code == _VALUE:
            self._is_value = not self._is_phonetic
        elif code == _ROW:
            self._row, self._size, self._place = [], 0, -1
            number = attributes.get("r", "")
            self._number = int(number[:9]) if number.isdecimal() else self._number + 1
        elif code == _PHONETIC:
            self._is_phonetic = True

    def text(self, text: str) -> None:
        if self._is_value:
            self._size += len(text)
            if self._size > MOST_LINE_BYTES:
                raise Unreadable(f"row {self._number:,} has more than {MOST_LINE_BYTES:,} bytes: is it a table?")
            self._pieces.append(text)

    def end(self, name: str) -> None:
        code = self._codes.get(name)
        if code == _VALUE:
            self._is_value = False
        elif code == _CELL:
            if self._pieces:
                self._put(self._value("".join(self._pieces)))
        elif code == _ROW:
            self._sheet.add(self._row, self._number)
        elif code == _PHONETIC:
            self._is_phonetic = False

    def _column(self, letters: str) -> int:
        """The place of a column with these letters."""
        place = self._places.get(letters)
        if place is None:
            place = -1
            for letter in letters[:8].upper():
                place = (place + 1) * 26 + ord(letter) - ord("A")
            check_columns(place + 1, lambda: self._number, "row")
            if place < 0 or not letters.isascii() or not letters.isalpha():
                raise Unreadable(f"row {self._number:,} has a cell in no column")
            self._places[letters] = place
        return place

    def _put(self, cell: str) -> None:
        row = self._row
        if self._place >= len(row):
            check_columns(self._place + 1, lambda: self._number, "row")
            row += [""] * (self._place - len(row))
            row.append(cell)
        else:
            row[self._place] = cell

    def _value(self, text: str) -> str:
        match self._kind:
            case "s":
                try:
                    return self._texts[int(text)] if not text.startswith("-") else self._texts[len(self._texts)]
                except (ValueError, IndexError) as fault:
                    raise Unreadable(f"row {self._number:,} has a text that the spreadsheet lacks") from fault
            case "n":
                length = self._length()
                return day_of(text, self._sheet.base, length) if length else number_of(text)
            case "e":
                self._sheet.errors += 1
                return ""
            case "b":
                return "TRUE" if text.strip() in ("1", "true") else "FALSE"
        return _unescaped(text)

    def _length(self) -> int:
        """How many characters of a date the form of a cell shows; 0 if it is not that of a date."""
        if not self._style or not self._style.isdecimal():
            return 0
        style = int(self._style[:9])
        return self._lengths[style] if style < len(self._lengths) else 0


def _length_of(form: str) -> int:
    """How many characters of a date a form of numbers shows."""
    if form.lower() == "general":
        return 0
    letters = _NO_LETTERS.sub("", form.partition(";")[0]).lower()
    if "d" in letters:
        return 10
    return (7 if "m" in letters else 4) if "y" in letters else 0


class _Styles:
    """Takes the forms of numbers that cells have."""

    def __init__(self) -> None:
        self.lengths: list[int] = []
        self._own: dict[str, int] = {}
        self._codes = _codes({"cellXfs": _ROW, "xf": _CELL, "numFmt": _VALUE})
        self._is_of_cells = False

    def start(self, name: str, attributes: dict[str, str]) -> None:
        code = self._codes.get(name)
        if code == _VALUE:
            self._own[attributes.get("numFmtId", "")] = _length_of(attributes.get("formatCode", ""))
        elif code == _ROW:
            self._is_of_cells = True
        elif code == _CELL and self._is_of_cells:
            number = attributes.get("numFmtId", "")
            known = _OF_DATES.get(int(number), 0) if number.isdecimal() and len(number) < 9 else 0
            self.lengths.append(self._own.get(number, known))

    def end(self, name: str) -> None:
        if self._codes.get(name) == _ROW:
            self._is_of_cells = False

    def text(self, text: str) -> None:
        """Nothing is to be done."""


def _links(package: Package, part: str) -> dict[str, tuple[str, str]]:
    """The other parts that a part names: by their marks, the kind and the path of each within the package."""
    folder, name = posixpath.split(part)
    path, tags = posixpath.join(folder, "_rels", f"{name}.rels"), _Tags("Relationship")
    if path in package.names:
        xml_parts.read(package.chunks(path), tags)
    return {
        tag.get("Id", ""): (tag.get("Type", "").rpartition("/")[2], _path(folder, tag.get("Target", "")))
        for _, tag in tags.found
        if tag.get("TargetMode") != "External"
    }


def _path(folder: str, target: str) -> str:
    """The path of a part within the package; none leads out of it, since only its own names are looked up."""
    return posixpath.normpath(posixpath.join("/", folder, target)).lstrip("/")


def read(package: Package, name: str) -> Sheet:
    """The sheet of a workbook with a name, or the first one that is not hidden."""
    main = next((path for kind, path in _links(package, "").values() if kind == "officeDocument"), "xl/workbook.xml")
    if main.endswith(".bin"):
        raise Unreadable("a spreadsheet in binary form, .xlsb: save it as .xlsx, .ods or text with tabs")
    if main not in package.names:
        raise Unreadable("a file of an office program without a workbook: is it a table?")
    tags, links = _Tags("workbookPr", "sheet"), _links(package, main)
    xml_parts.read(package.chunks(main), tags)
    sheets = [tag for kind, tag in tags.found if kind == "sheet"]
    path = _sheet_path(sheets, links, name)
    if path not in package.names:
        raise Unreadable("a spreadsheet that lacks a sheet which it names")
    is_of_1904 = any(tag.get("date1904") in ("1", "true") for kind, tag in tags.found if kind == "workbookPr")
    styles, texts = _Styles(), _Texts()
    _read_link(package, links, "styles", styles)
    _read_link(package, links, "sharedStrings", texts)
    sheet = Sheet(base=FROM_1904 if is_of_1904 else FROM_1900)
    xml_parts.read(package.chunks(path), _Rows(sheet, texts.texts, styles.lengths))
    return sheet


def _read_link(package: Package, links: dict[str, tuple[str, str]], wanted: str, handler: xml_parts.Handler) -> None:
    """Reads the part of a kind, if there is one."""
    path = next((path for kind, path in links.values() if kind == wanted), "")
    if path in package.names:
        xml_parts.read(package.chunks(path), handler)


def _sheet_path(sheets: list[dict[str, str]], links: dict[str, tuple[str, str]], name: str) -> str:
    """The path of the sheet with a name, or of the first one that is not hidden."""
    found: list[tuple[str, bool, str]] = []
    for sheet in sheets:
        mark = next((sheet[key] for key in _IDS if key in sheet), "")
        kind, path = links.get(mark, ("", ""))
        if kind == "worksheet":
            found.append((sheet.get("name", ""), sheet.get("state", "visible") == "visible", path))
    return chosen(found, name)
