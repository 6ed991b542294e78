"""Writes tables as a spreadsheet (.xlsx): a sheet for each. A text is a text of strangers: it is written as an inline
string, which no program runs as a formula, and numbers are numbers."""
import html
import re
import zipfile
from collections.abc import Iterator, Sequence
from decimal import Decimal
from typing import BinaryIO

from openlink_update import shown_text
from openlink_update.counts.count_tables import Cell, CountTable

_TIME = (1980, 1, 1, 0, 0, 0)  # of each part, so that the same tables are the same bytes
_MOST_ROWS = 2**20 - 1  # below the head of a sheet
_MOST_CHARACTERS = 32_000  # of a cell
_MOST_NAME = 31  # characters of a sheet's name
_NO_XML = re.compile("[\x00-\x08\x0b\x0c\x0e-\x1f\ud800-\udfff\ufffe\uffff]")
_HEAD = '<?xml version="1.0" encoding="UTF-8" standalone="yes"?>\n'
_MAIN = "http://schemas.openxmlformats.org/spreadsheetml/2006/main"
_RELATIONS = "http://schemas.openxmlformats.org/package/2006/relationships"
_OFFICE = "http://schemas.openxmlformats.org/officeDocument/2006/relationships"
_TYPES = "http://schemas.openxmlformats.org/package/2006/content-types"
_PARTS = "application/vnd.openxmlformats-officedocument.spreadsheetml"


def write(tables: Sequence[CountTable], file: BinaryIO) -> None:
    """A file that cannot be searched, such as a pipe, will do."""
    with zipfile.ZipFile(file, "w", zipfile.ZIP_DEFLATED) as archive:
        for name, text in _frame(tables):
            archive.writestr(_part(name), _HEAD + text)
        for number, table in enumerate(tables, 1):
            with archive.open(_part(f"xl/worksheets/sheet{number}.xml"), "w", force_zip64=True) as sheet:
                for text in _sheet(table):
                    sheet.write(text.encode())


def _part(name: str) -> zipfile.ZipInfo:
    part = zipfile.ZipInfo(name, _TIME)
    part.compress_type = zipfile.ZIP_DEFLATED
    return part


def _frame(tables: Sequence[CountTable]) -> Iterator[tuple[str, str]]:
    numbers = range(1, len(tables) + 1)
    sheets = "".join(
        f'<Override PartName="/xl/worksheets/sheet{it}.xml" ContentType="{_PARTS}.worksheet+xml"/>' for it in numbers
    )
    yield "[Content_Types].xml", (
        f'<Types xmlns="{_TYPES}"><Default Extension="rels" '
        'ContentType="application/vnd.openxmlformats-package.relationships+xml"/>'
        f'<Override PartName="/xl/workbook.xml" ContentType="{_PARTS}.sheet.main+xml"/>{sheets}</Types>'
    )
    yield "_rels/.rels", _relations([("officeDocument", "xl/workbook.xml")])
    yield "xl/_rels/workbook.xml.rels", _relations([("worksheet", f"worksheets/sheet{it}.xml") for it in numbers])
    names = "".join(
        f'<sheet name="{_escaped(table.name[:_MOST_NAME])}" sheetId="{number}" r:id="r{number}"/>'
        for number, table in enumerate(tables, 1)
    )
    yield "xl/workbook.xml", f'<workbook xmlns="{_MAIN}" xmlns:r="{_OFFICE}"><sheets>{names}</sheets></workbook>'


def _relations(parts: Sequence[tuple[str, str]]) -> str:
    texts = (
        f'<Relationship Id="r{number}" Type="{_OFFICE}/{kind}" Target="{path}"/>'
        for number, (kind, path) in enumerate(parts, 1)
    )
    return f'<Relationships xmlns="{_RELATIONS}">{"".join(texts)}</Relationships>'


def _sheet(table: CountTable) -> Iterator[str]:
    yield f'{_HEAD}<worksheet xmlns="{_MAIN}"><sheetViews><sheetView workbookViewId="0">'
    yield '<pane ySplit="1" topLeftCell="A2" activePane="bottomLeft" state="frozen"/></sheetView></sheetViews>'
    yield "<sheetData>"
    for row in table.columns, *table.rows[:_MOST_ROWS]:
        yield f"<row>{''.join(map(_cell, row))}</row>"
    yield "</sheetData></worksheet>"


def _cell(value: Cell) -> str:
    if value is None:
        return "<c/>"
    if isinstance(value, (int, Decimal)):
        return f"<c><v>{value}</v></c>"
    text = _escaped(_NO_XML.sub("?", shown_text.line_of(value, _MOST_CHARACTERS)))
    return f'<c t="inlineStr"><is><t xml:space="preserve">{text}</t></is></c>'


def _escaped(text: str) -> str:
    return html.escape(text, quote=False)
