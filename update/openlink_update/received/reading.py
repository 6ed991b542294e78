"""The table of one file as it came: a text, a spreadsheet, or a table of a web page if that is allowed."""
import dataclasses

from openlink_update.outcome import Unreadable
from openlink_update.received import archives, headers, texts
from openlink_update.received.column_names import PLAIN, Naming
from openlink_update.received.headers import Parsed

_PAGE = "a web page, not a table"


@dataclasses.dataclass(frozen=True)
class Form:
    """What is known of a file before it is read."""

    naming: Naming = PLAIN
    sheet: str = ""  # the name of one of a spreadsheet; the first one without it
    is_html: bool = False  # a web page that holds one table is one

    def begins_table(self, data: bytes) -> bool:
        """Whether bytes begin like a table that this form reads."""
        if archives.begins_archive(data):
            return True
        text = texts.beginning_of(data)
        if texts.is_web_page(text):
            return self.is_html
        return headers.find(text.splitlines(), self.naming)[0] is not None


_ANY = Form()


def read(data: bytes, form: Form = _ANY) -> Parsed:
    """The table of the bytes of a file. Unreadable if they are none, or beyond a limit."""
    data, lines = archives.opened(data, is_table=form.begins_table)
    if archives.is_old_spreadsheet(data) or archives.is_spreadsheet(data):
        parsed = _of_spreadsheet(data, form)
    elif texts.is_web_page(texts.beginning_of(data)):
        parsed = _of_page(data, form)
    else:
        text, more = texts.text_of(data)
        if texts.is_xml(text):
            raise Unreadable("XML, not a table: save it as .xlsx, .ods or text with tabs")
        parsed = headers.table_of(text, form.naming)
        lines += more
    return dataclasses.replace(parsed, lines=lines + parsed.lines)


def rows_in(data: bytes, form: Form) -> int:
    """How many rows below its header a file has that was fetched, and that is no archive any more: of a spreadsheet,
    its first sheet. Unreadable if it can be no table."""
    if archives.is_old_spreadsheet(data) or archives.is_spreadsheet(data):
        from openlink_update.received import spreadsheets

        rows = spreadsheets.sheet_of(data, "").rows
        return max(len(rows) - headers.above(rows) - 1, 0)
    if texts.is_web_page(texts.beginning_of(data)):
        if not form.is_html:
            raise Unreadable(f"{_PAGE}: the address may want a login")
        from openlink_update.received import web_tables

        rows = web_tables.sheet_of(texts.text_of(data, is_page=True)[0]).rows
        return max(len(rows) - headers.above(rows) - 1, 0)
    text = texts.text_of(data)[0]
    if not text.strip():
        raise Unreadable("empty")
    lines = text.split("\n")
    return max(sum(bool(line.strip()) for line in lines[headers.find(lines)[0] or 0 :]) - 1, 0)


def _of_spreadsheet(data: bytes, form: Form) -> Parsed:
    from openlink_update.received import sheets, spreadsheets

    sheet = spreadsheets.sheet_of(data, form.sheet)
    parsed = headers.table_of_rows(sheet.rows, form.naming)
    return dataclasses.replace(parsed, lines=parsed.lines + sheets.settle(parsed.columns, parsed.rows, sheet))


def _of_page(data: bytes, form: Form) -> Parsed:
    if not form.is_html:
        raise Unreadable(_PAGE)
    from openlink_update.received import web_tables

    text, lines = texts.text_of(data, is_page=True)
    parsed = headers.table_of_rows(web_tables.sheet_of(text, form.naming).rows, form.naming)
    return dataclasses.replace(parsed, lines=lines + parsed.lines + web_tables.settle(parsed.columns, parsed.rows))
