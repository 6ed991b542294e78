"""Spreadsheets: of which kind a file is, and the rows of a sheet."""
import io
import zipfile

from openlink_update.outcome import Unreadable
from openlink_update.received import archives, limits, open_documents, workbooks
from openlink_update.received.packages import Package
from openlink_update.received.sheets import Sheet

_PASSWORD = "a spreadsheet with a password: save it without one"
_XLS = "a spreadsheet in the old form, .xls: save it as .xlsx, .ods or text with tabs"
_ENCRYPTED = "EncryptedPackage".encode("utf-16-le")


def sheet_of(data: bytes, name: str) -> Sheet:
    """The sheet with a name, or the first one. Unreadable if the spreadsheet is damaged, or beyond a limit."""
    if archives.is_old_spreadsheet(data):
        raise Unreadable(_PASSWORD if _ENCRYPTED in data else _XLS)
    limits.check_members(data)
    try:
        archive = zipfile.ZipFile(io.BytesIO(data))
    except Exception as fault:  # zipfile raises errors of many kinds for damaged bytes
        raise Unreadable("a spreadsheet that is cut short or damaged") from fault
    with archive:
        package = Package(archive)
        if open_documents.MAIN in package.names:
            return open_documents.read(package, name)
        return workbooks.read(package, name)
