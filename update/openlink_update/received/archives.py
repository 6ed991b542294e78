"""Archives, which are known by their first bytes: the file in a .gz, and a member of a .zip, which may be a .gz. What
they unpack to is counted while it is unpacked, a chunk at a time."""
import gzip
import io
import zipfile
import zlib
from collections.abc import Callable
from typing import IO

from openlink_update.outcome import Unreadable
from openlink_update.received import limits
from openlink_update.shown_text import Count, lines_of_counts

_GZIP, _ZIP = b"\x1f\x8b", (b"PK\x03\x04", b"PK\x05\x06")
_OLD = b"\xd0\xcf\x11\xe0\xa1\xb1\x1a\xe1"
_METHODS = (zipfile.ZIP_STORED, zipfile.ZIP_DEFLATED)  # Python unpacks the others without a limit of memory
_CHUNK = 2**20
_BEGINNING = 40_000  # bytes of a member by which it is known
_MOST_TRIED = 20  # members
_SPREADSHEET, _DOCUMENT = "[Content_Types].xml", {"content.xml", "mimetype"}  # members of .xlsx, and of .ods


def unpacked(data: bytes, member: str = "*") -> bytes:
    """The bytes of the file in an archive, as `opened` has them."""
    return opened(data, member)[0]


def opened(
    data: bytes, member: str = "*", is_table: Callable[[bytes], bool] = lambda _: False
) -> tuple[bytes, list[str]]:
    """The bytes of the file in an archive, and what is said of it: of a .zip, those of the one member whose name fits a
    pattern; of several, the one that begins like a table. Bytes that are no archive, or a spreadsheet, are returned as
    they are."""
    if data.startswith(_GZIP):
        data = _gunzipped(data)
        return data, []
    if not data.startswith(_ZIP) or member == "*" and is_spreadsheet(data):
        return data, []
    data, lines = _unzipped(data, member, is_table)
    return _gunzipped(data) if data.startswith(_GZIP) else data, lines


def begins_archive(data: bytes) -> bool:
    """Whether bytes begin like a file that can hold a table and is no text."""
    return data.startswith((_GZIP, *_ZIP, _OLD))


def is_old_spreadsheet(data: bytes) -> bool:
    """Whether bytes begin like .xls, or like an .xlsx that is encrypted."""
    return data.startswith(_OLD)


def is_spreadsheet(data: bytes) -> bool:
    """Whether bytes are a .zip with the members of a spreadsheet. One that is damaged is none."""
    if not data.startswith(_ZIP):
        return False
    limits.check_members(data)
    try:
        with zipfile.ZipFile(io.BytesIO(data)) as archive:
            names = set(archive.namelist())
    except Exception:  # zipfile raises errors of many kinds for damaged bytes
        return False
    return _SPREADSHEET in names or _DOCUMENT <= names


def _gunzipped(data: bytes) -> bytes:
    try:
        with gzip.GzipFile(fileobj=io.BytesIO(data)) as file:
            return _content(file)
    except (OSError, EOFError, zlib.error) as fault:
        raise Unreadable("a gzip file that is cut short or damaged") from fault


def _unzipped(data: bytes, member: str, is_table: Callable[[bytes], bool]) -> tuple[bytes, list[str]]:
    limits.check_members(data)
    try:
        with zipfile.ZipFile(io.BytesIO(data)) as archive:
            name, others = _chosen(archive, member, is_table)
            info = archive.getinfo(name)
            _check_method(info)
            with archive.open(info) as file:
                return _content(file), lines_of_counts(Count("other members of the zip file, left out", others, "file"))
    except Unreadable:
        raise
    except Exception as fault:  # zipfile raises errors of many kinds for damaged bytes
        raise Unreadable("a zip file that is cut short, damaged or encrypted") from fault


def _check_method(info: zipfile.ZipInfo) -> None:
    if info.compress_type not in _METHODS:
        raise Unreadable(f"a zip file packed by {_method_of(info)}: pack it with the usual method, deflate, or as .gz")


def _method_of(info: zipfile.ZipInfo) -> str:
    name = {zipfile.ZIP_BZIP2: "bzip2", zipfile.ZIP_LZMA: "LZMA"}.get(info.compress_type)
    return name or f"method {info.compress_type}"


def _content(file: "IO[bytes] | gzip.GzipFile") -> bytes:
    """The bytes of a file that is unpacked while it is read."""
    made, size = io.BytesIO(), 0
    while chunk := file.read(_CHUNK):
        size += len(chunk)
        limits.check_size(size)
        made.write(chunk)
    return made.getvalue()


def _chosen(archive: zipfile.ZipFile, member: str, is_table: Callable[[bytes], bool]) -> tuple[str, int]:
    """The one member whose name fits a pattern, or of few the one that begins like a table, and the number of others
    that fit. macOS adds members that nobody packed."""
    names = [name for name in archive.namelist() if name and not name.endswith("/")]
    fitting = [name for name in names if fits(name, member) and not name.startswith("__MACOSX/")]
    if len(fitting) == 1:
        return fitting[0], 0
    if len(fitting) <= _MOST_TRIED:
        tables = [name for name in fitting if is_table(_beginning(archive, name))]
        if len(tables) == 1:
            return tables[0], len(fitting) - 1
    raise Unreadable(
        f"a zip file with {len(fitting)} members that fit {member}"
        if member != "*"
        else f"a zip file with {len(fitting)} members: name one by `member PATTERN` in sources.tsv"
    )


def _beginning(archive: zipfile.ZipFile, name: str) -> bytes:
    """The first bytes of a member; none if it cannot be unpacked."""
    info = archive.getinfo(name)
    if info.compress_type not in _METHODS:
        return b""
    try:
        with archive.open(info) as file:
            return file.read(_BEGINNING)
    except Exception:  # as above
        return b""


def fits(name: str, pattern: str) -> bool:
    """Whether a name fits a pattern, in which * stands for any text."""
    first, *parts = pattern.split("*")
    if not parts:
        return name == first
    *parts, last = parts
    place, end = len(first), len(name) - len(last)
    if place > end or not name.startswith(first) or not name.endswith(last):
        return False
    for part in parts:  # each where it comes first, so that the most is left for the others
        place = name.find(part, place, end) + len(part)
        if place < len(part):
            return False
    return place <= end
