"""The limits of a table as it came. They are far above those of honest tables, and are checked before it is divided
into lines and cells, which take many times the memory of its bytes."""
import dataclasses
import re
from collections.abc import Callable
from typing import AnyStr, Generic

from openlink_update.outcome import Unreadable

_MOST_COLUMNS = 500
MOST_LINE_BYTES = 100_000
_MOST_LINES = 2_000_000
_UNPACKED_MB = 256  # of the bytes of a file, also when it is unpacked
_MOST_MEMBERS = 10_000  # of a .zip
_ENTRY = b"PK\x01\x02"  # how the entry of a member in the directory of a .zip begins
_MOST_BYTES = _UNPACKED_MB * 2**20


@dataclasses.dataclass(frozen=True)
class _Signs(Generic[AnyStr]):
    """What separates lines and cells, in a text or in bytes."""

    feed: AnyStr
    back: AnyStr
    tab: AnyStr
    line: "re.Pattern[AnyStr]"

    def ends_in(self, text: AnyStr, end: int) -> int:
        """The number of line ends (LF, CR LF or CR) in the beginning of a text or bytes."""
        feeds, backs = text.count(self.feed, 0, end), text.count(self.back, 0, end)
        return feeds + backs - text.count(self.back + self.feed, 0, end)


_OF_BYTES = _Signs(b"\n", b"\r", b"\t", re.compile(rb"[^\r\n]+"))
_OF_TEXT = _Signs("\n", "\r", "\t", re.compile(r"[^\r\n]+"))


def check_bytes(data: bytes) -> None:
    """Unreadable if bytes have too many lines, or a line too many bytes or tabs."""
    _check(data, _OF_BYTES, 1)


def check_text(text: str, width: int) -> None:
    """Unreadable if the bytes of a text have so. `width` is the number of bytes of a character."""
    _check(text, _OF_TEXT, width)


def _check(text: AnyStr, signs: _Signs[AnyStr], width: int) -> None:
    lines = signs.ends_in(text, len(text)) + (not text.endswith((signs.feed, signs.back)) and len(text) > 0)
    if lines > _MOST_LINES:
        raise Unreadable(f"it has {lines:,} lines, and a table may have {_MOST_LINES:,}: is it a table of holdings?")
    for line in signs.line.finditer(text):
        start, end = line.span()
        if (end - start) * width > MOST_LINE_BYTES:
            raise Unreadable(
                f"line {signs.ends_in(text, start) + 1:,} has {(end - start) * width:,} bytes, and "
                f"{MOST_LINE_BYTES:,} are possible: is it a table, with an end of line after each row?"
            )
        check_columns(text.count(signs.tab, start, end) + 1, lambda: signs.ends_in(text, start) + 1)


def check_columns(count: int, number: Callable[[], int], what: str = "line") -> None:
    """Unreadable if a line has more cells than a table may have columns; `number` returns the number of the line."""
    if count > _MOST_COLUMNS:
        raise Unreadable(f"{what} {number():,} has {count:,} cells, and a table may have {_MOST_COLUMNS} columns")


def check_row(size: int, number: int) -> None:
    """Unreadable if a row of a sheet has more bytes than a line may have."""
    if size > MOST_LINE_BYTES:
        raise Unreadable(
            f"row {number:,} has {size:,} bytes, and {MOST_LINE_BYTES:,} are possible: is it a table of holdings?"
        )


def check_rows(count: int) -> None:
    """Unreadable if a sheet has more rows than a table may have lines."""
    if count > _MOST_LINES:
        raise Unreadable(f"it has {count:,} rows, and a table may have {_MOST_LINES:,}: is it a table of holdings?")


def check_members(data: bytes) -> None:
    """Unreadable if a .zip has too many members, before its directory is read."""
    if data.count(_ENTRY) > _MOST_MEMBERS:
        raise Unreadable(f"a zip file with more than {_MOST_MEMBERS:,} members: pack the table alone")


def check_size(size: int) -> None:
    """Unreadable if a file has more bytes when it is unpacked."""
    if size > _MOST_BYTES:
        raise Unreadable(f"more than {_UNPACKED_MB} MB when unpacked: ask the provider for smaller files")
