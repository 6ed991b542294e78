"""Slips of rows and files: rows that are no titles, and files that may have been cut."""
import re

from openlink_update.outcome import Unreadable
from openlink_update.received import archives
from openlink_update.slips.material import Found, Pair

_MOST_CELLS = 3  # of a row of a total or a footnote
_NO_TITLE = re.compile(
    r"\W*(?:(?:grand |sub-?|overall )?totals?\b|sum(?:me)?\b|(?:ins)?gesamt|number of "
    r"|\d+ (?:titles|records|rows|journals)\b|(?:titles|records|rows)\b\W*\d|©|\(c\)|copyright\b|sources?:|notes?:"
    r"|footnotes?\b|as of\b|report\b|generated\b|exported\b|created\b|printed\b|(?:last )?updated\b|disclaimer\b"
    r"|end of |all rights|please\b|for questions|stand:)"
    r"|\*|.*\S@\S+\.\S",
    re.I,
)
_PACKED = (b"PK", b"\x1f\x8b")
_BYTE_ORDER_MARKS = {b"\xff\xfe": "utf-16-le", b"\xfe\xff": "utf-16-be"}
_MOST_BYTES = 2000  # of the end of a file that are looked at


def totals_and_footnotes(pair: Pair) -> Found | None:
    """Rows without a number that have few cells and begin as a total or a footnote does. They are not served."""
    lines = []
    for _, *cells in pair.now.dropped:
        filled = [text for text in cells if text]
        if len(filled) <= _MOST_CELLS and _NO_TITLE.match(" ".join(filled)):
            lines.append(" ".join(filled))
    return Found(len(lines), pair.now.count, lines[0]) if lines else None


def no_line_end(pair: Pair) -> Found | None:
    """A file that ends within a line, and did not before, or whose last line lacks cells."""
    now, line = pair.now, pair.now.unended
    if not line or pair.before is not None and pair.before.unended:
        return None
    is_short = 0 < line.count("\t") < len(now.table.columns) - 1
    return Found(1, now.count, line) if pair.before is not None or is_short else None


def unended_line(data: bytes) -> str:
    """The last line of the bytes of a table, if there is no end of it; '' otherwise, and of what is no text."""
    try:
        data = archives.unpacked(data) if data.startswith(_PACKED) else data
    except Unreadable:
        return ""
    if data.startswith((*_PACKED, b"<")) or not data:
        return ""
    tail = data[len(data) - min(len(data), _MOST_BYTES) // 2 * 2 :]
    encoding = _BYTE_ORDER_MARKS.get(data[:2], "utf-8")
    text = tail.decode(encoding, "replace")
    return "" if text.endswith(("\n", "\r", "\0")) else re.split(r"[\r\n]", text)[-1].strip("\x1a\ufeff")
