"""The text of a file as it came: UTF-8, UTF-16 with its byte order mark, or windows-1252. A line that is not UTF-8 is
read as windows-1252, and not the file, since files that a provider joined have lines of both."""
import re
from collections.abc import Sequence

from openlink_update.outcome import Unreadable
from openlink_update.received import limits
from openlink_update.shown_text import amount

_UTF_8, _UTF_16 = b"\xef\xbb\xbf", (b"\xff\xfe", b"\xfe\xff")  # their byte order marks
_PAGE = re.compile(r"<(?:!doctype\s+html|html|head|body|title|meta|script|link|div|p|h1|table)\b", re.I)
_BEFORE_A_PAGE = (("<!--", "-->"), ("<?", "?>"))  # how what may come before it begins and ends
_MOST_CHARACTERS = 10000  # in which a page begins


def text_of(data: bytes, is_page: bool = False) -> tuple[str, list[str]]:
    """The text of these bytes, with line ends of one character, and lines that say how it was read. Unreadable if it
    is beyond the limits of a table; those of a page are others."""
    if data.startswith(_UTF_16):
        try:
            text = data.decode("utf-16")
        except UnicodeDecodeError as fault:
            raise Unreadable("UTF-16 that is cut short or damaged") from fault
        if not is_page:
            limits.check_text(text, width=2)
        text = _with_line_feeds(text)
        count = text.rstrip("\n").count("\n") + 1
        lines = [f"UTF-16: {amount(count, 'line')}"]
    else:
        data = data.removeprefix(_UTF_8)
        if not is_page:
            limits.check_bytes(data)
        text, lines = _decoded(data)
    if "\0" in text:
        raise Unreadable("it has bytes of zero, as UTF-16 has without a byte order mark")
    return text, lines


def _with_line_feeds(text: str) -> str:
    return text.replace("\r\n", "\n").replace("\r", "\n")


def _decoded(data: bytes) -> tuple[str, list[str]]:
    try:
        return _with_line_feeds(data.decode("utf-8")), []
    except UnicodeDecodeError:
        return _decoded_by_lines(data.replace(b"\r\n", b"\n").replace(b"\r", b"\n").split(b"\n"))


def _decoded_by_lines(lines: Sequence[bytes]) -> tuple[str, list[str]]:
    """The lines that are not UTF-8 are read as windows-1252."""
    decoded, count = list[str](), 0
    for number, line in enumerate(lines, 1):
        try:
            decoded.append(line.decode("utf-8"))
        except UnicodeDecodeError:
            decoded.append(_from_windows(line, number))
            count += 1
    return "\n".join(decoded), [f"not UTF-8, read as windows-1252: {amount(count, 'line')}"]


def _from_windows(line: bytes, number: int) -> str:
    try:
        return line.decode("cp1252")
    except UnicodeDecodeError as fault:
        raise Unreadable(f"line {number} is neither UTF-8 nor windows-1252") from fault


def is_web_page(text: str) -> bool:
    rest = text[:_MOST_CHARACTERS].lstrip()
    while True:
        end = next((end for start, end in _BEFORE_A_PAGE if rest.startswith(start)), None)
        if end is None:
            return _PAGE.match(rest) is not None
        rest = rest.partition(end)[2].lstrip()


def beginning_of(data: bytes) -> str:
    """The beginning of a text in any encoding, by which it is known what it is."""
    start = data[: 4 * _MOST_CHARACTERS]  # a character has at most four bytes
    return start.decode("utf-16" if start.startswith(_UTF_16) else "utf-8-sig", "ignore")


def is_xml(text: str) -> bool:
    """Whether a text is XML, which no table is, such as a spreadsheet of 2003."""
    return text[:_MOST_CHARACTERS].lstrip().startswith("<?xml")
