"""The parts of a spreadsheet in XML, read as they are unpacked. They come from strangers, so no entity is expanded and
nothing outside of the file is read: a part with a document type is refused, and so is one that is nested deeply or has
a name, an attribute or a comment that is long, since expat keeps those in memory and reads them again and again."""
from collections.abc import Iterable
from typing import Protocol
from xml.parsers import expat

from openlink_update.outcome import Unreadable

_MOST_DEPTH = 64
_MOST_ELEMENTS = 30_000_000
_MOST_TOKEN = 2**20  # bytes of a start tag or a comment


class Handler(Protocol):
    """What takes a part. The name of an element is its namespace, a space, and its name there."""

    def start(self, name: str, attributes: dict[str, str]) -> None:
        """Takes the beginning of an element."""

    def end(self, name: str) -> None:
        """Takes its end."""

    def text(self, text: str) -> None:
        """Takes a text within the element that is open."""


def _refuse_type(*_: object) -> None:
    raise Unreadable("a spreadsheet with a document type in its XML, which none needs")


class _Counted:
    """Counts the elements, and those that are open."""

    def __init__(self, handler: Handler) -> None:
        self._start, self._end, self._open, self._all = handler.start, handler.end, 0, 0

    def start(self, name: str, attributes: dict[str, str]) -> None:
        self._open += 1
        self._all += 1
        if self._open > _MOST_DEPTH:
            raise Unreadable(f"a spreadsheet whose XML is nested more than {_MOST_DEPTH} deep")
        if self._all > _MOST_ELEMENTS:
            raise Unreadable(f"a spreadsheet with more than {_MOST_ELEMENTS:,} elements in its XML: is it a table?")
        self._start(name, attributes)

    def end(self, name: str) -> None:
        self._open -= 1
        self._end(name)


def read(chunks: Iterable[bytes], handler: Handler) -> None:
    """Gives a handler all elements and texts of a part. Unreadable if it is damaged, or beyond a limit."""
    parser, counted = expat.ParserCreate(namespace_separator=" "), _Counted(handler)
    parser.buffer_text = True
    parser.StartElementHandler, parser.EndElementHandler = counted.start, counted.end
    parser.CharacterDataHandler = handler.text
    parser.StartDoctypeDeclHandler = _refuse_type
    given = 0
    try:
        for chunk in chunks:
            parser.Parse(chunk, False)
            given += len(chunk)
            if given - parser.CurrentByteIndex > _MOST_TOKEN:
                raise Unreadable(f"a spreadsheet with more than {_MOST_TOKEN:,} bytes in a tag of its XML")
        parser.Parse(b"", True)
    except (expat.ExpatError, LookupError, ValueError) as fault:  # the last two for encodings that Python lacks
        raise Unreadable("a spreadsheet whose XML is cut short or damaged") from fault
