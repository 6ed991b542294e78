"""Texts as a person reads them, in a mail, on a terminal or in a spreadsheet, and how the commands print them. Tables,
servers and other machines send any characters: some are commands of a terminal, reverse the order of what follows, or
begin a formula."""
import csv
import dataclasses
import io
import os
import re
import sys
from collections.abc import Iterable

from openlink_update import run_notes

# Controls of ASCII but the end of a line, those of Latin-1, and those that end a line or set its direction.
_UNSAFE = re.compile("[\x00-\x09\x0b-\x1f\x7f-\x9f\u061c\u200e\u200f\u2028-\u202e\u2066-\u2069]")
_MOST_OF_A_LINE = 8000  # characters that are printed: the journal divides lines of more than 48 KB
_FORMULA = tuple("=+-@＝＋－＠")  # how a cell begins that some spreadsheets run as a formula


@dataclasses.dataclass(frozen=True)
class Count:
    """What was done, and to how many cells, rows or lines."""

    what: str
    number: int
    noun: str


def amount(number: int, noun: str) -> str:
    """A number of things, such as 1 row or 2 rows."""
    return f"{number} {noun}" if number == 1 else f"{number} {noun}s"


def lines_of_counts(*counts: Count) -> list[str]:
    """A line for each count above 0."""
    return [f"{count.what}: {amount(count.number, count.noun)}" for count in counts if count.number]


def printable(text: str) -> str:
    """A text that is safe to print: a tab is a space, and other characters that are not safe are question marks."""
    return _UNSAFE.sub("?", text.replace("\t", " "))


def lines_to_print(text: str) -> str:
    """A text as it is printed and sent by mail. No line begins with ~, after which some mail programs read a command,
    and none is so long that the journal divides it, since its second part could begin so."""
    return "\n".join(map(_line_to_print, printable(text).split("\n")))


def _line_to_print(line: str) -> str:
    line = f" {line}" if line.startswith("~") else line
    return line if len(line) <= _MOST_OF_A_LINE else f"{line[:_MOST_OF_A_LINE]}.."


def line_of(text: str, most: int = 500) -> str:
    """A text of another machine or of the disk as one line, cut after this number of characters."""
    text = printable(text.replace("\n", " "))
    return text if len(text) <= most else f"{text[:most]}.."


def cell(text: str) -> str:
    """A cell that no spreadsheet runs as a formula, and that has one line."""
    text = printable(text.replace("\n", " "))
    start = text.strip()
    return f"'{text}" if start.startswith(_FORMULA) and len(start) > 1 else text


def row(texts: Iterable[str]) -> str:
    """A line of a table for a spreadsheet, without its end. A cell with a quotation mark is quoted, so that it hides no
    cell after it."""
    buffer = io.StringIO()
    csv.writer(buffer, dialect="excel-tab", lineterminator="").writerow(map(cell, texts))
    return buffer.getvalue()


def prepare_streams() -> None:
    """Has characters that the encoding of the standard output lacks printed as escapes."""
    if isinstance(sys.stdout, io.TextIOWrapper):
        sys.stdout.reconfigure(errors="backslashreplace")


def report(line: str, stream: str = "stdout") -> None:
    """Prints a line, without the controls and commands that a table or a server may have put in it, and notes it for
    the record of the run. That nobody reads it, or that it cannot be written, does not end a run."""
    text = lines_to_print(line)
    run_notes.note(run_notes.LINE, text)
    _print(text, stream)


def report_cells(*cells: str) -> None:
    """Prints a line of cells with tabs between them, for a script."""
    _print("\t".join(map(printable, cells)), "stdout")


def _print(text: str, stream: str) -> None:
    try:
        print(text, file=getattr(sys, stream), flush=True)
    except OSError:
        setattr(sys, stream, open(os.devnull, "w"))
