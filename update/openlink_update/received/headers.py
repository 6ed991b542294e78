"""The header of a table, which may come after other lines, with commas or semicolons, and in another spelling. A table
with fewer than three known names is used as it is, with its first line as the header, such as ANY.tsv. Quotes that do
not match reject a file: one that is not closed would take the rows after it into its cell."""
import csv
import dataclasses
import itertools
from collections.abc import Iterable, Iterator, Sequence

from openlink_update.outcome import Unreadable
from openlink_update.received.column_names import DROPPED, PLAIN, Naming, named, shown
from openlink_update.received.limits import MOST_LINE_BYTES, check_columns
from openlink_update.shown_text import Count, amount, lines_of_counts

MOST_ABOVE = 20  # in which it is searched
_SEPARATORS = {"\t": "tabs", ",": "commas", ";": "semicolons"}


@dataclasses.dataclass(frozen=True)
class Parsed:
    """The table of one file as it came, and lines that say how it was read."""

    columns: list[str]
    rows: list[list[str]]
    lines: list[str]
    names: tuple[str, ...] = ()  # of the columns, as the file has them
    missing: tuple[str, ...] = ()  # names that the line of the target gives, and the file lacks


def _cells_of(lines: Iterable[str], separator: str, before: int) -> Iterator[list[str]]:
    """Yields the cells of each line that is not blank. Commas and semicolons may be in quotes. `before` is the number
    of lines of the file before these."""
    if separator == "\t":
        yield from (line.split("\t") for line in lines if line)
        return
    size = 0  # of the row that is read

    def counted() -> Iterator[str]:
        nonlocal size
        for line in lines:
            size += len(line)
            if size > MOST_LINE_BYTES:  # in several lines, as after a quote that is not closed
                raise csv.Error
            yield f"{line}\n"

    reader = csv.reader(counted(), delimiter=separator, strict=True)
    first = 1  # line of a row
    try:
        for cells in reader:
            check_columns(len(cells), lambda: before + first)  # what is in quotes separates no cells
            first, size = reader.line_num + 1, 0
            if cells:
                yield [cell.replace("\t", " ").replace("\n", " ") for cell in cells]
    except csv.Error as fault:
        raise Unreadable(f"line {before + first}: quotes that do not match") from fault


def find(lines: Iterable[str], naming: Naming = PLAIN) -> tuple[int | None, str]:
    """The number of lines before the header (None if there is no header with names that are known), and its
    separator."""
    for number, line in enumerate(itertools.islice(lines, MOST_ABOVE)):
        for separator in "\t" if "\t" in line else ",;":
            if naming.is_header(_split(line, separator)):
                return number, separator
    return None, "\t"


def _split(line: str, separator: str) -> list[str]:
    """The cells of a line alone; none if its quotes do not match."""
    if separator == "\t":
        return line.split("\t")
    try:
        return next(csv.reader([f"{line}\n"], delimiter=separator, strict=True), [])
    except csv.Error:
        return []


def _lines_of(text: str) -> Iterator[str]:
    """Yields the lines of a text, so that they are not in memory all at once."""
    start = 0
    while (end := text.find("\n", start)) >= 0:
        yield text[start:end]
        start = end + 1
    yield text[start:]


def table_of(text: str, naming: Naming = PLAIN) -> Parsed:
    """The table of a text. Without a header of known names, it begins at the first line, with tabs."""
    top = list(itertools.islice(_lines_of(text), MOST_ABOVE))
    before, separator = (None, _separator_of(top, naming)) if naming.header else find(top, naming)
    parsed = [*_cells_of(itertools.islice(_lines_of(text), before or 0, None), separator, before or 0)]
    if not parsed:
        raise Unreadable("it is empty")
    count = Count(f"{_SEPARATORS[separator]} between cells", 0 if separator == "\t" else len(parsed), "row")
    if naming.header:
        return _with_header_of(naming, parsed, [count])
    if before is None:
        return _without_names(
            parsed, max((_split(line, it) for line in top for it in _SEPARATORS), key=_filled), naming
        )
    above = Count("above the header, left out", sum(1 for line in top[:before] if line), "line")
    count = dataclasses.replace(count, number=max(count.number - 1, 0))
    return _with_names(parsed, naming, [count, above])


def table_of_rows(rows: list[list[str]], naming: Naming = PLAIN) -> Parsed:
    """The table of the rows of a sheet, or of a table of a page."""
    if not rows:
        raise Unreadable("it is empty")
    if naming.header:
        return _with_header_of(naming, rows, [])
    before = _place_in(rows, naming)
    if before is None:
        return _without_names(rows, max(rows[:MOST_ABOVE], key=_filled), naming)
    return _with_names(rows[before:], naming, [Count("above the header, left out", before, "row")])


def _place_in(rows: Sequence[Sequence[str]], naming: Naming) -> int | None:
    """The place of the header among the first rows, or None."""
    return next((number for number, row in enumerate(rows[:MOST_ABOVE]) if naming.is_header(row)), None)


def above(rows: Sequence[Sequence[str]]) -> int:
    """How many rows are above a header of the standard; 0 if there is none."""
    return _place_in(rows, PLAIN) or 0


def _filled(cells: Sequence[str]) -> int:
    return sum(map(bool, cells))


def _separator_of(lines: Sequence[str], naming: Naming) -> str:
    """What separates the most of these lines into as many cells as a header has that a file lacks."""
    width = len(naming.header)
    widths = {it: [_width(_split(line, it), width) for line in lines if line] for it in _SEPARATORS}
    best = max(widths, key=lambda it: widths[it].count(width))
    if width not in widths[best]:
        found = ", ".join(f"{max(counts, default=0)} with {_SEPARATORS[it]}" for it, counts in widths.items())
        raise Unreadable(
            f"no header: {amount(width, 'name')}, but the longest line has other numbers of cells: {found}"
        )
    return best


def _width(cells: Sequence[str], most: int) -> int:
    """The number of cells, without those beyond a number that are empty."""
    return len(cells) if any(map(str.strip, cells[most:])) else min(len(cells), most)


def _with_header_of(naming: Naming, rows: list[list[str]], counts: list[Count]) -> Parsed:
    """The table of rows without a header, with the names that the line of the target gives."""
    names = naming.header
    if PLAIN.is_header(rows[0]):
        raise Unreadable(f"it has a header, so `no header` is wrong: {shown(rows[0])}")
    for number, row in enumerate(rows, 1):
        if len(row) > len(names):
            if any(map(str.strip, row[len(names) :])):
                raise Unreadable(f"no header: {amount(len(names), 'name')}, and row {number} has {len(row)} cells")
            del row[len(names) :]
    _remove(rows, [place for place, name in enumerate(names) if name == DROPPED])
    kept = [name for name in names if name != DROPPED]
    return Parsed(kept, rows, lines_of_counts(*counts), tuple(kept))


def _without_names(rows: list[list[str]], likely: Sequence[str], naming: Naming) -> Parsed:
    """A table whose first row is its header, since no other one is known to be."""
    if naming.columns:
        raise Unreadable(f"no header with the names of `columns` or of KBART; it has: {shown(likely)}")
    return Parsed(rows[0], rows[1:], [], tuple(likely))


def _with_names(rows: list[list[str]], naming: Naming, counts: list[Count]) -> Parsed:
    """A table below a header of known names."""
    header, rows = rows[0], rows[1:]
    found = named(header, naming)
    _remove(rows, found.dropped)
    names = [name for place, name in enumerate(found.names) if place not in found.dropped]
    lines = lines_of_counts(
        *counts,
        Count("names of columns as the standard spells them", found.spelled, "cell"),
        Count("named by `columns`", found.mapped, "column"),
        Count("left out by `columns`", len(found.dropped), "column"),
    )
    return Parsed(names, rows, lines, tuple(header), naming.missing_in(header))


def _remove(rows: list[list[str]], places: Sequence[int]) -> None:
    """Removes columns from rows."""
    for place in sorted(places, reverse=True):
        for row in rows:
            if len(row) > place:
                del row[place]
