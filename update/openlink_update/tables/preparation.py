"""Prepares the files of a target, as they came, to be served: read as text, found below their header, joined, step by
step in the form that the program reads, and without rows that no request can find."""
import collections
import dataclasses
from collections.abc import Sequence

from openlink_update import shown_text
from openlink_update.outcome import Refused, Unreadable
from openlink_update.received import column_names, reading
from openlink_update.received.column_names import DATES, IDENTIFIERS, Naming
from openlink_update.received.headers import Parsed
from openlink_update.received.reading import Form
from openlink_update.tables import cells, date_order, dropped_rows, order_of_dates
from openlink_update.tables.table import Table
from openlink_update.target_options import NONE, Options

_Cells = tuple[list[str], list[list[str]]]  # a header and rows


@dataclasses.dataclass(frozen=True)
class Prepared:
    table: Table  # without the walls and columns of the table that is served
    lines: list[str]  # what was done
    dropped: list[list[str]]  # rows that are not served, each after the reason
    count: int  # of rows before any was dropped
    reversed: list[tuple[str, str]]  # the two dates of each row whose first one is after the last
    missing: list[str]  # a line for what no column has; `lines` have it too

    def dropped_table(self) -> bytes:
        """The rows that are not served, as people read them in a spreadsheet."""
        rows = (["reason", *self.table.columns], *self.dropped)
        return "".join(f"{shown_text.row(row)}\n" for row in rows).encode()


def read(data: bytes, options: Options = NONE) -> Parsed:
    """The table of one file of a target with these options."""
    return reading.read(data, Form(Naming(options.columns, options.header), options.sheet, options.is_html))


def _numbered(header: list[str]) -> list[tuple[str, int]]:
    """The names of columns, each with the number of columns before that have the same name."""
    counts: collections.Counter[str] = collections.Counter()
    keys = []
    for name in header:
        keys.append((name, counts[name]))
        counts[name] += 1
    return keys


def joined(tables: Sequence[_Cells]) -> _Cells:
    """One table of several, each a header and rows: columns are joined by their names."""
    places: dict[tuple[str, int], int] = {}  # of a name, and of its second column if it has two
    keys = [_numbered(header) for header, _ in tables]
    for key in (key for header in keys for key in header):
        places.setdefault(key, len(places))
    width, rows = len(places), []
    for columns, (_, of_file) in zip(keys, tables):
        order = [places[key] for key in columns]
        for row in of_file:
            filled = [""] * width
            for place, cell in zip(order, row):
                filled[place] = cell
            rows.append(filled + row[len(order) :])
    return [name for name, _ in places], rows


def prepare(files: Sequence[tuple[str, bytes]], options: Options = NONE) -> Prepared:
    """Prepares the files of a target with these options, pairs of a path and bytes. Refused if one cannot be read."""
    parsed, lines, reasons = list[Parsed](), list[str](), list[str]()
    for path, data in files:
        try:
            one = read(data, options)
        except Unreadable as fault:
            reasons.append(f"{path}: {fault}")
            continue
        footer = dropped_rows.without_footer(one.columns, one.rows)
        more = one.lines + footer + order_of_dates.settle(one.columns, one.rows)
        lines += more if len(files) == 1 else [f"{path}: {line}" for line in more]
        parsed.append(one)
    reasons = reasons or _unknown(parsed, options)
    if reasons:
        raise Refused(reasons)
    names = list(dict.fromkeys(name for one in parsed for name in one.names))
    header, rows = (
        joined([(one.columns, one.rows) for one in parsed]) if len(parsed) > 1 else (parsed[0].columns, parsed[0].rows)
    )
    lines += _unused(parsed, options)
    del parsed
    for step in cells.STEPS:
        rows, more = step(header, rows)
        lines += more
    count = len(rows)
    table, dropped = dropped_rows.separate(Table(tuple(header), rows))
    pairs = date_order.reversed_in(table)
    missing = _missing(table, names)
    lines += [*dropped_rows.lines(dropped), *date_order.lines(pairs), *missing]
    return Prepared(table, lines, dropped, count, pairs, missing)


def _absent(parsed: Sequence[Parsed]) -> list[str]:
    """The names of `columns` that no file has."""
    return [name for name in parsed[0].missing if all(name in one.missing for one in parsed)] if parsed else []


def _unknown(parsed: Sequence[Parsed], options: Options) -> list[str]:
    """A reason for names of `columns` that no file has: then columns that are served would be lost."""
    used = {name for name, standard in options.columns if standard != column_names.DROPPED}
    lost = [name for name in _absent(parsed) if name in used]
    if not lost:
        return []
    names = list(dict.fromkeys(name for one in parsed for name in one.names))
    return [f"no column {column_names.shown(lost)}, which `columns` names; it has: {column_names.shown(names)}"]


def _unused(parsed: Sequence[Parsed], options: Options) -> list[str]:
    """A line for names of `columns` that are to be left out, and that no file has."""
    lost = _absent(parsed)
    return [f"no column {column_names.shown(lost)} to leave out"] if lost else []


def _missing(table: Table, names: Sequence[str]) -> list[str]:
    """A line for what no column of a table has, with the names that the files have."""
    if dropped_rows.answers_all(table):
        return []
    groups = {"a title": ("publication_title",), "an ISSN or ISBN": IDENTIFIERS, "a date": DATES}
    lost = [what for what, columns in groups.items() if not set(columns) & set(table.columns)]
    return [f"no column has {' or '.join(lost)}; the file has: {column_names.shown(names)}"] if lost else []
