"""The work of openlink-counts."""
import dataclasses
import hashlib
import json
import os
import signal
import sys
from collections.abc import Callable, Iterable, Iterator, Sequence
from decimal import Decimal
from pathlib import Path
from typing import TypeVar

from openlink_update import shown_text
from openlink_update.counts import count_tables, counter_reports, costs, log_counts, log_files, side_by_side
from openlink_update.counts import wanted_titles, workbook
from openlink_update.counts.count_tables import Cell, CountTable
from openlink_update.outcome import Unreadable

_DONE, _NO_LINE, _WRONG, _NOT_READ = 0, 1, 2, 3
_INDEX = Path("/etc/openlink/current/index")
_FORMATS = ("tsv", "json", "xlsx")
_USAGE_TEXT = """\
usage: openlink-counts [--format tsv|json|xlsx] [--cost FILE] [--counter FILE].. [FILE..]
       openlink-counts --wanted [--index FOLDER] [FILE..]
"""
_Read = TypeVar("_Read")


@dataclasses.dataclass(frozen=True)
class _Arguments:
    logs: list[str]
    format: str = ""
    cost: str = ""
    reports: tuple[str, ...] = ()
    is_wanted: bool = False
    index: Path = _INDEX


class _WrongArguments(Exception):
    pass


def main(words: list[str] | None = None) -> int:
    signal.signal(signal.SIGPIPE, signal.SIG_DFL)
    try:
        arguments = _parse(sys.argv[1:] if words is None else words)
    except _WrongArguments:
        sys.stderr.write(_USAGE_TEXT)
        return _WRONG
    for name in filter(None, [*arguments.logs, arguments.cost, *arguments.reports]):
        if not _is_readable(name):
            _complain(f"{name}: cannot be read")
            return _NOT_READ
    try:
        return _wanted(arguments) if arguments.is_wanted else _counts(arguments)
    except OSError as fault:
        _complain(f"{fault.filename or 'standard output'}: {fault.strerror}")
        return _NOT_READ


def _parse(words: Sequence[str]) -> _Arguments:
    """Options come before the logs. --counter takes one report; a log that begins as a report is one, too."""
    rest = list(words)
    values: dict[str, list[str]] = {"--format": [], "--cost": [], "--counter": [], "--index": []}
    is_wanted = rest[:1] == ["--wanted"]
    rest = rest[is_wanted:]
    while rest and rest[0] in values:
        if len(rest) < 2 or not rest[1]:
            raise _WrongArguments
        values[rest[0]].append(rest[1])
        rest = rest[2:]
    if rest[:1] == ["--"]:
        rest = rest[1:]
    given = {name for name, its in values.items() if its}
    most = {"--index"} if is_wanted else {"--format", "--cost", "--counter"}
    is_twice = any(len(values[name]) > 1 for name in ("--format", "--cost", "--index"))
    form = "".join(values["--format"])
    is_tsv_of_two = form in ("", "tsv") and {"--cost", "--counter"} <= given
    if is_twice or given - most or is_tsv_of_two or (form and form not in _FORMATS):
        raise _WrongArguments
    if any(word.startswith("-") for word in rest):
        raise _WrongArguments
    index = Path(values["--index"][0]) if values["--index"] else _INDEX
    return _Arguments(rest, form, "".join(values["--cost"]), tuple(values["--counter"]), is_wanted, index)


def _is_readable(name: str) -> bool:
    return os.path.isfile(name) and os.access(name, os.R_OK)


def _complain(line: str) -> None:
    shown_text.report(f"openlink-counts: {line}", "stderr")


def _wanted(arguments: _Arguments) -> int:
    faults: list[str] = []
    wanted = wanted_titles.wanted_in(_logs(arguments.logs, faults))
    table = CountTable(
        "wanted", ("requests", "number", "title", "years"), wanted_titles.rows_of(wanted, arguments.index)
    )
    _write_text(f"{text}\n" for text in _plain_lines(table))
    return _end(wanted.lines, wanted.unread, faults)


def _counts(arguments: _Arguments) -> int:
    if arguments.format == "xlsx" and sys.stdout.isatty():
        _complain("a spreadsheet is not written to a terminal")
        return _WRONG
    logs, reports = arguments.logs, list(arguments.reports)
    if reports:
        reports = list(dict.fromkeys([*reports, *filter(_begins_as_report, logs)]))
        logs = [name for name in logs if name not in reports]
    faults: list[str] = []
    cost = _read(arguments.cost, costs.costs_in, costs.MOST_BYTES, faults) if arguments.cost else None
    titles = _reports(reports, faults)
    rows, lines, unread = _counted(_logs(logs, faults))
    more = [costs.cost_table(cost, rows)] if cost is not None else []
    if arguments.reports:
        more.append(side_by_side.table_of(titles, rows))
    _write(arguments.format, rows, more)
    return _end(lines, unread, faults)


def _counted(logs: Iterable[log_files.LogFile]) -> tuple[list[log_counts.Row], int, int]:
    """The table of these logs, how many lines they have, and how many of these have another form."""
    counts = log_counts.counts_of(logs)
    return counts.rows(), counts.lines, counts.unread


def _end(lines: int, unread: int, faults: Sequence[str]) -> int:
    if unread:
        _complain(f"{unread} of {lines} lines have another form")
    if faults:
        return _NOT_READ
    return _NO_LINE if lines > 0 and unread == lines else _DONE


def _logs(names: list[str], faults: list[str]) -> Iterator[log_files.LogFile]:
    """Opens each log. One that breaks off is a fault, and the next one is read."""
    for log in log_files.open_logs(names):
        yield log
        if log.fault:
            _add_fault(f"{log.name}: {log.fault}", faults)


def _add_fault(line: str, faults: list[str]) -> None:
    _complain(line)
    faults.append(line)


def _begins_as_report(name: str) -> bool:
    with open(name, "rb") as file:
        return counter_reports.is_report(file.read(counter_reports.START))


def _reports(names: Iterable[str], faults: list[str]) -> list[list[counter_reports.Title]]:
    reports, seen = [], dict[bytes, str]()
    for name in names:
        titles = _read(name, lambda data: _titles_in(data, name, seen), counter_reports.MOST_BYTES, faults)
        if titles is not None:
            reports.append(titles)
    return reports


def _titles_in(data: bytes, name: str, seen: dict[bytes, str]) -> list[counter_reports.Title]:
    """A report that is given twice would count twice."""
    first = seen.setdefault(hashlib.sha256(data).digest(), name)
    if first != name:
        raise Unreadable(f"the same report as {first}")
    return counter_reports.titles_in(data)


def _read(name: str, parse: Callable[[bytes], _Read], most: int, faults: list[str]) -> _Read | None:
    """What a file has; None if it has another form. Then a line says what is wrong, and where."""
    with open(name, "rb") as file:
        data = file.read(most + 1)
    try:
        return parse(data)
    except Unreadable as fault:
        _add_fault(f"{name}: {fault}", faults)
        return None


def _write(form: str, rows: Sequence[log_counts.Row], more: Sequence[CountTable]) -> None:
    """Prints the counts; as TSV, which has one table, in their place what else there is."""
    if form == "xlsx":
        workbook.write([*count_tables.tables_of(rows), *more], sys.stdout.buffer)
        sys.stdout.buffer.flush()
    elif form == "json":
        _write_text(_json_lines([*count_tables.tables_of(rows), *more]))
    else:
        table = more[0] if more else CountTable("counts", ("month", "counted", "name", "number"), rows)
        lines = map(shown_text.row, _texts(table)) if more else _plain_lines(table)
        _write_text(f"{line}\n" for line in lines)


def _write_text(texts: Iterable[str]) -> None:
    for text in texts:
        sys.stdout.buffer.write(text.encode(errors="replace"))
    sys.stdout.buffer.flush()


def _plain_lines(table: CountTable) -> Iterator[str]:
    return map("\t".join, _texts(table))


def _texts(table: CountTable) -> Iterator[list[str]]:
    for row in table.columns, *table.rows:
        yield ["" if cell is None else str(cell) for cell in row]


def _json_lines(tables: Iterable[CountTable]) -> Iterator[str]:
    """An object with a list for each table, whose items are objects by the names of the columns."""
    before = "{\n"
    for table in tables:
        yield f"{before}{json.dumps(table.name)}: ["
        for number, row in enumerate(table.rows):
            cells = (f"{json.dumps(name)}: {_json(cell)}" for name, cell in zip(table.columns, row))
            yield f"{',' if number else ''}\n  {{{', '.join(cells)}}}"
        yield "]"
        before = ",\n"
    yield "\n}\n"


def _json(cell: Cell) -> str:
    return str(cell) if isinstance(cell, Decimal) else json.dumps(cell)
