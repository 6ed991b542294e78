"""What was asked for in vain most often, by title. A line of the log is MONTH NUMBER YEAR. Whoever sends requests
chooses the numbers: of very many, those that are rare are forgotten, so that a log of any size takes the same
memory."""
import hashlib
import re
from collections import Counter, defaultdict
from collections.abc import Iterable
from pathlib import Path

from openlink_update import shown_text
from openlink_update.counts import log_counts

_LINES = re.compile(
    rb"^(?:[ \t\r\f\v]*\d{4}-[01]\d[ \t]+(\d{4}-\d{3}[\dX]|97[89]\d{10})[ \t]+([12]\d{3}|-)[ \t\r\f\v]*|(.+))$\n?", re.M
)
_NO_YEAR = "-"
_MOST_PAIRS = 200_000  # of a number and a year
_MOST_NUMBERS = 1000  # whose titles are looked up
_MOST_TITLES = 100
_MOST_BUCKET = 2**24  # bytes of a file of the index
_MOST_TITLE = 500  # characters


class _Wanted:
    """How often each number and year was asked for; how many lines were read, and how many have another form."""

    def __init__(self) -> None:
        self.lines = 0
        self.unread = 0
        self.pairs: Counter[tuple[str, str]] = Counter()

    def add(self, block: bytes) -> None:
        """Counts whole lines."""
        for (number, year, other), times in Counter(_LINES.findall(block)).items():
            if number:
                self.pairs[number.decode(), year.decode()] += times
            elif not other.strip():
                continue
            else:
                self.unread += times
            self.lines += times
        if len(self.pairs) > _MOST_PAIRS:
            self.pairs = Counter(dict(self.pairs.most_common(_MOST_PAIRS // 2)))


def wanted_in(files: Iterable[log_counts.Readable]) -> _Wanted:
    wanted = _Wanted()
    for file in files:
        for block in log_counts.blocks_of(file):
            wanted.add(block)
    return wanted


def rows_of(wanted: _Wanted, index: Path) -> list[tuple[int, str, str, str]]:
    """Of the titles with the most requests: how many, the number, the title if the index has it, and the years. Numbers
    of one title are counted together."""
    years: defaultdict[tuple[str, str], Counter[str]] = defaultdict(Counter)
    titles = {number: _title_of(number, index) for number in _most_numbers(wanted)}
    for (number, year), times in wanted.pairs.items():
        if number in titles:
            years[titles[number]][year] += times
    rows = [(its.total(), *title, _years_text(its)) for title, its in years.items()]
    return sorted(rows, key=lambda row: (-row[0], row[1]))[:_MOST_TITLES]


def _most_numbers(wanted: _Wanted) -> list[str]:
    numbers: Counter[str] = Counter()
    for (number, _), times in wanted.pairs.items():
        numbers[number] += times
    return sorted(numbers, key=lambda number: (-numbers[number], number))[:_MOST_NUMBERS]


def _title_of(number: str, index: Path) -> tuple[str, str]:
    """The first number of the title that has this one, and the title; without an index the number, and nothing."""
    bucket = hashlib.md5(number.encode(), usedforsecurity=False).hexdigest()[:3]
    try:
        with (index / "keys" / bucket).open("rb") as file:
            lines = file.read(_MOST_BUCKET).decode(errors="replace").split("\n")
    except OSError:
        lines = []
    line = next((line for line in lines if line.startswith(f"{number}\t")), "")
    cells = [*line.split("\t"), "", "", ""]
    first = cells[3].partition(" ")[0] if line else number
    return shown_text.line_of(first), shown_text.line_of(cells[2], _MOST_TITLE)


def _years_text(years: Counter[str]) -> str:
    return ", ".join(f"{year} ({years[year]})" for year in sorted(years) if year != _NO_YEAR)
