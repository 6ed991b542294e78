"""Embargoes as KBART writes them: P1Y is all but the last year, R5Y only the last five years. A cell has one part, or
two with a semicolon between them, which both apply. All that the update makes of a cell reads it here."""
import calendar
import dataclasses
import datetime
import functools
import re

_FORM = re.compile(r"[RP]\d{1,5}[YMD](?:;[RP]\d{1,5}[YMD])?", re.A)
_PART = re.compile(r"([RP])(\d+)([YMD])", re.A)
_MONTH = len("2026-11")
# The days of each month of four years, of which one is a leap year.
_LENGTHS = tuple(calendar.monthrange(2001 + number // 12, number % 12 + 1)[1] for number in range(48))


def _before(day: datetime.date, number: int, unit: str) -> datetime.date:
    """The same day that many years, months or days before; the last of its month, if that has no such day."""
    if unit == "D":
        return day - datetime.timedelta(min(number, day.toordinal() - 1))
    year, month = divmod(day.year * 12 + day.month - 1 - number * (12 if unit == "Y" else 1), 12)
    if year < 1:
        return datetime.date.min
    return datetime.date(year, month + 1, min(day.day, calendar.monthrange(year, month + 1)[1]))


@dataclasses.dataclass(frozen=True)
class _Part:
    letter: str  # P closes the last days, R leaves only them open
    number: int
    unit: str  # Y, M or D


@dataclasses.dataclass(frozen=True)
class Embargo:
    text: str  # in capitals and without spaces
    parts: tuple[_Part, ...] = dataclasses.field(compare=False)  # those of the text

    @staticmethod
    @functools.lru_cache(maxsize=4096)  # the same cells come again
    def parse(cell: str) -> "Embargo | None":
        """The embargo in a cell; None if it has none, or words."""
        text = cell.replace(" ", "").upper()
        if not _FORM.fullmatch(text):
            return None
        parts = tuple(_Part(letter, int(number), unit) for letter, number, unit in _PART.findall(text))
        return Embargo(text, parts)

    @property
    def index_text(self) -> str:
        """As the index has it, in which a semicolon separates entries."""
        return self.text.replace(";", ",")

    @property
    def moves_daily(self) -> bool:
        """Whether a part counts in months or days."""
        return any(part.unit != "Y" for part in self.parts)

    def _days_before(self, letter: str, day: datetime.date) -> list[tuple[datetime.date, str]]:
        """The day before which each part with a letter counts, and the unit of the part."""
        return [(_before(day, part.number, part.unit), part.unit) for part in self.parts if part.letter == letter]

    @functools.lru_cache(maxsize=4096)
    def first_open(self, day: datetime.date) -> datetime.date | None:
        """The first day that the parts `R` leave open on a day: that after the one before which they count. None if
        there are none."""
        return max((it + datetime.timedelta(1) for it, _ in self._days_before("R", day)), default=None)

    @functools.lru_cache(maxsize=4096)
    def last_open(self, day: datetime.date) -> datetime.date | None:
        """The last day that the parts `P` leave open on a day. None if there are none."""
        return min((it for it, _ in self._days_before("P", day)), default=None)

    @functools.lru_cache(maxsize=4096)
    def wall(self, day: datetime.date) -> str:
        """The last date that the parts `P` leave open: a month, or a day if they count in days. '' if there are
        none."""
        walls = self._days_before("P", day)
        if not walls:
            return ""
        last, unit = min(walls)
        return last.isoformat() if unit == "D" else last.isoformat()[:_MONTH]

    def days_closed(self) -> int | None:
        """How many days the parts `P` close at most. None if there are none."""
        return max((_most_days(part) for part in self.parts if part.letter == "P"), default=None)


def _most_days(part: _Part) -> int:
    """The most days that a part can have, in whichever months, with leap years."""
    if part.unit == "D":
        return part.number
    cycles, months = divmod(part.number * (12 if part.unit == "Y" else 1), len(_LENGTHS))
    sums = (sum((_LENGTHS * 2)[start : start + months]) for start in range(len(_LENGTHS)))
    return cycles * sum(_LENGTHS) + max(sums)
