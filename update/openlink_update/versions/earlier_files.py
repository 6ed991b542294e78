"""The tables that a target had in earlier weeks, so that an old one is seen if it comes again. A version knows them by
lines of a target, the sum of its prepared table, and the day on which a version had it first."""
import datetime
import hashlib
from collections.abc import Iterable
from pathlib import Path

from openlink_update.input_files import cells_in

NAME = "earlier.tsv"
_MOST = 26  # that are remembered of a target


class EarlierFiles:
    def __init__(self, older: Path | None) -> None:
        """Those that an older version knows (None: there is none)."""
        self.days: dict[str, dict[str, str]] = {}  # by target: the day of each sum
        self._now: dict[str, str] = {}  # by target: the sum of this version
        path = older / NAME if older else None
        for target, total, day in cells_in(path, 3) if path and path.exists() else ():
            self.days.setdefault(target, {})[total] = day

    def put(self, target: str, table: bytes) -> None:
        """Takes the prepared table of a target as that of this version."""
        self._now[target] = hashlib.sha256(table).hexdigest()

    def day_of(self, target: str) -> str | None:
        """The day on which a version had the present table of a target first, or None."""
        return self.days.get(target, {}).get(self._now[target])

    def text(self, targets: Iterable[str], today: datetime.date) -> str:
        """What the next version has to know."""
        lines: list[str] = []
        for target in targets:
            now = self._now[target]
            days = {now: today.isoformat(), **self.days.get(target, {})}
            newest = sorted(days.items(), key=lambda item: (item[0] == now, item[1]))[-_MOST:]
            lines += (f"{target}\t{total}\t{day}\n" for total, day in newest)
        return "".join(lines)
