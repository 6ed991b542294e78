"""Paths that may have * for any text: of several files the newest counts, by the date in its name, then by its name."""
import datetime
import os
import re
from collections.abc import Callable, Iterable

_DATE = re.compile(r"(?<!\d)(\d{4})(?:-(\d\d)-(\d\d)|(\d\d)(\d\d))(?!\d)", re.A)


def _date_in(name: str) -> str:
    """The last date in a name, as 2026-11-01 or 20261101; '' if there is none."""
    dates = ["".join(part for part in match.groups() if part) for match in _DATE.finditer(name)]
    return next((date for date in reversed(dates) if _is_date(date)), "")


def _is_date(digits: str) -> bool:
    try:
        datetime.date(int(digits[:4]), int(digits[4:6]), int(digits[6:]))
        return True
    except ValueError:
        return False


def newest(paths: Iterable[str]) -> str:
    return max(paths, key=lambda path: (_date_in(os.path.basename(path)), os.path.basename(path), path))


def path_of(pattern: str, matches: Callable[[str], list[str]]) -> str:
    """The file that a path means; the path itself if it has no * or no file matches. `matches` finds files."""
    paths = matches(pattern) if "*" in pattern else []
    return newest(paths) if paths else pattern
