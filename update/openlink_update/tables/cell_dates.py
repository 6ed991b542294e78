"""Dates in the cells of a table as the standard writes them: YYYY, YYYY-MM or YYYY-MM-DD. A date that can be read in
two ways becomes its year, and a day that does not exist its month; with dots the day comes first. A date without a
year, or with two, stays as it is, for `inspect` to warn of."""
import datetime
import re

_STANDARD = re.compile(r"\d{4}(?:-\d\d(?:-\d\d)?)?", re.A)
_YEAR = re.compile(r"(?<!\d)(1[4-9]\d\d|20\d\d|9999)(?!\d)", re.A)
_TIME = re.compile(r"[T ]\d\d?:\d\d(?::\d\d(?:\.\d+)?)?(?: ?[AP]M)?(?:Z|[+-]\d\d:?\d\d)?$", re.A | re.I)
_PARTS = re.compile(r"[^0-9a-z]+")
_DIGITS = re.compile(r"\d{8}", re.A)
_DOTTED = re.compile(r"(\d{1,2})\. ?(\d{1,2})\. ?(1[4-9]\d\d|20\d\d)", re.A)  # the day comes first
_MONTHS = {
    name[:length]: number
    for number, name in enumerate(
        "january february march april may june july august september october november december".split(), 1
    )
    for length in {3, 4, len(name)}
}


def standard(text: str) -> str:
    """A date as the standard writes it; the text itself if it has no year, or two."""
    if _STANDARD.fullmatch(text) and _is_date(text):
        return text
    day = _TIME.sub("", text)
    years: set[str] = set(_YEAR.findall(day))
    readings = {it for it in _readings_of(day) if it}
    if len(readings) == 1:
        return readings.pop()
    years |= {reading[:4] for reading in readings}
    return years.pop() if len(years) == 1 else text


def _is_date(text: str) -> bool:
    """Whether a year, month or day of the standard's form exists."""
    try:
        datetime.date(int(text[:4]), int(text[5:7] or 1), int(text[8:] or 1))
        return True
    except ValueError:
        return False


def _date_of(year: int | str, month: int | str, day: int | str | None = None) -> str:
    """A month or day in the standard's form: the month if it has no such day, '' if there is no such month."""
    text = f"{int(year):04}-{int(month):02}"
    if day is not None and _is_date(f"{text}-{int(day):02}"):
        return f"{text}-{int(day):02}"
    return text if _is_date(text) else ""


def _readings_of(text: str) -> list[str]:
    """The dates that a text can mean, and '' for months that do not exist."""
    if _DIGITS.fullmatch(text):
        return _readings_of_digits(text[:4], text[4:])
    dotted = _DOTTED.fullmatch(text)
    if dotted and (date := _date_of(dotted[3], dotted[2], dotted[1])):
        return [date]
    parts = [part for part in _PARTS.split(text.lower()) if part]
    months = [_MONTHS.get(part) for part in parts]
    if sum(month is not None for month in months) == 1:
        return _readings_with_name(parts, months)
    return _readings_of_numbers(parts) if len(parts) in (2, 3) and all(map(str.isdecimal, parts)) else []


def _readings_of_digits(first: str, last: str) -> list[str]:
    """Those of two times four digits; two years are no date."""
    is_first, is_last = (_YEAR.fullmatch(part) is not None for part in (first, last))
    if is_first == is_last:
        return []
    return (
        [_date_of(first, last[:2], last[2:])]
        if is_first
        else [_date_of(last, first[:2], first[2:]), _date_of(last, first[2:], first[:2])]
    )


def _readings_with_name(parts: list[str], months: list[int | None]) -> list[str]:
    """Those of a month's name, a year and perhaps a day."""
    month = next(it for it in months if it)
    others = [part for part, it in zip(parts, months) if not it]
    years = [part for part in others if _YEAR.fullmatch(part)]
    days = [re.sub("(?:st|nd|rd|th)$", "", part) for part in others if not _YEAR.fullmatch(part)]
    if len(years) != 1 or not all(re.fullmatch(r"\d\d?", day, re.A) for day in days) or len(days) > 1:
        return []
    return [_date_of(years[0], month, *days)]


def _readings_of_numbers(parts: list[str]) -> list[str]:
    """Those of two or three numbers of which the first or the last is a year."""
    is_first, is_last = (_YEAR.fullmatch(part) is not None for part in (parts[0], parts[-1]))
    rest = parts[1:] if is_first else parts[:-1]
    if is_first == is_last or not all(len(part) <= 2 for part in rest):
        return []
    if is_first:
        return [_date_of(parts[0], *rest)]
    return [_date_of(parts[-1], *rest)] + ([_date_of(parts[-1], *reversed(rest))] if len(rest) == 2 else [])
