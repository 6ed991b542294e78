"""Slips that single cells of a table show: numbers, dates, volumes, notes."""
import re
from collections import Counter
from collections.abc import Callable

from openlink_update.slips.material import FEW, TITLE, Found, Material, Pair
from openlink_update.received.column_names import IDENTIFIERS
from openlink_update.tables.cells import ANY
from openlink_update.tables.check_digits import is_wrong, wrong_places
from openlink_update.tables.coverage import day_in

_FIRST, _LAST = "date_first_issue_online", "date_last_issue_online"
_VOLUMES = ("num_first_vol_online", "num_last_vol_online", "num_first_issue_online", "num_last_issue_online")
_NOTES = ("notes", "coverage_notes")
_NUMBER = re.compile(r"\d{1,9}(?!\d)", re.A)  # as the program reads one at the beginning of a cell
_LEAST_SAME = 10  # rows of a table in which most may not have one number
_UNIT = r"\W*(?:days?|weeks?|months?|years?|yrs?|tage?n?|monate?n?|jahre?n?|jours?|mois|ans?|mes(?:es)?|a[nñ]os?)\b"
_EMBARGO = re.compile(r"embargo|moving wall|sperrfrist|delayed?\b|barri[eè]re mobile", re.I)
_TIME = re.compile(rf"\b(?:\d+|one|two|three|six|twelve|ein|zwei|un|deux){_UNIT}|\b[PR]\d+[YMD]\b", re.I)
_NO_EMBARGO = re.compile(r"\b(?:no|without|kein|keine|ohne|sans|sin)\b[^.;]{0,20}(?:embargo|delay|sperrfrist)", re.I)
_YEAR = r"(?:1[4-9]|20)\d\d"
_TO = r"[^0-9]{0,20}(?:-|–|—|\bto\b|\bbis\b)[^0-9]{0,20}"
_RANGE = re.compile(rf"\b{_YEAR}\b{_TO}(?:\b{_YEAR}\b|present|current|heute|$)", re.I)


def words_of_digits(column: str) -> str:
    return f"check digits of {column} wrong"


def wrong_digits(column: str) -> Callable[[Pair], Found | None]:
    """Numbers of a column whose check digit does not fit. Where the version before has none, only others are tried."""

    def find(pair: Pair) -> Found | None:
        cells = pair.now.cells(column)
        if pair.before is None or words_of_digits(column) not in pair.clean:
            return pair.now.found(wrong_places(cells), cells)
        wrong = set(filter(is_wrong, set(cells).difference(pair.before.cells(column))))
        return pair.now.found([place for place, text in enumerate(cells) if text in wrong], cells) if wrong else None

    return find


def no_first_date(pair: Pair) -> Found | None:
    """Journals none of which has a first date. A table that never had the column has none to lose."""
    now = pair.now
    if not now.has(_FIRST) and (pair.before is None or not pair.before.has(_FIRST)):
        return None
    dates, embargoes, places = now.cells(_FIRST), now.cells("embargo_info"), []
    for place, date in enumerate(dates):
        if now.is_journal(place) and not embargoes[place].upper().startswith("R"):
            if date:
                return None
            places.append(place)
    return now.found(places, dates) if len(places) > FEW else None


def after_today(pair: Pair) -> Found | None:
    """First dates that are yet to come."""
    cells, year = pair.now.cells(_FIRST), f"{pair.today.year:04}"
    day = pair.today.year * 10000 + pair.today.month * 100 + pair.today.day
    late = {text for text in set(cells) if text[:4] >= year and (day_in(text, False) or 0) > day}
    return pair.now.found([place for place, text in enumerate(cells) if text in late], cells) if late else None


def reversed_dates(pair: Pair) -> Found | None:
    """First dates after the last ones, which preparation has counted."""
    pairs = pair.now.reversed
    return Found(len(pairs), pair.now.count, f"{pairs[0][0]} and {pairs[0][1]}") if pairs else None


def no_volumes(pair: Pair) -> Found | None:
    """Columns of volumes or issues none of whose cells begins with a number."""
    places: set[int] = set()
    texts = [""] * len(pair.now.table.rows)
    for column in _VOLUMES:
        cells = pair.now.cells(column)
        if not any(cells) or any(map(_NUMBER.match, cells)):
            continue
        filled = [place for place, text in enumerate(cells) if text]
        if len(filled) > FEW:
            places.update(filled)
            for place in filled:
                texts[place] = texts[place] or f"{column} {cells[place]}"
    return pair.now.found(sorted(places), texts)


def abstracts_alone(pair: Pair) -> Found | None:
    """A table that has abstracts and nothing else, unless the rules name them."""
    cells = pair.now.cells("coverage_depth")
    texts = Counter(cells)
    texts.pop("", None)
    if {text.lower() for text in texts} - {"abstract", "abstracts"} or b'is "abstracts"' in (pair.now.rules or b""):
        return None
    places = [place for place, text in enumerate(cells) if text]
    return pair.now.found(places, cells) if len(places) > FEW else None


def _notes_of(material: Material) -> list[str]:
    one, other = map(material.cells, _NOTES)
    return one if not any(other) else [" ".join(filter(None, pair)) for pair in zip(one, other)]


def embargo_in_notes(pair: Pair) -> Found | None:
    """Embargoes that the notes have, and the column of embargoes has not."""
    notes, embargoes = _notes_of(pair.now), pair.now.cells("embargo_info")
    if not any(notes):
        return None
    places = [place for place, text in enumerate(notes) if text and not embargoes[place] and _has_embargo(text)]
    return pair.now.found(places, notes)


def _has_embargo(text: str) -> bool:
    return _EMBARGO.search(text) is not None and _TIME.search(text) is not None and not _NO_EMBARGO.search(text)


def coverage_in_notes(pair: Pair) -> Found | None:
    """Years from and to in the notes of journals that have no dates and no volumes."""
    now, notes = pair.now, _notes_of(pair.now)
    if not any(notes):
        return None
    columns = [now.cells(column) for column in (_FIRST, _LAST, *_VOLUMES)]
    places = [
        place
        for place, text in enumerate(notes)
        if text and not any(cells[place] for cells in columns) and _RANGE.search(text) and now.is_journal(place)
    ]
    return now.found(places, notes)


def same_number(pair: Pair) -> Found | None:
    """One number that over half of the rows have, with different titles."""
    now, titles = pair.now, pair.now.cells(TITLE)
    for column in IDENTIFIERS:
        cells = now.cells(column)
        if len(cells) < _LEAST_SAME or len(set(cells)) * 2 > len(cells) + 2:
            continue
        counts = Counter(filter(None, cells)).most_common(1)
        if not counts or counts[0][0].upper() == ANY or counts[0][1] * 2 <= len(cells):
            continue
        places = [place for place, text in enumerate(cells) if text == counts[0][0]]
        if len({titles[place] for place in places}) > FEW:
            return now.found(places, cells)
    return None


def empty_columns(pair: Pair) -> Found | None:
    """Columns of numbers that have none, and had some before."""
    if pair.before is None or not pair.now.table.rows:
        return None
    lost: list[tuple[str, list[int]]] = []
    for column in (*IDENTIFIERS, *_VOLUMES):
        if not any(pair.now.cells(column)) and any(pair.before.cells(column)):
            cells = pair.before.cells(column)
            lost.append((column, [place for place, text in enumerate(cells) if text]))
    if not lost:
        return None
    places = {place for _, places in lost for place in places}
    first = f"{lost[0][0]}, {pair.before.cells(lost[0][0])[lost[0][1][0]]} before"
    return Found(len(places), len(pair.before.table.rows), first)
