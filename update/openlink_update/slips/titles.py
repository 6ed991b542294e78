"""Slips of titles: damaged letters, capitals, and titles that may have been sorted apart from their numbers."""
import re
import unicodedata
from collections.abc import Collection, Iterable, Iterator, Mapping
from functools import lru_cache

from openlink_update.slips.material import FEW, TITLE, Found, Material, Pair
from openlink_update.received.column_names import IDENTIFIERS

# How the second byte of a letter in UTF-8 reads in windows-1252 and ISO 8859-1.
_SECOND = "\x80-\xbf€‚ƒ„…†‡ˆ‰Š‹ŒŽ‘’“”•–—˜™š›œžŸ"
_DAMAGED = re.compile(f"[ÂÃ][{_SECOND}]|(?:[Ä-ß][{_SECOND}]){{2}}|[à-ï][{_SECOND}]{{2}}|\ufffd|ï¿½", re.U)
_SIGNS = re.compile(f"[{_SECOND}\ufffd]")  # one of which each damaged title has
_WORD = re.compile(r"\w{4,}")
_STEM = 4  # letters of a word that are compared, so that an abbreviation is the same
# The stems of words that titles share by chance.
_USUAL = set(
    "jour inte rese stud revi scie anna proc hand intr hist theo appl euro amer with from zeit revu reva bull tran "
    "soci univ worl adva".split()
)
_MOST_TRIED, _MOST_OTHER = 2000, 10  # rows that are compared first, and in 100, those with another title
_LETTERS = 10  # of a title in capitals; shorter ones are names, such as PLOS ONE


def damaged(pair: Pair) -> Found | None:
    """Titles with letters that were read in another encoding than they were written in."""
    cells = pair.now.cells(TITLE)
    odd = [place for place, text in enumerate(cells) if not text.isascii() and _SIGNS.search(text)]
    return pair.now.found([place for place in odd if _DAMAGED.search(cells[place])], cells)


def _in_capitals(text: str) -> bool:
    return text.isupper() and len(text) >= _LETTERS and " " in text


def capitals(pair: Pair) -> Found | None:
    """Titles in capitals alone, if most are, or if the version before has them in small letters too."""
    now, cells = pair.now, pair.now.cells(TITLE)
    places = [place for place, text in enumerate(cells) if text.isupper() and _in_capitals(text)]
    if len(places) <= FEW and pair.before is None:
        return None
    if len(places) * 2 <= len(cells) or len(places) <= FEW:
        small = (
            {text.upper() for text in pair.before.cells(TITLE) if not text.isupper()} if pair.before and places else ()
        )
        places = [place for place in places if cells[place] in small]
    return _alone(now, places)


def _alone(now: Material, places: list[int]) -> Found | None:
    return Found(len(places), len(now.table.rows), now.cells(TITLE)[places[0]]) if places else None


def _pairs(material: Material) -> Iterator[tuple[str, str]]:
    """The numbers of a table with their titles; of several titles of a number each."""
    titles = material.cells(TITLE)
    for column in IDENTIFIERS:
        yield from zip(material.cells(column), titles)


def other_titles(pair: Pair) -> Found | None:
    """Numbers that the version before knows under another title; where it knows few of them, the tables of the other
    targets. Of as many as are known."""
    now, before = pair.now, pair.before
    if not now.has(TITLE) or before is not None and _are_most_same(now, before):
        return None
    if before is not None:
        titles, known = dict(_pairs(now)), dict(_pairs(before))
        common = titles.keys() & known.keys() - {""}
        if len(common) * 2 >= len(titles):
            return _found_among(titles, known, common, list(_pairs(before)))
    known = dict(pair.others(number for number, _ in _pairs(now)))
    if not known:
        return None
    titles = {number: title for number, title in _pairs(now) if number in known}
    return _found_among(titles, known, titles.keys(), list(known.items()))


def _are_most_same(now: Material, before: Material) -> bool:
    """Whether so few of some rows, evenly spread, have another title than their numbers had that not enough of all rows
    can have one."""
    step = -(-len(now.table.rows) // _MOST_TRIED) or 1
    titles = now.cells(TITLE)[::step]
    other = tried = 0
    for column in IDENTIFIERS:
        numbers = now.cells(column)[::step]
        wanted = {*numbers} - {""}
        pairs = zip(before.cells(column), before.cells(TITLE))
        known = {number: title for number, title in pairs if number in wanted}
        had = [(title, known[number]) for number, title in zip(numbers, titles) if number in known]
        tried += len(had)
        other += sum(title != old for title, old in had)
    return tried * 2 >= len(titles) and other * 100 <= tried * _MOST_OTHER


def _found_among(
    titles: Mapping[str, str], known: Mapping[str, str], common: Collection[str], pairs: Iterable[tuple[str, str]]
) -> Found | None:
    """The numbers of a table with titles that are no titles of theirs in these pairs."""
    other = {number for number in common if titles[number] != known[number]}
    for number, title in pairs if other else ():
        if number in other and _is_same(titles[number], title):
            other.discard(number)
    if not other:
        return None
    first = next(number for number in titles if number in other)
    return Found(len(other), len(common), f"{first}, {titles[first]}, and {known[first]} elsewhere")


@lru_cache(maxsize=1 << 12)
def _stems(title: str) -> frozenset[str]:
    text = unicodedata.normalize("NFKD", title).casefold()
    plain = "".join(letter for letter in text if not unicodedata.combining(letter))
    return frozenset(word[:_STEM] for word in _WORD.findall(plain)) - _USUAL


def _is_same(one: str, other: str) -> bool:
    """Whether two titles may be of one work: they share half of the words of the shorter one, which may have none."""
    stems = _stems(one), _stems(other)
    least = min(map(len, stems))
    if one.casefold() == other.casefold() or not one or not other:
        return True
    return len(stems[0] & stems[1]) * 2 >= least
