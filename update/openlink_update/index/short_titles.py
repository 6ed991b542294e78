"""Journals by the beginnings of their words, by which the front door finds one whose title is abbreviated (`Rev Esp
Cardiol`). front_door/abbreviations.js makes the same words and keys.

The words of a title are those of its key, in their order, without what is in brackets, without stop words unless they
are last, and without the letter of an elision (`d'histoire`); `y` is none after `n` (`N Y`). The last words `USA` and
`United States of America` are left out. A key has the first letter of each word, and the first two of the last one; a
last word that is usually one letter (`J`) counts as the whole one. A title has up to three keys: with its subtitle,
without it, and of the subtitle alone if one word is before that (`JNCI: Journal of ..`).

A line of such a key has, after the words, what else a request may agree with: first and last year of all rows (`-` is
none), the publisher as a key, and the beginnings of DOIs that the cells of its rows have."""
import re
from collections.abc import Iterator, Sequence

from openlink_update.index.titles import MOST_CHARACTERS, key_of, plain, short

_BRACKETS = re.compile(r"[(\[][^()\[\]]*[)\]]")
_APOSTROPHES = str.maketrans("'`\u2018\u2019\xb4", "     ")
_STOP = frozenset(
    "a an and the of in on for to at by with from as or "
    "der die das des dem den und fur fuer im zur zum von aus mit "
    "de du la le les l d et en sur pour au aux un une "
    "el los las y del al con por para e da do dos das di della dello dei degli delle il lo gli i "
    "van voor het te og av om for i och pa s".split()
)
_WHOLE = {"j": "journal", "q": "quarterly", "z": "zeitschrift"}
_LAST = [it.split() for it in ("usa", "u s a", "of the united states of america", "united states of america")]
_BETWEEN = re.compile("^[ :=/\u2013\u2014-]+")
_PREFIX = re.compile(r"10\.[0-9]{4,9}(?=/|%2[Ff])")


def words_of(title: str) -> Sequence[str]:
    """The words of a title by which it is found, at least two; none if there are fewer."""
    words = key_of(_without_brackets(title).translate(_APOSTROPHES)).split()
    for last in _LAST:
        if words[-len(last) :] == last:
            words = words[: -len(last)]
    kept = [word for place, word in enumerate(words[:-1]) if not _is_stop(words, place)] + words[-1:]
    return kept if len(kept) > 1 else []


def _is_stop(words: list[str], place: int) -> bool:
    return words[place] in _STOP and not (words[place] == "y" and words[place - 1 : place] == ["n"])


def _without_brackets(title: str) -> str:
    return _BRACKETS.sub(" ", plain(title[:MOST_CHARACTERS]))


def initials_of(words: Sequence[str]) -> str:
    """The key of words."""
    return "".join(word[0] for word in words) + " " + _WHOLE.get(words[-1], words[-1])[:2]


def prefix_in(*cells: str) -> str:
    """The beginning of a DOI in the first of these cells that has one; '' if none has."""
    return next((match[0] for match in map(_PREFIX.search, cells) if match), "")


def keys_of(name: str) -> Iterator[tuple[str, str]]:
    """The keys of a title, whole and without its subtitle, each with its words."""
    text = _without_brackets(name)
    before = short(text)
    found = [words_of(name), words_of(before)]
    if before and " " not in before:
        found.append(words_of(_BETWEEN.sub("", text[len(before) :])))
    for words in dict.fromkeys(tuple(it) for it in found):
        if words:
            yield initials_of(words), " ".join(words)
