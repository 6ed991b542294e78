"""The check digits of ISSNs and ISBNs. A number whose digit does not fit was mistyped, or is not the number of a
title: no request has it."""
from collections.abc import Sequence

from openlink_update.tables.identifiers import form_of

_ONES = {**{str(digit): digit for digit in range(10)}, "X": 10, "x": 10}


def _sums(first: int, second: int) -> dict[str, int]:
    """The weighted sum of each two digits with these weights."""
    return {f"{number:02}": number // 10 * first + number % 10 * second for number in range(100)}


# The weighted sum of the first four digits of an ISSN, and what that of its hyphen with the four after it lacks, both
# modulo 11: in a right number they are the same. Pairs of digits are added, since each run of the update makes these.
_HEADS = {a + b: (first + second) % 11 for a, first in _sums(8, 7).items() for b, second in _sums(6, 5).items()}
_TAILS = {
    f"-{pair}{digit}{last}": -(first + 2 * int(digit) + one) % 11
    for pair, first in _sums(4, 3).items()
    for digit in "0123456789"
    for last, one in _ONES.items()
}


def _fits_issn(form: str) -> bool:
    return _HEADS[form[:4]] == _TAILS[form[4:]]


def _fits_long(form: str) -> bool:
    digits = form.encode()  # the codes of the digits add a multiple of ten
    return (sum(digits[::2]) + 3 * sum(digits[1::2])) % 10 == 0


def _fits_short(form: str) -> bool:
    return sum(_ONES[digit] * weight for digit, weight in zip(form, range(10, 0, -1))) % 11 == 0


def is_wrong(cell: str) -> bool:
    """Whether a cell has a number whose check digit does not fit."""
    if len(cell) == 9:
        head, tail = _HEADS.get(cell[:4]), _TAILS.get(cell[4:])
        if head is not None and tail is not None:
            return head != tail
    elif len(cell) == 13 and cell.isascii() and cell.isdecimal():
        return cell[:3] in ("978", "979") and not _fits_long(cell)
    form = form_of(cell)
    if not form:
        return False
    if len(form) == 9:
        return not _fits_issn(form)
    return not (_fits_long(form) if len(form) == 13 else _fits_short(form))


def wrong_places(cells: Sequence[str]) -> list[int]:
    """The places of the cells that are wrong. Most numbers of most tables are right ISSNs: one comparison each."""
    head, tail = _HEADS.get, _TAILS.get
    odd = [place for place, text in enumerate(cells) if text and head(text[:4]) != tail(text[4:], -1)]
    return [place for place in odd if is_wrong(cells[place])]
