"""Charts as places and sizes, which a template writes as SVG. Their units are those of the narrowest window, so that
their texts are as large as others there."""
import dataclasses
from collections.abc import Sequence

_WIDTH, _LEFT, _TOP, _BOTTOM, _HEIGHT = 340, 44, 14, 34, 150
_ROW, _BAR = 36, 14  # heights of a row of horizontal bars, and of its bar
_STEPS = (1, 2, 5)
_MOST_CHARACTERS = 40  # of a label


@dataclasses.dataclass(frozen=True)
class _Bar:
    x: float
    y: float
    width: float
    height: float
    part: str  # `a` or `b`


@dataclasses.dataclass(frozen=True)
class _Label:
    x: float
    y: float
    text: str
    anchor: str = "middle"


@dataclasses.dataclass(frozen=True)
class Chart:
    width: int
    height: int
    bars: tuple[_Bar, ...]
    labels: tuple[_Label, ...]
    lines: tuple[float, ...] = ()  # heights of lines across


@dataclasses.dataclass(frozen=True)
class Pair:
    """What a bar shows: two parts of a number, and the names of both ends of its label."""

    label: str
    first: int
    second: int = 0
    below: str = ""


def _step_for(greatest: int) -> int:
    """A round number of which at most four steps reach the greatest number."""
    size = 1
    while True:
        for step in _STEPS:
            if step * size * 4 >= greatest:
                return step * size
        size *= 10


def short(number: int) -> str:
    """A number for the edge of a chart."""
    for size, letter in ((1_000_000_000, "G"), (1_000_000, "M"), (10_000, "k")):
        if number >= size:
            return f"{number / (1000 if letter == 'k' else size):g}{letter}"
    return str(number)


def columns(pairs: Sequence[Pair]) -> Chart:
    """Upright bars, the second part on the first, with lines and their numbers."""
    step = _step_for(max([1, *(it.first + it.second for it in pairs)]))
    steps = -(-max([1, *(it.first + it.second for it in pairs)]) // step)
    scale, place = _HEIGHT / (steps * step), (_WIDTH - _LEFT) / max(len(pairs), 1)
    base = _TOP + _HEIGHT
    bars, labels = [], []
    for number, it in enumerate(pairs):
        x, width = _LEFT + (number + 0.15) * place, 0.7 * place
        heights = round(it.first * scale, 1), round(it.second * scale, 1)
        bars.append(_Bar(round(x, 1), round(base - heights[0], 1), round(width, 1), heights[0], "a"))
        bars.append(_Bar(round(x, 1), round(base - sum(heights), 1), round(width, 1), heights[1], "b"))
        middle = round(x + width / 2, 1)
        labels += [_Label(middle, base + 13, it.label), _Label(middle, base + 27, it.below)]
    lines = tuple(round(base - number * step * scale, 1) for number in range(steps + 1))
    labels += [_Label(_LEFT - 5, line + 4, short(n * step), "end") for n, line in enumerate(lines)]
    return Chart(_WIDTH, base + _BOTTOM, tuple(it for it in bars if it.height), _with_text(labels), lines)


def rows(pairs: Sequence[Pair]) -> Chart:
    """Bars that lie below their labels, the second part after the first."""
    greatest = max([1, *(max(it.first, it.second) for it in pairs)])
    bars, labels = [], []
    for number, it in enumerate(pairs):
        y = number * _ROW
        name = it.label if len(it.label) <= _MOST_CHARACTERS else f"{it.label[:_MOST_CHARACTERS]}.."
        labels += [_Label(0, y + 13, name, "start"), _Label(_WIDTH, y + 13, it.below, "end")]
        height = _BAR if not it.second else _BAR / 2
        bars.append(_Bar(0, y + 18, round(it.first * _WIDTH / greatest, 1), height, "a"))
        bars.append(_Bar(0, y + 18 + height, round(it.second * _WIDTH / greatest, 1), height, "b"))
    return Chart(_WIDTH, len(pairs) * _ROW + 4, tuple(it for it in bars if it.width), _with_text(labels))


def _with_text(labels: Sequence[_Label]) -> tuple[_Label, ...]:
    return tuple(it for it in labels if it.text)
