"""The guards of rules that the cells of a row decide: whether a rule can hold on any row of a table. All other guards
may hold for some request."""
import dataclasses
import re
from collections import Counter
from collections.abc import Iterable, Mapping, Sequence

from openlink_update.slips.material import Material

_WHEN = re.compile(
    r"""when\ (?:(?P<kind>has|given|lacks)\ (?P<name>\S+)
            |(?P<same>\S+)\ is\ "(?P<text>(?:[^"\\]|\\.)*)"
            |(?P<number>\S+)\ from\ .*)""",
    re.X,
)
_ESCAPED = re.compile(r"\\(.)")
_EMPTY, _FILLED = 0, 1  # what a cell is to guards; the texts that they compare have the numbers after these


@dataclasses.dataclass(frozen=True)
class _Guard:
    """A guard on a name: that it is empty, filled, or one text."""

    name: str
    text: str | None  # None: it compares with none
    is_empty: bool
    line: str


@dataclasses.dataclass(frozen=True)
class Rule:
    number: int
    guards: tuple[_Guard, ...]
    lines: tuple[str, ...]


def _guard_of(line: str) -> _Guard | None:
    match = _WHEN.fullmatch(line)
    if match is None:
        return None
    name = match["name"] or match["same"] or match["number"]
    text = None if match["text"] is None else _ESCAPED.sub(r"\1", match["text"])
    return _Guard(name, text, match["kind"] == "lacks", line)


def rules_of(data: bytes) -> list[Rule]:
    """The rules of a file that the compiler has accepted."""
    lines = data.decode("utf-8", "replace").replace("\r\n", "\n").split("\n")
    blocks: list[list[str]] = []
    for line in lines:
        if line == "rule":
            blocks.append([])
        elif blocks and line.startswith(("when ", "link ")):
            blocks[-1].append(line)
    return [
        Rule(number, tuple(filter(None, map(_guard_of, block))), tuple(block)) for number, block in enumerate(blocks, 1)
    ]


def compared(rules: Iterable[Rule]) -> dict[str, set[str]]:
    """The texts that guards compare each name with."""
    texts: dict[str, set[str]] = {}
    for guard in (guard for rule in rules for guard in rule.guards):
        if guard.text is not None:
            texts.setdefault(guard.name, set()).add(guard.text)
    return texts


class Forms:
    """How the rows of a table differ to rules, and how many rows have each form."""

    def __init__(self, rules: Sequence[Rule], columns: Iterable[str], material: Material) -> None:
        """Only guards on these columns count. One that the table lacks is empty in all rows."""
        named = {guard.name for rule in rules for guard in rule.guards}
        self._names = [column for column in dict.fromkeys(columns) if column in named]
        texts = compared(rules)
        self._codes: Mapping[str, dict[str, int]] = {
            name: {"": _EMPTY, **{text: _FILLED + 1 + at for at, text in enumerate(sorted(texts.get(name, ())))}}
            for name in self._names
        }
        coded = []
        for name in self._names:
            codes = self._codes[name]
            coded.append([codes.get(text, _FILLED) for text in material.cells(name)])
        rows = len(material.table.rows)
        self._counts = Counter(zip(*coded)) if coded else Counter({(): rows} if rows else {})

    def _holds(self, rule: Rule, form: tuple[int, ...]) -> bool:
        cells = dict(zip(self._names, form))
        for guard in rule.guards:
            if guard.name not in cells:
                continue
            cell = cells[guard.name]
            if guard.text is not None:
                if cell != self._codes[guard.name].get(guard.text):
                    return False
            elif (cell == _EMPTY) != guard.is_empty:
                return False
        return True

    def count(self, rules: Sequence[Rule]) -> int:
        """The number of rows on which at least one of the rules can hold."""
        return sum(count for form, count in self._counts.items() if any(self._holds(rule, form) for rule in rules))
