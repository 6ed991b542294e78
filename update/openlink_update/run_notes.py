"""What a run says of its work for its record, beside what it prints: each line, the state of each target, the result of
each fetch and each probe. A library's user passes its notes on to the process of root, which keeps them as texts."""
import dataclasses
import json
from collections.abc import Callable, Sequence

LINE, TARGET, FETCH, PROBE = "line", "target", "fetch", "probe"
NEW, CHANGED, KEPT, SAME, LEFT_OUT, GONE = "new", "changed", "kept", "unchanged", "left out", "gone"
STATES = (NEW, CHANGED, KEPT, SAME, LEFT_OUT, GONE)
_NUMBERS_OF_LINES, _MOST_CHARACTERS = (40, 20, 10, 0), 300  # of a target, and of a line
_MOST_BYTES = 30_000  # of a note, which is part of a message of rights/sandbox.py
_Hearer = Callable[[str, str], None]  # takes the kind of a note, and its text


@dataclasses.dataclass(frozen=True)
class TargetState:
    """What became of a target in a run, and the lines about it."""

    name: str
    state: str
    rows: int = 0
    added: int = 0
    gone: int = 0
    lines: tuple[str, ...] = ()


@dataclasses.dataclass(frozen=True)
class ProbeResult:
    number: int  # of its line
    query: str
    targets: str  # that it must show
    holds: bool


class _Ears:
    """Who hears the notes of this process."""

    def __init__(self) -> None:
        self.hearer: _Hearer | None = None


_EARS = _Ears()


def hear(hearer: _Hearer | None) -> None:
    """From now on the notes of this process go there; with None nowhere."""
    _EARS.hearer = hearer


def note(kind: str, text: str) -> None:
    if _EARS.hearer is not None:
        _EARS.hearer(kind, text)


def note_target(state: TargetState) -> None:
    """Notes a target, with as many of its lines as there is room for."""
    for most in _NUMBERS_OF_LINES:
        members = {**dataclasses.asdict(state), "lines": _bounded(state.lines, most)}
        text = json.dumps(members, ensure_ascii=False)
        if len(text.encode("utf-8", "replace")) <= _MOST_BYTES:
            break
    note(TARGET, text)


def note_fetch(file: str, line: str) -> None:
    note(FETCH, json.dumps(_bounded([file, line]), ensure_ascii=False))


def note_probe(result: ProbeResult) -> None:
    query, targets = _bounded([result.query, result.targets])
    short = dataclasses.replace(result, query=query, targets=targets)
    note(PROBE, json.dumps(dataclasses.asdict(short), ensure_ascii=False))


def _bounded(lines: Sequence[str], most: int = 2) -> list[str]:
    """The first lines, each cut."""
    short = [it if len(it) <= _MOST_CHARACTERS else f"{it[:_MOST_CHARACTERS]}.." for it in lines[:most]]
    left_out = len(lines) - len(short)
    return [*short, f".. {left_out} more"] if left_out else short
