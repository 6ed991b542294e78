"""Draws some bugs with a seed: each kind as often as the others, as long as it has some."""
from __future__ import annotations

import random
from collections.abc import Callable

from planting.bug import KINDS
from planting.bug import Bug


def drawn(bugs: list[Bug], seed: int, number: int, is_good: Callable[[Bug], bool]) -> list[Bug]:
    source = random.Random(seed)
    left = {kind: [it for it in bugs if it.kind == kind] for kind in KINDS}
    for those in left.values():
        source.shuffle(those)
    found: list[Bug] = []
    while len(found) < number and any(left.values()):
        found += [it for it in [those.pop() for those in left.values() if those] if is_good(it)]
    return found[:number]
