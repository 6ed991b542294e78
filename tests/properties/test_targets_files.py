"""targets.json: what the update accepts, nginx reads, and finds the same in it."""
from __future__ import annotations

import json
import math
import re
from typing import Any

from fixtures import needs
from openlink_update.site import targets_file
from properties import njs
from properties.property_case import PropertyCase
from properties.property_case import cases_of
from properties.property_case import strategies as st

# Numbers that njs reads and JSON does not have.
_LAX = re.compile(r"(?<![\w.+-])-?(?:0\d[\d.]*|\d+\.(?!\d)|\.\d)")
# Texts in the place of a value.
_RAW = r"""01 1. .5 -01 00 1e5 1E400 -0 0x1 NaN Infinity -Infinity "\ud800" "\ud83d\ude00"
    "\u0000" "\x41" {"a":1,"a":2} {"\udc00":1}
    nul True 'a' [1,] {"a":1,} 123456789012345678901234567890""".split()
# Pieces of a text, some of which JSON has in no place, or in few.
_PIECES = (
    "01 1. .5 -01 00 - + 1e5 1e 0x1 NaN Infinity -Infinity , : [ ] { } tru null true ,, [1,] // /**/ ' \""
    ' \\ \\u12 \\ud800 \\udc00 \\x41 {"a":1,"a":2} \t \x01 \xa0 \ufeff \u2028'
).split(" ")


def _without_halves(text: str) -> str:
    return text.encode("utf-8", "ignore").decode("utf-8")


def _values() -> Any:
    names = st.sampled_from(("en", "A", "name", "label", "groups", "\U0001f600", "\xe9"))
    texts = st.one_of(st.text(max_size=6).map(_without_halves), names)
    numbers = st.one_of(st.integers(-(10**6), 10**6), st.floats(-1e6, 1e6, allow_nan=False))
    raw = st.integers(0, len(_RAW) - 1).map("@{}@".format)
    leaves = st.one_of(st.none(), st.booleans(), numbers, texts, texts, raw)
    return st.recursive(
        leaves, lambda it: st.one_of(st.lists(it, max_size=3), st.dictionaries(texts, it, max_size=3)), max_leaves=8
    )


def _texts() -> Any:
    """An object as JSON writes it, often with another piece in one place."""

    def text(value: Any, is_ascii: bool, piece: str, at: int, length: int) -> str:
        whole = json.dumps({"groups": value}, ensure_ascii=is_ascii)
        whole = re.sub(r'"@(\d+)@"(?!:)', lambda found: _RAW[int(found[1])], whole)
        place = at % (len(whole) + 1)
        return whole[:place] + piece + whole[place + length :] if piece else whole

    piece = st.one_of(st.just(""), st.sampled_from(_PIECES), st.text(max_size=2).map(_without_halves))
    return st.builds(text, _values(), st.booleans(), piece, st.integers(0, 200), st.integers(0, 2))


def shape_of(value: Any) -> Any:
    """A value without the kinds of numbers that njs does not have, or does not write."""
    if isinstance(value, dict):
        return {name: shape_of(member) for name, member in value.items()}
    if isinstance(value, list):
        return [shape_of(member) for member in value]
    if isinstance(value, (int, float)) and not isinstance(value, bool):
        return float(value) if math.isfinite(value) else None
    return value


def is_known(text: str, faults: list[str]) -> bool:
    """Whether the update refuses what njs reads for one of these reasons: names that occur twice, halves of characters,
    or a number that JSON does not have, which counts nowhere."""
    known = ("occurs more than once", "half of a character")
    outside = re.sub(r'"(?:[^"\\]|\\.)*"', '""', text)
    return all(any(it in fault for it in known) for fault in faults) or _LAX.search(outside) is not None


@needs.hypothesis()
@needs.command("njs")
class TargetsFiles(PropertyCase):
    def test_python_and_njs_agree(self) -> None:
        texts = cases_of(_texts())
        self.expect_cases(len(texts))
        found = njs.results_of("targets.js", texts)
        self.expect("results", len(found), len(texts))
        other, refused, both = [], [], 0
        for text, (is_read, *values) in zip(texts, found):
            faults: list[str] = []
            value = targets_file.parsed(text.encode(), faults)
            if value is not None:
                both += is_read
                if not is_read or shape_of(value) != shape_of(values[0]):
                    other.append((text, value, values))
            elif is_read and isinstance(values[0], dict) and not is_known(text, faults):
                refused.append((text, faults))
        self.expect_none("what the update accepts and njs reads in another way", other)
        self.expect_none("what the update refuses and njs reads", refused)
        self.expect(f"{both} are read by both", both > len(texts) // 10)
