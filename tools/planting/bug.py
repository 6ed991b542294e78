"""A bug: a piece of a file, and what stands in its place."""
from __future__ import annotations

import dataclasses

# What a bug changes. Each kind is drawn as often as the others.
KINDS = (
    "comparison",
    "off by one",
    "arguments",
    "call left out",
    "constant",
    "condition",
    "exception",
    "return",
    "line",
)


@dataclasses.dataclass(frozen=True)
class Bug:
    path: str
    kind: str
    start: int  # offsets in the text of the file
    end: int
    new: str

    def applied(self, text: str) -> str:
        return text[: self.start] + self.new + text[self.end :]

    def number(self, text: str) -> int:
        """The number of its first line."""
        return text.count("\n", 0, self.start) + 1

    def lines(self, text: str) -> tuple[str, str]:
        """The old and the new text of its lines, without spaces before and after them."""
        begin = text.rfind("\n", 0, self.start) + 1
        end = text.find("\n", max(self.start, self.end - 1))
        end = len(text) if end < 0 else end
        old, new = text[begin:end], text[begin : self.start] + self.new + text[min(self.end, end) : end]
        return " ".join(old.split()), " ".join(new.split())
