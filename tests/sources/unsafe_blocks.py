"""The `unsafe` of the crates: a page names the file, the function and the condition of each, which the function's
contract requires. So whoever audits them finds all of them there."""
from __future__ import annotations

import re
from collections.abc import Iterator

PAGE = "docs/DECISIONS.md"
UNSAFE = re.compile(r"\bunsafe\b")
FUNCTION = re.compile(r"^\s*(?:pub(?:\([^)]*\))? )?(?:const )?fn (\w+)", re.M)
# Comments, strings and characters, in which the word is no keyword.
TEXT = re.compile(r"""//[^\n]*|"(?:[^"\\]|\\.)*"|'(?:[^'\\\n]|\\.)'""", re.S)
# An item of the page's sentence: `append` in [`printing.rt`](../crates/..) `IsUriText`
NAMED = re.compile(r"`(\w+)` in \[`[\w.]+`\]\(\.\./(crates/[^)]*\.rt)\) `(\w+)`")


def in_sources(sources: list[tuple[str, str]]) -> Iterator[tuple[str, str, str]]:
    """Yields the path, the function, and the text of the contract's conditions, for each `unsafe` of sources, pairs of
    a path and a text."""
    for path, text in ((path, TEXT.sub("", text)) for path, text in sources):
        for found in UNSAFE.finditer(text):
            heads = [*FUNCTION.finditer(text, 0, found.start())]
            contract = text[heads[-1].start() : found.start()] if heads else ""
            name = heads[-1][1] if heads else "no function"
            yield path, name, " ".join(re.findall(r"\brequires\b[^{]*\{[^}]*\}", contract))


def faults(sources: list[tuple[str, str]], page: str) -> Iterator[str]:
    """Yields what differs between the sources and the page, whose text is `page`."""
    found = sorted(in_sources(sources))
    named = sorted((path, name, condition) for name, path, condition in NAMED.findall(page))
    if not found:
        yield "no source has an unsafe block, so none was compared"
    if [it[:2] for it in found] != [it[:2] for it in named]:
        yield f"{PAGE}: the unsafe blocks are {[it[:2] for it in found]}, and it names {[it[:2] for it in named]}"
        return
    for (path, name, contract), (_, _, condition) in zip(found, named):
        if not re.search(rf"\b{condition}\b", contract):
            yield f"{PAGE}: the contract of {name} in {path} does not require {condition}"
