"""The bugs that can be planted in a file of JavaScript, by its tokens."""
from __future__ import annotations

from collections.abc import Iterator

from measuring import javascript_tokens
from measuring.javascript_tokens import Token
from planting.bug import Bug

_OTHER = {"<": "<=", "<=": "<", ">": ">=", ">=": ">", "===": "!==", "!==": "==="}
_BOTH = {"&&": "||", "||": "&&"}
_WORDS = {"if", "for", "while", "switch", "catch", "function", "return", "typeof", "await", "new", "throw"}
_ANY_ORDER = {"max", "min"}  # of arguments
_METHODS = {"trim", "toLowerCase", "toUpperCase", "reverse", "sort"}
_NO_VALUES = {"return;", "return undefined;", "return false;"}  # what is undefined is as false


class _File:
    """A text, its tokens, and their brackets."""

    def __init__(self, path: str, text: str) -> None:
        self.path, self.text = path, text
        self.tokens = javascript_tokens.tokens(text)
        self.pairs = javascript_tokens.partners(self.tokens)
        self.begins = [
            *javascript_tokens.statements(self.tokens),
            *(first for first, _ in javascript_tokens.guarded(self.tokens)),
        ]

    def bug(self, kind: str, first: int, last: int, new: str) -> Bug:
        """These tokens, from the first to the last, are replaced."""
        return Bug(self.path, kind, self.tokens[first].start, self.tokens[last].end, new)

    def between(self, first: int, last: int) -> str:
        return self.text[self.tokens[first].start : self.tokens[last].end]

    def end_of_statement(self, at: int) -> int | None:
        """The place of the semicolon that ends a statement, None if it has a block of its own."""
        while at < len(self.tokens) and self.tokens[at].text not in (";", "}"):
            is_opening = self.tokens[at].kind == "sign" and self.tokens[at].text in ("(", "[", "{")
            at = self.pairs[at] + 1 if is_opening else at + 1
        return at if at < len(self.tokens) and self.tokens[at].text == ";" else None


def _of_token(file: _File, at: int, token: Token) -> Iterator[Bug]:
    if token.kind == "sign" and token.text in _OTHER:
        yield file.bug("comparison", at, at, _OTHER[token.text])
    elif token.kind == "sign" and token.text in _BOTH:
        yield file.bug("condition", at, at, _BOTH[token.text])
    elif token.kind == "number" and token.text.isdigit():
        yield file.bug("off by one", at, at, str(int(token.text) + 1))
        if int(token.text) > 0:
            yield file.bug("off by one", at, at, str(int(token.text) - 1))
        if int(token.text) > 3:
            yield file.bug("constant", at, at, str(int(token.text) * 10))
    elif token.kind == "text" and len(token.text) > 2 and file.tokens[at - 1].text != "from":
        yield file.bug("constant", at, at, f"{token.text[:-1]}x{token.text[-1]}")
    elif token.kind == "name" and token.text in ("true", "false"):
        yield file.bug("constant", at, at, "false" if token.text == "true" else "true")
    elif token.kind == "regex":
        yield from _of_regex(file, at, token)


def _of_regex(file: _File, at: int, token: Token) -> Iterator[Bug]:
    body, _, flags = token.text[1:].rpartition("/")
    if body.startswith("^"):
        yield file.bug("constant", at, at, f"/{body[1:]}/{flags}")
    if body.endswith("$") and not body.endswith("\\$"):
        yield file.bug("constant", at, at, f"/{body[:-1]}/{flags}")
    if flags:
        yield file.bug("constant", at, at, f"/{body}/{flags[1:]}")


def _arguments(file: _File, opening: int) -> list[tuple[int, int]]:
    """The first and the last token of each argument of a call."""
    found, first, at = [], opening + 1, opening + 1
    last = file.pairs[opening]
    while at < last:
        if file.tokens[at].text == "," and file.tokens[at].kind == "sign":
            found.append((first, at - 1))
            first = at + 1
        is_opening = file.tokens[at].kind == "sign" and file.tokens[at].text in ("(", "[", "{")
        at = file.pairs[at] + 1 if is_opening else at + 1
    return found + ([(first, last - 1)] if first < last else [])


def _of_call(file: _File, at: int) -> Iterator[Bug]:
    """A bracket after a name is that of a call, but after `function` or before the body of a function."""
    before, after = file.tokens[at - 1], file.tokens[file.pairs[at] + 1 :][:1]
    is_call = before.kind == "name" and before.text not in _WORDS and file.tokens[at - 2].text != "function"
    if not is_call or (after and after[0].text in ("{", "=>")):
        return
    given = _arguments(file, at)
    for left, right in zip(given, given[1:]) if before.text not in _ANY_ORDER else []:
        one, other = file.between(*left), file.between(*right)
        if one != other and "..." not in (file.tokens[left[0]].text, file.tokens[right[0]].text):
            between = file.text[file.tokens[left[1]].end : file.tokens[right[0]].start]
            yield file.bug("arguments", left[0], right[1], other + between + one)
    if before.text in _METHODS and not given and file.tokens[at - 2].text == ".":
        yield file.bug("call left out", at - 2, file.pairs[at], "")
    if before.text == "encodeURIComponent":
        yield file.bug("call left out", at - 1, at, "(")


def _of_statement(file: _File, at: int) -> Iterator[Bug]:
    token, end = file.tokens[at], file.end_of_statement(at)
    if end is None:
        return
    if token.text == "throw":
        yield file.bug("exception", at, end, ";")
    elif token.text in ("continue", "break"):
        yield file.bug("condition", at, end, ";")
    elif token.text == "return" and file.between(at, end) not in _NO_VALUES:
        yield file.bug("return", at, end, "return;")
    elif token.kind == "name" and token.text not in ("const", "let", "return") and file.tokens[end - 1].text == ")":
        # A statement that ends with a bracket is a call, or the value of one is assigned.
        if not any(it.text == "=" for it in file.tokens[at:end]):
            yield file.bug("call left out", at, end, ";")


def _of_bracket(file: _File, at: int) -> Iterator[Bug]:
    word = file.tokens[at - 1].text
    last = file.pairs[at]
    if word == "if":
        yield file.bug("condition", at, last, f"(!{file.between(at, last)})")
        yield file.bug("condition", at, last, "(true)")
        yield file.bug("condition", at, last, "(false)")
    elif word == "catch" and file.tokens[last + 1].text == "{" and file.pairs[last + 1] > last + 2:
        yield file.bug("exception", last + 1, file.pairs[last + 1], "{}")
    else:
        yield from _of_call(file, at)


def bugs(path: str, text: str) -> list[Bug]:
    file = _File(path, text)
    found: list[Bug] = []
    for at, token in enumerate(file.tokens):
        found += _of_token(file, at, token)
        if token.text == "(" and token.kind == "sign" and at:
            found += _of_bracket(file, at)
    for at in file.begins:
        found += _of_statement(file, at)
    return sorted(set(found), key=lambda it: (it.start, it.end, it.new))
