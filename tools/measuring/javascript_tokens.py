"""The tokens of JavaScript, as far as front_door/*.js uses the language: no template has an expression with a brace."""
from __future__ import annotations

import re
from typing import NamedTuple

_TOKEN = re.compile(
    r"(?P<space>\s+|//[^\n]*|/\*.*?\*/)|(?P<text>'(?:\\.|[^'\\\n])*'|\"(?:\\.|[^\"\\\n])*\"|`(?:\\.|[^`\\])*`)"
    r"|(?P<number>0[xX][\da-fA-F]+|\d+(?:\.\d+)?(?:[eE][+-]?\d+)?)|(?P<name>[A-Za-z_$][\w$]*)"
    r"|(?P<sign>=>|\.\.\.|[=!]==|[<>=!]=|&&=?|\|\|=?|\?\?=?|\?\.(?!\d)|\+\+|--|<<=?|>>>?=?|\*\*=?|[-+*/%&|^]=?|.)",
    re.S,
)
_REGEX = re.compile(r"/(?:\\.|\[(?:\\.|[^\]\\\n])*\]|[^/\\\[\n])+/[a-z]*")
# After these words a slash begins a regular expression.
_BEFORE_REGEX = {"return", "typeof", "case", "in", "of", "delete", "void", "throw", "new", "else", "do", "await"}
_OPEN, _CLOSE = "([{", ")]}"


class Token(NamedTuple):
    kind: str  # "text", "regex", "number", "name" or "sign"
    text: str
    start: int  # of its first character

    @property
    def end(self) -> int:
        return self.start + len(self.text)


def _begins_regex(before: Token | None) -> bool:
    if before is None:
        return True
    if before.kind == "sign":
        return before.text not in (")", "]", "}")
    return before.kind == "name" and before.text in _BEFORE_REGEX


def tokens(text: str) -> list[Token]:
    found: list[Token] = []
    at = 0
    while at < len(text):
        is_comment = text.startswith(("//", "/*"), at)
        if text[at] == "/" and not is_comment and _begins_regex(found[-1] if found else None):
            regex = _REGEX.match(text, at)
            if regex:
                found.append(Token("regex", regex[0], at))
                at = regex.end()
                continue
        match = _TOKEN.match(text, at)
        assert match and match.lastgroup
        if match.lastgroup != "space":
            found.append(Token(match.lastgroup, match[0], at))
        at = match.end()
    return found


def partners(found: list[Token]) -> dict[int, int]:
    """The place in the list of the other bracket of each bracket."""
    pairs: dict[int, int] = {}
    opened: list[int] = []
    for at, token in enumerate(found):
        if token.kind == "sign" and token.text in _OPEN:
            opened.append(at)
        elif token.kind == "sign" and token.text in _CLOSE:
            pairs[at] = opened.pop()
            pairs[pairs[at]] = at
    return pairs


def blocks(found: list[Token], pairs: dict[int, int]) -> set[int]:
    """The places of the braces that open a block of statements, and not an object, a class or the cases of a switch."""
    opening = set()
    for at, token in enumerate(found):
        before = found[at - 1].text if at else ";"
        if token.text != "{" or token.kind != "sign":
            continue
        if before in ("=>", "else", "try", "finally", "do", ";", "}") or before == "catch":
            opening.add(at)
        elif before == ")" and found[pairs[at - 1] - 1].text != "switch":
            opening.add(at)
        elif before == "{" and at - 1 in opening:
            opening.add(at)
    return opening


def statements(found: list[Token]) -> list[int]:
    """The places of the first tokens of statements within functions, before which another statement may be put."""
    pairs = partners(found)
    opening = blocks(found, pairs)
    inside: list[int] = []  # the brackets around a token
    begins = []
    for at, token in enumerate(found):
        before = found[at - 1] if at else None
        is_first = (
            before is not None
            and before.kind == "sign"
            and inside
            and inside[-1] in opening
            and (
                (before.text == "{" and at - 1 in opening)
                or before.text == ";"
                or (before.text == "}" and pairs[at - 1] in opening and _ends_statement(found, pairs[at - 1], pairs))
            )
        )
        if is_first and token.text not in ("}", ";", "else", "catch", "finally", "while", "case", "default", ")", ","):
            begins.append(at)
        if token.kind == "sign" and token.text in _OPEN:
            inside.append(at)
        elif token.kind == "sign" and token.text in _CLOSE:
            inside.pop()
    return begins


def _ends_statement(found: list[Token], opening: int, pairs: dict[int, int]) -> bool:
    """Whether the block that begins here is that of a statement or of a declared function, and not of an expression."""
    before = found[opening - 1]
    if before.text in ("else", "try", "finally", "do", ";", "{", "}"):
        return True
    if before.text != ")":
        return False
    head = found[pairs[opening - 1] - 1]  # before the bracket
    if head.text in ("if", "for", "while", "switch", "catch"):
        return True
    # function NAME (..) {..} is a declaration if a statement begins there.
    start = pairs[opening - 1] - 2
    if head.kind == "name" and start >= 0 and found[start].text == "function":
        earlier = found[start - 1].text if start else ";"
        return earlier in (";", "{", "}", "async", "default")
    return False


def guarded(found: list[Token]) -> list[tuple[int, int]]:
    """The places of the first and the last token of the statements without braces that a condition guards."""
    pairs = partners(found)
    result = []
    for at, token in enumerate(found[:-1]):
        is_head = token.text == ")" and found[pairs[at] - 1].text in ("if", "for", "while")
        if (is_head or token.text == "else") and found[at + 1].text not in ("{", "if", ";", "for", "while", "do"):
            last = at + 1
            while found[last].text != ";":
                last = pairs[last] + 1 if found[last].text in _OPEN and found[last].kind == "sign" else last + 1
            result.append((at + 1, last))
    return result


def is_in_block(text: str, offset: int) -> bool:
    """Whether a place of a text is in a block of statements, and not what a module runs when it is loaded."""
    found = tokens(text)
    pairs = partners(found)
    return any(found[at].start < offset < found[pairs[at]].start for at in blocks(found, pairs))
