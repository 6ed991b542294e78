"""The words of a JavaScript text: names, numbers, texts, regular expressions and signs, each with its line."""
from __future__ import annotations

import re
from typing import NamedTuple

SPACE = re.compile(r"\s+|//[^\n]*|/\*.*?\*/", re.S)
FORMS = (
    ("name", re.compile(r"[A-Za-z_$][\w$]*")),
    ("number", re.compile(r"0x[\da-fA-F]+|\d[\d_]*(?:\.\d+)?(?:e[+-]?\d+)?")),
    ("text", re.compile(r"'(?:[^'\\\n]|\\.)*'|\"(?:[^\"\\\n]|\\.)*\"")),
    ("sign", re.compile(r"=>|[=!]==?|\.\.\.|&&|\|\||\?\?|>>>?|<<|\+\+|--|\*\*|[-+*/%<>]=|[^\w\s'\"`]")),
)
EXPRESSION = re.compile(r"/(?![*/])(?:[^/\\\[\n]|\\.|\[(?:[^\]\\\n]|\\.)*\])+/[a-z]*")
# A '/' after these divides. After all else it begins a regular expression.
VALUES = ("name", "number", "text", "template")
NO_VALUES = {"return", "typeof", "case", "in", "of", "await", "else"}


class Word(NamedTuple):
    kind: str
    text: str
    line: int


def words_of(text: str) -> list[Word]:
    """Returns the words of a text. The words in a place `${..}` of a template literal are there in brackets."""
    words: list[Word] = []
    read(text, 0, 1, words, "")
    return words


def read(text: str, at: int, line: int, words: list[Word], end: str) -> tuple[int, int]:
    """Reads up to the closing bracket `end` of a template's place, or to the end of the text."""
    depth = 0
    while at < len(text):
        space = SPACE.match(text, at)
        if space:
            line += space[0].count("\n")
            at = space.end()
        elif text[at] == "`":
            at, line = read_template(text, at + 1, line, words)
        else:
            if end and text[at] == end and depth == 0:
                return at + 1, line
            word = next_word(text, at, line, words)
            depth += (word.text == "{") - (word.text == "}")
            words.append(word)
            at += len(word.text)
    return at, line


def read_template(text: str, at: int, line: int, words: list[Word]) -> tuple[int, int]:
    words.append(Word("template", "`", line))
    while text[at] != "`":
        if text.startswith("${", at):
            words.append(Word("sign", "(", line))
            at, line = read(text, at + 2, line, words, "}")
            words.append(Word("sign", ")", line))
            continue
        line += text[at] == "\n"
        at += 2 if text[at] == "\\" else 1
    words.append(Word("template", "`", line))
    return at + 1, line


def next_word(text: str, at: int, line: int, words: list[Word]) -> Word:
    starts_expression = text[at] == "/" and not divides(words)
    for kind, form in [("expression", EXPRESSION)] if starts_expression else FORMS:
        found = form.match(text, at)
        if found:
            return Word(kind, found[0], line)
    raise ValueError(f"line {line}: {text[at:at + 20]!r}")


def divides(words: list[Word]) -> bool:
    if not words:
        return False
    last = words[-1]
    return last.text in (")", "]") if last.kind == "sign" else last.kind in VALUES and last.text not in NO_VALUES
