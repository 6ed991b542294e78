"""Reads declarations into entries, in the order of the file: units of systemd, files of nginx, haproxy and nftables,
the YAML of Kubernetes and Prometheus, control files of Debian and Containerfiles. A ValueError says why a text is
none."""
from __future__ import annotations

import os
import re
from collections.abc import Callable
from collections.abc import Iterator
from typing import Any
from typing import NamedTuple

from fixtures import yaml_files

# A line that an operator may take the # from; in a comment for people one space or two follow it.
_COMMENTED = re.compile(r"(\s*)#(?=[^\s#]|    )(.*)")
_TOKEN = re.compile(r"""\s+|\#.*|"(?:\\.|[^"\\])*"|'(?:\\.|[^'\\])*'|[;{}]|(?!["'])(?:\$\{\w+\}|\\.|[^\s;{}])+""")
_PLACEHOLDER = re.compile(r"@[A-Z]+@")
_FIELD = re.compile(r"([A-Z][\w-]*):(?: (.*))?")


class Entry(NamedTuple):
    """A directive with its value, and the section or the blocks that it is in."""

    place: str
    name: str
    value: str


def is_commented(line: str) -> bool:
    """Whether a line is a directive that an operator may take out of its comment."""
    return bool(_COMMENTED.fullmatch(line))


def _words(text: str) -> str:
    return " ".join(text.split())


def _joined(text: str) -> Iterator[str]:
    """The lines without comments and blank ones, and each that a backslash ends with the next."""
    started = ""
    for line in text.splitlines():
        if line.lstrip().startswith(("#", ";")) or not started and not line.strip():
            continue
        if line.endswith("\\"):
            started += line[:-1] + " "
        else:
            yield started + line
            started = ""
    if started:
        raise ValueError("the last line ends with a backslash")


def unit(text: str) -> list[Entry]:
    """A unit of systemd."""
    found, section = [], ""
    for line in _joined(text):
        if line.startswith("["):
            section = line.strip()
            found.append(Entry("", section, ""))
            continue
        name, equals, value = line.partition("=")
        if not equals or not section:
            raise ValueError(f"no directive: {line}")
        found.append(Entry(section, name.strip(), _words(value)))
    return found


def nginx(text: str) -> list[Entry]:
    """A file of nginx. The name of a directive that an operator may take out of a comment begins with #."""
    found: list[Entry] = []
    blocks: list[str] = []
    tokens: list[str] = []
    mark = ""
    for token, commented in _tokens(text):
        if not tokens:
            mark = commented
        if token in (";", "{") and tokens:
            name, *rest = tokens
            found.append(Entry(" > ".join(blocks), mark + name, " ".join(rest + ["{"] * (token == "{"))))
            blocks += [" ".join(tokens)] * (token == "{")
            tokens = []
        elif token == "}" and blocks and not tokens:
            blocks.pop()
        elif token in (";", "{", "}"):
            raise ValueError(f"a {token} after {tokens or 'no directive'}")
        elif not tokens and _PLACEHOLDER.fullmatch(token):
            found.append(Entry(" > ".join(blocks), token, ""))
        else:
            tokens.append(token)
    if blocks or tokens:
        raise ValueError(f"the file ends within {blocks[-1] if blocks else tokens[0]}")
    return found


def _tokens(text: str) -> Iterator[tuple[str, str]]:
    """The tokens of nginx, each with a "#" for each one before its line that an operator may take away."""
    for line in text.splitlines():
        code, mark, at = line, "", 0
        while commented := _COMMENTED.fullmatch(code):
            code, mark = commented[2], mark + "#"
        while at < len(code):
            match = _TOKEN.match(code, at)
            if not match:
                raise ValueError(f"no token: {code[at:]}")
            at = match.end()
            if not match[0].isspace() and not match[0].startswith("#"):
                yield match[0], mark


def haproxy(text: str) -> list[Entry]:
    """A file of haproxy, with the same mark."""
    found, section = [], ""
    for line in text.splitlines():
        commented = _COMMENTED.fullmatch(line)
        code = commented[1] + commented[2] if commented else line
        words = _words(re.sub(r"(^|\s)#.*", "", code))
        if not words:
            continue
        name, _, value = words.partition(" ")
        if not code[0].isspace():
            section = words
        found.append(Entry("" if section == words else section, ("#" if commented else "") + name, value))
    return found


def nftables(text: str) -> list[Entry]:
    """A file of nftables: the statements with the blocks that they are in. A block begins at the end of a line."""
    found: list[Entry] = []
    blocks: list[str] = []
    for line in _joined(text):
        words = _words(line.partition(" #")[0])
        if words == "}" and blocks:
            blocks.pop()
            continue
        name, _, value = words.partition(" ")
        found.append(Entry(" > ".join(blocks), name, value))
        if words.endswith(" {"):
            blocks.append(words[:-2])
        elif words.count("{") != words.count("}"):
            raise ValueError(f"a bracket without the other: {words}")
    if blocks:
        raise ValueError(f"the file ends within {blocks[-1]}")
    return found


def yaml(text: str) -> list[Entry]:
    """The YAML of one object: blocks of names and lists. The blocks of a list are numbered from 1, and the items of one
    that are no blocks are the value of its name, separated by commas. A test that calls this needs python3-yaml."""
    try:
        top = yaml_files.node(text)
    except yaml_files.Unreadable as fault:
        raise ValueError(str(fault)) from fault
    if not isinstance(getattr(top, "value", None), list):
        raise ValueError("it has no names")
    return list(_below(top, text, ()))


def _below(node: Any, text: str, place: tuple[str, ...]) -> Iterator[Entry]:
    """The entries of a node of YAML at a place."""
    items = node.value if isinstance(node.value, list) else []
    if not items or all(isinstance(getattr(it, "value", None), str) for it in items):
        yield Entry(" > ".join(place[:-1]), place[-1], ", ".join(_written(it, text) for it in items or [node]))
        return
    for number, it in enumerate(items, 1):
        name, below = (it[0].value, it[1]) if isinstance(it, tuple) else (str(number), it)
        yield from _below(below, text, (*place, name))


def _written(node: Any, text: str) -> str:
    """A text or a number as it is written, with its quotes."""
    if node.start_mark.line != node.end_mark.line:
        raise ValueError(f"line {node.start_mark.line + 1}: a value of several lines")
    return text[node.start_mark.index : node.end_mark.index]


def control(text: str) -> list[Entry]:
    """A control file of Debian: fields, and the further lines of one."""
    found, field = [], ""
    for line in text.splitlines():
        match = _FIELD.fullmatch(line)
        if match:
            field = match[1]
            found.append(Entry("", field, match[2] or ""))
        elif line.startswith(" ") and field:
            found.append(Entry(field, "+", line[1:]))
        elif line:
            raise ValueError(f"no field: {line}")
    return found


def container(text: str) -> list[Entry]:
    """A Containerfile: its instructions, and each command of a RUN apart."""
    found = []
    for line in _joined(text):
        name, _, value = _words(line).partition(" ")
        if not name.isupper() or not value:
            raise ValueError(f"no instruction: {line}")
        if name != "RUN":
            found.append(Entry("", name, value))
            continue
        run = f"RUN {sum(it.name == 'RUN' for it in found) + 1}"
        commands = value.split(" && ")
        found.append(Entry("", "RUN", f"{len(commands)} commands"))
        found += [Entry(run, command.partition(" ")[0], command.partition(" ")[2]) for command in commands]
    return found


def plain(text: str) -> list[Entry]:
    """A file of lines, each a subject and what is said of it."""
    return [Entry("", *line.partition(" ")[::2]) for line in _joined(text)]


_READERS: dict[str, Callable[[str], list[Entry]]] = {
    ".service": unit,
    ".timer": unit,
    ".conf": nginx,
    ".cfg": haproxy,
    ".nft": nftables,
    ".yaml": yaml,
    ".yml": yaml,
    "control": control,
    "copyright": control,
    "Containerfile": container,
    "lintian-overrides": plain,
    ".containerignore": plain,
}


def reader(path: str) -> Callable[[str], list[Entry]]:
    """The reader of a file, by its name."""
    name = os.path.basename(path)
    return _READERS[name if name in _READERS else os.path.splitext(name)[1]]
