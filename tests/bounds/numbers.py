"""Finds what bounds something: the numbers that are constants of the update's modules and of the front door's scripts,
the repetitions in their patterns, the numbers that options have by default, and the directives that limit."""
from __future__ import annotations

import ast
import glob
import re
from collections.abc import Callable
from collections.abc import Iterator
from typing import NamedTuple

from packaging import declarations

_REPEATED = re.compile(r"\{\d*,\d+\}")
_SCRIPT = re.compile(r"^const ([A-Z][A-Z0-9_]*) = ([\d.]+);", re.M)
_DIRECTIVE = re.compile(r"#?(limit_(req|conn)(_zone)?|\w*timeout|\w*_size|\w*_buffers|proxy_cache_path)")
_LIMIT = re.compile(r"Limit\w+|MemoryMax|TasksMax|Timeout\w+|StartLimit\w+|RestartSec|RuntimeMaxSec|WatchdogSec")
_WAIT = re.compile(r"timeout|maxconn")
_CONNECTIONS = re.compile(r"size|add")
_BOUNDING = re.compile(r"most|least|seconds")


class Number(NamedTuple):
    path: str
    name: str
    value: str


def _is_number(value: ast.expr, known: set[str]) -> bool:
    if isinstance(value, ast.BinOp):
        return _is_number(value.left, known) and _is_number(value.right, known)
    if isinstance(value, ast.Call):
        return isinstance(value.func, ast.Name) and value.func.id == "range"
    if isinstance(value, ast.Name):
        return value.id in known
    return isinstance(value, ast.Constant) and type(value.value) in (int, float)


def _assigned(statement: ast.stmt) -> Iterator[tuple[str, ast.expr]]:
    if not isinstance(statement, ast.Assign):
        return
    for target in statement.targets:
        if isinstance(target, ast.Name):
            yield target.id, statement.value
        elif isinstance(target, ast.Tuple) and isinstance(statement.value, ast.Tuple):
            yield from (
                (name.id, value) for name, value in zip(target.elts, statement.value.elts) if isinstance(name, ast.Name)
            )


def of_python(text: str) -> Iterator[tuple[str, str]]:
    """The names and values of a module's constants, and of the defaults in its functions."""
    tree, known = ast.parse(text), set[str]()
    for name, value in (pair for statement in tree.body for pair in _assigned(statement)):
        if _is_number(value, known):
            known.add(name)
            yield name, ast.unparse(value)
            continue
        texts = [it.value for it in ast.walk(value) if isinstance(it, ast.Constant) and isinstance(it.value, str)]
        repeated = [each for it in texts for each in _REPEATED.findall(it)]
        if repeated:
            yield name, " ".join(repeated)
    for node in ast.walk(tree):
        if isinstance(node, ast.Call) and ast.unparse(node.func).endswith(".add_argument"):
            yield from (
                (str(node.args[0].value), ast.unparse(it.value))
                for it in node.keywords
                if it.arg == "default" and isinstance(node.args[0], ast.Constant) and _is_number(it.value, known)
            )
        elif isinstance(node, ast.FunctionDef):
            last = node.args.args[len(node.args.args) - len(node.args.defaults) :]
            pairs = [*zip(last, node.args.defaults), *zip(node.args.kwonlyargs, node.args.kw_defaults)]
            yield from (
                (f"{node.name}({name.arg})", ast.unparse(it))
                for name, it in pairs
                if it is not None and _BOUNDING.match(name.arg) and _is_number(it, known)
            )


def of_script(text: str) -> Iterator[tuple[str, str]]:
    yield from _SCRIPT.findall(text)


def _of_entries(
    read: Callable[[str], list[declarations.Entry]], form: re.Pattern[str], text: str
) -> Iterator[tuple[str, str]]:
    yield from (
        (f"{entry.place} {entry.name}".strip(), entry.value) for entry in read(text) if form.fullmatch(entry.name)
    )


def of_nginx(text: str) -> Iterator[tuple[str, str]]:
    yield from _of_entries(declarations.nginx, _DIRECTIVE, text)


def of_unit(text: str) -> Iterator[tuple[str, str]]:
    yield from _of_entries(declarations.unit, _LIMIT, text)


def of_haproxy(text: str) -> Iterator[tuple[str, str]]:
    yield from _of_entries(declarations.haproxy, _WAIT, text)


def of_nftables(text: str) -> Iterator[tuple[str, str]]:
    yield from _of_entries(declarations.nftables, _CONNECTIONS, text)


# The files, what finds the numbers in one, and the least number that all of them have.
KINDS: tuple[tuple[tuple[str, ...], Callable[[str], Iterator[tuple[str, str]]], int], ...] = (
    (("update/openlink_update/**/*.py",), of_python, 90),
    (("front_door/*.js",), of_script, 40),
    (("front_door/*.conf",), of_nginx, 30),
    (("packaging/systemd/*.service", "packaging/systemd/*.socket"), of_unit, 5),
    (("packaging/haproxy/haproxy.cfg",), of_haproxy, 5),
    (("packaging/nftables/*.nft",), of_nftables, 4),
)


def found() -> list[list[Number]]:
    """The numbers of each kind."""
    every = []
    for patterns, read, _ in KINDS:
        paths = sorted(path for pattern in patterns for path in glob.glob(pattern, recursive=True))
        numbers = []
        for path in paths:
            with open(path, encoding="utf-8") as file:
                numbers += [Number(path, *pair) for pair in read(file.read())]
        every.append(numbers)
    return every
