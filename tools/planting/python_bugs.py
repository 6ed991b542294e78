"""The bugs that can be planted in a file of Python."""
from __future__ import annotations

import ast
import re
from collections.abc import Iterator

from planting.bug import Bug

_OTHER = {
    "<": "<=",
    "<=": "<",
    ">": ">=",
    ">=": ">",
    "==": "!=",
    "!=": "==",
    "in": "not in",
    "not in": "in",
    "is": "is not",
    "is not": "is",
}
_OPERATOR = re.compile(r"<=|>=|==|!=|<|>|not\s+in|is\s+not|in|is")
# Calls that change a value, and may be left out.
_OF_A_VALUE = {"sorted", "reversed", "set", "abs", "escape", "quote", "normalized"}
_ANY_ORDER = {"max", "min"}  # of arguments
_METHODS = {"strip", "rstrip", "lstrip", "lower", "casefold", "copy"}


class _File:
    """A text, its tree, and the offsets of the nodes."""

    def __init__(self, path: str, text: str) -> None:
        self.path, self.text, self.tree = path, text, ast.parse(text, path)
        self._starts = [0]
        for line in text.splitlines(keepends=True):
            self._starts.append(self._starts[-1] + len(line))
        self._lines = text.splitlines(keepends=True)

    def _offset(self, line: int, column: int) -> int:
        before = self._lines[line - 1].encode()[:column] if line <= len(self._lines) else b""
        return self._starts[line - 1] + len(before.decode())

    def start(self, node: ast.expr | ast.stmt | ast.excepthandler) -> int:
        return self._offset(node.lineno, node.col_offset)

    def end(self, node: ast.expr | ast.stmt | ast.excepthandler) -> int:
        assert node.end_lineno and node.end_col_offset is not None
        return self._offset(node.end_lineno, node.end_col_offset)

    def of(self, node: ast.expr | ast.stmt) -> str:
        return self.text[self.start(node) : self.end(node)]

    def bug(self, kind: str, node: ast.expr | ast.stmt, new: str) -> Bug:
        return Bug(self.path, kind, self.start(node), self.end(node), new)


def _of_comparison(file: _File, node: ast.Compare) -> Iterator[Bug]:
    left = node.left
    for right in node.comparators:
        begin = file.end(left)
        found = _OPERATOR.search(file.text, begin, file.start(right))
        if found:
            new = _OTHER[" ".join(found[0].split())]
            yield Bug(file.path, "comparison", found.start(), found.end(), new)
        left = right


def _of_constant(file: _File, node: ast.Constant) -> Iterator[Bug]:
    value = node.value
    if isinstance(value, bool):
        yield file.bug("constant", node, str(not value))
    elif isinstance(value, int):
        yield file.bug("off by one", node, str(value + 1))
        yield from [file.bug("off by one", node, str(value - 1))] if value > 0 else []
        yield from [file.bug("constant", node, str(value * 10))] if value > 3 else []
    elif isinstance(value, float):
        yield file.bug("constant", node, str(value * 10))
    elif isinstance(value, (str, bytes)) and value and file.of(node)[-1:] in "\"'":
        whole = file.of(node)
        yield file.bug("constant", node, f"{whole[:-1]}x{whole[-1]}")


def _of_call(file: _File, node: ast.Call) -> Iterator[Bug]:
    given = node.args
    name = node.func.id if isinstance(node.func, ast.Name) else getattr(node.func, "attr", "")
    for left, right in zip(given, given[1:]) if name not in _ANY_ORDER else []:
        if not isinstance(left, ast.Starred) and not isinstance(right, ast.Starred) and file.of(left) != file.of(right):
            between = file.text[file.end(left) : file.start(right)]
            new = file.of(right) + between + file.of(left)
            yield Bug(file.path, "arguments", file.start(left), file.end(right), new)
    if name in _OF_A_VALUE and len(given) == 1 and not isinstance(given[0], ast.GeneratorExp):
        yield file.bug("call left out", node, file.of(given[0]))
    elif name in _METHODS and isinstance(node.func, ast.Attribute) and not given:
        yield file.bug("call left out", node, file.of(node.func.value))


def _of_test(file: _File, test: ast.expr) -> Iterator[Bug]:
    yield file.bug("condition", test, f"not ({file.of(test)})")
    yield file.bug("condition", test, "True")
    yield file.bug("condition", test, "False")


def _of_both(file: _File, node: ast.BoolOp) -> Iterator[Bug]:
    """One of two conditions is dropped."""
    for at, left in enumerate(node.values):
        if at + 1 < len(node.values):
            yield Bug(file.path, "condition", file.start(left), file.start(node.values[at + 1]), "")
        else:
            yield Bug(file.path, "condition", file.end(node.values[at - 1]), file.end(left), "")


def _of_function(file: _File, node: ast.FunctionDef) -> Iterator[Bug]:
    """A procedure returns before each of its statements but the first."""
    has_value = any(
        isinstance(it, (ast.Yield, ast.YieldFrom)) or (isinstance(it, ast.Return) and it.value) for it in ast.walk(node)
    )
    for statement in node.body[1:]:
        start = file.start(statement)
        new = "return\n" + " " * statement.col_offset
        if not has_value:
            yield Bug(file.path, "return", start, start, new)
    for inner in ast.walk(node):
        if isinstance(inner, ast.Return) and inner.value and file.of(inner.value) not in ("None", "False", "[]"):
            yield file.bug("return", inner, "return None")


def _of_statement(file: _File, node: ast.AST) -> Iterator[Bug]:
    if isinstance(node, ast.Expr) and isinstance(node.value, ast.Call):
        yield file.bug("call left out", node, "pass")
    elif isinstance(node, ast.Raise):
        yield file.bug("exception", node, "pass")
    elif isinstance(node, (ast.Continue, ast.Break)):
        yield file.bug("condition", node, "pass")
    elif isinstance(node, ast.ExceptHandler) and not isinstance(node.body[0], ast.Pass):
        yield Bug(file.path, "exception", file.start(node.body[0]), file.end(node.body[-1]), "pass")
    elif isinstance(node, ast.FunctionDef):
        yield from _of_function(file, node)
    elif isinstance(node, ast.If):
        yield from _of_test(file, node.test)


def _of_expression(file: _File, node: ast.AST) -> Iterator[Bug]:
    if isinstance(node, ast.Compare):
        yield from _of_comparison(file, node)
    elif isinstance(node, ast.Constant):
        yield from _of_constant(file, node)
    elif isinstance(node, ast.Call):
        yield from _of_call(file, node)
    elif isinstance(node, ast.BoolOp):
        yield from _of_both(file, node)
    elif isinstance(node, ast.IfExp):
        yield file.bug("condition", node.test, f"not ({file.of(node.test)})")
    elif isinstance(node, ast.comprehension):
        for test in node.ifs:
            yield file.bug("condition", test, "True")


def _not_run(tree: ast.Module) -> set[ast.AST]:
    """What no run sees: annotations, decorators, documentation, `__all__`, and the parts of f-strings."""
    left: list[ast.AST] = []
    for node in ast.walk(tree):
        if isinstance(node, (ast.FunctionDef, ast.ClassDef)):
            left += node.decorator_list
        if isinstance(node, ast.FunctionDef):
            left += [it for it in [node.returns] if it]
        if isinstance(node, (ast.arg, ast.AnnAssign)) and node.annotation:
            left.append(node.annotation)
        if isinstance(node, ast.Expr) and isinstance(node.value, ast.Constant):
            left.append(node)
        if isinstance(node, ast.Assign) and isinstance(node.value, (ast.List, ast.Name)):
            left += [node] * (ast.unparse(node.targets[0]) == "__all__")
        if isinstance(node, ast.JoinedStr):
            left.append(node)
    return {inner for it in left for inner in ast.walk(it)}


def bugs(path: str, text: str) -> list[Bug]:
    file = _File(path, text)
    without = _not_run(file.tree)
    found = []
    for node in ast.walk(file.tree):
        if node not in without:
            found += [*_of_statement(file, node), *_of_expression(file, node)]
    return sorted(set(found), key=lambda it: (it.start, it.end, it.new))


def parses(text: str) -> bool:
    try:
        ast.parse(text)
    except SyntaxError:
        return False
    return True
