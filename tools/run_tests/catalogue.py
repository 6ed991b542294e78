"""All tests of the repository, and those that the arguments of ./test choose: modules of unittest. None is imported for
this."""
from __future__ import annotations

import ast
import dataclasses
import fnmatch
import functools
import glob
import importlib.util
import os
import subprocess
import sys

# Tests in this package of tests/ need neither proofs nor the program; those of this one compile without proofs.
EARLY, UNPROVED = "sources", "unproved"
MODULE = "tools/run_tests/module.py"
# The module that compiles the tests of crates, and the beginning of its tests. What follows chooses one alone: the name
# of a crate, or what it is of all crates, such as allocations.
_OF_CRATES, _OF_A_CRATE = "unproved.test_crates", "Crates.test_"
# A package whose modules import one of Debian's, which another Python than Debian's may lack.
WITH_MODULE = {"desk": "jinja2", "properties": "hypothesis"}
DEBIANS = "/usr/bin/python3"


@dataclasses.dataclass
class Test:
    """A module of unittest, in a process of its own."""

    name: str
    command: list[str]
    methods: list[str] = dataclasses.field(default_factory=list)  # CLASS.METHOD
    chosen: list[str] = dataclasses.field(default_factory=list)  # these alone, or all
    part: tuple[int, int] = (1, 1)  # which of how many processes, that share the tests of a module

    def title(self) -> str:
        number, count = self.part
        return f"{self.name} ({number} of {count})" if count > 1 else self.name

    def what(self) -> str:
        """What module.py runs, beside that of which a part is chosen."""
        number, count = self.part
        return f"{self.name}:{number}/{count}" if count > 1 else self.name

    def group(self) -> str:
        package = self.name.split(".")[0]
        return {EARLY: "--early", UNPROVED: "--crates"}.get(package, "--program")

    def halves(self) -> int:
        """What it takes of a processor, in halves: a test that runs the program waits as long as it works."""
        return 1 if self.group() == "--program" else 2


@functools.cache
def python_of(package: str) -> str:
    """The Python that runs a package of tests: this one, unless only Debian's has the module that it imports."""
    module = WITH_MODULE.get(package)
    if module is None or importlib.util.find_spec(module) or not os.path.exists(DEBIANS):
        return sys.executable
    words = [DEBIANS, "-c", f"import importlib.util, sys; sys.exit(importlib.util.find_spec({module!r}) is None)"]
    return sys.executable if subprocess.run(words).returncode else DEBIANS


def everything() -> list[Test]:
    """The modules tests/PACKAGE/../test_NAME.py."""
    found = []
    for path in sorted(glob.glob("tests/**/test_*.py", recursive=True)):
        if os.path.exists(f"{os.path.dirname(path)}/__init__.py"):
            with open(path, encoding="utf-8") as file:
                tree = ast.parse(file.read(), path)
            methods = [f"{it.name}.{each.name}" for it in tree.body if isinstance(it, ast.ClassDef)
                       for each in it.body if isinstance(each, ast.FunctionDef) and each.name.startswith("test_")]
            name = path[len("tests/") : -len(".py")].replace("/", ".")
            python = python_of(name.split(".")[0])
            found.append(Test(name, [python, "-S", "-B", MODULE], methods))
    return found


def divided(test: Test, count: int) -> list[Test]:
    """The module as this many processes, of which each runs some of its tests. Where a part is chosen, it stays one."""
    if test.chosen:
        return [test]
    return [dataclasses.replace(test, part=(number, count)) for number in range(1, count + 1)]


def _methods_of(test: Test, name: str) -> list[str] | None:
    """The methods of a module that the name chooses: none for all of them, None if it chooses nothing there."""
    *folders, module = test.name.split(".")
    short = module.removeprefix("test_")
    if name in (module, short, ".".join([*folders, short])) or f"{test.name}.".startswith(f"{name}."):
        return []
    if test.name == _OF_CRATES and f"{_OF_A_CRATE}{name}" in test.methods:
        return [f"{_OF_A_CRATE}{name}"]
    for prefix in (test.name, ".".join(folders)):
        rest = name[len(prefix) + 1 :] if name.startswith(f"{prefix}.") else ""
        found = [it for it in test.methods if rest and f"{it}.".startswith(f"{rest}.")]
        if found:
            return [rest]
    return None


def named(tests: list[Test], name: str) -> list[Test]:
    """The tests that a name chooses: PACKAGE, [PACKAGE.]MODULE, PACKAGE.CLASS[.METHOD], or a crate's."""
    found = []
    for test in tests:
        methods = _methods_of(test, name)
        if methods is not None:
            found.append(dataclasses.replace(test, chosen=methods))
    return found


def matching(tests: list[Test], words: list[str]) -> list[Test]:
    """The methods whose full names match one of these words, as `-k` of unittest has it."""
    patterns, found = [it if "*" in it else f"*{it}*" for it in words], []
    for test in tests:
        within = [it for it in test.methods
                  if not test.chosen or any(f"{it}.".startswith(f"{each}.") for each in test.chosen)]
        chosen = [it for it in within
                  if any(fnmatch.fnmatchcase(f"{test.name}.{it}", each) for each in patterns)]
        if chosen:
            found.append(dataclasses.replace(test, chosen=chosen))
    return found


def merged(tests: list[Test]) -> list[Test]:
    """Each test once; of a module that was chosen several times, all that was chosen."""
    found: dict[str, Test] = {}
    for test in tests:
        before = found.get(test.name)
        both = [*before.chosen, *test.chosen] if before and before.chosen and test.chosen else []
        found[test.name] = dataclasses.replace(test, chosen=both) if before else test
    return [*found.values()]
