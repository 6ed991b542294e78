"""Runs the tests of one module: module.py RESULT MODULE[:PART/PARTS] [CLASS[.METHOD]..]. With :2/3 it runs every third
test from the second on. Prints each failure, and writes to the file RESULT, as JSON, how many tests passed, failed and
were skipped, the reasons of skips, and the number of comparisons. What is not run, or cannot be, fails.
`module.py --reasons` prints the reasons of all skips of all modules.

A Python that is started with -S gets its packages here, but no .pth file is read: one can make each start take five
times as long."""
from __future__ import annotations

import site
import sys

if sys.flags.no_site:
    setattr(site, "addpackage", lambda *_: None)
    site.main()
import ast
import collections
import importlib
import json
import os
import signal
import traceback
import unittest
from types import ModuleType
from typing import Any

TESTS = os.path.join(os.path.dirname(os.path.dirname(os.path.dirname(os.path.abspath(__file__)))), "tests")
sys.dont_write_bytecode = True
sys.path.insert(0, TESTS)
from fixtures import cases
from fixtures import needs


class Outcomes(unittest.TestResult):
    """How each test ended. One of which nothing is noted was not run."""

    def __init__(self) -> None:
        super().__init__()
        self.ends: dict[str, str] = {}
        self.reasons: list[str] = []
        self.compared = 0

    def note(self, test: Any, end: str) -> None:
        # The worst end of a test and its subtests counts.
        order = ("passed", "skipped", "failed")
        before = self.ends.get(test.id(), "passed")
        self.ends[test.id()] = max(before, end, key=order.index)

    def fault(self, test: Any, name: str, error: Any) -> None:
        self.note(test, "failed")
        kind, value, trace = error
        frames = traceback.extract_tb(trace)
        # A comparison says enough; of other errors the place matters.
        is_comparison = kind is test.failureException and frames and frames[-2:][0].filename == cases.__file__
        text = str(value) if is_comparison else "".join(traceback.format_exception(kind, value, trace)).rstrip()
        print(f"{name}: {text}", flush=True)

    def addSuccess(self, test: Any) -> None:
        self.note(test, "passed")

    def addFailure(self, test: Any, err: Any) -> None:
        self.fault(test, test.id(), err)

    addError = addFailure

    def addSubTest(self, test: Any, subtest: Any, err: Any) -> None:
        if err is not None:
            self.fault(test, subtest.id(), err)

    def addSkip(self, test: Any, reason: str) -> None:
        self.note(test, "skipped")
        self.reasons += [reason, *needs.reasons(test)] if isinstance(test, unittest.TestCase) else [reason]

    def addExpectedFailure(self, test: Any, err: Any) -> None:
        self.note(test, "passed")

    def addUnexpectedSuccess(self, test: Any) -> None:
        self.note(test, "failed")
        print(f"{test.id()}: it passes, and should not")

    def stopTest(self, test: Any) -> None:
        super().stopTest(test)
        self.compared += getattr(test, "compared", 0)


def each_test(suite: unittest.TestSuite) -> list[unittest.TestCase]:
    return [one for it in suite for one in (each_test(it) if isinstance(it, unittest.TestSuite) else [it])]


def faults_of_definitions(module: ModuleType, loaded: set[str]) -> list[str]:
    """The functions of tests and the classes in a module that are no tests that unittest runs."""
    assert module.__file__
    with open(module.__file__, encoding="utf-8") as file:
        tree = ast.parse(file.read())
    places = [("", it) for it in tree.body] + [(f"{it.name}.", each) for it in tree.body if isinstance(it, ast.ClassDef)
                                               for each in it.body]
    names = [f"{place}{it.name}" for place, it in places
             if isinstance(it, (ast.FunctionDef, ast.AsyncFunctionDef)) and it.name.startswith("test_")]
    found = [f"{it} is no method of a class of tests, and is not run" for it in names if it not in loaded]
    found += [f"{it} is defined {count} times" for it, count in collections.Counter(names).items() if count > 1]
    kinds = {name: kind for name, kind in vars(module).items()
             if isinstance(kind, type) and issubclass(kind, unittest.TestCase) and kind.__module__ == module.__name__}
    with_tests = {name for name in kinds if any(it.startswith(f"{name}.") for it in loaded)}
    for name, kind in kinds.items():
        # The base of a class with tests needs none of its own.
        if not any(issubclass(kinds[it], kind) for it in with_tests):
            found.append(f"the class {name} has no test")
        if not issubclass(kind, cases.Case):
            found.append(f"the class {name} is not derived from fixtures.cases.Case")
    return found + ([] if loaded else ["it has no test"])


def account(tests: list[unittest.TestCase], outcomes: Outcomes) -> collections.Counter[str]:
    """How many tests passed, failed and were skipped. What setUpClass skips or fails is not run: it counts too."""
    counts: collections.Counter[str] = collections.Counter(passed=0, failed=0, skipped=0)
    for test in tests:
        owner = f"setUpClass ({type(test).__module__}.{type(test).__qualname__})"
        end = outcomes.ends.pop(test.id(), None) or outcomes.ends.get(owner) or outcomes.ends.get(
            f"setUpModule ({type(test).__module__})")
        if end is None:
            print(f"{test.id()}: it was not run")
        counts[end or "failed"] += 1
    # An error of tearDownClass, which no test has.
    counts["failed"] += sum(end == "failed" and "tearDown" in name for name, end in outcomes.ends.items())
    return counts


def run(name: str, chosen: list[str], part: tuple[int, int]) -> dict[str, Any]:
    """Runs a module, only these classes and methods of it, or one part of several."""
    module = importlib.import_module(name)
    loader = unittest.defaultTestLoader
    tests = each_test(loader.loadTestsFromModule(module))
    faults = faults_of_definitions(module, {it.id()[len(name) + 1 :] for it in tests})
    for fault in faults:
        print(f"{name}: {fault}")
    if chosen:
        tests = each_test(loader.loadTestsFromNames([f"{name}.{it}" for it in dict.fromkeys(chosen)]))
    number, count = part
    tests = tests[number - 1 :: count]
    outcomes = Outcomes()
    unittest.TestSuite(loader.suiteClass(tests)).run(outcomes)
    counts = account(tests, outcomes)
    counts["failed"] += len(faults)
    return {**counts, "reasons": [*dict.fromkeys(outcomes.reasons)], "compared": outcomes.compared}


def reasons() -> list[str]:
    """Why tests of any module are skipped, as its decorators say. A module that cannot be imported says nothing."""
    tests = each_test(unittest.defaultTestLoader.discover(TESTS, top_level_dir=TESTS))
    return [*dict.fromkeys(reason for test in tests for reason in needs.reasons(test))]


def main(arguments: list[str]) -> int:
    if arguments == ["--reasons"]:
        print(json.dumps(reasons()))
        return 0
    path, what, *chosen = arguments
    path = os.path.abspath(path)
    name, _, part = what.partition(":")
    number, _, count = part.partition("/")
    result = run(name, chosen, (int(number or 1), int(count or 1)))
    with open(path, "w", encoding="utf-8") as file:
        json.dump(result, file)
    return 1 if result["failed"] else 0


if __name__ == "__main__":
    # ./test ends its children so. What a test made in temporary folders is then removed.
    signal.signal(signal.SIGTERM, signal.default_int_handler)
    sys.exit(main(sys.argv[1:]))
