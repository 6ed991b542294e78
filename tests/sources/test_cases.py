"""The class of all tests and the decorators: a difference fails, a test goes on after it, one that compares nothing
fails, and one that needs what is missing is skipped. These tests use the assertions of unittest, for a comparison that
never fails would pass here too."""
from __future__ import annotations

import unittest

from fixtures import needs
from fixtures.cases import Case


class Samples:
    """Tests that are run here alone."""

    class Sample(Case):
        started = 0

        def setUp(self) -> None:
            type(self).started += 1

        def equal(self) -> None:
            self.expect("numbers", 1, 1)
            self.expect("truth", True)
            self.expect_lines("lines", "a\nb\n", "b", "a")

        def different(self) -> None:
            self.expect("first", 1, 2)
            self.expect("second", None)
            self.expect_lines("third", "ab\n", "a", "ab")
            self.differ("fourth")
            self.expect("fifth", "a", "a")

        def nothing(self) -> None:
            pass

        @needs.command("nosuch-command", "sh")
        def skipped(self) -> None:
            self.expect("a", 1, 2)


def ended(name: str) -> unittest.TestResult:
    result = unittest.TestResult()
    Samples.Sample(name).run(result)
    return result


class Comparisons(Case):
    def test_what_is_equal(self) -> None:
        self.compared += 1
        result = ended("equal")
        self.assertEqual((result.testsRun, result.failures, result.errors, result.skipped), (1, [], [], []))

    def test_what_differs(self) -> None:
        self.compared += 1
        result = ended("different")
        self.assertEqual(
            [str(test).partition("[")[2][:-1] for test, _ in result.failures], ["first", "second", "third", "fourth"]
        )
        self.assertIn("got '1', wanted '2'", result.failures[0][1])
        self.assertEqual(result.errors, [])

    def test_what_compares_nothing(self) -> None:
        self.compared += 1
        result = ended("nothing")
        self.assertEqual(len(result.failures), 1)
        self.assertIn("it compared nothing", result.failures[0][1])

    def test_what_is_skipped(self) -> None:
        self.compared += 1
        before = Samples.Sample.started
        result = ended("skipped")
        reason = "no nosuch-command on this machine: apt-get install nosuch-command"
        self.assertEqual(([why for _, why in result.skipped], result.failures), ([reason], []))
        self.assertEqual(Samples.Sample.started, before)
