"""The processes of the tests: several at once, and a line for each that has ended."""
from __future__ import annotations

import json
import os
import signal
import tempfile
import time
from typing import Any

import machine
import packages
from catalogue import Test

# The limit of a process in seconds, and how many of its last lines are shown if it fails.
MOST_SECONDS = 1200
MOST_LINES = 40
# How many tests run again if they fail.
MOST_AGAIN = 5


def counted(number: int, noun: str) -> str:
    return f"{number:,} {noun}{'' if number == 1 else 's'}"


def processor_seconds() -> float:
    """What the processes have taken of a processor that have ended, and that this one has waited for."""
    times = os.times()
    return times.children_user + times.children_system


class Totals:
    """The last outcome of each test so far, and what lacks for those that were skipped."""

    def __init__(self) -> None:
        self._results: dict[str, tuple[Test, dict[str, Any]]] = {}
        self.packages: dict[str, None] = {}

    def add(self, test: Test, result: dict[str, Any]) -> None:
        self._results[test.title()] = test, result
        for reason in result["reasons"]:
            self.packages.update(dict.fromkeys(packages.named_in(reason)))

    def number(self, end: str) -> int:
        return sum(result[end] for _, result in self._results.values())

    def failed(self) -> list[Test]:
        return [test for test, result in self._results.values() if result["failed"]]

    def line(self) -> str:
        told = [f"{self.number('passed')} passed", f"{self.number('failed')} failed"]
        return ", ".join(told + [f"{self.number('skipped')} skipped"] * (self.number("skipped") > 0))


class Run:
    """A test that has been started, with a file for its output."""

    def __init__(self, test: Test, folder: str) -> None:
        self.test, self.log, self.started = test, f"{folder}/{test.title()}", time.monotonic()
        self.told = f"{self.log}.json"
        self.process = machine.start([*test.command, self.told, test.what(), *test.chosen], ".", self.log)
        self.is_late, self.processor = False, 0.0

    def seconds(self) -> float:
        return time.monotonic() - self.started

    def has_ended(self) -> bool:
        if self.process.returncode is None and self.seconds() > MOST_SECONDS:
            stop([self.process])
            self.is_late = True
        before = processor_seconds()
        is_over = self.process.poll() is not None
        self.processor += processor_seconds() - before
        return is_over

    def result(self) -> dict[str, Any]:
        """How many tests passed, failed and were skipped, why, and what else the test says in a line."""
        status = self.process.returncode
        found: dict[str, Any] = {"passed": 0, "failed": 0, "skipped": 0, "reasons": [], "said": ""}
        if os.path.exists(self.told):
            with open(self.told, encoding="utf-8") as file:
                found.update(json.load(file))
            found["said"] = f", {counted(found['compared'], 'comparison')}"
        # Whatever it says of its tests: a status of failure, or not a single test, is a failure.
        if not found["failed"] and (status or not found["passed"] + found["skipped"]):
            found["failed"] = 1
        return found

    def report(self) -> dict[str, Any]:
        """Prints how the test ended, and returns its outcomes."""
        with open(self.log, encoding="utf-8", errors="replace") as file:
            lines = file.read().splitlines()
        result = self.result()
        end = "failed" if result["failed"] else "passed" if result["passed"] else "skipped"
        numbers = [counted(result["passed"], "test") + " passed"] * (end == "failed" and result["passed"] > 0)
        numbers += [counted(result[end], "test")] if end != "failed" else [f"{result['failed']} failed"]
        taken = f"{self.seconds():.0f} s, {self.processor:.0f} of a processor"
        line = f"{self.test.title()}: {end} in {taken}: {', '.join(reversed(numbers))}{result['said']}"
        if end == "passed" and result["skipped"]:
            line += f"; {result['skipped']} skipped"
        line += "".join(f"; {it}" for it in result["reasons"])
        if end == "failed":
            why = f"stopped at the limit of {MOST_SECONDS} s" if self.is_late else f"status {self.process.returncode}"
            line = "\n  ".join([f"{line}; {why}", *lines[-MOST_LINES:]])
        print(line, flush=True)
        return result


def stop(processes: list[Any]) -> None:
    """Ends these processes and all that they started. They get some seconds to remove their temporary folders."""
    for it in processes:
        if it.poll() is None:
            os.killpg(it.pid, signal.SIGTERM)
    until = time.monotonic() + 5
    while any(it.poll() is None for it in processes) and time.monotonic() < until:
        time.sleep(0.05)
    machine.end(processes)


def has_room(test: Test, running: list[Run], jobs: int) -> bool:
    return sum(it.test.halves() for it in running) + test.halves() <= 2 * jobs


def run_all(tests: list[Test], jobs: int, totals: Totals) -> None:
    """Runs these tests in this order, as many at once as that many processors have work for."""
    waiting = [*tests]
    running: list[Run] = []
    with tempfile.TemporaryDirectory() as folder:
        try:
            while waiting or running:
                while waiting and (not running or has_room(waiting[0], running, jobs)):
                    running.append(Run(waiting.pop(0), folder))
                time.sleep(0.05)
                for run in [it for it in running if it.has_ended()]:
                    running.remove(run)
                    totals.add(run.test, run.report())
        finally:
            stop([it.process for it in running])


def run_again(totals: Totals) -> None:
    """Runs the tests of the program that failed once more, one after another, and takes what comes of that: beside
    others one can fail only because a process got too little of a processor before a time-out of the program. If many
    failed, that is not why, and none runs again."""
    late = [it for it in totals.failed() if it.group() == "--program"]
    if not 0 < len(late) <= MOST_AGAIN:
        return
    for test in late:
        print(f"./test: once more, alone: {test.title()}", flush=True)
        run_all([test], 1, totals)
    failed = totals.failed()
    passed = [it.title() for it in late if it not in failed]
    if passed:
        print(f"./test: failed beside others, passed alone: {' '.join(passed)}", flush=True)
