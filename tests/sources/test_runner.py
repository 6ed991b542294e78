"""The script test, in a copy that has tests of its own: what it runs, what it says of it, and its exit status. What
does not pass, or is not run, is never called passed."""
from __future__ import annotations

import os
import re
import signal
import sys

from fixtures import TOP
from fixtures.cases import Case
from fixtures.patience import wait_until
from sources.runner_copy import GOOD
from sources.runner_copy import IMPORTS
from sources.runner_copy import RunnerCase
from sources.runner_copy import SKIPPED
from sources.runner_copy import long_modules
from sources.runner_copy import send_until_it_ends

sys.path.insert(0, f"{TOP}/tools/run_tests")
import catalogue

# Modules with something that is wrong, and a pattern of what is said of them.
BAD = {
    "differs": ("class A(Case):\n    def test_a(self):\n        self.expect('sum', 1, 2)\n", "got '1', wanted '2'"),
    "breaks": ("class A(Case):\n    def test_a(self):\n        self.expect('a', 1, 1)\n        1 / 0\n", "by zero"),
    "nothing": ("class A(Case):\n    def test_a(self):\n        pass\n", "it compared nothing"),
    "empty": ("X = 1\n", "it has no test"),
    "no_method": (GOOD + "def test_c(self):\n    pass\n", "test_c is no method of a class of tests"),
    "no_case": (GOOD + "class B:\n    def test_b(self):\n        pass\n", "B.test_b is no method"),
    "other_case": ("class A(unittest.TestCase):\n    def test_a(self):\n        pass\n", "not derived from fixtures"),
    "no_tests": (GOOD + "class C(Case):\n    X = 1\n", "the class C has no test"),
    "twice": (GOOD + "    def test_one(self):\n        self.expect('a', 1, 1)\n", "Words.test_one is defined 2 times"),
    "subtest": (
        "class A(Case):\n    def test_a(self):\n        self.expect('a', 1, 2)\n" "        self.skipTest('b')\n",
        "'2'",
    ),
    "set_up": (
        "class A(Case):\n    @classmethod\n    def setUpClass(cls):\n        1 / 0\n    def test_a(self):\n"
        "        self.expect('a', 1, 1)\n",
        "ZeroDivision",
    ),
    "dies": (GOOD + "    def test_x(self):\n        os._exit(0)\n", "status 0"),
    "exits": ("sys.exit(0)\n", "status 0"),
    "syntax": ("import nowhere_at_all\n" + GOOD, "nowhere_at_all"),
}
SLEEPS = """
class A(Case):
    def test_a(self):
        with open("pids", "w") as file:
            child = subprocess.Popen(["sleep", "1000"])
            file.write(f"{os.getpid()} {child.pid}\\n")
        time.sleep(1000)
"""
# The module that compiles the tests of crates, a test for each.
CRATES = """
class Crates(Case):
    def test_a_crate(self):
        self.expect("one", 1, 1)
    def test_blocks(self):
        self.expect("one", 1, 1)
"""


class Reports(RunnerCase):
    def test_what_passes(self) -> None:
        self.module("sums", GOOD)
        status, lines = self.given()
        self.expect("the lines", lines, ["sources.test_sums: passed: 3 tests, 4 comparisons", "3 passed, 0 failed"])
        self.expect("the status", status, 0)

    def test_what_it_takes_of_a_processor(self) -> None:
        self.module(
            "works",
            GOOD + "    def test_work(self):\n        subprocess.run([sys.executable, '-S', '-c', "
            "'import time\\nwhile time.process_time() < 1.5: pass'])\n        self.expect('a', 1, 1)\n",
        )
        self.module(
            "sleeps", GOOD + "    def test_sleep(self):\n        time.sleep(2)\n" "        self.expect('a', 1, 1)\n"
        )
        text, _ = self.start().communicate()
        found = dict(re.findall(r"test_(\w+): passed in \d+ s, (\d+) of a processor", text))
        self.expect("both", sorted(found), ["sleeps", "works"])
        self.expect("one that sleeps, and one that works", int(found["sleeps"]) < int(found["works"]))

    def test_bytecode(self) -> None:
        """Of what many tests load, in a folder of the run; none in the repository."""
        text = """
class A(Case):
    def test_a(self):
        with open("kept", "w") as file:
            file.write(sys.pycache_prefix)
        loaded = sys.modules[Case.__module__]
        self.expect("loaded", loaded.__cached__.startswith(sys.pycache_prefix) and os.path.exists(loaded.__cached__))
        mode = os.stat(sys.pycache_prefix).st_mode
        self.expect("others read it", mode & 0o055, 0o055)
"""
        self.module("loads", text)
        lines = self.given(PYTHONPYCACHEPREFIX="")[1]
        self.expect(f"the end: {lines}", lines[-1], "1 passed, 0 failed")
        with open(f"{self.top}/kept", encoding="utf-8") as file:
            self.expect("after the run", os.path.exists(file.read()), False)
        found = [place for place, folders, _ in os.walk(self.top) if "__pycache__" in folders]
        self.expect("in the repository", found, [])

    def test_a_module_in_parts(self) -> None:
        """Each test runs in one of the processes."""
        self.module("sums", GOOD)
        self.long({"sources.test_sums": 2})
        status, lines = self.given()
        self.expect(
            "the lines",
            sorted(lines),
            [
                "3 passed, 0 failed",
                "sources.test_sums (1 of 2): passed: 2 tests, 2 comparisons",
                "sources.test_sums (2 of 2): passed: 1 test, 2 comparisons",
            ],
        )
        self.expect("the status", status, 0)
        found = self.given("sources.Words")[1][0]
        self.expect("a chosen class", found, "sources.test_sums: passed: 1 test, 1 comparison")
        self.long({"sources.test_sums": 4})
        self.expect("a part without a test", self.given()[1][-1], "3 passed, 1 failed")

    def test_what_fails(self) -> None:
        for name, (text, _) in BAD.items():
            self.module(name, text)
        status, lines = self.given()
        text = "\n".join(lines)
        expected = {f"sources.test_{name}": said for name, (_, said) in BAD.items()}
        for name, said in expected.items():
            part = re.search(rf"^{re.escape(name)}: (.*(?:\n  .*)*)", text, re.M)
            self.expect(f"{name} is failed: {part and part[1]}", bool(part and part[1].startswith("failed: ")))
            self.expect(f"{name} says {said}: {part and part[1]}", bool(part and said in part[1]))
        self.expect("a line that says passed", [it for it in lines if ": passed" in it], [])
        self.expect(f"the end: {lines[-1]}", (status, lines[-1].endswith(f", {len(BAD)} failed")), (1, True))

    def test_what_is_skipped(self) -> None:
        self.module("skipped", SKIPPED)
        status, lines = self.given()
        lacking = ("nosuch-command", "other-command")
        reasons = "; ".join(f"no {it} on this machine: apt-get install {it}" for it in lacking)
        self.expect("the lines", lines[:-2], [f"sources.test_skipped: skipped: 2 tests, 0 comparisons; {reasons}"])
        hint = "./test: for the skipped tests, as root: apt-get install nosuch-command other-command"
        self.expect("the end", (status, lines[-2:]), (0, [hint, "0 passed, 0 failed, 2 skipped"]))

    def test_no_program(self) -> None:
        self.write("openlink", "#!/bin/sh\nexit 70\n", 0o755)
        self.write("tests/other/__init__.py", "")
        self.write("tests/other/test_sums.py", IMPORTS + GOOD)
        self.module("sums", GOOD)
        self.expect("it is built first", self.given(), (1, ["./test: the program is not built", "0 passed, 1 failed"]))
        self.expect("nothing is built", self.given("--program")[0], 1)
        self.expect("those that need none", self.given("--early")[1][-1], "3 passed, 0 failed")


# A test of the program that fails unless it runs the second time, and one that notes when it ends.
SECOND_TIME = """
class {name}(Case):
    def test_a(self):
        with open("starts", "a") as file:
            file.write("{name} " + str(os.path.exists("ended")) + "\\n")
        self.expect("how often", open("starts").read().count("{name} ") == {times})
"""
ENDS_LATE = """
class Late(Case):
    def test_a(self):
        time.sleep(1)
        self.expect("made", open("ended", "w").close(), None)
"""
ALONE = "./test: once more, alone: other.test_second"
PASSED_ALONE = "./test: failed beside others, passed alone: other.test_second"


class RunsAgain(RunnerCase):
    def setUp(self) -> None:
        super().setUp()
        self.other("late", ENDS_LATE)

    def other(self, name: str, text: str) -> None:
        """A module that is none of those that need no program."""
        self.write("tests/other/__init__.py", "")
        self.write(f"tests/other/test_{name}.py", IMPORTS + text)

    def test_one_that_passes_alone(self) -> None:
        """When all others have ended."""
        self.other("second", SECOND_TIME.format(name="Second", times=2))
        status, lines = self.given()
        self.expect("the end", (status, lines[-1]), (0, "2 passed, 0 failed"))
        self.expect("what is said", [it for it in lines if it.startswith("./test")], [ALONE, PASSED_ALONE])
        self.expect("its failure", [it for it in lines if it.startswith("other.test_second: failed")] != [])
        with open(f"{self.top}/starts", encoding="utf-8") as file:
            self.expect("its starts", file.read().splitlines()[-1], "Second True")

    def test_one_that_fails_again(self) -> None:
        self.other("second", SECOND_TIME.format(name="Second", times=0))
        status, lines = self.given()
        self.expect("the end", (status, lines[-1]), (1, "1 passed, 1 failed"))
        self.expect("what is said", [it for it in lines if it.startswith("./test")], [ALONE])

    def test_chosen_ones(self) -> None:
        """Whoever names tests sees at once what fails."""
        self.other("second", SECOND_TIME.format(name="Second", times=2))
        for arguments in (["second", "late"], ["-k", "test_a"]):
            self.expect(f"{arguments}", self.given(*arguments)[1][-1], "1 passed, 1 failed")
            os.remove(f"{self.top}/starts")

    def test_one_without_the_program(self) -> None:
        self.module("second", SECOND_TIME.format(name="Second", times=2))
        status, lines = self.given()
        self.expect("its end", (status, lines[-1]), (1, "1 passed, 1 failed"))

    def test_many(self) -> None:
        """Five run again, and of six none."""
        for number in range(1, 7):
            self.other(f"no_{number}", SECOND_TIME.format(name=f"No{number}", times=2))
            if number >= 5:
                end = self.given()[1][-1]
                self.expect(f"{number} that fail", end, "6 passed, 0 failed" if number == 5 else "1 passed, 6 failed")
                os.remove(f"{self.top}/starts")


# Arguments, and the numbers of tests that pass.
NAMES = [
    (["sources"], 6),
    (["sums"], 3),
    (["sources.test_sums"], 3),
    (["sources.sums"], 3),
    (["sources.Sums"], 4),
    (["sources.Sums.test_two"], 2),
    (["sources.test_sums.Sums.test_two"], 1),
    (["sources.Words", "sources.Sums"], 6),
    (["a_crate"], 1),
    (["unproved"], 2),
    (["blocks"], 1),
    (["--crates"], 2),
    (["a_crate", "sums", "sources.test_sums.Words"], 4),
    (["-k", "two"], 2),
    (["-k", "*Words.*one"], 2),
    (["sums", "-k", "one"], 2),
    (["--early", "-k", "two", "-k", "Words"], 4),
]
WRONG = [
    ["nowhere"],
    ["sources.Nowhere"],
    ["sources.Sums.test_three"],
    ["sums", "nowhere"],
    ["-k", "nowhere"],
    ["--nowhere"],
    ["--early", "--program"],
    ["source"],
    ["Sums"],
    ["--program", "sums"],
    ["other_crate"],
    ["--early", "a_crate"],
    [""],
]


class Names(RunnerCase):
    def setUp(self) -> None:
        super().setUp()
        self.module("sums", GOOD)
        self.module("more", GOOD)
        self.write("tests/unproved/__init__.py", "")
        self.write("tests/unproved/test_crates.py", IMPORTS + CRATES)
        for name in ("a_crate", "other_crate"):
            self.write(f"crates/{name}/src/lib.rt", "")

    def test_chosen(self) -> None:
        every = self.given_each([arguments for arguments, _ in NAMES])
        self.expect("runs", len(every), len(NAMES))
        for (arguments, count), (status, lines) in zip(NAMES, every):
            self.expect(f"{arguments}: {lines}", (status, lines[-1]), (0, f"{count} passed, 0 failed"))

    def test_unknown(self) -> None:
        every = self.given_each(WRONG)
        self.expect("runs", len(every), len(WRONG))
        for arguments, (status, lines) in zip(WRONG, every):
            self.expect(f"{arguments}: {lines}", (status, any("passed" in it for it in lines)), (2, False))


def is_running(process: int) -> bool:
    try:
        with open(f"/proc/{process}/stat", encoding="utf-8", errors="replace") as file:
            return file.read().rpartition(")")[2].split()[0] not in "ZX"
    except OSError:
        return False


class Order(Case):
    def test_names(self) -> None:
        """Which tests start first, and are divided: all are there, with a test for each process."""
        tests = {it.name: it for it in catalogue.everything()}
        for name, count in long_modules().items():
            self.expect(f"{name} in {count} parts", name in tests and len(tests[name].methods) >= count)


class Interrupts(RunnerCase):
    def test_children_end(self) -> None:
        """The process of the module, and what it started."""
        for number in signal.SIGINT, signal.SIGTERM:
            self.module("sleeps", SLEEPS)
            os.makedirs(f"{self.top}/temporary", exist_ok=True)
            run = self.start(TMPDIR=f"{self.top}/temporary")
            pids = wait_until(lambda: os.path.exists(f"{self.top}/pids") and open(f"{self.top}/pids").read().split())
            self.expect("what was started", len(pids), 2)
            send_until_it_ends(run, number)
            printed = run.communicate()[0]
            self.expect(f"signal {number}", (run.returncode, printed), (1, "./test: interrupted\n"))
            self.expect("what still runs", [it for it in pids if is_running(int(it))], [])
            self.expect("what is left of temporary files", os.listdir(f"{self.top}/temporary"), [])
            os.remove(f"{self.top}/pids")
