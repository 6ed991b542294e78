"""./test --install with a stand-in for apt-get: which packages it installs, and what is said of them."""
from __future__ import annotations

import os
import re

from sources.runner_copy import GOOD
from sources.runner_copy import RunnerCase
from sources.runner_copy import SKIPPED

# Tests that lack several things, one of them no package.
SEVERAL = """
@needs.program()
@needs.command("first-command")
class A(Case):
    @needs.command("second-command")
    @needs.python_module("nosuch_module", "third-package")
    def test_a(self):
        self.expect("a", 1, 2)
    def test_b(self):
        self.expect("b", 1, 2)
class B(Case):
    def test_b(self):
        self.skipTest("no fourth-command: apt-get install fourth-package")
"""
# Those that decorators name. A test says another one when it runs.
DECORATED = ["first-command", "second-command", "third-package"]
# Notes its words, and whether there is a policy then. It has no package NONE.
APT = """#!/bin/sh
here=$(dirname "$0")/..
for word; do line="$line $word"; done
if [ -x "$here/policy-rc.d" ]; then line="$line policy"; fi
echo "$line" >>"$here/calls"
case " $line " in *" NONE "*) exit 100 ;; esac
"""


class Installation(RunnerCase):
    """The policy is in the folder of the copy."""

    def setUp(self) -> None:
        super().setUp()
        path = f"{self.top}/tools/run_tests/packages.py"
        with open(path, encoding="utf-8") as file:
            text = file.read()
        self.assertEqual(text.count('"/usr/sbin/policy-rc.d"'), 1)
        self.policy = f"{self.top}/policy-rc.d"
        self.write("tools/run_tests/packages.py", text.replace('"/usr/sbin/policy-rc.d"', repr(self.policy)))

    def calls(self, *arguments: str, unknown: str = "none") -> list[list[str]]:
        """What apt-get is told, without options."""
        self.write("bin/apt-get", APT.replace("NONE", unknown), 0o755)
        self.write("calls", "")
        self.given("--install", *arguments)
        with open(f"{self.top}/calls", encoding="utf-8") as file:
            words = [re.sub(r" -o \S+| -\S+", "", line).split() for line in file.read().splitlines()]
        return words

    def test_packages_of_skipped_tests(self) -> None:
        """Those of all tests, whichever are chosen."""
        self.module("skipped", SKIPPED)
        self.module("sums", GOOD)
        wanted = [["update", "policy"], ["install", "nosuch-command", "other-command", "policy"]]
        for arguments in (["-k", "A.test_a"], ["sums"], ["--early"]):
            self.expect(f"the calls of {arguments}", self.calls(*arguments), wanted)

    def test_packages_of_a_test_that_lacks_several_things(self) -> None:
        self.module("several", SEVERAL)
        self.expect("the calls", self.calls(), [["update", "policy"], ["install", *DECORATED, "policy"]])
        status, lines = self.given()
        words = " ".join(sorted([*DECORATED, "fourth-package"]))
        self.expect(
            "the command",
            (status, lines[-2]),
            (0, f"./test: for the skipped tests, as root: " f"apt-get install {words}"),
        )

    def test_nothing_lacks(self) -> None:
        self.module("sums", GOOD)
        self.expect("the calls", self.calls(), [])
        status, lines = self.given()
        self.expect("the lines", (status, [it for it in lines if "apt-get" in it]), (0, []))

    def test_a_package_that_is_unknown(self) -> None:
        """The others are installed."""
        self.module("skipped", SKIPPED)
        names = ["nosuch-command", "other-command"]
        calls = self.calls(unknown="nosuch-command")
        self.expect(
            "the calls",
            calls,
            [["update", "policy"], *(["install", *those, "policy"] for those in (names, names[:1], names[1:]))],
        )
        lines = self.given("--install")[1]
        self.expect(
            "what is said", {"./test: not installed: nosuch-command", "./test: installed other-command"} <= {*lines}
        )

    def test_a_failed_installation(self) -> None:
        self.module("skipped", SKIPPED)
        self.write("bin/apt-get", "#!/bin/sh\nexit 1\n", 0o755)
        status, lines = self.given("--install")
        self.expect("the first line", lines[0], "./test: not installed: nosuch-command other-command")
        self.expect("the end", (status, lines[-1]), (0, "0 passed, 0 failed, 2 skipped"))

    def test_policy(self) -> None:
        """It is removed, and one that the machine has stays."""
        self.module("skipped", SKIPPED)
        self.calls()
        self.expect("it is removed", os.path.lexists(self.policy), False)
        self.write("policy-rc.d", "#!/bin/sh\n", 0o755)
        self.calls()
        with open(self.policy, encoding="utf-8") as file:
            self.expect("it stays", file.read(), "#!/bin/sh\n")
