"""What tests need: each command has a package of Debian in fixtures/needs.py, no test is skipped by anything else than
these decorators, and a test that lacks several things names all of them."""
from __future__ import annotations

import ast
import functools
import glob
import re
import subprocess
import unittest
from collections.abc import Iterator

from fixtures import needs
from fixtures.cases import Case

PATTERN = "tests/**/*.py"
# The decorators and the runner themselves, and tests of them.
LEFT_OUT = ("tests/fixtures/needs.py", "tests/sources/test_cases.py", "tests/sources/test_needs.py")
SKIPS = {"skipTest", "skipIf", "skipUnless", "skip", "SkipTest"}
LEAST_FILES, LEAST_COMMANDS = 100, 8
_A_SKIP, _A_COMMAND = re.compile(rf"\b({'|'.join(SKIPS)})\b"), re.compile(r"\bneeds\s*\.\s*command\b")


_tree = functools.lru_cache(maxsize=None)(ast.parse)


def faults(path: str, text: str) -> Iterator[str]:
    """What is wrong in a file of tests. Only a file that mentions skipping is parsed."""
    for node in ast.walk(_tree(text)) if _A_SKIP.search(text) else ():
        name = node.attr if isinstance(node, ast.Attribute) else node.id if isinstance(node, ast.Name) else ""
        if name in SKIPS:
            yield f"{path}:{node.lineno}: {name} and no decorator of fixtures/needs.py"
    for command in commands(text):
        if command not in needs.PACKAGES:
            yield f"{path}: fixtures/needs.py names no package for {command}"


@functools.cache
def commands(text: str) -> set[str]:
    """The commands that decorators of a file name."""
    found: set[str] = set()
    for node in ast.walk(_tree(text)) if _A_COMMAND.search(text) else ():
        if isinstance(node, ast.Call) and isinstance(node.func, ast.Attribute) and node.func.attr == "command":
            if isinstance(node.func.value, ast.Name) and node.func.value.id == "needs":
                found |= {it.value if isinstance(it, ast.Constant) else ast.unparse(it) for it in node.args}
    return found


def files() -> dict[str, str]:
    texts = {}
    for path in sorted({*glob.glob(PATTERN, recursive=True)} - {*LEFT_OUT}):
        with open(path, encoding="utf-8") as file:
            texts[path] = file.read()
    return texts


# A text, and how many faults it has.
EXAMPLES = [
    ('@needs.command("node", "bash")\ndef a(): pass\n', 0),
    ('@needs.command("node", "nosuch-command")\ndef a(): pass\n', 1),
    ("@needs.command(*NAMES)\ndef a(): pass\n", 1),
    ('@unittest.skipUnless(x, "a")\ndef a(): pass\n', 1),
    ('@skipIf(x, "a")\ndef a(): pass\n', 1),
    ('def a(self):\n    self.skipTest("a")\n', 1),
    ("def a(self):\n    raise unittest.SkipTest\n", 1),
    ('SKIPPED = "self.skipTest()"\n', 0),
]


class Needs(Case):
    def test_all_files(self) -> None:
        texts = files()
        self.expect("what is wrong", [it for path, text in texts.items() for it in faults(path, text)], [])
        self.expect(f"{len(texts)} files", len(texts) >= LEAST_FILES)
        found = {it for text in texts.values() for it in commands(text)}
        self.expect(f"the commands {sorted(found)}", len(found) >= LEAST_COMMANDS)

    def test_examples(self) -> None:
        for text, count in EXAMPLES:
            self.expect(text, len([*faults("a.py", text)]), count)


def unknown(names: set[str]) -> set[str]:
    """Those that are no packages."""
    words = ["apt-cache", "show", "--no-all-versions", *sorted(names)]
    said = subprocess.run(words, stdout=subprocess.PIPE, stderr=subprocess.DEVNULL, encoding="utf-8").stdout
    return names - {*re.findall(r"^Package: (.*)$", said, re.M)}


def faults_of_installed(packages: dict[str, str]) -> list[str]:
    """The commands that their packages, if these are installed, do not have."""
    found = []
    for command, package in packages.items():
        done = subprocess.run(["dpkg-query", "-L", package], capture_output=True, encoding="utf-8")
        if done.returncode == 0 and not re.search(rf"bin/{re.escape(command)}$", done.stdout, re.M):
            found.append(f"{package} has no command {command}")
    return found


class Packages(Case):
    @needs.package_lists()
    def test_names(self) -> None:
        found = unknown({*needs.PACKAGES.values(), "nosuch-package"})
        self.expect("unknown packages", found - {"nosuch-package"}, set())
        self.expect("one that is none", "nosuch-package" in found)

    @needs.command("dpkg")
    def test_commands(self) -> None:
        self.expect("what is wrong", faults_of_installed(needs.PACKAGES), [])
        spoilt = {"nosuch-command": "dpkg", "bash": "dpkg", "dpkg-deb": "dpkg"}
        self.expect("wrong commands", len(faults_of_installed(spoilt)), 2)


class Reasons(Case):
    def test_of_several_decorators(self) -> None:
        lacks = [needs.command(f"nosuch-{it}") for it in ("one", "two", "three")]

        @lacks[0]
        @needs.command("sh")
        @lacks[1]
        class Sample(unittest.TestCase):
            @lacks[2]
            @lacks[1]
            def test_a(self) -> None:
                pass

        told = [f"no nosuch-{it} on this machine: apt-get install nosuch-{it}" for it in ("one", "two", "three")]
        found = needs.reasons(Sample("test_a"))
        self.expect("class and method", found, [f"{told[0]}; {told[1]}", f"{told[2]}; {told[1]}"])

    def test_of_none(self) -> None:
        @needs.command("sh")
        class Sample(unittest.TestCase):
            def test_a(self) -> None:
                pass

        self.expect("nothing lacks", needs.reasons(Sample("test_a")), [])
