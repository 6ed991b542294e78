"""tools/plant in a small repository: which bugs it finds, which of them its tests see, and that the checkout stays as
it is. tools/coverage counts what no test runs."""
from __future__ import annotations

import json
import os
import re
import shutil
import signal
import subprocess
import sys
import tempfile
from pathlib import Path

import fixtures
from fixtures import needs
from fixtures.cases import Case
from fixtures.patience import patience
from fixtures.patience import wait_until
from sources.runner_copy import send_until_it_ends

TOP = Path(fixtures.TOP)
sys.path.insert(0, f"{TOP}/tools")
from measuring import copies
from measuring import line_map
from planting import places
from planting import seeing
from planting.bug import Bug

# In the small repository, a test sees the first function, none the second.
SOURCE = """\
def is_small(number):
    return number < 5


def is_large(number):
    return number > 7
"""
TEST = """\
import os, sys, time
from pathlib import Path
from fixtures import TOP
from fixtures.cases import Case
from openlink_update import numbers

class Numbers(Case):
    def test_small(self):
        numbers.is_large(1)
        waits = os.environ.get("PLANT_WAITS")
        if waits and "<= 5" in Path(numbers.__file__).read_text():
            Path(waits).write_text(TOP)
            time.sleep(600)
        self.expect("four and five", [numbers.is_small(4), numbers.is_small(5)], [True, False])
"""
# A copy that has a bug is noted, and the first waits for another.
MEETING = """
    def setUp(self):
        meeting = os.environ.get("PLANT_MEETING")
        if meeting:
            above = [it for it in Path(TOP).parents if "temporary" in it.parts]
            is_open = all(os.stat(it).st_mode & 0o5 == 0o5 for it in above)
            Path(meeting, TOP.replace("/", "_")).write_text(str(is_open))
            end = time.monotonic() + 300
            while len(os.listdir(meeting)) < 2 and time.monotonic() < end:
                time.sleep(0.01)
"""
OTHER = """\
import os
from fixtures.cases import Case

class Other(Case):
    def test_nothing(self):
        if "PLANT_PROCESSES" in os.environ:
            with open(os.environ["PLANT_PROCESSES"], "a", encoding="utf-8") as file:
                file.write(f"{os.getpid()}\\n")
        self.expect("one", 1, 1)
"""
# The first calls what a command does at its start, and the second writes to a pipe that nobody reads.
PIPES = """\
import os, signal
from fixtures.cases import Case

class Pipes(Case):
    def test_command(self):
        signal.signal(signal.SIGPIPE, signal.SIG_DFL)
        self.expect("one", 1, 1)
""", """\
import os
from fixtures.cases import Case

class Pipes(Case):
    def test_server(self):
        reader, writer = os.pipe()
        os.close(reader)
        with self.assertRaises(BrokenPipeError):
            os.write(writer, b"a")
        self.expect("one", 1, 1)
"""
# Two processes run a function each: one ends at once, the other closes all files to itself and becomes a program.
ENDING = """\
import os, subprocess
from pathlib import Path
from fixtures.cases import Case
from openlink_update import numbers
from openlink_update.rights import closed_files

def close():
    numbers.is_large(1)
    closed_files.close([], Path("/nonexistent"))

class Ending(Case):
    def test_ends(self):
        child = os.fork()
        if child == 0:
            numbers.is_small(1)
            os._exit(3)
        self.expect("the first", os.waitstatus_to_exitcode(os.waitpid(child, 0)[1]), 3)
        self.expect("the second", subprocess.run(["cat", "/proc/self/stat"], preexec_fn=close).returncode, 1)
"""
RULES = "Type=simple\n# a comment\nUMask=0022\n[Install]\n"
# A script of the shell, and the lines without one of which it can be read.
COMMANDS = "set -e\nif a; then\n    b \\\n        c\n    d\nelse\n    # e\n    f\nfi\n\nfor it in g h; do i; done\n"
LINES = ["set -e", "b \\", "c", "d", "else", "for it in g h; do i; done"]
# Files of data, in which no bug is planted.
DATA = {".css", ".html", ".json", ".tsv", "copyright", "lintian-overrides"}
SCRIPT = """\
const MOST = 3;
function isShort(text, most) {
    if (text === '' && most > MOST) return /^a$/i;
    try { check(text, most); } catch (error) { report(error); }
    throw new Error('x');
}
"""
# A file, and bugs that it can have: a kind, and the new text of its line.
KNOWN: tuple[tuple[str, str, tuple[tuple[str, str], ...]], ...] = (
    (
        "a.py",
        "if a < b:\n    f(a, 2)\n",
        (
            ("comparison", "if a <= b:"),
            ("condition", "if not (a < b):"),
            ("condition", "if True:"),
            ("arguments", "f(2, a)"),
            ("off by one", "f(a, 3)"),
            ("call left out", "pass"),
        ),
    ),
    (
        "b.py",
        "def f(a):\n    g()\n    return a and b\n",
        (("condition", "return a"), ("condition", "return b"), ("return", "return None"), ("call left out", "pass")),
    ),
    ("c.py", "try:\n    f('x')\nexcept E:\n    raise\n", (("exception", "pass"), ("constant", "f('xx')"))),
    ("d.py", "def f():\n    g()\n    é = h(True)\n", (("return", "return é = h(True)"), ("constant", "é = h(False)"))),
    (
        "e.js",
        SCRIPT,
        (
            ("off by one", "const MOST = 4;"),
            ("exception", ";"),
            ("return", "if (text === '' && most > MOST) return;"),
            ("comparison", "if (text !== '' && most > MOST) return /^a$/i;"),
            ("condition", "if (text === '' || most > MOST) return /^a$/i;"),
            ("condition", "if (!(text === '' && most > MOST)) return /^a$/i;"),
            ("constant", "if (text === '' && most > MOST) return /a$/i;"),
            ("call left out", "try { ; } catch (error) { report(error); }"),
            ("arguments", "try { check(most, text); } catch (error) { report(error); }"),
            ("exception", "try { check(text, most); } catch (error) {}"),
        ),
    ),
    ("f.service", RULES, (("line", ""),)),
)


class Repository(Case):
    """A small repository with git, the tools, and one test."""

    def setUp(self) -> None:
        room = tempfile.TemporaryDirectory()
        self.addCleanup(room.cleanup)
        self.folder = Path(room.name)
        self.top = self.folder / "top"
        for path in ("tools/planting", "tools/measuring", "tools/run_tests", "tests/fixtures"):
            shutil.copytree(TOP / path, self.top / path, ignore=shutil.ignore_patterns("__pycache__", "out"))
        for name in ("plant", "coverage"):
            shutil.copy(TOP / "tools" / name, self.top / "tools")
        self.write("update/openlink_update/__init__.py", "")
        self.write("update/openlink_update/numbers.py", SOURCE)
        self.write("packaging/systemd/a.service", RULES)
        self.write("front_door/a.js", "function one(a) {\n    if (a) return 1;\n    return 2;\n}\n")
        self.write("tests/update/__init__.py", "")
        self.write("tests/update/test_numbers.py", TEST)
        self.write("tools/measuring/left.tsv", "file\tline\treason\n")
        self.write("tools/planting/never.tsv", "file\told line\tnew line\treason\n")
        self.write(".gitignore", "out/\n")
        self.git("init", "-q")
        self.git("add", ".")
        self.git("-c", "user.name=a", "-c", "user.email=a@example.org", "commit", "-q", "-m", "One")

    def write(self, path: str, text: str) -> None:
        place = self.top / path
        place.parent.mkdir(parents=True, exist_ok=True)
        place.write_text(text, encoding="utf-8")

    def git(self, *words: str) -> str:
        return subprocess.run(["git", *words], cwd=self.top, check=True, stdout=subprocess.PIPE, text=True).stdout

    def start(self, *words: str, **more: str) -> subprocess.Popen[str]:
        """Starts a tool, with its temporary files in a folder of the test."""
        place = self.folder / "temporary"
        place.mkdir(exist_ok=True)
        environment = {**os.environ, "TMPDIR": str(place), **more}
        return subprocess.Popen(
            [sys.executable, "-B", *words],
            cwd=self.top,
            env=environment,
            stdout=subprocess.PIPE,
            stderr=subprocess.STDOUT,
            text=True,
            preexec_fn=lambda: signal.signal(signal.SIGINT, signal.default_int_handler),
        )

    def given(self, *words: str) -> tuple[int, str]:
        process = self.start(*words)
        said = process.communicate()[0]
        return process.returncode, said

    def expect_clean(self) -> None:
        self.expect("what has changed in the checkout", self.git("status", "--porcelain"), "")
        self.expect("what is left of temporary files", [*(self.folder / "temporary").iterdir()], [])


@needs.command("git")
class Planting(Repository):
    def test_seen_and_unseen(self) -> None:
        status, said = self.given("tools/plant", "update/openlink_update/numbers.py")
        self.expect(f"the status, with {said}", status, 1)
        found = re.findall(r"^(\S+:\d+): ([\w ]+): not seen by 1 tests$", said, re.M)
        self.expect("where the unseen ones are", {place for place, _ in found}, {"update/openlink_update/numbers.py:6"})
        self.expect("their kinds", {kind for _, kind in found}, {"comparison", "off by one", "constant", "return"})
        self.expect_lines("the old and the new text", said, "  - return number > 7", "  + return number >= 7")
        self.expect_lines("the kinds", said, "comparison: 2 planted, 1 seen", "10 planted, 5 seen, 5 not seen")
        self.expect_clean()

    def test_a_change(self) -> None:
        self.write("update/openlink_update/numbers.py", SOURCE.replace("> 7", "> 8"))
        listed = self.given("tools/plant", "--list", "HEAD")[1]
        places = {*re.findall(r"^(\S+): ", listed, re.M)}
        self.expect("the lines of a change", places, {"update/openlink_update/numbers.py:6"})

    def test_never(self) -> None:
        path = "update/openlink_update/numbers.py"
        head, row = "file\told line\tnew line\treason\n", f"{path}\treturn number > 7\treturn number >= 7\t"
        self.write("tools/planting/never.tsv", f"{head}{row}nobody calls it\n")
        listed = self.given("tools/plant", "--list", f"{path}:6")[1]
        self.expect(f"without the one that is listed: {listed}", listed.count(": it can be planted\n"), 4)
        self.expect("which one", "  + return number >= 7\n" in listed, False)
        self.write("tools/planting/never.tsv", f"{head}{row} \n")
        status, said = self.given("tools/plant", f"{path}:6")
        self.expect(f"without a reason: {said}", (status != 0, "a reason, and not" in said), (True, True))

    def test_the_map(self) -> None:
        """Only the tests that the map names for a line run; none runs the second function."""
        path = "update/openlink_update/numbers.py"
        ran = {"text": "before", "ran": ["2", "3"], "missing": ["6", "7"]}
        found = {
            "seconds": {"update.test_numbers": 1},
            "runs": {"update.test_numbers": {path: ran}},
            "texts": {"before": ["# before it", *SOURCE.splitlines()]},
        }
        self.write("tools/out/lines.json", json.dumps(found))
        said = self.given("tools/plant", "--count", "2", f"{path}:2-2")[1]
        self.expect_lines("a line that has moved", said, "2 planted, 2 seen, 0 not seen")
        said = self.given("tools/plant", f"{path}:6")[1]
        self.expect("tests of the other", said.count(": not seen by 0 tests\n"), 5)
        self.write("tests/update/test_one.py", OTHER)
        said = self.given("tools/plant", "--count", "2", f"{path}:6")[1]
        self.expect("a test that was not measured", said.count(": not seen by 1 tests\n"), 2)
        for number, count in ((2, 5), (6, 0)):
            listed = self.given("tools/plant", "--list", "--measured", f"{path}:{number}")[1]
            self.expect(f"measured bugs of line {number}", listed.count(": it can be planted\n"), count)

    def test_the_map_of_a_script(self) -> None:
        """Its statements are noted. What is outside of its functions runs in each test that runs anything of it."""
        path = "front_door/e.js"
        self.write(path, SCRIPT)
        ran = {"text": "before", "ran": ["5#4"], "missing": ["3#0", "3#1", "4#2", "4#3"]}
        found = {
            "seconds": {"update.test_numbers": 1},
            "runs": {"update.test_numbers": {path: ran}},
            "texts": {"before": SCRIPT.splitlines()},
        }
        self.write("tools/out/lines.json", json.dumps(found))
        for number, count in ((1, 1), (3, 0), (5, 1)):
            said = self.given("tools/plant", f"{path}:{number}")[1]
            found_tests = {*re.findall(r": not seen by (\d+) tests$", said, re.M)}
            self.expect(f"line {number}: {said}", found_tests, {str(count)})

    def test_a_failing_test(self) -> None:
        """One that fails without a bug would see each."""
        self.write("tests/update/test_numbers.py", TEST.replace("[True, False]", "[True, True]"))
        status, said = self.given("tools/plant", "update/openlink_update/numbers.py")
        self.expect("the status", status, 2)
        self.expect_lines("what it says", said, "tools/plant: update.test_numbers fails without a bug too")
        self.expect_lines("it sees none", said, "10 planted, 0 seen, 10 not seen")

    def test_a_seed(self) -> None:
        words = ("tools/plant", "--list", "--count", "4", "update", "front_door", "packaging")
        first, again, other = (self.given(*words, "--seed", seed)[1] for seed in ("1", "1", "2"))
        self.expect("the same seed", first, again)
        self.expect("another seed", first != other)
        kinds = re.findall(r"^\S+:\d+: ([\w ]+): it can", first, re.M)
        self.expect("their number", len(kinds), 4)
        self.expect("each kind once", len({*kinds}), 4)

    def test_all_and_only(self) -> None:
        for words, wanted in (
            (("--all",), {"update", "front_door", "packaging"}),
            (("--all", "--only", "a."), {"front_door", "packaging"}),
            (("--only", "numbers", "update", "front_door"), {"update"}),
        ):
            status, listed = self.given("tools/plant", "--list", *words)
            self.expect(f"{words}", (status, {*re.findall(r"^(\w+)/\S+: ", listed, re.M)}), (0, wanted))
        for words in ((), ("--all", "update")):
            self.expect(f"the status for {words}", self.given("tools/plant", *words)[0], 2)

    def test_side_by_side(self) -> None:
        """Two bugs at a time, each in a copy of its own."""
        self.write("tests/update/test_numbers.py", TEST + MEETING)
        meeting = self.folder / "meeting"
        meeting.mkdir()
        path = "update/openlink_update/numbers.py:2"
        words = ("tools/plant", "--count", "2", path)
        said = self.start(*words, OPENLINK_JOBS="2", PLANT_MEETING=str(meeting)).communicate()[0]
        self.expect_lines("what is planted", said, "2 planted, 2 seen, 0 not seen")
        notes = [it.read_text(encoding="utf-8") for it in meeting.iterdir()]
        self.expect("copies, which others than root may read", notes, ["True", "True"])

    def test_one_process(self) -> None:
        """All tests of a bug run in one process, until one fails."""
        self.write("tests/update/test_one.py", OTHER)
        self.write("tests/update/test_two.py", OTHER)
        place = self.folder / "processes"
        words, more = ("tools/plant", "--count", "2"), {"OPENLINK_JOBS": "1", "PLANT_PROCESSES": str(place)}
        said = self.start(*words, "update/openlink_update/numbers.py:6", **more).communicate()[0]
        self.expect("tests of each bug", said.count(": not seen by 3 tests\n"), 2)
        noted = place.read_text(encoding="utf-8").split()
        self.expect("notes, and processes", (len(noted), len({*noted})), (4, 2))
        place.unlink()
        said = self.start(*words, "update/openlink_update/numbers.py:2", **more).communicate()[0]
        self.expect_lines("of the other function", said, "2 planted, 2 seen, 0 not seen")
        self.expect("tests after the one that failed", place.exists(), False)

    def test_minutes(self) -> None:
        status, said = self.given("tools/plant", "--minutes", "0", "update/openlink_update/numbers.py")
        self.expect("what it says", (status, said), (0, "0 planted, of 10, 0 seen, 0 not seen\n"))

    def test_spared(self) -> None:
        """Nothing is planted where a bug could end processes of others."""
        self.write("update/openlink_update/rights/library_user.py", SOURCE)
        listed = self.given("tools/plant", "--list", "--all", "--only", "library_user")
        self.expect("its bugs", listed, (0, ""))

    def test_no_place(self) -> None:
        for name in ("README.md", "nosuch", "tests/fixtures/restart:x"):
            self.expect(f"the status for {name}", self.given("tools/plant", name)[0], 2)

    def test_time_limit(self) -> None:
        """A bug that lets a test hang is seen."""
        words = ("tools/plant", "--limit", str(patience(3)), "update/openlink_update/numbers.py:2")
        said = self.start(*words, PLANT_WAITS=str(self.folder / "waits")).communicate()[0]
        self.expect("it waited", (self.folder / "waits").exists())
        self.expect_lines("all of them", said, "5 planted, 5 seen, 0 not seen")
        place, end = "update/openlink_update/numbers.py:2: comparison", "which did not end within its limit"
        self.expect_lines("which one it was", said, f"{place}: seen by update.test_numbers, {end}")

    def test_interrupts(self) -> None:
        for number in (signal.SIGINT, signal.SIGTERM):
            waits = self.folder / f"waits.{number}"
            process = self.start("tools/plant", "update/openlink_update/numbers.py", PLANT_WAITS=str(waits))
            wait_until(lambda: waits.exists() and waits.read_text() != "")
            send_until_it_ends(process, number)
            said = process.communicate()[0]
            self.expect(f"after {number.name}", (process.returncode, said), (1, "tools/plant: interrupted\n"))
            self.expect("the test runs in a copy", Path(waits.read_text()) != self.top)
            self.expect("the copy is removed", Path(waits.read_text()).exists(), False)
            self.expect_clean()


class Bugs(Repository):
    def listed(self, *names: str) -> set[tuple[str, str, str]]:
        """The file, the kind and the new text of each bug of files."""
        said = self.given("tools/plant", "--list", *names)[1]
        return {*re.findall(r"^(\S+):\d+: ([\w ]+): it can be planted\n  - .*\n  \+ (.*)$", said, re.M)}

    @needs.command("git")
    def test_kinds(self) -> None:
        for name, text, _ in KNOWN:
            self.write(f"update/{name}", text)
        every = self.listed(*(f"update/{name}" for name, _, _ in KNOWN))
        for name, _, wanted in KNOWN:
            found = {(kind, new) for path, kind, new in every if path == f"update/{name}"}
            for bug in wanted:
                self.expect(f"{name}: {bug}, among {sorted(found)}", bug in found)

    def lines(self, path: str) -> list[str]:
        """The lines that can be taken out of a file."""
        return re.findall(r"^  - (.*)$", self.given("tools/plant", "--list", path)[1], re.M)

    def test_lines_of_a_declaration(self) -> None:
        for name in ("a.service", "a.nft", "a.yml", "control"):
            self.write(f"packaging/systemd/{name}", RULES)
            self.expect(name, self.lines(f"packaging/systemd/{name}"), ["Type=simple", "UMask=0022", "[Install]"])
        self.write("front_door/a.conf", "if ($a) { return 405; }\nserver { # b\n    listen 80;\n}\n")
        self.expect("blocks", self.lines("front_door/a.conf"), ["if ($a) { return 405; }", "listen 80;"])

    def test_lines_of_a_script(self) -> None:
        """A line without which the script cannot be read is none of them."""
        for first in ("#!/bin/sh", "#!/usr/bin/env bash", "# shellcheck shell=bash"):
            self.write("packaging/a", f"{first}\n{COMMANDS}")
            self.expect(first, self.lines("packaging/a"), LINES)
        for name, first in (("a", "# shell"), ("a", "#!/usr/bin/fish"), ("a.json", "#!/bin/sh")):
            self.write(f"packaging/{name}", f"{first}\n{COMMANDS}")
            self.expect(f"{name}, {first}", self.given("tools/plant", "--list", f"packaging/{name}")[0], 2)

    def test_values_that_count_as_none(self) -> None:
        """What a function returns is not left out where nothing, or what is undefined, is as good."""
        self.write("update/a.py", "def f(a):\n    if a: return None\n    return True\n")
        self.write("front_door/b.js", "function g(a) {\n    if (a) return false;\n    return true;\n}\n")
        for path, left in (("update/a.py", ["return True"]), ("front_door/b.js", ["return true;"])):
            text = self.given("tools/plant", "--list", path)[1]
            self.expect(path, re.findall(r": return: .*\n  - (.*)$", text, re.M), left)

    def test_python_that_no_run_sees(self) -> None:
        text = (
            '"""Text."""\nfrom a import b\n\n__all__ = ["b"]\n\n\n@d(1)\ndef f(a: "int") -> "int":\n    """More."""\n'
        )
        self.write("update/g.py", text)
        self.expect("no bug", self.listed("update/g.py"), set())


class Modules(Case):
    """In all that bugs are planted in, they can be found, and the changed Python can be read."""

    def test_many(self) -> None:
        words = [sys.executable, "-B", "tools/plant", "--list", "--count", "200"]
        for folder, suffix, least in (("update", "py", 30), ("front_door", "js", 20), ("packaging", "", 10)):
            said = subprocess.run([*words, folder], capture_output=True, text=True, check=True).stdout
            paths = {*re.findall(rf"^(\S+{suffix}):\d+: ", said, re.M)}
            self.expect(f"files of {folder}: {len(paths)}", len(paths) >= least)

    @needs.command("git")
    def test_no_file_is_left_out(self) -> None:
        """Each file but those of data can have bugs, and there are tests that look at it."""
        found = places.named(TOP, [*places.FOLDERS])
        every = [Path(it) for it in copies.files(TOP) if it.startswith(tuple(f"{it}/" for it in places.FOLDERS))]
        self.expect("others", {it.suffix or it.name for it in every if str(it) not in found}, DATA)
        tests = seeing.Tests(line_map.LineMap(), 600)
        self.expect("without a test", [it for it in found if not tests.of(Bug(it, "line", 0, 0, ""), "")], [])


@needs.command("git")
class OneProcess(Repository):
    def test_signals(self) -> None:
        """What a command has set is not of the next test."""
        names = ["update.test_command", "update.test_server"]
        for name, text in zip(names, PIPES):
            self.write(f"tests/{name.replace('.', '/')}.py", text)
        passed = self.folder / "passed"
        status, said = self.given("tools/measuring/one_process.py", str(passed), *names)
        self.expect(f"the status, with {said}", status, 0)
        self.expect("what has passed", passed.read_text().split(), names)


@needs.command("git")
@needs.module_of_debian("coverage", "python3-coverage")
class Coverage(Repository):
    def test_lines_and_branches(self) -> None:
        self.write("update/openlink_update/numbers.py", SOURCE + "\n\ndef third():\n    return 3\n")
        status, said = self.given("tools/coverage")
        self.expect(f"the status, with {said}", status, 1)
        self.expect_lines(
            "the modules",
            said,
            "update/openlink_update/numbers.py: 83.3, not run: 10",
            "front_door/a.js: 0.0, not run: 2, 3",
        )
        found = json.loads((self.top / "tools/out/lines.json").read_text())
        lines = found["runs"]["update.test_numbers"]["update/openlink_update/numbers.py"]
        self.expect("the lines of the test", lines["ran"], ["1", "2", "5", "6", "9"])
        self.expect("the checkout", self.git("status", "--porcelain"), " M update/openlink_update/numbers.py\n")
        self.write(
            "tools/measuring/left.tsv",
            "file\tline\treason\nupdate/openlink_update/numbers.py\treturn 3\tnobody calls it\n",
        )
        said = self.given("tools/coverage")[1]
        self.expect_lines(
            "what is listed",
            said,
            "update/openlink_update/numbers.py: 100.0",
            "update: 100.0 in 100, at least 97; 1 more are listed as left",
        )

    def test_what_is_left_out(self) -> None:
        self.write("tests/update/test_times.py", TEST.replace("[True, False]", "[True, True]"))
        self.write("tools/measuring/tests", "update\n-update.test_times\n")
        said = self.given("tools/coverage")[1]
        self.expect_lines("the other", said, "update/openlink_update/numbers.py: 100.0")
        self.expect("it is not run", "test_times" in said, False)

    def test_the_longest_are_first(self) -> None:
        """But before them those that were never measured."""
        names = ["update.test_new", "update.test_slow", "update.test_quick"]
        for name in names:
            self.write(f"tests/{name.replace('.', '/')}.py", TEST)
        seconds = {"update.test_quick": 1, "update.test_slow": 2}
        self.write("tools/out/lines.json", json.dumps({"seconds": seconds, "runs": {}, "texts": {}}))
        process = self.start("tools/coverage", *sorted([*names, *names], reverse=True), OPENLINK_JOBS="1")
        said = process.communicate()[0]
        self.expect("the order", re.findall(r"^(\S+): passed", said, re.M), names)

    def test_processes_that_do_not_end_as_others(self) -> None:
        """Lines count that run in a process which ends at once, or before it becomes a program, though it closes all
        files to itself."""
        path = "update/openlink_update/rights/closed_files.py"
        text = (TOP / path).read_text(encoding="utf-8")
        self.write(path, text)
        self.write("tests/update/test_numbers.py", ENDING)
        status, said = self.given("tools/coverage", "update.test_numbers")
        self.expect(f"the status, with {said}", status, 0)
        self.expect_lines("its functions", said, "update/openlink_update/numbers.py: 100.0")
        found = json.loads((self.top / "tools/out/lines.json").read_text())["runs"]["update.test_numbers"]
        last = text.splitlines().index("        _called(_RESTRICT, rules, 0)") + 1
        self.expect("the line that closes files", str(last) in found[path]["ran"])

    def test_a_failing_test(self) -> None:
        self.write("tests/update/test_numbers.py", TEST.replace("[True, False]", "[True, True]"))
        status, said = self.given("tools/coverage", "update.test_numbers")
        self.expect("it says so", (status, "update.test_numbers failed" in said), (1, True))
        self.expect("its lines", (self.top / "tools/out/lines.json").exists(), False)
