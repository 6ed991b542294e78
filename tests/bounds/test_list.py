"""The list of all limits, bounds.tsv: its lines have a file, a name, a value, and the test that tries the last good
value and the first one beyond it. In place of a test, `no bound` says why a number is none, and `not tried` that no
test tries it yet."""
from __future__ import annotations

import ast
import os
from collections import Counter

from bounds import numbers
from bounds.numbers import Number
from fixtures.cases import Case

LIST = "tests/bounds/bounds.tsv"
NOT_TRIED, NO_BOUND = "not tried", "no bound: "
UNTRIED = 0  # lines that may say so; a test that is added makes it smaller


def listed(text: str) -> list[tuple[Number, str]]:
    """The numbers of the list, each with what stands in its last cell. A ValueError names a line that is wrong."""
    found = []
    for line in text.splitlines():
        if line.startswith("# "):
            continue
        cells = line.split("\t")
        if len(cells) != 4 or not all(cells):
            raise ValueError(f"not a file, a name, a value and a test: {line}")
        found.append((Number(*cells[:3]), cells[3]))
    return found


def differences(numbers: list[Number], lines: list[tuple[Number, str]]) -> list[str]:
    """What the list lacks, and what it has beyond."""
    wanted, got = Counter(numbers), Counter(number for number, _ in lines)
    return [f"not in the list: {' '.join(it)}" for it in (wanted - got).elements()] + [
        f"only in the list: {' '.join(it)}" for it in (got - wanted).elements()
    ]


def is_test(name: str) -> bool:
    """Whether there is a test PACKAGE.MODULE.CLASS.METHOD."""
    package, module, of, method = (name.split(".") + [""] * 4)[:4]
    path = f"tests/{package}/{module}.py"
    if name.count(".") != 3 or not method.startswith("test_") or not os.path.exists(path):
        return False
    with open(path, encoding="utf-8") as file:
        tree = ast.parse(file.read())
    return any(
        isinstance(it, ast.FunctionDef) and it.name == method
        for node in tree.body
        if isinstance(node, ast.ClassDef) and node.name == of
        for it in node.body
    )


def missing_tests(lines: list[tuple[Number, str]]) -> list[str]:
    return [
        f"{' '.join(number)}: no test {test}"
        for number, test in lines
        if test != NOT_TRIED and not (test.startswith(NO_BOUND) and len(test.split()) > 4) and not is_test(test)
    ]


def read() -> list[tuple[Number, str]]:
    with open(LIST, encoding="utf-8") as file:
        return listed(file.read())


class List(Case):
    def test_each_number_is_listed(self) -> None:
        found = numbers.found()
        for (patterns, _, least), of_kind in zip(numbers.KINDS, found):
            self.expect(f"{len(of_kind)} in {patterns}", len(of_kind) >= least)
        self.expect("differences", differences([number for of_kind in found for number in of_kind], read()), [])

    def test_each_test_exists(self) -> None:
        self.expect("tests that are missing", missing_tests(read()), [])

    def test_those_that_are_not_tried(self) -> None:
        lines = [number for number, test in read() if test == NOT_TRIED]
        self.expect("lines", len(lines), UNTRIED)
        self.expect("of the update", [" ".join(it) for it in lines if it.path.startswith("update/")], [])


class Spoilt(Case):
    def test_numbers_that_are_not_listed(self) -> None:
        lines = read()
        every = [number for number, _ in lines]
        self.expect("as it is", differences(every, lines), [])
        one = Number("update/a.py", "_MOST_TITLES", "7")
        self.expect("one more", differences([*every, one], lines), ["not in the list: update/a.py _MOST_TITLES 7"])
        self.expect("one less", len(differences(every[1:], lines)), 1)
        changed = [every[0]._replace(value="77"), *every[1:]]
        self.expect("another value", len(differences(changed, lines)), 2)

    def test_constants_of_modules(self) -> None:
        """Each form in which a module of the update has a limit."""
        text = (
            "_MOST = 7\nA, B = 5, 2 ** 20\nC = A * B\nPORTS = range(2, 3)\nNAME = re.compile(rf'{X}[a-z]{{1,9}}')\n"
            "WORDS = ('a', 'b')\nD = 'x'\ndef f(text, most=C, *, seconds=3, mode=1): pass\n"
            "p.add_argument('--keep', default=4)\np.add_argument('--other', default='x')\n"
        )
        self.expect(
            "Python",
            list(numbers.of_python(text)),
            [
                ("_MOST", "7"),
                ("A", "5"),
                ("B", "2 ** 20"),
                ("C", "A * B"),
                ("PORTS", "range(2, 3)"),
                ("NAME", "{1,9}"),
                ("f(most)", "C"),
                ("f(seconds)", "3"),
                ("--keep", "4"),
            ],
        )
        self.expect(
            "JavaScript",
            list(numbers.of_script("const MOST = 7;  // of\nconst a = 1;\nconst B = /x/;\n")),
            [("MOST", "7")],
        )
        self.expect(
            "nginx",
            list(numbers.of_nginx("a_timeout 5s;\nserver {\n    #limit_req zone=a burst=2;\n    b c;\n}\n")),
            [("a_timeout", "5s"), ("server #limit_req", "zone=a burst=2")],
        )
        self.expect(
            "systemd", list(numbers.of_unit("[Service]\nMemoryMax=1G\nUser=a\n")), [("[Service] MemoryMax", "1G")]
        )

    def test_lines_and_tests(self) -> None:
        for line in ("a\tb\tc", "a\tb\tc\t", "a\tb\tc\td\te"):
            with self.assertRaises(ValueError):
                listed(f"{line}\n")
            self.compared += 1
        number = Number("a", "b", "1")
        for test, count in (
            (f"bounds.test_list.{type(self).__name__}.test_lines_and_tests", 0),
            ("not tried", 0),
            ("bounds.test_list.Spoilt.test_none", 1),
            ("bounds.test_none.Spoilt.test_lines_and_tests", 1),
            ("bounds.test_list.None.test_lines_and_tests", 1),
            ("bounds.test_list.Spoilt", 1),
            ("no bound: a number of the format", 0),
            ("no bound: ", 1),
            ("", 1),
        ):
            self.expect(test, len(missing_tests([(number, test)])), count)
