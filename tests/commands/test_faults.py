"""Each error that the program prints, once, and all words that docs/ERRORS.md lists."""
import re

from commands.test_compilers_limits import guards, pages
from fixtures.assembler import LIST_FILE, TWENTY_TEXTS, code, instruction
from fixtures.program import ProgramCase, as_bytes

# A template, and its error.
TEMPLATES = [
    ("a" * 8193, "TooLong at 8192"),
    ("a{b", "Unclosed at 1"),
    ("{}", "EmptyExpression at 0"),
    ("{=a}", "ReservedOperator at 1"),
    ("{a b}", "BadName at 1"),
    ("{a:0}", "BadModifier at 2"),
    ("a b", "BadLiteral at 1"),
]

# A query, and its error.
QUERIES = [("a" * 65537, "TooLong"), ("a&" * 4097, "TooManyPairs"), ("url_ver=1", "WrongVersion")]

# A rule file, and its error.
RULES = [
    ("#" * 65537, "line 0: TooLong"),
    (b"\xff", "line 0: NotUtf8"),
    ("rul\n", "line 1: BadLine"),
    ("rule\n", "line 1: NoLink"),
    ("rule\nlink {rft.au:1}\n", "line 2: KindMismatch"),
    *((f"rule\nlink {template}\n", f"line 2: Template {error.split()[0]}") for template, error in TEMPLATES),
]

# A rule file that is right, and why it has no code.
COMPILED = [
    ("rule\n" + "".join(f"when has a{number}\n" for number in range(257)) + "link b\n", "TooManyNames"),
    ("rule\n" + guards(1000, 2023) + "link b\n", "TooManyLiterals"),
    ("rule\nlink " + "{a}" * 585 + "\n", "TooManyInstructions"),
    (pages(*[8192] * 7, 8023), "FileTooLong"),
]

# Bytes of a code file, and their error.
CODES = [
    (b"\0" * 65537, "TooLong at 65536"),
    (b"OLK3", "BadMagic at 0"),
    (LIST_FILE[:-1], "Truncated at 67"),
    (b"OLK1\x01\x01\0\0\0\x01", "TooMany at 4"),
    (b"OLK1\0\0\0\0\0\0", "NoCode at 8"),
    (code([("text", " ")], [], "HALT"), "BadName at 12"),
    (b"OLK1\0\x01\0\0\0\x01\x02", "BadKind at 10"),
    (code([], [("link", "%4")], "HALT"), "BadLiteral at 13"),
    (LIST_FILE + b"\0", "Trailing at 68"),
]

# An instruction of the list's code, one in its place, and the error of the code then.
INSTRUCTIONS = [
    (2, "? 20 0 0 0 0", "UnknownOp at 2"),
    (4, "? 18 1 0 0 0", "BadField at 4"),
    (0, "LIST r16 n0", "BadRegister at 0"),
    (0, "LIST r0 n1", "BadIndex at 0"),
    (0, "TEXT r0 n0", "WrongTableKind at 0"),
    (0, "JUMP 0", "JumpNotForward at 0"),
    (0, "JUMP 6", "JumpOut at 0"),
    (0, "JUMP 3", "CrossesLoop at 0"),
    (2, "EACH r2 r0 5", "NestedLoop at 2"),
    (1, "EACH r1 r0 4", "BadLoop at 1"),
    (5, "NEXT", "StrayNext at 5"),
    (0, "SEP l0", "StraySep at 0"),
    (5, "EMIT l0", "FallsOff at 5"),
    (3, "PUT r2 u", "KindMismatch at 3, r2"),
]

# A table, and its error.
TABLES = [
    ("a" * 16_777_217, "TooLong"),
    (b"\xff", "NotUtf8"),
    ("", "NoHeader"),
    ("x\n" + "a\n" * 200_001, "TooManyRows"),
    ("x\n" + "a" * 65_537, "RowTooLong"),
]

# A registry file, the status and the error.
REGISTRIES = [
    ("alpha\n", 3, "registry: line 1"),
    ("\n" * 65_537, 3, "registry: line 0"),
    ("a:b\tgood.olk\tgood.tsv\n", 3, "target a:b: BadTargetName"),
    ("".join(f"t{number}\tgood.olk\tgood.tsv\n" for number in range(257)), 3, "target t256: Full"),
    ("alpha\tnone.olk\tgood.tsv\n", 4, "target alpha: device: none.olk"),
    ("alpha\tgood.olk\tnone.tsv\n", 4, "target alpha: device: none.tsv"),
]

# Arguments of commands whose files have no error, the status and the error.
OTHERS = [
    (["run", "twenty.olk", "x=" + "a" * 20_000], 3, "over budget: 1200000"),
    (["show"], 2, "usage"),
    (["show", "none.olk"], 4, "device: none.olk"),
    (["compile", "good.rules", "none/code"], 4, "device: none/code"),
    (["resolve", "none.txt", ""], 4, "device: none.txt"),
    (["find", "none.txt", ""], 4, "device: none.txt"),
    (["read", "a" * 65_537], 3, "query: TooLong"),
]


def cases():
    """The files of each case, its arguments, and the status and the error."""
    for template, error in TEMPLATES:
        yield {}, ["expand", template, ""], 3, f"template: {error}"
    for query, error in QUERIES:
        yield {}, ["expand", "", query], 3, f"query: {error}"
    for rules, error in RULES:
        yield {"some.rules": rules}, ["link", "some.rules", ""], 3, f"rules: {error}"
    for rules, error in COMPILED:
        yield {"some.rules": rules}, ["compile", "some.rules", "code"], 3, f"compile: {error}"
    for file, error in CODES:
        yield {"some.olk": file}, ["show", "some.olk"], 3, f"code: {error}"
    changed = [
        (LIST_FILE[: 20 + 8 * at] + instruction(text) + LIST_FILE[28 + 8 * at :], error)
        for at, text, error in INSTRUCTIONS
    ]
    for file, error in CODES + changed:
        yield {"some.olk": file}, ["verify", "some.olk"], 3, f"load: {error}"
    for table, error in TABLES:
        files = {"registry": "alpha\tgood.olk\tsome.tsv\n", "some.tsv": table}
        yield files, ["resolve", "registry", ""], 3, f"target alpha: table: {error}"
    for registry, status, error in REGISTRIES:
        yield {"registry": registry}, ["resolve", "registry", ""], status, error
    for arguments, status, error in OTHERS:
        yield {}, arguments, status, error


def words_in(texts, pattern):
    """The matches of the pattern that are written in both cases, as the kinds of errors are."""
    found = {word for text in texts for word in re.findall(pattern, text)}
    return {word for word in found if not word.isupper() and not word.islower()}


class Faults(ProgramCase):
    def test_each_error(self):
        self.program.write("good.rules", "rule\nlink a\n")
        self.program.write("good.olk", LIST_FILE)
        self.program.write("good.tsv", "x\n1\n")
        self.program.write("twenty.olk", TWENTY_TEXTS)
        for files, arguments, status, error in cases():
            for name, content in files.items():
                self.program.write(name, as_bytes(content))
            self.program.fails(arguments, status, error)

    def test_the_words_of_the_document(self):
        """The lists of docs/ERRORS.md have each kind of error that is printed, and no other."""
        with open("docs/ERRORS.md") as document:
            rows = [line for line in document if line.startswith("- `")]
        listed = words_in(rows, r"`([A-Z]\w+)`") | words_in(rows, r"^- `target NAME: ([A-Z]\w+)`")
        printed = words_in((error for *_, error in cases()), r"\b[A-Z]\w+\b") - {"Template"}
        self.program.expect("kinds that are listed or printed alone", sorted(listed ^ printed), [])
