"""The code that `compile` makes: its version, its bytes, and the order of its names and literals."""
from fixtures.assembler import code
from fixtures.program import ProgramCase
from fixtures.targets import DATE_RULES

# A condition of each form; with `counts` the code has version 2.
CONDITIONS = [
    "has x",
    "has rft.au",
    "lacks x",
    "lacks rft.au",
    "given x",
    'x is "a"',
    'rft.au holds "a"',
    "x from 1 to 2",
    "x from lo to hi",
    "x from * to *",
    "x from * to hi",
    "x from 1 to *",
]
COUNTS = ["rft.au counts 1 to 2", "rft.au counts * to *", "rft.au counts lo to hi"]

# Rules, and their code by the shapes of the compiler.
CODES = [
    (
        DATE_RULES,
        code(
            [("text", name) for name in ("rft.date", "date_first_issue_online", "date_last_issue_online", "title_url")],
            [("compare", ""), ("link", ","), ("compare", "1")],
            "TEXT r0 n0, UNDEF r0 19, NUMBER r1 r0 19, "
            "TEXT r2 n1, UNDEF r2 7, NUMBER r3 r2 7, LESS r1 r3 19, "
            "TEXT r2 n2, UNDEF r2 11, NUMBER r3 r2 11, LESS r3 r1 19, "
            "CONST r4 l0, TEXT r0 n3, UNDEF r0 18, EMPTY r4 16, EMIT l1, CONST r4 l2, PUT r0 ur, HALT, FAIL",
        ),
    ),
    (
        "rule\nlink http://e.org/{rft.issn}\n",
        code(
            [("text", "rft.issn")],
            [("link", "http://e.org/"), ("compare", ""), ("link", ","), ("compare", "1")],
            "EMIT l0, CONST r4 l1, TEXT r0 n0, UNDEF r0 8, EMPTY r4 6, EMIT l2, CONST r4 l3, PUT r0 u, HALT, FAIL",
        ),
    ),
    ("rule\nlink javascript:x\n", code([], [("link", "javascript:x")], "EMIT l0, HALT, FAIL")),
    (
        "rule\nwhen rft.au counts 2 to *\nlink b\n",
        code(
            [("list", "rft.au")],
            [("compare", "2"), ("link", "b")],
            "LIST r0 n0, COUNT r1 r0, CONST r2 l0, NUMBER r3 r2 5, LESS r1 r3 7, EMIT l1, HALT, FAIL",
            version=2,
        ),
    ),
    # The same text as a comparison text and as a link text, each of which comes twice.
    (
        'rule\nwhen a is "b"\nlink b\nrule\nwhen a is "b"\nlink b\n',
        code(
            [("text", "a")],
            [("compare", "b"), ("link", "b")],
            "TEXT r0 n0, UNDEF r0 6, CONST r1 l0, DIFFER r0 r1 6, EMIT l1, HALT, "
            "TEXT r0 n0, UNDEF r0 12, CONST r1 l0, DIFFER r0 r1 12, EMIT l1, HALT, FAIL",
        ),
    ),
    ("", code([], [], "FAIL")),
    ("rule\nlink \n", code([], [], "HALT, FAIL")),
]

# Rules, and their names in the order of first use: each condition with its name and its bounds, then the link.
NAMES = [
    ("rule\nwhen has d\nwhen c from b to a\nlink e\n", ["text d", "text c", "text b", "text a"]),
    ("rule\nwhen has d\nlink {c}{b}{a}\n", ["text d", "text c", "text b", "text a"]),
    ("rule\nlink {d,c}/{b}\nrule\nwhen given a\nlink {c}\n", ["text d", "text c", "text b", "text a"]),
    ("rule\nwhen has b\nlink {d}\nrule\nwhen has c\nlink {b}{a}{d}\n", ["text b", "text d", "text c", "text a"]),
    ("list a\nlist b\nrule\nwhen has c\nlink {b}{rft.au}{a}\n", ["text c", "list b", "list rft.au", "list a"]),
    ("list z\nrule\nwhen rft_id counts c to b\nlink {rft.au}\n", ["list rft_id", "text c", "text b", "list rft.au"]),
    ("rule\nwhen c from 1 to b\nwhen b from c to *\nlink {a}{c}{%41}\n", ["text c", "text b", "text a", "text %41"]),
]


def compiled(program, rules):
    program.write("rules", rules)
    status = program.run(["compile", "rules", "code"])[0]
    program.expect(f"status of {rules[:200]}", status, 0)
    return program.read("code") if status == 0 else b""


class CompiledCode(ProgramCase):
    def test_versions(self):
        for condition in CONDITIONS + COUNTS:
            expected = b"OLK2" if condition in COUNTS else b"OLK1"
            rule = f"rule\nwhen {condition}\nlink b\n"
            for rules in (rule, "rule\nlink a\n" + rule, rule + "rule\nwhen has y\nlink {rft.au}\n"):
                self.program.expect(rules, compiled(self.program, rules)[:4], expected)
        conditions = "".join(f"when {condition}\n" for condition in CONDITIONS)
        self.program.expect(
            "all together", compiled(self.program, f"rule\n{conditions}link {{rft.au*}}\n")[:4], b"OLK1"
        )
        self.program.expect(
            "and counts", compiled(self.program, f"rule\n{conditions}when {COUNTS[0]}\nlink b\n")[:4], b"OLK2"
        )
        for name in ("counts", "count", "rft.counts"):
            rules = f'rule\nwhen has {name}\nwhen {name} is "x counts 1 to 2"\nlink b\n'
            self.program.expect(rules, compiled(self.program, rules)[:4], b"OLK1")

    def test_bytes(self):
        for rules, expected in CODES:
            self.program.expect(rules, compiled(self.program, rules), expected)

    def test_order_of_names(self):
        for rules, names in NAMES:
            compiled(self.program, rules)
            listing = self.program.run(["show", "code"])[1].decode().split("\n")
            self.program.expect(rules, [line.split(" ", 2)[2] for line in listing if line.startswith("name ")], names)

    def test_order_of_literals(self):
        compiled(self.program, 'rule\nwhen d is "d"\nwhen rft.au holds "c"\nwhen b from 7 to *\nlink a{x}b{+y}c\n')
        listing = self.program.run(["show", "code"])[1].decode().split("\n")
        compared = [f'compare "{text}"' for text in ("d", "c", "", "1", "7")]
        expected = compared + [f'link "{text}"' for text in ("a", ",", "b", "c")]
        self.program.expect(
            "literals", [line.split(" ", 2)[2] for line in listing if line.startswith("literal ")], expected
        )
