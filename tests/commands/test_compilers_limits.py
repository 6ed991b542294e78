"""The limits of what rules are compiled to: names, literals, instructions, bytes; the first one passed is named."""
import itertools

from fixtures.program import ProgramCase

LIMITS = [256, 1024, 4096, 65536]
FAULTS = ["TooManyNames", "TooManyLiterals", "TooManyInstructions", "FileTooLong"]


def rules_of(names, literals, instructions, size):
    """Rules whose code has just that many names, literals, instructions and bytes.

    The first rule has a guard `has`, of two instructions, for each name, and more of them for its first name.
    Its end, and FAIL after all rules, are two; the link of each other rule is a literal and two instructions."""
    left = instructions - 2 - 2 * names - 2 * literals
    lines = [f"when has {1000 + at}" for at in range(names)] + ["when has 1000"] * (left // 2)
    # A rule with an empty link has one instruction.
    rules = ["rule", *lines, "link "] + ["rule", "link "] * (left % 2)
    texts = size - 10 - (2 + 4) * names - 3 * literals - 8 * instructions
    length, longer = divmod(texts, literals)
    for at in range(literals):
        rules += ["rule", "link " + f"{at:04}".ljust(length + (at < longer), "x")]
    return "\n".join(rules) + "\n"


def guards(first, last):
    return "".join(f'when a is "{number}"\n' for number in range(first, last + 1))


def link(times, text):
    """A rule with a link of as many `b{a}` and of as many `{a}`."""
    return "rule\nlink " + "b{a}" * times + "{a}" * text + "\n"


def named(count):
    """A rule with a link of one expression of that many names of four digits."""
    return "rule\nlink {" + ",".join(str(1000 + at) for at in range(count)) + "}\n"


def pages(*lengths):
    """A rule for each length, with a link of that many letters; each has 19 bytes more in the code."""
    return "".join(f"rule\nlink {letter * length}\n" for letter, length in zip("bcdefghij", lengths))


# Rules, and the error or the bytes of the code.
RULES = [
    # 1,023 texts, an empty literal less than there may be, and the link: 4,095 instructions.
    ("rule\n" + guards(1000, 2022) + "link b\n", 10 + 3 + 1023 * 7 + 4 + 8 * 4095),
    ("rule\n" + guards(1000, 2023) + "link b\n", "TooManyLiterals"),
    ("rule\n" + guards(1000, 2022) + guards(1000, 1000) + "link b\n", "TooManyInstructions"),
    # Six parts of text, 584 expressions of seven instructions, HALT and FAIL: 4,096.
    (link(6, 578), 10 + 3 + 3 + 4 + 4 + 4 + 8 * 4096),
    (link(7, 577), "TooManyInstructions"),
    (link(0, 584), 10 + 3 + 3 + 4 + 4 + 8 * 4090),
    (link(0, 585), "TooManyInstructions"),
    (pages(8170, 8170, 8170, 8171, 8171, 8171, 8171, 8172), 65536),
    (pages(8170, 8170, 8170, 8171, 8171, 8171, 8172, 8172), "FileTooLong"),
    (pages(*[8170] * 7, 8176), 65536),
    (pages(*[8170] * 7, 8177), "FileTooLong"),
    (pages(*[8192] * 7, 8021), 65535),
    (pages(*[8192] * 7, 8022), 65536),
    (pages(*[8192] * 7, 8023), "FileTooLong"),
    (rules_of(257, 1025, 4096, 65536), "TooManyNames"),
    (named(257), "TooManyNames"),
    # Guards of 257 names, and of 1,025 texts.
    ("rule\n" + "".join(f"when has n{at}\n" for at in range(257)) + guards(1000, 2024) + "link b\n", "TooManyNames"),
]

# Rules at a limit, and the names, literals, instructions and bytes of their code.
COUNTS = [
    # 10 bytes, a name of 3, 1,023 literals of 7 and one of 4, and 8 for each instruction.
    ("rule\n" + guards(1000, 2022) + "link b\n", 1, 1024, 4095, 39938),
    # 10 bytes, eight literals of 3 bytes and 65,366 letters, and 8 for each instruction.
    (pages(*[8170] * 7, 8176), 0, 8, 17, 65536),
    # 256 names of 6 bytes, and three literals of 4, 4 and 3.
    (named(256), 256, 3, 1539, 13869),
    ("rule\nwhen has d\nlink {c}{b}{a}\n", 4, 3, 25, 10 + 4 * 3 + 3 + 4 + 4 + 8 * 25),
]


class CompilerLimits(ProgramCase):
    def test_first_limit_passed(self):
        """Each limit kept and passed by one, with each other."""
        for passed in itertools.product((0, 1), repeat=4):
            sizes = [limit + over for limit, over in zip(LIMITS, passed)]
            self.program.write("rules", rules_of(*sizes))
            if any(passed):
                self.program.fails(["compile", "rules", "code"], 3, f"compile: {FAULTS[passed.index(1)]}")
            else:
                self.program.prints(["compile", "rules", "code"], "65536 bytes")
                listing = self.program.run(["show", "code"])[1]
                self.program.expect(
                    "the head", listing.split(b"\n")[0], b"OLK1 names 256 literals 1024 instructions 4096"
                )

    def test_rules(self):
        for rules, outcome in RULES:
            self.program.write("rules", rules)
            if isinstance(outcome, int):
                self.program.prints(["compile", "rules", "code"], f"{outcome} bytes")
                self.program.expect("bytes of the file", len(self.program.read("code") or b""), outcome)
                self.program.expect("verify", self.program.run(["verify", "code"])[0], 0)
            else:
                self.program.fails(["compile", "rules", "none"], 3, f"compile: {outcome}")
                self.program.expect("a code of refused rules", self.program.has("none"), False)

    def test_counts(self):
        for rules, names, literals, instructions, size in COUNTS:
            self.program.write("rules", rules)
            self.program.prints(["compile", "rules", "code"], f"{size} bytes")
            head = f"OLK1 names {names} literals {literals} instructions {instructions}"
            self.program.expect("the head", self.program.run(["show", "code"])[1].split(b"\n")[0], head.encode())

    def test_links_at_the_limits(self):
        """Code at a limit runs."""
        self.program.write("rules", RULES[0][0])
        self.program.run(["compile", "rules", "code"])
        self.program.finds_no_link(["run", "code", "a=1000"])
        self.program.write("rules", link(6, 578))
        self.program.run(["compile", "rules", "code"])
        self.program.prints(["run", "code", "a=x"], "bx" * 6 + "x" * 578)
