"""`read`: the pairs of a query of any source, as they are read.

Tables have a line for each request: what it is, the request, the pairs that are put before its own, and those of its
own pairs that are left, if not all are. A line alone names a rule. read_texts.tsv and read_forms.tsv have further
requests of these rules. read_sources.txt has requests as sources send them, in several lines each, and after `=` the
first values that some keys have."""
import re
from pathlib import Path
from urllib.parse import parse_qsl

from fixtures.program import ProgramCase

HERE = Path(__file__).parent
TABLES = ("read_pairs.tsv", "read_numbers.tsv", "read_texts.tsv", "read_forms.tsv")
LEAST_ROWS, LEAST_OF_A_RULE, LEAST_SOURCES = 1500, 3, 40
# What tables write for the formats of a journal, a book and a dissertation.
FORMATS = {name[0].upper(): f"info:ofi/fmt:kev:mtx:{name}" for name in ("journal", "book", "dissertation")}

FORMAT = "rft_val_fmt=info:ofi/fmt:kev:mtx:journal"
PAIRS = "rft_val_fmt\tinfo:ofi/fmt:kev:mtx:journal"

# A query and its lines.
READ = [
    (f"{FORMAT}&rft.volume=12", f"{PAIRS}\nrft.volume\t12"),
    (f"?{FORMAT}&amp;volume=Vol. 12", f"rft.volume\t12\nrft.volume\tVol. 12\n{PAIRS}\nvolume\tVol. 12"),
    (f"{FORMAT}&rft.issn=29010012", f"x.issn\t2901-0012\nrft.issn\t2901-0012\n{PAIRS}\nrft.issn\t29010012"),
    (f"{FORMAT}&rft.atitle=%3Ci%3EHamlet%3C/i%3E", f"rft.atitle\tHamlet\n{PAIRS}"),
    (f"{FORMAT}&rft.aulast=Caf%E9", f"{PAIRS}\nrft.aulast\tCafé"),
    # What a terminal would obey is escaped.
    (f"{FORMAT}&note=%1B[2J%0A", f"{PAIRS}\nnote\t\\x1b[2J\\x0a"),
    # A column of tables and a key of the resolver do not count.
    (f"{FORMAT}&title_url=http://evil.example&x.doi=10.1000/1", PAIRS),
]


def pairs_of(text):
    """Pairs with spaces between them; `+` is a space within a value."""
    pairs = [it.replace("+", " ").split("=", 1) for it in text.split(" ") if it]
    return [(key, FORMATS.get(value, value) if key == "rft_val_fmt" else value) for key, value in pairs]


def printed(text):
    """What a terminal would obey is escaped."""
    return re.sub("[\x00-\x1f\x7f]", lambda found: f"\\x{ord(found[0]):02x}", text)


def lines_of(pairs):
    return [f"{key}\t{printed(value)}" for key, value in pairs]


def rows():
    """The rules of all tables, each with its rows."""
    rules = {}
    for name in TABLES:
        rule = ""
        for line in (HERE / name).read_text(encoding="utf-8").split("\n")[:-1]:
            if "\t" not in line:
                rule = line
            else:
                rules.setdefault(rule, []).append(line.split("\t"))
    return rules


def sources():
    """What a request is, the request, and the first values that some of its keys have."""
    found = []
    for line in (HERE / "read_sources.txt").read_text(encoding="utf-8").splitlines():
        if line.startswith("  "):
            found[-1][1].append(line.strip())
        elif line.startswith("= "):
            found[-1][2].append(line[2:])
        else:
            found.append((line, [], []))
    return [(what, "".join(parts), dict(pairs_of(" ".join(values)))) for what, parts, values in found]


class ReadCommand(ProgramCase):
    def lines(self, what, request):
        """What is printed for a request."""
        status, text, fault = self.program.run(["read", request])
        self.expect(f"the status of {what}: {request}", (status, fault), (0, b""))
        return text.decode().split("\n")[:-1]

    def check(self, what, request, added="", kept=None):
        lines = self.lines(what, request)
        before = lines_of(pairs_of(added))
        own = [] if kept == "none" else lines_of(parse_qsl(request if kept is None else kept))
        self.expect(f"before the pairs of {what}: {request}", sorted(lines[: len(before)]), sorted(before))
        self.expect(f"the pairs of {what}: {request}", lines[len(before) :], own)

    def test_rules(self):
        rules = rows()
        numbers = [len(cases) for cases in rules.values()]
        self.expect(f"{numbers} rows", sum(numbers) >= LEAST_ROWS and min(numbers) >= LEAST_OF_A_RULE)
        for rule, cases in rules.items():
            for what, *row in cases:
                self.check(f"{rule}, {what}", *row)

    def test_sources(self):
        requests = sources()
        self.expect(f"{len(requests)} requests", len(requests) >= LEAST_SOURCES)
        for what, request, expected in requests:
            found = dict(reversed([line.split("\t", 1) for line in self.lines(what, request)]))
            self.expect(f"{what}: {request}", {key: found.get(key) for key in expected}, expected)

    def test_readings(self):
        for query, lines in READ:
            self.program.prints(["read", query], lines)

    def test_left_out(self):
        query = FORMAT + "&note=1" * 301
        lines = [PAIRS, *["note\t1"] * 299, "left out 2"]
        self.program.prints(["read", query], "\n".join(lines))

    def test_refusals(self):
        self.program.fails(["read", "a" * 65_537], 3, "query: TooLong")
        self.program.fails(["read"], 2, "usage")
        self.program.fails(["read", "", ""], 2, "usage")
