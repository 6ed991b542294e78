"""The rules that ship: each file has its head, compiles, and has no warning on a table of its provider's form. Each
rule is reached by a request, whose link is the one that the provider documents."""
from __future__ import annotations

import datetime
import re
import subprocess
import tempfile
from collections import defaultdict
from pathlib import Path
from urllib.parse import parse_qsl

from fixtures import needs
from fixtures.cases import Case
from fixtures.program import PATH
from openlink_update.places import PROVIDERS
from openlink_update.rules import heads
from openlink_update.rules import pages
from openlink_update.tables import coverage
from openlink_update.tables.table import Table

DAY = datetime.date(2026, 11, 27)
KBART = (
    "publication_title print_identifier online_identifier date_first_issue_online num_first_vol_online"
    " num_first_issue_online date_last_issue_online num_last_vol_online num_last_issue_online title_url first_author"
    " title_id embargo_info coverage_depth notes publisher_name publication_type date_monograph_published_print"
    " date_monograph_published_online monograph_volume monograph_edition first_editor parent_publication_title_id"
    " preceding_publication_title_id access_type"
).split()
GENERAL = ("doi", "title-page", "book", "free")
LEAST_BY_NAME = 60
GROUPS = ("Full text", "In the library", "Request a copy", "More about it")
FIELDS = ("provider", "kind", "group", "needs", "syntax", "tried", "probe")
REQUESTS = Path(__file__).parent / "requests.tsv"
UNSUPPORTED = "# Unsupported: nobody of the provider has seen these rules."
LINK = re.compile(r"^  rule (\d+) holds: (.*)$", re.M)


def names() -> list[str]:
    return sorted(path.stem for path in PROVIDERS.glob("*.rules"))


def text_of(name: str) -> str:
    return (PROVIDERS / f"{name}.rules").read_text(encoding="utf-8")


def faults_of(text: str) -> list[str]:
    """What the head of rules that ship lacks, or has in another form."""
    head = text.split("\n\n")[0]
    faults = [field for field in FIELDS if not re.search(rf"^# {field}: \S", head, re.M)]
    found = dict(re.findall(r"^# (\w+): (.*)$", head, re.M))
    faults += [f"kind {found.get('kind')}"] if found.get("kind") not in ("journals", "books", "both") else []
    faults += [f"group {found.get('group')}"] if found.get("group") not in GROUPS else []
    is_tried = re.fullmatch(r"never|\d{4}-\d\d-\d\d", found.get("tried", ""))
    faults += [] if is_tried else [f"tried {found.get('tried')}"]
    faults += [] if UNSUPPORTED in head else ["unsupported"]
    return faults + [f"probe: {number}" for number in numbers_in(found.get("probe", "")) if not is_right(number)]


def is_right(number: str) -> bool:
    """Whether the check digit of an ISSN or ISBN is right."""
    digits = [10 if it == "X" else int(it) for it in number.replace("-", "")]
    if len(digits) == 8:
        return sum(it * weight for it, weight in zip(digits, range(8, 0, -1))) % 11 == 0
    return len(digits) == 13 and sum(it * (1 + 2 * (at % 2)) for at, it in enumerate(digits)) % 10 == 0


def numbers_in(query: str) -> list[str]:
    """The ISSNs and ISBNs of a query."""
    return [value for key, value in parse_qsl(query) if key in ("issn", "isbn")]


def rows_of(cells: list[str]) -> Table:
    """The table of a provider with the row of a line."""
    title, numbers, first, address, kind = cells
    printed, _, online = numbers.partition("/")
    kind, _, depth = kind.partition("/")
    row = {
        "publication_title": title,
        "print_identifier": printed,
        "online_identifier": online,
        "date_first_issue_online": first,
        "title_url": address,
        "publication_type": kind,
        "coverage_depth": depth or "fulltext",
    }
    return Table(tuple(KBART), [[row.get(name, "") for name in KBART]])


class Library:
    """A folder with a table as the update serves it, and the code of rules."""

    def __init__(self, folder: str) -> None:
        self.folder = Path(folder)

    def ran(self, *words: str) -> tuple[int, str]:
        done = subprocess.run([PATH, *words], cwd=self.folder, capture_output=True, text=True)
        return done.returncode, done.stdout + done.stderr

    def serve(self, name: str, table: Table) -> tuple[int, str]:
        """Writes a table and compiles rules for it. Returns how `compile` ends."""
        rules = (PROVIDERS / f"{name}.rules").read_bytes()
        made = pages.added(table) if pages.are_named(rules) else table
        (self.folder / "t.txt").write_bytes(coverage.served(made, DAY)[0].to_bytes())
        (self.folder / "r.rules").write_bytes(rules)
        (self.folder / "registry.tsv").write_text("target\tr.olk\tt.txt\n")
        return self.ran("compile", "r.rules", "r.olk")


class Heads(Case):
    def test_heads(self) -> None:
        self.expect("the general ones", set(GENERAL) <= set(names()))
        self.expect("those by name", len(names()) - len(GENERAL) >= LEAST_BY_NAME)
        for name in names():
            self.expect(name, faults_of(text_of(name)), [])
            head = heads.parse((PROVIDERS / f"{name}.rules").read_bytes())
            self.expect(f"{name}: a label", bool(head.labels), name not in GENERAL)

    def test_spoilt_heads(self) -> None:
        """What each head must have is missed."""
        good = text_of("wiley")
        for field in FIELDS:
            spoilt = re.sub(rf"^# {field}: .*\n", "", good, flags=re.M)
            self.expect(f"without {field}", bool(faults_of(spoilt)))
        for old, new in (
            ("kind: both", "kind: maps"),
            ("Full text", "Elsewhere"),
            ("never", "soon"),
            ("Unsupported", "Supported"),
            ("1433-7851", "1433-7850"),
        ):
            self.expect(f"with {new}", bool(faults_of(good.replace(old, new))))


@needs.program()
class Links(Case):
    def test_requests(self) -> None:
        """Each line's link, from compiled rules; all rules of all files are reached, and `lint` is silent."""
        reached: dict[str, set[int]] = defaultdict(set)
        lines = [line.split("\t") for line in REQUESTS.read_text(encoding="utf-8").splitlines() if line[0] != "#"]
        with tempfile.TemporaryDirectory() as folder:
            library = Library(folder)
            for name, *row, query, link in lines:
                self.expect(f"{name}: compiled", library.serve(name, rows_of(row))[0], 0)
                if name not in reached and row[3]:
                    self.expect(f"{name}: lint", self.warnings(library), [])
                status, text = library.ran("resolve", "registry.tsv", query)
                self.expect(f"{name}: {query}", (status, text), (0, f"target\t{link}\n") if link else (1, ""))
                explained = library.ran("explain", "r.rules", "t.txt", query)[1]
                reached[name] |= {int(it[1]) for it in LINK.finditer(explained)}
        for name in names():
            count = len(re.findall("^rule$", text_of(name), re.M))
            self.expect(f"{name}: rules that are reached", sorted(reached[name]), list(range(1, count + 1)))

    @staticmethod
    def warnings(library: Library) -> list[str]:
        """The lines of `lint` that are warnings."""
        lines = library.ran("lint", "r.rules", "t.txt")[1].splitlines()
        return [line for line in lines if not re.fullmatch(r"rules [1-9]\d*|rule \d+, link: never a web link", line)]
