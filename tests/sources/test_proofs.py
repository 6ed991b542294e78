"""docs/contracts.txt has each public call that has a contract, with the names of the clauses that the contract ensures,
and no other call. docs/PROOFS.md names only calls and clauses of that list, as `CRATE::CALL`, `CLAUSE`. The lists of
docs/ARCHITECTURE.md have the crates of crates.txt, in its groups and its order. The sources have the clauses that
README.md quotes, the `unsafe` that docs/DECISIONS.md names, and no other, and the public calls of allocating_calls.txt.
Each of these is refused in a spoilt copy."""
from __future__ import annotations

import os
import re
import shutil
import tempfile
from collections.abc import Iterator

from fixtures import TOP
from fixtures.cases import Case
from sources import allocating_calls
from sources import contracts
from sources import unsafe_blocks
from sources.contracts import Known
from sources.contracts import Sources
from sources.contracts import text_of

PAGE = "docs/PROOFS.md"
MAP = "docs/ARCHITECTURE.md"
README = "README.md"
# The least numbers of what is compared.
LEAST_CALLS, LEAST_PROMISES, LEAST_CRATES, LEAST_QUOTES, LEAST_UNSAFE, LEAST_ALLOCATING = 300, 50, 50, 3, 3, 80


def items(text: str) -> Iterator[str]:
    """Yields the crate of each item of a list of crates."""
    for line in text.split("\n"):
        found = re.match(r"- (?:\[`(\w+)`\]\([^)]*\)|`(\w+)`): (.*)", line)
        if found:
            yield found[1] or found[2]


def promises(text: str) -> Iterator[tuple[contracts.Call, list[str]]]:
    """Yields each call that the list of promises names, and the clauses named after it."""
    for path, clauses in re.findall(r"`([a-z]\w+::[\w:]+)`((?:, `\w+`)*)", text):
        crate, *owner, name = path.replace("::laws::", "::").split("::")
        yield (crate, owner[0] if owner else None, name), re.findall(r"\w+", clauses)


def too_few(count: int, least: int, noun: str) -> list[str]:
    return [f"{count} {noun}, and there are at least {least}"] if count < least else []


def faults_of_the_list(expected: list[str], text: str) -> Iterator[str]:
    """What differs in the text of contracts.txt from the lines that the sources have."""
    listed = [line for line in text.splitlines() if line and not line.startswith("#")]
    for line in [it for it in expected if it not in listed]:
        yield f"{contracts.PATH}: a line is missing: {line}"
    for line in [it for it in listed if it not in expected]:
        yield f"{contracts.PATH}: no source has the line: {line}"
    if sorted(listed) == sorted(expected) and listed != expected:
        yield f"{contracts.PATH}: its lines are not in the order of the sources"
    if len({*listed}) != len(listed):
        yield f"{contracts.PATH}: it has a line twice"
    yield from too_few(len(expected), LEAST_CALLS, "calls with a contract")


def faults_of_promises(known: Known, text: str) -> Iterator[str]:
    """What the page of promises, whose text this is, names and the sources do not have."""
    named = [*promises(text)]
    for call, clauses in named:
        if call not in known:
            yield f"{PAGE}: there is no call {contracts.full_name(call)}"
        for clause in sorted({*clauses} - {*known.get(call, (clauses, True))[0]}):
            yield f"{PAGE}: {contracts.full_name(call)} has no clause {clause}"
    yield from too_few(len(named), LEAST_PROMISES, "promises")


def faults_of_the_map(crates: str, page: str) -> Iterator[str]:
    """The crates of docs/ARCHITECTURE.md and their groups are those of crates.txt, in that order. Both are texts."""
    parts = re.findall(r"\n\n# (.*)|^(\w+):", crates, re.M)
    expected = [group or crate for group, crate in parts]
    lists = page.partition("## The crates")[2].partition("\n## ")[0]
    listed: list[str] = []
    for line in lists.split("\n"):
        group = re.fullmatch(r"\*\*(.*)\*\*", line)
        listed += [group[1]] if group else items(line)
    if listed != expected:
        missing, more = [it for it in expected if it not in listed], [it for it in listed if it not in expected]
        yield f"{MAP}: its crates and groups are not those of crates.txt: {missing}, {more}"
    yield from too_few(sum(bool(crate) for _, crate in parts), LEAST_CRATES, "crates")


def faults_of_the_quotes(readme: str, sources: str) -> Iterator[str]:
    """The clauses that the text of README.md quotes are in the sources, up to spaces and ends of lines."""
    quotes = re.findall(r"^ensures .*?(?=^ensures|^```)", readme, re.M | re.S)
    text = " ".join(sources.split())
    for quote in quotes:
        if " ".join(quote.split()) not in text:
            yield f"{README}: no contract has the clause {quote.split(' {')[0]} as it is quoted"
    yield from too_few(len(quotes), LEAST_QUOTES, "clauses that are quoted")


def faults_of_unsafe(sources: list[tuple[str, str]], page: str) -> Iterator[str]:
    yield from unsafe_blocks.faults(sources, page)
    yield from too_few(len([*unsafe_blocks.in_sources(sources)]), LEAST_UNSAFE, "unsafe blocks")


def faults_of_allocations(expected: list[str], text: str) -> Iterator[str]:
    yield from allocating_calls.faults(expected, text)
    yield from too_few(len(expected), LEAST_ALLOCATING, "calls that may report a failed allocation")


class Proofs(Case):
    """What the sources have, and the texts that are compared with it."""

    sources: Sources
    known: Known
    files: list[tuple[str, str]]  # a path and a text

    @classmethod
    def setUpClass(cls) -> None:
        cls.sources = Sources(TOP)
        cls.known = cls.sources.contracts()
        cls.files = [(os.path.relpath(it, TOP), text_of(it)) for it in contracts.source_paths(TOP)]

    def refuses(self, what: str, found: list[str], *wanted: str) -> None:
        """Each fault that is wanted is part of one that was found, and there is no other."""
        is_right = len(found) == len(wanted) and all(part in it for part, it in zip(wanted, found))
        self.expect(f"{what}: {found[:5]}", is_right)

    def test_contracts(self) -> None:
        lines, text = contracts.lines_of(self.known), text_of(contracts.PATH)
        self.expect("the list", [*faults_of_the_list(lines, text)], [])
        for line in (lines[0], lines[-1], next(it for it in lines if ": " in it)):
            cut = [*faults_of_the_list(lines, text.replace(f"\n{line}\n", "\n", 1))]
            self.refuses(f"without {line}", cut, f"a line is missing: {line}")
            fewer = [*faults_of_the_list([it for it in lines if it != line], text)]
            self.refuses(f"no longer in a source: {line}", fewer, f"no source has the line: {line}")
        changed = text.replace(f"\n{lines[0]}\n{lines[1]}\n", f"\n{lines[1]}\n{lines[0]}\n", 1)
        self.refuses("another order", [*faults_of_the_list(lines, changed)], "not in the order")
        self.refuses("a line twice", [*faults_of_the_list(lines, f"{text}{lines[0]}\n")], "a line twice")
        self.refuses("no source", [*faults_of_the_list([], "")], "0 calls with a contract")

    def test_promises(self) -> None:
        text = text_of(PAGE)
        self.expect("the page", [*faults_of_promises(self.known, text)], [])
        call, clauses = next(it for it in promises(text) if it[1])
        for more, wanted in (
            ("`menu::no_such_call`", "there is no call menu::no_such_call"),
            (f"`{contracts.full_name(call)}`, `no_such_clause`", "has no clause no_such_clause"),
        ):
            self.refuses(more, [*faults_of_promises(self.known, text + more)], wanted)
        weaker: Known = {**self.known, call: ([], True)}
        missing = {clause for it, those in promises(text) if it == call for clause in those}
        found = {*faults_of_promises(weaker, text)}
        self.expect(
            "clauses that are no more",
            found,
            {f"{PAGE}: {contracts.full_name(call)} has no clause {it}" for it in missing},
        )
        self.refuses("an empty page", [*faults_of_promises(self.known, "")], "0 promises")

    def test_crates_of_the_map(self) -> None:
        crates, page = text_of("crates.txt"), text_of(MAP)
        self.expect("the page", [*faults_of_the_map(crates, page)], [])
        first, second, *_ = [line for line in page.split("\n") if [*items(line)]]
        for what, changed in (
            ("without a crate", page.replace(f"{first}\n", "", 1)),
            ("another order", page.replace(f"{first}\n{second}\n", f"{second}\n{first}\n", 1)),
            ("another group", re.sub(r"^\*\*(.*)\*\*$", "**Others**", page, count=1, flags=re.M)),
        ):
            self.refuses(what, [*faults_of_the_map(crates, changed)], "are not those of crates.txt")
        self.refuses("a crate more", [*faults_of_the_map(f"{crates}\nother: menu\n", page)], "['other'], []")
        self.refuses("no crates", [*faults_of_the_map("", "")], "0 crates")

    def test_quotes(self) -> None:
        readme = text_of(README)
        sources = " ".join(contracts.without_comments(it) for it in contracts.source_paths(TOP))
        self.expect("the page", [*faults_of_the_quotes(readme, sources)], [])
        changed = re.sub(r"^ensures (\w+) \{", r"ensures \1 { true;", readme, count=1, flags=re.M)
        self.refuses("a changed quote", [*faults_of_the_quotes(changed, sources)], "as it is quoted")
        self.expect("no sources", len([*faults_of_the_quotes(readme, "")]) >= LEAST_QUOTES)
        self.refuses("no quotes", [*faults_of_the_quotes("", sources)], "0 clauses that are quoted")

    def test_unsafe(self) -> None:
        page = text_of(unsafe_blocks.PAGE)
        self.expect("the page", [*faults_of_unsafe(self.files, page)], [])
        path = next(it for it, _, _ in unsafe_blocks.in_sources(self.files))
        more = [*self.files, ("crates/menu/src/other.rt", "fn f() {\n    unsafe { g() }\n}\n")]
        self.refuses("one more", [*faults_of_unsafe(more, page)], "the unsafe blocks are")
        fewer = [it for it in self.files if it[0] != path]
        self.refuses("one fewer", [*faults_of_unsafe(fewer, page)], "the unsafe blocks are", "2 unsafe blocks")
        weaker = [(it, text.replace("IsUriText", "IsText")) for it, text in self.files]
        self.refuses("another condition", [*faults_of_unsafe(weaker, page)], "does not require IsUriText")
        commented = [*self.files, ("crates/menu/src/other.rt", '// unsafe\nfn f() { g("unsafe") }\n')]
        self.expect("the word alone", [*faults_of_unsafe(commented, page)], [])
        self.expect("no sources", [it for it in faults_of_unsafe([], page) if "none was compared" in it] != [])

    def test_allocations(self) -> None:
        expected, text = [*self.sources.calls_that_allocate()], text_of(allocating_calls.LIST)
        self.expect("the list", [*faults_of_allocations(expected, text)], [])
        call, path, command = next(it for it in allocating_calls.listed(text) if it[2])
        called, caller, _ = next(it for it in allocating_calls.listed(text) if not it[2])
        line = next(it for it in text.split("\n") if it.startswith(f"{call} "))
        for what, changed, wanted in (
            ("without a line", text.replace(f"{line}\n", ""), f"{call} is missing"),
            ("a line more", f"{text}menu::other {path} {command}\n", "menu::other is no public call"),
            ("a line twice", f"{text}{line}\n", f"{call} is listed twice"),
            ("no such file", text.replace(line, line.replace(path, "tests/none.py")), "there is no tests/none.py"),
            ("another command", text.replace(line, f"{call} {path} other"), f"{path} does not run other"),
            ("another caller", re.sub(rf"^{called} .*", f"{called} {path}", text, flags=re.M), f"{path} does not call"),
        ):
            self.refuses(what, [*faults_of_allocations(expected, changed)], wanted)
        self.expect("a caller", os.path.isfile(caller))
        self.refuses("nothing", [*faults_of_allocations([], "")], "0 calls that may report")


# Something that is appended to a source of the crate budget, and the line that contracts.txt then lacks.
APPENDED = (
    (
        "pub fn other(count: usize) -> usize\n    ensures least { result ≥ 1 }\n{\n    count\n}\n",
        "budget::other: least",
    ),
    ("pub fn other(count: usize) -> usize\n    ensures { result ≥ 1 }\n{\n    count\n}\n", "budget::other"),
    ("pub fn other(count: usize) -> usize\n{\n    count\n}\n", None),
    ("fn other(count: usize) -> usize\n    ensures least { result ≥ 1 }\n{\n    count\n}\n", None),
    ("// pub fn other()\n//    ensures least { true }\n", None),
    ("pub trait Other {\n    fn other(&self)\n        ensures same { true };\n}\n", None),
    (
        "pub use other::Other;\npub trait Other {\n    fn other(&self)\n        ensures same { true };\n}\n",
        "budget::Other::other: same",
    ),
    (
        "pub use a::Given;\nimpl Given {\n    pub fn other(&self)\n        ensures same { true }\n    {}\n}\n",
        "budget::Given::other: same",
    ),
)


class Readers(Case):
    """The calls and the clauses that are read in a changed copy of the crates."""

    def test_appended_calls(self) -> None:
        with tempfile.TemporaryDirectory() as top:
            shutil.copy("crates.txt", top)
            shutil.copytree("crates/budget/src", f"{top}/crates/budget/src")
            path = f"{top}/crates/budget/src/lib.rt"
            text = text_of(path)
            before = contracts.lines_of(Sources(top).contracts())
            self.expect(f"{len(before)} calls", len(before) > 0)
            for addition, wanted in APPENDED:
                with open(path, "w", encoding="utf-8") as file:
                    file.write(f"{text}\n{addition}")
                found = contracts.lines_of(Sources(top).contracts())
                self.expect(addition, [it for it in found if it not in before], [wanted] if wanted else [])

    def test_errors_of_allocations(self) -> None:
        text = "pub enum A {\n    Full,\n    Lower(B),\n}\npub enum B {\n    NoMemory,\n}\npub enum C {\n    Full,\n}\n"
        self.expect("types", allocating_calls.errors([text]) - allocating_calls.FAILED, {"A", "B"})
        head = ["pub fn f(a: &A)", "    -> Result<(), B>", "    ensures { true }", "{"]
        self.expect("a result", allocating_calls.result_of(head, 0), "Result<(), B>")
