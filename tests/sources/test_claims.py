"""SECURITY.md: each claim of its table has tests, which exist, in the folders that its row names. claims.tsv has the
claims in their order, each a sentence or a part of one as the page has it, and after a tab its tests, `proof: NAME` of
PROOFS.md, or `no claim: REASON`."""
from __future__ import annotations

import functools
import re
from pathlib import Path
from typing import NamedTuple

from bounds.test_list import is_test
from fixtures.cases import Case

PAGE, LIST, PROOFS = Path("SECURITY.md"), Path("tests/sources/claims.tsv"), Path("docs/PROOFS.md")
LEAST = 90  # claims
_is_test = functools.cache(is_test)
_LINK = re.compile(r"\[([^]]*)\]\(([^)]*)\)")
_END = re.compile(r"(?<=[.;:]) (?=[A-Za-z`])")


class Claim(NamedTuple):
    text: str
    folders: tuple[str, ...]  # that its row names
    has_proof: bool


def claims_of(page: str) -> list[Claim]:
    """The claims of the first table of a page, whose third column says what holds, and whose last one by what."""
    found = []
    for line in page.split("\n| ")[2:]:
        cells = line.partition(" |\n")[0].removesuffix(" |").split(" | ")
        folders = tuple(target for _, target in _LINK.findall(cells[3]) if target.startswith("tests/"))
        text = _LINK.sub(r"\1", cells[2])
        found += [Claim(it, folders, "proof" in cells[3]) for it in _END.split(text)]
    return found


def faults_of(claim: Claim, shown_by: str, proofs: str) -> list[str]:
    """What is wrong with the tests of a claim."""
    if shown_by.startswith("no claim: "):
        return [] if len(shown_by.split()) > 4 else [f"{claim.text}: no reason"]
    if shown_by.startswith("proof: "):
        name = shown_by.removeprefix("proof: ")
        return [] if claim.has_proof and f"`{name}`" in proofs else [f"{claim.text}: no proof {name}"]
    tests = shown_by.split(" ")
    lines = [f"{claim.text}: no test {it}" for it in tests if not _is_test(it)]
    named = {f"tests/{it.partition('.')[0]}" for it in tests}
    return lines + [f"{claim.text}: its row does not name {it}" for it in sorted(named - {*claim.folders})]


def faults(page: str, lines: list[str], proofs: str) -> list[str]:
    claims, rows = claims_of(page), [line.partition("\t") for line in lines]
    texts = [claim.text for claim in claims]
    found = [f"not in the list: {it}" for it in texts if it not in [row[0] for row in rows]]
    found += [f"no claim of the page: {row[0]}" for row in rows if row[0] not in texts]
    if not found and texts != [row[0] for row in rows]:
        found.append("the order is another one")
    return found or [it for claim, row in zip(claims, rows) for it in faults_of(claim, row[2], proofs)]


class Claims(Case):
    def setUp(self) -> None:
        super().setUp()
        self.page, self.proofs = PAGE.read_text(encoding="utf-8"), PROOFS.read_text(encoding="utf-8")
        self.lines = LIST.read_text(encoding="utf-8").splitlines()

    def test_claims(self) -> None:
        found = claims_of(self.page)
        self.expect(f"{len(found)} claims", len(found) >= LEAST)
        self.expect("what is wrong", faults(self.page, self.lines, self.proofs), [])

    def test_slips(self) -> None:
        """A claim without a line, one that has changed, a test that does not exist, or is in another folder."""
        first = self.lines[0].partition("\t")[0]
        for name, page, lines, wanted in (
            (
                "a new claim",
                self.page.replace(f"| {first}", f"| All is well. {first}", 1),
                self.lines,
                "not in the list",
            ),
            ("a changed one", self.page.replace("256 MB", "257 MB"), self.lines, "not in the list"),
            ("one that is gone", self.page, [*self.lines, "All is well.\tproof: compile"], "no claim of the page"),
            ("another order", self.page, self.lines[::-1], "the order"),
            ("no test", self.page, [re.sub(r"\.test_\w+$", ".test_x", it) for it in self.lines], "no test"),
            ("no tests", self.page, [it.partition("\t")[0] for it in self.lines], "no test"),
            ("another folder", self.page.replace("(tests/index)", "(tests/limits)"), self.lines, "does not name"),
            ("no reason", self.page, [re.sub("\t.*", "\tno claim: it", it) for it in self.lines], "no reason"),
            ("no proof", self.page, [re.sub("proof: .*", "proof: x", it) for it in self.lines], "no proof"),
        ):
            found = faults(page, lines, self.proofs)
            self.expect(f"{name}: {found[:1]}", any(wanted in it for it in found))
