"""The limits of the front door's scripts, by the cases of limits.js, which runs once in njs."""
from __future__ import annotations

from fixtures import needs
from fixtures import readings
from fixtures.cases import Case

_SCRIPT = "tests/bounds/limits.js"


@needs.command("njs")
@needs.program()
class Scripts(Case):
    """Each test has the cases of one file: a name alone, or with what it gives and what was expected."""

    cases: list[list[str]]

    @classmethod
    def setUpClass(cls) -> None:
        super().setUpClass()
        lines, done = readings.lines_of(["njs", "-p", "FOLDER"], _SCRIPT)
        *cls.cases, count = lines or [0]
        if done.returncode or count != len(cls.cases):
            raise RuntimeError(f"{_SCRIPT} ends after {len(cls.cases)} cases: {done.stdout[-300:]}")

    def check(self, name: str, least: int = 2) -> None:
        cases = [it[1:] for it in self.cases if it[0] == name]
        self.expect(f"{len(cases)} cases of {name}", len(cases) >= least)
        for what, *pair in cases:
            self.expect(what, pair[:1], pair[1:])

    def test_title_pages(self) -> None:
        self.check("title_pages")

    def test_browser(self) -> None:
        self.check("browser")

    def test_completion(self) -> None:
        self.check("completion", 10)

    def test_contact(self) -> None:
        self.check("contact")

    def test_copies(self) -> None:
        self.check("copies", 8)

    def test_find(self) -> None:
        self.check("find")

    def test_form(self) -> None:
        self.check("form")

    def test_languages(self) -> None:
        self.check("languages", 6)

    def test_lists(self) -> None:
        self.check("lists", 4)

    def test_menu(self) -> None:
        self.check("menu", 6)

    def test_log(self) -> None:
        self.check("log", 4)

    def test_lookup(self) -> None:
        self.check("lookup")

    def test_notices(self) -> None:
        self.check("notices", 7)

    def test_numbers(self) -> None:
        self.check("numbers", 4)

    def test_reading(self) -> None:
        self.check("reading", 8)

    def test_pages(self) -> None:
        self.check("pages", 4)

    def test_replies(self) -> None:
        self.check("replies", 10)

    def test_search(self) -> None:
        self.check("search")
