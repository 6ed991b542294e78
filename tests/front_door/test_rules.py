"""The unit tests of the module, in njs and in node."""
from __future__ import annotations

from fixtures import needs
from fixtures import readings
from fixtures.cases import Case


@needs.program()
class Rules(Case):
    """Each case of rules.js is a comparison with its name."""

    def check(self, *words: str) -> None:
        """Runs the script, which prints a line of JSON for each case, and last how many there are."""
        lines, done = readings.lines_of(words, "tests/front_door/rules.js")
        *cases, count = lines or [None]
        self.expect("how it ends", (done.returncode, done.stderr, count), (0, "", len(cases)))
        self.expect(f"{len(cases)} cases", len(cases) >= 2000)
        for name, *pair in cases:
            self.expect(name, pair[:1], pair[1:])

    @needs.command("njs")
    def test_in_njs(self) -> None:
        self.check("njs", "-p", "FOLDER")

    @needs.command("node")
    def test_in_node(self) -> None:
        self.check("node")
