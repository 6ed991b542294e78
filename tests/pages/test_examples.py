"""The registries of examples/menu and examples/library, served: each request of a file NAME.query gives the bytes of
NAME.menu, NAME.report and, if there is one, NAME.html."""
from __future__ import annotations

from pathlib import Path

from fixtures import needs
from fixtures.cases import Case
from fixtures.examples import Examples


@needs.program()
class Pages(Case):
    """Requests by examples/ask."""

    def setUp(self) -> None:
        super().setUp()
        self.examples = Examples()
        self.addCleanup(self.examples.close)

    def check(self, folder: str, registry: str, least: int) -> None:
        """Compares the replies for each request of the folder."""
        queries = sorted(Path(self.examples.folder, folder).glob("*.query"))
        count = 0
        for query in queries:
            text = query.read_text(encoding="utf-8").strip()
            for path, suffix in (("/openurl.txt", ".menu"), ("/report", ".report"), ("/openurl", ".html")):
                wanted = query.with_suffix(suffix)
                if suffix != ".html" or wanted.exists():
                    reply = self.examples.run("examples/ask", registry, f"{path}?{text}")
                    self.expect(f"{path} for {folder}/{query.name}", reply, (0, wanted.read_bytes(), b""))
                    count += 1
        self.expect(f"{count} replies", count >= least)

    def test_menu(self) -> None:
        self.expect("the codes", self.examples.run("examples/menu/compile")[0], 0)
        self.check("examples/menu", "examples/menu/registry.tsv", 7)

    def test_library(self) -> None:
        self.expect("the library", self.examples.run("examples/library/build", "library")[0], 0)
        self.check("examples/library", "library/registry.tsv", 43)
