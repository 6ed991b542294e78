"""What the index of a version has of the rules of its targets: the parts of a citation that they name, their labels."""
from __future__ import annotations

import tempfile
from pathlib import Path

from fixtures import needs
from fixtures.cases import Case
from fixtures.made_versions import Weeks
from fixtures.made_versions import table
from openlink_update.index import named_parts

HEAD = "# label: Press\n# label de: Verlag\n# group: Full text\n"
RULES = "rule\nwhen given rft.volume\nlink https://press.example.com/{title_id}/{rft.volume}/{rft.spage}\n"


@needs.program()
class Rules(Case):
    def test_of_a_version(self) -> None:
        """The front door looks up what is missing only if rules can use it, and shows labels that no other file has."""
        rows = table(("Tides", "2901-0012", "", "1995", "", "https://press.example.com/t", "t"))
        with Weeks() as weeks:
            weeks.deliver("press", rows, rules=HEAD + RULES)
            weeks.make()
            self.expect("parts", weeks.read("index/named"), b"press\tvolume page\n")
            self.expect("labels", weeks.read("index/heads"), b"\npress\tFull text\t=Press\tde=Verlag\n")
            weeks.deliver("press", rows)
            weeks.make()
            self.expect("no parts", weeks.read("index/named"), b"")
            self.expect("no labels", weeks.read("index/heads"), b"\n")


def named(*names: str) -> str:
    """What the index has of a target whose code file has these names."""
    code = b"OLK1" + len(names).to_bytes(2, "big") + bytes(4)
    code += b"".join(bytes((place % 2, len(name))) + name.encode() for place, name in enumerate(names))
    with tempfile.TemporaryDirectory() as folder:
        named_parts.write(Path(folder), [("press", code)])
        return Path(folder, "named").read_text(encoding="ascii")


class Names(Case):
    def test_parts(self) -> None:
        """The part of a citation that each name is of, in a code file as docs/MACHINE.md describes it."""
        for part, names in (
            ("date", ("rft.date", "rft.year", "x.from", "x.to")),
            ("volume", ("rft.volume",)),
            ("page", ("rft.spage", "rft.epage", "rft.pages")),
        ):
            for name in names:
                self.expect(name, named("title_id", name, "rft.issn"), f"press\t{part}\n")
        self.expect("all parts", named("rft.pages", "rft.volume", "x.to", "x.from"), "press\tdate volume page\n")
        self.expect("none", named("rft.issn", "rft.issue", "rft.atitle", "date", "volume"), "")
