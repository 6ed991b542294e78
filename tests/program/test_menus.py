"""The menus of the targets of examples/menu and of examples/library: for each NAME.query, what the program prints is
NAME.menu, byte for byte, and the status is 1 for an empty menu and 0 for any other. Then a registry with the greatest
number of targets, each with a table, and one with a target more. Runs in a copy of examples/, where the rules of
examples/menu are compiled; the code files that are stored there are the same, byte for byte."""
from __future__ import annotations

import glob
import os
import subprocess

from fixtures import needs
from fixtures.cases import Case
from program.test_readme import Room

# At least this many menus are stored, and of these at least one is empty.
LEAST = {"menu": 3, "library": 15}
RULE_FILES = 4
ROW = "catalogue-{}\texamples/menu/catalogue.olk\texamples/menu/catalogue.tsv\n"
LINK = "catalogue-{}\thttps://catalogue.example.org/search?number=2901-0012\n"
MOST = 256


def wanted(menu: str) -> tuple[int, str, str]:
    """The status, the output and the errors for a stored menu."""
    return (0 if menu else 1), menu, ""


def read(path: str) -> str:
    with open(path, encoding="utf-8", newline="") as file:
        return file.read()


@needs.program()
class Menus(Case):
    room: Room

    @classmethod
    def setUpClass(cls) -> None:
        cls.room = Room(cls)
        library = f"{cls.room.folder}/library"
        for path in glob.glob(f"{cls.room.folder}/examples/menu/*.olk"):
            os.remove(path)
        for words in ["examples/menu/compile", needs.PROGRAM], ["examples/library/build", needs.PROGRAM, library]:
            subprocess.run(words, cwd=cls.room.folder, check=True, capture_output=True)

    def given(self, registry: str, query: str) -> tuple[int, str, str]:
        words = [needs.PROGRAM, "resolve", registry, query]
        ran = subprocess.run(words, cwd=self.room.folder, capture_output=True, encoding="utf-8", errors="replace")
        return ran.returncode, ran.stdout, ran.stderr

    def test_stored_menus(self) -> None:
        registries = {"menu": "examples/menu/registry.tsv", "library": f"{self.room.folder}/library/registry.tsv"}
        empty = 0
        for name, registry in registries.items():
            paths = sorted(glob.glob(f"examples/{name}/*.query"))
            for path in paths:
                menu = read(path.removesuffix("query") + "menu")
                self.expect(path, self.given(registry, read(path).rstrip("\n")), wanted(menu))
                empty += not menu
            self.expect(f"{len(paths)} menus in {name}", len(paths) >= LEAST[name])
        self.expect(f"{empty} empty menus", empty >= 1)

    def test_stored_code(self) -> None:
        """The code files that stand beside the rules of examples/menu are what the program makes of them."""
        paths = sorted(glob.glob("examples/menu/*.rules"))
        for path in paths:
            code = path.removesuffix("rules") + "olk"
            with open(code, "rb") as stored, open(f"{self.room.folder}/{code}", "rb") as made:
                self.expect(code, stored.read(), made.read())
        self.expect(f"{len(paths)} rule files", len(paths), RULE_FILES)
        self.expect("code files", len(glob.glob("examples/menu/*.olk")), len(paths))

    def test_a_spoilt_menu_is_another(self) -> None:
        query = read("examples/menu/article.query").rstrip("\n")
        got, menu = self.given("examples/menu/registry.tsv", query), read("examples/menu/article.menu")
        for other in menu[:-1], menu.replace("\t", " ", 1), "", menu + menu:
            self.expect(f"{other!r}", got == wanted(other), False)

    def test_the_greatest_number_of_targets(self) -> None:
        query = read("examples/menu/article.query").rstrip("\n")
        for count in MOST, MOST + 1:
            with open(f"{self.room.folder}/many.tsv", "w", encoding="utf-8") as file:
                file.write("".join(ROW.format(it) for it in range(1, count + 1)))
            links = "".join(LINK.format(it) for it in range(1, count + 1))
            refused = (3, "", f"openlink: target catalogue-{count}: Full\n")
            self.expect(f"{count} targets", self.given("many.tsv", query), wanted(links) if count == MOST else refused)
