"""The beginnings of the pages of a letter; and the front door's searches of an index of many titles: which titles come
first, how many pages there are, and how many files a search reads. The searches need njs."""
from __future__ import annotations

import json
import os
import subprocess
import tempfile
from typing import Any

from fixtures import needs
from fixtures.cases import Case
from fixtures.index_reader import Index
from fixtures.index_reader import table

MANY = 10000
SCRIPT = """import search from 'search.js';
import fs from 'fs';
globalThis.fold = JSON.parse(fs.readFileSync('fold.json'));
const root = process.argv[2];
const asked = JSON.parse(process.argv[3]);
let reads = 0;
const r = { subrequest: (path) => {
    reads++;
    try {
        return Promise.resolve({ status: 200, responseBuffer: fs.readFileSync(root + path) });
    } catch (e) {
        return Promise.resolve({ status: 204 });
    }
} };
search.search(r, 'j', asked[0], asked[1]).then((found) => {
    const titles = found.titles.map((it) => it.title);
    const reply = [titles, found.page, found.pages, found.count, found.isMore, reads];
    fs.writeFileSync(process.argv[4], JSON.stringify(reply));
});
"""


def rows() -> list[tuple[str, str]]:
    """Ten thousand titles under X, more than a search looks at, and a few under other letters."""
    names = [
        f"X{number:05} Yankee Zulu{' Alpha' * (number < 3000)}{' Omega' * (number >= 7000)}" for number in range(MANY)
    ]
    names += [
        "The Zulu",
        "Zulu",
        "Zulus of Today",
        "Zulu Reports",
        "Annals of Zulu",
        "Yankee Zulu",
        "Yankee: Zulu Days",
        "Nature",
        "Nature Physics",
        "Natural History",
        "Annals of Nature",
        "The Nature",
        "Nature A",
        "Nature Aging",
        "Études marines",
        "Annales: Études marines",
        "1848",
        "1848 Tides",
        "Tides of 1848",
        "Ωmega",
        "Annals of Ωmega",
        "中国",
        "中国 中国",
        "Annals of 中国",
        "語" * 70,
        f"Annals of the {'x' * 61}",
        *[f"Coast {number:03}" for number in range(75)],
        "Inland Coast",
    ]
    return [(name, f"{1000000 + number}0") for number, name in enumerate(names)] + [
        (f"Shared {number}", "2901-0012" if number < 40 else "2908-0142") for number in range(80)
    ]


def searched(root: str, text: str, page: int = 1) -> list[Any]:
    with tempfile.TemporaryDirectory() as folder:
        script, reply = os.path.join(folder, "main.js"), os.path.join(folder, "reply")
        with open(script, "w", encoding="utf-8") as file:
            file.write(SCRIPT)
        subprocess.run(
            ["njs", "-p", os.path.abspath("front_door"), script, root, json.dumps([text, page]), reply],
            cwd="front_door",
            check=True,
        )
        with open(reply, encoding="utf-8") as file:
            found: list[Any] = json.load(file)
        return found


class Starts(Case):
    """The files of the list."""

    def test_starts(self) -> None:
        """The beginning of each page of a letter: longer than what the page before has, within its limits."""
        names = [f"Journal of Art {number:02}" for number in range(50)]
        names += [f"Journal of Arts {number:02}" for number in range(50)] + ["Journal of Biology"] * 60
        names += ["Nature"] * 50 + ["Nature Astronomy"] + ["M" * 40] * 50 + ["M" * 40 + "n"] + ["O"]
        rows = [(name, f"{1000000 + number}0") for number, name in enumerate(names)]
        with Index({"one": table(*rows)}) as found:
            self.expect(
                "beginnings of pages",
                found.starts("j"),
                {
                    "j": ["jo", "journal of arts", "journal of b", "journal of biology"],
                    "n": ["na", "nature a"],
                    "m": ["mm", "m" * 32],
                    "o": ["o"],
                },
            )


@needs.command("njs")
class Searches(Case):
    """Searches of one index."""

    made: Index

    @classmethod
    def setUpClass(cls) -> None:
        super().setUpClass()
        cls.made = Index({"one": table(*rows())})
        cls.addClassCleanup(cls.made.remove)

    def test_order(self) -> None:
        """The title that has exactly the words, then those that begin with them, then the others by letter."""
        cases: tuple[tuple[str, list[str]], ...] = (
            ("nature", ["Nature", "The Nature", "Nature A", "Nature Aging", "Nature Physics", "Annals of Nature"]),
            ("THE nature", ["Nature", "The Nature", "Nature A", "Nature Aging", "Nature Physics", "Annals of Nature"]),
            (
                "natur",
                [
                    "Natural History",
                    "Nature",
                    "The Nature",
                    "Nature A",
                    "Nature Aging",
                    "Nature Physics",
                    "Annals of Nature",
                ],
            ),
            ("nature a", ["Nature A", "Nature Aging", "Annals of Nature", "Nature", "The Nature", "Nature Physics"]),
            ("physics nature", ["Nature Physics"]),
            ("coast inland", ["Inland Coast"]),
            ("000 coast", ["Coast 000"]),
            ("022 coast", ["Coast 022"]),
            ("032 coast", ["Coast 032"]),
            ("074 coast", ["Coast 074"]),
            ("marines coast", []),
            ("etudes marines", ["Études marines", "Annales: Études marines"]),
            ("1848", ["1848", "1848 Tides", "Tides of 1848"]),
            ("中国", ["中国", "中国 中国", "Annals of 中国"]),
            ("ωmega", ["Ωmega", "Annals of Ωmega"]),
            ("nothing", []),
            ("nature nothing", []),
        )
        for text, expected in cases:
            found = searched(self.made.folder, text)
            self.expect(f"the order of {text}", (found[0], found[1:5]), (expected, [1, 1, len(expected), False]))
        found = searched(self.made.folder, "shared 7")
        self.expect("a title with a number", found[0][:4], ["Shared 7", "Shared 70", "Shared 71", "Shared 72"])
        self.expect("how many, by its word alone", found[1:5], [1, 2, 80, False])
        first = ["The Zulu", "Zulu", "Zulu Reports", "Zulus of Today", "Annals of Zulu"]
        self.expect("a title after the places that a search looks at", searched(self.made.folder, "zulu")[0][:5], first)
        self.expect(
            "the same with two words",
            searched(self.made.folder, "yankee zulu")[0][:3],
            ["Yankee Zulu", "Yankee: Zulu Days", "X00000 Yankee Zulu Alpha"],
        )

    def test_pages(self) -> None:
        """Each title is on one page, and a page after the last is the last."""
        coasts = [f"Coast {number:03}" for number in range(75)]
        pages = [searched(self.made.folder, "coast", page)[:5] for page in (1, 2, 3, 99999)]
        self.expect(
            "pages of a search",
            pages,
            [[coasts[:50], 1, 2, 76, False]] + [[coasts[50:] + ["Inland Coast"], 2, 2, 76, False]] * 3,
        )
        pages = [searched(self.made.folder, "2908-0142, 2901-0012", page)[:5] for page in (1, 2, 3)]
        self.expect(
            "pages of a search for two numbers",
            [[len(found[0]), *found[1:]] for found in pages],
            [[50, 1, 2, 80, False], [30, 2, 2, 80, False], [30, 2, 2, 80, False]],
        )
        for text, count, is_more in (("zulu", MANY + 7, False), ("yankee zulu", 2000, True)):
            pages = [searched(self.made.folder, text, page) for page in (1, 2, 39, 40, 41)]
            self.expect(
                f"the numbers of {text}",
                [found[1:5] for found in pages],
                [[page, 40, count, is_more] for page in (1, 2, 39, 40, 40)],
            )
            self.expect(f"pages of {text}", [len(found[0]) for found in pages], [50] * 5)
            self.expect(f"titles of {text}", len({title for found in pages[:4] for title in found[0]}), 200)
        self.expect("a word twice", searched(self.made.folder, "zulu Zulu")[1:5], [1, 40, MANY + 7, False])
        self.expect(
            "words that only titles after those have",
            searched(self.made.folder, "alpha omega")[:5],
            [[], 1, 1, 0, True],
        )

    def test_long_words(self) -> None:
        """The first sixty letters of a word count, as in the index."""
        for text, wanted in (
            ("語" * 70, ["語" * 70]),
            ("語" * 60, ["語" * 70]),
            ("annals " + "x" * 61, [f"Annals of the {'x' * 61}"]),
            ("x" * 59 + "y", []),
        ):
            self.expect(f"{len(text)} characters", searched(self.made.folder, text)[0], wanted)

    def test_no_index(self) -> None:
        """A search of a kind of which no list is there finds nothing, on one page."""
        with tempfile.TemporaryDirectory() as folder:
            self.expect("what is found", searched(folder, "coast", 2)[:5], [[], 1, 1, 0, False])

    def test_work(self) -> None:
        """How many files a search reads: letters, one for each word, pages of its titles, and those of the halving."""
        halves = 2 * (MANY // 50).bit_length()
        for text, page, pages in (
            ("zulu", 1, 4),
            ("zulu", 40, 2),
            ("yankee zulu", 40, 2),
            ("x0", 1, 1),
            ("coast", 2, 2),
        ):
            reads = searched(self.made.folder, text, page)[5]
            most = 1 + len(text.split()) + pages + halves
            self.expect(f"{reads} files are read for page {page} of {text}, and {most} are allowed", reads <= most)
