"""What a search reads of the index, whatever the tables hold: its bytes are counted, in njs. Titles are as long as they
may be, with as many numbers and rows, and their words fill the files of words."""
from __future__ import annotations

import json
import os
import subprocess
import tempfile
from typing import NamedTuple

from fixtures import needs
from fixtures.cases import Case
from fixtures.index_reader import Index
from fixtures.index_reader import journal
from fixtures.index_reader import table

TITLES, TARGETS = 1200, 20
# Bytes of a file of words, and of a page of the list; and the pages that a search reads: those of its titles, and those
# by which it finds the titles that begin with its words.
MOST_OF_WORD, MOST_OF_PAGE, MOST_PAGES = 1 << 20, 50 * 1301 + 300, 50 + 22
MOST_OF_LETTERS = 65536
MOST_ROWS = 12
SHARED, MOST_OF_NUMBER, MOST_OF_LINE = "2901-0012", 1 << 14, 50_000  # a number of many titles, and bytes of its lines
SCRIPT = """import search from 'search.js';
import fs from 'fs';
globalThis.fold = JSON.parse(fs.readFileSync('fold.json'));
const asked = JSON.parse(process.argv[3]);
const reads = [];
const r = { subrequest: (path) => {
    try {
        const bytes = fs.readFileSync(process.argv[2] + path);
        reads.push([path, bytes.length]);
        return Promise.resolve({ status: 200, responseBuffer: bytes });
    } catch (e) {
        return Promise.resolve({ status: 204 });
    }
} };
search.search(r, 'j', asked[0], asked[1]).then((found) => {
    const rows = found.titles.map((it) => it.rows.length);
    fs.writeFileSync(process.argv[4], JSON.stringify([reads, found.titles.length, Math.max.apply(null, rows)]));
});
"""


class Search(NamedTuple):
    """The files that a search read, each with its bytes; the titles that it found, and the most rows of one."""

    reads: list[tuple[str, int]]
    titles: int
    rows: int


def searched(root: str, text: str, page: int) -> Search:
    with tempfile.TemporaryDirectory() as folder:
        script, reply = os.path.join(folder, "main.js"), os.path.join(folder, "reply")
        with open(script, "w", encoding="utf-8") as file:
            file.write(SCRIPT)
        words = ["njs", "-p", os.path.abspath("front_door"), script, root, json.dumps([text, page]), reply]
        subprocess.run(words, cwd="front_door", check=True)
        with open(reply, encoding="utf-8") as file:
            return Search(*json.load(file))


def tables() -> dict[str, bytes]:
    """Titles of 500 characters, most of two bytes, with a row of each target, and many rare words that begin as those
    of a search do. Every fourth title has these words."""
    rows = []
    for number in range(TITLES):
        common = "Alpha Beta Gamma" if number % 4 == 0 else "Delta"
        name = f"Ж{number:05} {common} "
        rows.append(journal(name + "ж" * (500 - len(name)), f"{1000000 + number}0", "", "2001-01-01", "2010-12-31"))
    rare = [f"{start}{number:057}" for start in ("alp", "bet", "gam") for number in range(16000)]
    rare_rows = [journal(" ".join(rare[at : at + 8]), f"{3000000 + at}0") for at in range(0, len(rare), 8)]
    rows += [journal(f"Щ{number:05} " + "щ" * 490, SHARED) for number in range(60)]
    names = [f"a-target-with-a-long-name-{number:03}" for number in range(TARGETS)]
    return {**{name: table(*rows) for name in names}, "rare": table(*rare_rows)}


@needs.command("njs")
class Searches(Case):
    made: Index

    @classmethod
    def setUpClass(cls) -> None:
        cls.made = Index(tables())
        cls.addClassCleanup(cls.made.remove)

    def test_bytes(self) -> None:
        for text, page, least in (("alpha beta gamma", 1, 50), ("alpha beta gamma", 6, 50), ("beta", 3, 50)):
            found = searched(self.made.folder, text, page)
            name = f"page {page} of {text}"
            self.expect(f"{name}: titles", found.titles, least)
            sizes = [size for path, size in found.reads if "/words/" in path]
            self.expect(f"{name}: bytes of words {sizes}", [it for it in sizes if it > MOST_OF_WORD], [])
            pages = [size for path, size in found.reads if "/list/" in path and path[-1].isdigit()]
            self.expect(f"{name}: bytes of pages {max(pages)}", [it for it in pages if it > MOST_OF_PAGE], [])
            most = MOST_OF_WORD * len(text.split()) + MOST_OF_PAGE * MOST_PAGES + MOST_OF_LETTERS
            total = sum(size for _, size in found.reads)
            self.expect(f"{name}: {total} bytes in {len(found.reads)} files", total <= most)
            self.expect(f"{name}: {found.rows} rows", found.rows <= MOST_ROWS)

    def test_number(self) -> None:
        """A search for a number that many titles have shows some of them."""
        lines = [len("\t".join(cells).encode()) for cells in self.made.of_key(SHARED)]
        self.expect(f"{len(lines)} titles of {sum(lines)} bytes", sum(lines[1:]) <= MOST_OF_NUMBER < MOST_OF_LINE)
        found = searched(self.made.folder, SHARED, 1)
        self.expect("those that are found", (found.titles, found.titles > 1), (len(lines), True))
