"""Hostile tables: the index stays small, and takes no time or memory that grows faster than the tables."""
from __future__ import annotations

import array
import os
import subprocess
import tempfile

from fixtures import PYTHON
from fixtures.cases import Case
from fixtures.index_reader import Index
from fixtures.index_reader import check_form
from fixtures.index_reader import journal
from fixtures.index_reader import table
from fixtures.made_titles import isbn
from openlink_update.index import index_files
from openlink_update.index import word_sets

MEASURED = """
import re, runpy, sys
sys.path.insert(0, "update")
runpy.run_module("openlink_update.index.title_index", run_name="__main__")
with open("/proc/self/status") as status:
    print(int(re.search(r"VmHWM:\\s*(\\d+) kB", status.read())[1]) >> 10)
"""


class Titles:
    """A title as the sets of words need it."""

    def __init__(self, key: str) -> None:
        self.key, self.name, self.article = key, key, ""


def random_titles(count: int, words: int) -> list[tuple[str, list[Titles]]]:
    """Pages of titles of which each word occurs once."""
    titles = [Titles(" ".join(f"w{number}x{place}" for place in range(words))) for number in range(count)]
    return [("w", titles[start : start + 50]) for start in range(0, count, 50)]


def words_of(pages: list[tuple[str, list[Titles]]]) -> int:
    return len([word for words in word_sets.places_by_head(pages).values() for word in words])


class Limits(Case):
    """Each index is of tables beyond a limit."""

    def test_limits(self) -> None:
        """Hostile tables: the index stays small, and nothing takes time that grows with the square of the rows."""
        many = 3000
        with Index(
            {
                "chain": table(
                    *[journal("Chain", f"{1000000 + number}0", f"{1000001 + number}0") for number in range(many)]
                ),
                "rows": table(*[journal("Rows", "2901-0012")] * 201),
                "few": table(journal("Rows", "2901-0012")),
                "same": table(*[journal(f"Title {number}", "0000-0000") for number in range(many)]),
                "names": table(*[journal("Name", f"{5000000 + number}X") for number in range(many)]),
            }
        ) as found:
            self.expect("numbers of a title", len(found.of_key("=chain")[0][2].split(" ")), 40)
            self.expect("a target with too many rows", found.coverage_of("2901-0012"), [""])
            self.expect("titles of a number", len(found.of_key("0000-0000")), 50)
            self.expect("titles of a key", len(found.of_key("=name")), 50)
            self.expect("they are all in the list", len(found.listed("j")), 2 + 2 * many)
            self.expect("a form for the halving", list(check_form(found)), [])
        row = journal("Rows", "2901-0012")
        with Index({"rows": table(*[row] * 150), "more": table(*[row] * 100)}) as found:
            self.expect(
                "a target whose rows have no room",
                found.coverage_of("2901-0012"),
                [";".join(f"rows {number}" for number in range(150))],
            )

    def test_large_files(self) -> None:
        """Lines for which the front door cannot read a file are left out of it, each as a whole."""
        line = b"x" * 1000
        text = index_files.text_of([line] * 5000)
        self.expect("the lines of a file that is cut", set(text.split(b"\n")), {line, b""})
        self.expect("it ends at its limit", (4 << 20) - 1001 < len(text) <= 4 << 20)
        words = [f"zzz{'abcdefghij'[number % 10]}{number:053}" for number in range(64000)]
        rows = [journal(" ".join(words[start : start + 8]), f"{3000000 + start}0") for start in range(0, len(words), 8)]
        rows += [journal(f"Zzzymurgy {number}", f"{4000000 + number}0") for number in range(70)]
        with Index({"t": table(*rows)}) as found:
            self.expect("a form for the halving", list(check_form(found)), [])
            longest = max(len(found.read("words", "j", name)) for name in found.names("words", "j"))
            self.expect(f"a file of words ends at its limit: {longest}", 1 << 19 < longest <= 1 << 20)
            self.expect("a word of more titles than these stays", len(found.places("j", "zzzymurgy")), 70)

    def test_random_words(self) -> None:
        """Titles of random words have few more words in the index than honest ones, and all words of honest ones."""
        self.expect("words of a title", len(word_sets.words_in(Titles(" ".join(f"x{it}" for it in range(82))))), 40)
        self.expect(
            "words of an honest title", len(word_sets.words_in(Titles(" ".join(f"x{it}" for it in range(40))))), 40
        )
        # 2,500 titles of 40 words bring 100,000; each further one brings four.
        for count, expected in ((2_500, 100_000), (2_501, 100_004), (5_000, 110_000)):
            self.expect(f"words of {count} titles", words_of(random_titles(count, 82)), expected)
        known = random_titles(2_600, 40)
        known[-1][1].append(Titles("w0x0 w1x1 w2x2 w3x3 w4x4 w5x5"))
        places = word_sets.places_by_head(known)
        self.expect(
            "known words are no new ones",
            [len(places[word[:3]][word]) for word in known[-1][1][-1].key.split(" ")],
            [2] * 6,
        )

    def test_bytes_of_a_line(self) -> None:
        """A line takes no more than was reckoned before its file was filled."""
        for places in (range(100, 400), range(95, 105)):
            line = word_sets._Line(b"word", array.array("I", places), False)
            reckoned = word_sets._bytes_of(line, 1000)
            self.expect(f"{len(places)} places", len(word_sets._data_of([line], 1000)) <= reckoned)

    def test_memory_of_random_words(self) -> None:
        """Titles of 82 words that no other title has take little more memory than their table, as honest ones do."""
        titles = (
            " ".join(f"{(number * 82 + word) * 7919 % 2**32:x}q" for word in range(82)) for number in range(8_000)
        )
        rows = [f"{title}\t{isbn(number)}" for number, title in enumerate(titles)]
        with tempfile.TemporaryDirectory() as folder:
            with open(f"{folder}/table.txt", "w", encoding="utf-8") as file:
                file.write("\n".join(["publication_title\tonline_identifier", *rows, ""]))
            with open(f"{folder}/registry.tsv", "w", encoding="utf-8") as file:
                file.write(f"books\tcode\t{folder}/table.txt\n")
            words = [*PYTHON, "-c", MEASURED, f"{folder}/registry.tsv", f"{folder}/index"]
            done = subprocess.run(words, capture_output=True, text=True)
            has_words = sum(len(names) for _, _, names in os.walk(f"{folder}/index/words")) > 10
        self.expect(f"its memory in MB: {done.stdout}{done.stderr[-300:]}", 20 < int(done.stdout or 9999) <= 120)
        self.expect("it has words", has_words)
