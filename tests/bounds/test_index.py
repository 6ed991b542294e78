"""The index of titles: how much of a title, of a word and of a file it has. The front door relies on each."""
from __future__ import annotations

import array
import tempfile
from unittest import mock

from fixtures.cases import Case
from openlink_update.index import index_files
from openlink_update.index import title_index
from openlink_update.index import title_list
from openlink_update.index import titles
from openlink_update.index import word_sets
from openlink_update.index.title_groups import Title
from openlink_update.index.title_groups import Titles
from openlink_update.tables.table import Table

MIB_4 = 4_194_304


def title(name: str) -> Title:
    return Title(name)


class Files(Case):
    def test_bytes_of_lines(self) -> None:
        """4 MiB, with an end after each line; a line that does not fit is left out whole."""
        last = [b"x" * 1023] * 4096
        self.expect("4 MiB", len(index_files.text_of(last)), MIB_4)
        for name, lines in (
            ("a byte more", [*last[:-1], b"x" * 1024]),
            ("a line more", [*last, b""]),
            ("two lines more", [*last[:-1], b"x" * 1024, b"short"]),
        ):
            text = index_files.text_of(lines)
            kept = len(text.splitlines())
            self.expect(
                name,
                (text == b"".join(line + b"\n" for line in lines[:kept]), len(text) <= MIB_4, kept),
                (True, True, 4096 if name == "a line more" else 4095),
            )

    def test_bytes_of_places(self) -> None:
        """Those of the places of all words of a file."""
        every = array.array("I", range(0, 8 * 2**20, 2))
        self.expect("places of a word, as bits", len(word_sets._bits_of(every)), 2**20)
        line = word_sets._Line(b"aa", every, True)
        for most, wanted in ((2**20 - 26, [b"aa"]), (2**20 - 25, [])):
            kept = [it.word for it in word_sets._with_most_titles([line], most)]
            self.expect(f"{most} bytes of places beside 26 others", kept, wanted)

    def test_bytes_of_few_places(self) -> None:
        """A word with its places takes at most what is counted for it, by the digits of the last place."""
        for places in ([3, 7], [3, *range(99_940, 100_000)], [*range(1_000_000, 1_000_064)]):
            line = word_sets._Line(b"tide", array.array("I", places), False)
            text = word_sets._data_of([line], 2**20).partition(b"\n")[2]
            self.expect(f"{places[:2]}", len(text) <= word_sets._bytes_of(line, 2**20) <= len(text) + 64 + 24)

    def test_lines_of_a_key(self) -> None:
        for count in (50, 51):
            lines = [b"key\t%02d" % number for number in range(count)] + [b"other\t"]
            self.expect(f"{count} lines", list(title_index._few_of_each_key(lines)), lines[:50] + lines[-1:])

    def test_digits_of_names(self) -> None:
        for count, wanted in ((1000, 1), (1001, 2), (20_000, 2), (20_001, 3)):
            self.expect(f"{count} titles", word_sets.digits_for(count), wanted)


class OfTitles(Case):
    def test_years(self) -> None:
        """The first and the last year of all rows, if each has one."""
        for entries, wanted in (
            ("t 0 2003-05-01 2010-12", "2003 2010"),
            ("t 0 2003-05 2010;u 1 1999 2004-02-28", "1999 2010"),
            ("t 0 2003 2010;u 1 - 2004", "- 2010"),
            ("t 0 2003;u 1 1999 2004", "1999 -"),
            ("t 0", "- -"),
        ):
            title = Title("Tides")
            title.add("29010012", 1, True, entries)
            self.expect(entries, title.years(), wanted)

    def test_characters(self) -> None:
        """The first 500 of a title count, in its key, in that without its subtitle, and with umlauts."""
        text = "a" * 499
        self.expect("500", titles.key_of(text + "b"), text + "b")
        self.expect("501", titles.key_of(text + "bc"), text + "b")
        self.expect(
            "a subtitle at the end",
            (titles.short_key("a" * 499 + ":b"), titles.short_key("a" * 500 + ":b")),
            ("a" * 499, ""),
        )
        self.expect(
            "an umlaut at the end",
            (titles.written_key("a" * 499 + "ä"), titles.written_key("a" * 500 + "ä")),
            ("a" * 500, ""),
        )

    def test_tags(self) -> None:
        """A tag has a name of 20 characters and 200 more; anything longer is text."""
        for name, text, wanted in (
            ("a name of 20", f"<{'b' * 20}>x", "x"),
            ("of 21", f"<{'b' * 21}>x", f"<{'b' * 21}>x"),
            ("200 more", f"<i {'b' * 200}>x", "x"),
            ("201 more", f"<i {'b' * 201}>x", f"<i {'b' * 201}>x"),
        ):
            self.expect(name, titles.plain(text), wanted)

    def test_numbers(self) -> None:
        found = Title("A")
        found.add(" ".join(f"n{number}" for number in range(40)), 0, True, "x")
        self.expect("40", found.count(), 40)
        found.add("one-more", 0, True, "x")
        self.expect("41", (found.count(), "one-more" in found.forms), (40, False))

    def test_rows(self) -> None:
        """With more than 200 rows, a title has none of the targets that have some beyond."""
        found = Title("A")
        for number in range(199):
            found.add("n", 0, True, f"a {number}")
        found.add("n", 0, True, "b 200")
        self.expect("200", found.coverage_text().count(";") + 1, 200)
        found.add("n", 0, True, "b 201")
        self.expect("201", (found.coverage_text().count(";") + 1, " b" in found.coverage_text()), (199, False))

    def test_addresses(self) -> None:
        """Of twenty targets, one of each."""
        for count in (20, 21):
            one = title("Title")
            one.add_addresses("\t".join(f"target{at} https://e.org/{at}" for at in range(count)))
            one.add_addresses("target0 https://e.org/other")
            entries = one.addresses.split("\t")
            self.expect(f"{count} targets", (len(entries), entries[0]), (20, "target0 https://e.org/0"))

    def test_related(self) -> None:
        """Five earlier titles, and five later ones."""
        header = (
            "publication_title",
            "print_identifier",
            "title_id",
            "preceding_publication_title_id",
            "publication_type",
        )
        numbers = [f"{place:07}" for place in range(20)]
        forms = [f"{it[:4]}-{it[4:]}{check_of(it)}" for it in numbers]
        rows = [["Before", forms[0], "id0", "", "serial"]]
        rows += [[f"After {place}", forms[place], f"id{place}", "id0", "serial"] for place in range(1, 7)]
        for count in (5, 6):
            every = Titles()
            every.add_table("a", Table(header, [list(row) for row in rows[: count + 1]]))
            grouped = every.finish()
            related = grouped.related[next(it for it in grouped.titles if it.name == "Before")]
            self.expect(f"{count} later ones", (len(related.earlier), len(related.later)), (0, 5))


def check_of(digits: str) -> str:
    """The check digit of an ISSN."""
    total = -sum(int(digit) * weight for digit, weight in zip(digits, range(8, 1, -1))) % 11
    return "X" if total == 10 else str(total)


class OfWords(Case):
    def test_letters(self) -> None:
        self.expect("60", word_sets.words_in(title("b" * 60)), ["b" * 60])
        self.expect("61", word_sets.words_in(title("b" * 60 + "c")), ["b" * 60])

    def test_words(self) -> None:
        names = [f"w{number}" for number in range(41)]
        self.expect("40", word_sets.words_in(title(" ".join(names[:40]))), names[:40])
        self.expect("41", word_sets.words_in(title(" ".join(names))), names[:40])

    def test_new_words(self) -> None:
        """Once there are ANY_NEW different words, a title brings four at most; those that others have count always."""
        kept, word_sets._ANY_NEW = word_sets._ANY_NEW, 10
        try:
            for first, wanted in ((5, 5), (6, 4), (10, 4)):
                old = [f"old{number}" for number in range(first)]
                new = [f"new{number}" for number in range(5)]
                pages = [("o", [title(" ".join(old)), title(" ".join([*new, old[0]]))])]
                found = {word for words in word_sets.places_by_head(pages).values() for word in words}
                self.expect(f"after {first} words", len(found & set(new)), wanted)
                self.expect(
                    f"after {first} words, an old one", list(word_sets.places_by_head(pages)["old"]["old0"]), [0, 1]
                )
        finally:
            word_sets._ANY_NEW = kept
        self.expect("words of all titles", word_sets._ANY_NEW, 100_000)

    def test_heads(self) -> None:
        """Words of three letters and more are by their first three; shorter beginnings are with all their words."""
        pages = [("a", [title("ab abc abcd abdx")])]
        heads = word_sets.places_by_head(pages)
        self.expect(
            "words of a file",
            {head: sorted(words) for head, words in heads.items()},
            {"ab": ["ab"], "abc": ["abc", "abcd"], "abd": ["abdx"]},
        )
        self.expect(
            "lines",
            sorted((head, line.word.decode(), line.has_all) for head, line in word_sets._all_lines(pages)),
            [("ab", "ab", True), ("abc", "abc", False), ("abc", "abcd", False), ("abd", "abdx", False)],
        )

    def test_few(self) -> None:
        """Words that begin alike have a line for their beginning if they have more than 64 places."""
        for count, wanted in ((64, ["aab", "aac"]), (65, ["aa", "aab", "aac"])):
            places = {"aab": list(range(count - 1)), "aac": [7]}
            sets = {word: array.array("I", it) for word, it in places.items()}
            lines = word_sets._lines_of(sorted(sets), sets)
            self.expect(f"{count} places", [line.word.decode() for line in lines], wanted)

    def test_bytes_of_places(self) -> None:
        """A line counts by its longest place, so that a file has no more bytes than it may."""
        places = array.array("I", [1, *range(100_000, 100_050)])
        lines = [word_sets._Line(b"w%03d" % number, places, False) for number in range(20)]
        with mock.patch.object(word_sets, "_MOST_BYTES", 4000):
            data = word_sets._data_of(lines, 1)
        self.expect(f"{len(data)} bytes", 3000 < len(data) <= 4000)


class OfPages(Case):
    def test_titles_of_a_page(self) -> None:
        for count, wanted in ((50, [50]), (51, [50, 1])):
            pages = title_list.pages_of([title(f"a{number:03}") for number in range(count)])
            self.expect(f"{count} titles", [len(its) for _, its in pages], wanted)

    def test_start_of_a_page(self) -> None:
        """It has as many characters as it needs, at most 32."""
        for length, wanted in ((31, 32), (32, 32), (40, 32)):
            pages = [("a", [title("a" * length + "b")]), ("a", [title("a" * length + "c")])]
            self.expect(f"{length} alike", [len(it) for it in title_list._starts_of(pages).split(";")], [2, wanted])
        pages = [("a", [title(f"{'a' * 31} {letter}")]) for letter in "bc"]
        self.expect("without a space at the end", title_list._starts_of(pages), f"aa;{'a' * 31}")

    def test_a_file(self) -> None:
        """A key of more titles than it may have lines, in the file itself."""
        header = ("publication_title", "print_identifier", "publication_type")
        for count in (50, 51):
            rows = [
                ["The same", f"{it[:4]}-{it[4:]}{check_of(it)}", "serial"]
                for it in (f"{place:07}" for place in range(count))
            ]
            with tempfile.TemporaryDirectory() as folder:
                title_index.make(folder, False, [("a", Table(header, rows))])
                name = titles.key_of("The same")
                digits = index_files.digest(f"={name}")
                with open(f"{folder}/keys/{digits[:3]}", encoding="utf-8") as file:
                    lines = [line for line in file if line.startswith(f"={digits[3:16]}\t")]
            self.expect(f"{count} titles", len(lines), 50)
