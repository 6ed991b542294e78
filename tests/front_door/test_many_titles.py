"""Lists and searches of ten thousand titles: their pages, the rows of links between these, and what comes first."""
from __future__ import annotations

import collections
import html
import os
import re
from pathlib import Path
from urllib.parse import quote

from fixtures.library_index import write_index
from fixtures.nginx_site import Reply
from fixtures.titles_case import TitlesCase

HOSTILE = "</title><script>alert(1)</script>\"'>"
HOSTILE_TITLE = "Coast \"x' onclick=alert(1) &amp <script src=//e.org <img"
COASTS = [f"Coast {number:03}" for number in range(75)]
MANY = [f"X{number:05} Yankee Zulu{' Alpha' * (number < 3000)}{' Omega' * (number >= 7000)}" for number in range(10000)]
# What is no number of a page.
NO_PAGES = ["0", "-1", "2.0", "+2", "2x", "1e1", "0x2", "%EF%BC%92", "2%00", "100000", "9" * 500, "NaN", "__proto__"]
NO_PAGES += [quote(HOSTILE), "1&page=2"]
IN_HTML = '<script|<img|onclick="'  # what no text of a request or a table may become


def shown_titles(reply: Reply) -> list[str]:
    """The titles of a page of journals."""
    return [html.unescape(title) for title in re.findall(r'<a href="/find\?[^"]*issn=[^"]*">([^<]*)</a>', reply.text)]


def row_of_links(reply: Reply, name: str) -> list[tuple[str, str]]:
    """The addresses and texts of a row of links."""
    found = re.search(rf'<nav aria-label="{name}">(.*?)</nav>', reply.text, re.S)
    links = re.findall(r'<a href="([^"]*)">([^<]*)</a>', found[1]) if found else []
    return [(html.unescape(address), html.unescape(text)) for address, text in links]


class ManyTitles(TitlesCase):
    """The index has these journals and no others."""

    @classmethod
    def setUpClass(cls) -> None:
        super().setUpClass()
        site = cls.site
        names = [*COASTS, HOSTILE_TITLE, "My Coast", *MANY, "The Yankee", "Yankee Days"]
        rows = [f"{name}\t{1000000 + number}0\tserial\n" for number, name in enumerate(names)]
        site.write("tables/names.txt", "publication_title\tprint_identifier\tpublication_type\n" + "".join(rows))
        site.write("names.tsv", "tidal-press\tnone.olk\ttables/names.txt\n")
        write_index(site.path("names.tsv"), site.folder, site.path("names"))
        os.rename(site.version(), site.path("before"))
        os.rename(site.path("names"), site.version())

    def test_pages_of_searches(self) -> None:
        """A search says which of its titles a page has, and leads to the others."""
        its = [*COASTS, HOSTILE_TITLE, "My Coast"]
        first = ("The first 50 of 77 titles.", [("/journals?q=coast&page=2", "Next page")], its[:50])
        last = ("Titles 51 to 77 of 77.", [("/journals?q=coast", "Previous page")], its[50:])
        pages = {"": first, "&page=1": first, "&page=2": last, "&page=3": last, "&page=99999": last}
        for page, expected in {**pages, **{f"&page={text}": first for text in NO_PAGES}}.items():
            reply = self.search(f"/journals?q=coast{page}")
            told = re.findall(r'role="status">([^<]*)<', reply.text)
            got = (told[0], row_of_links(reply, "Pages"), shown_titles(reply))
            self.expect(f"a search with {page[:30]}", got, expected)
            self.expect(f"a search with {page[:30]}: its HTML", re.findall(IN_HTML, reply.text), [])
        self.tidy("the last page of a search", reply.text)
        quoted = self.search("/journals?q=coast%22%3Cb%27%3D")
        self.expect(
            "the text of a search in an address",
            row_of_links(quoted, "Pages"),
            [("/journals?q=coast%22%3Cb'%3D&page=2", "Next page")],
        )
        self.search("/journals?q=secret&page=2")  # the test of the log looks for it

    def test_frequent_words(self) -> None:
        """Of a word that is in more titles than a search looks at, the title itself comes first."""
        between = self.search("/journals?q=yankee&page=2&lang=de")
        self.tidy("a page of a search", between.text)
        self.expect(
            "pages in the chosen language",
            row_of_links(between, "Seiten"),
            [("/journals?q=yankee&lang=de", "Vorige Seite"), ("/journals?q=yankee&page=3&lang=de", "Nächste Seite")],
        )
        for text in ("Titel 51 bis 100 von 10.002.", 'page=2&amp;lang=en"'):
            self.expect(f"a page in the chosen language: {text}", text in between.text)
        for query, words in (
            ("yankee", "The first 50 of 10,002 titles. Please add a word to find fewer."),
            ("yankee&page=40", "Titles 1,951 to 2,000 of 10,002. Please add a word to find fewer."),
            ("yankee+zulu", "The first 50 of more than 2,000 titles. Please add a word to find fewer."),
            ("yankee+zulu&page=41", "Titles 1,951 to 2,000 of more than 2,000. Please add a word"),
            ("alpha+omega", "not all of them were searched"),
            ("coast+nothing", "No title has these words."),
            ("x09999&page=9", "1 title<"),
        ):
            self.expect(f"how many titles {query} has", words in self.search(f"/journals?q={query}").text)
        end = self.search("/journals?q=yankee&page=40")
        self.expect(
            "no link after the last page", row_of_links(end, "Pages"), [("/journals?q=yankee&page=39", "Previous page")]
        )
        for query in ("yankee", "The+YANKEE"):
            self.expect(
                f"what comes first of {query}",
                shown_titles(self.search(f"/journals?q={query}"))[:2],
                ["The Yankee", "Yankee Days"],
            )

    def test_pages_of_letters(self) -> None:
        """From any of 200 pages of a letter, every other one is at most three links away, by rows that are short."""
        pages = {}
        for number in range(1, 201):
            reply = self.site.get(f"/journals/x/{number}")
            links = row_of_links(reply, "Pages of this letter")
            pages[number] = [(int(address.rpartition("/")[2]), text) for address, text in links]
            currents = re.findall(r'<strong aria-current="(\w+)">([^<]*)</strong>', reply.text)
            texts = {**dict(pages[number]), **{number: text for kind, text in currents if kind == "page"}}
            first = {other: MANY[50 * (other - 1)] for other in texts}
            self.expect(f"page {number}: which is shown", [kind for kind, _ in currents], ["true", "page"])
            wrong = [other for other in texts if not first[other].startswith(texts[other])]
            self.expect(
                f"page {number}: its links",
                (len(links) <= 17, wrong, [texts[other] for other in sorted(texts)]),
                (True, [], sorted(texts.values())),
            )
        self.tidy("a page of a letter with 200", reply.text)
        for start in (1, 100, 200):
            clicks, waiting = {start: 0}, collections.deque([start])
            while waiting:
                page = waiting.popleft()
                for other, _ in pages[page]:
                    if other not in clicks:
                        clicks[other] = clicks[page] + 1
                        waiting.append(other)
            self.expect(f"pages and links from page {start}", (len(clicks), max(clicks.values()) <= 3), (200, True))

    def test_letters_with_few_pages(self) -> None:
        """A letter with two pages, one with one, and those of an index that has no beginnings of pages."""
        two = self.site.get("/journals/c/1")
        self.expect(
            "pages of a letter with two", row_of_links(two, "Pages of this letter"), [("/journals/c/2", "Coast 05")]
        )
        self.expect("one page alone", row_of_links(self.site.get("/journals/y/1"), "Pages of this letter"), [])
        hostile = self.site.get("/journals/c/2?lang=de")
        self.expect("a hostile title", HOSTILE_TITLE in shown_titles(hostile))
        self.expect("its HTML", re.findall(IN_HTML, hostile.text), [])
        self.expect(
            "the language is kept",
            row_of_links(hostile, "Seiten dieses Buchstabens"),
            [("/journals/c/1?lang=de", "Co")],
        )

    def test_index_without_beginnings(self) -> None:
        starts = Path(self.site.version(), "index/list/j/starts")
        self.addCleanup(starts.write_text, starts.read_text(encoding="utf-8"), encoding="utf-8")
        starts.unlink()
        two = self.site.get("/journals/c/1")
        self.expect("an index without beginnings", row_of_links(two, "Pages of this letter"), [("/journals/c/2", "2")])
