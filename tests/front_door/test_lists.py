"""The form, RIS, the lists of journals and books with their searches, logo and links."""
from __future__ import annotations

import html
import json
import re
from urllib.parse import quote

from fixtures.titles_case import ARTICLE
from fixtures.titles_case import BY_TITLE
from fixtures.titles_case import GERMAN
from fixtures.titles_case import TitlesCase
from fixtures.titles_case import shown_in


HOSTILE = "</title><script>alert(1)</script>\"'><img src=x onerror=alert(1)>&amp;\r\nTY  - X\u202e\u0000\ufffe\u2028é"
FIELD = re.compile(r'<input id="(\w+)" name="\w+" maxlength="\d+" value=""([^>]*)>')
NAMES, PART = 'autocapitalize="words" spellcheck="false"', 'autocapitalize="none" spellcheck="false"'
OF_FIELDS = {
    "title": 'autocapitalize="sentences" spellcheck="true"',
    "atitle": 'autocapitalize="sentences" spellcheck="true"',
    "au": NAMES,
    "date": 'inputmode="numeric" spellcheck="false"',
    "volume": PART,
    "issue": PART,
    "spage": PART,
    "number": 'autocapitalize="characters" spellcheck="false"',
    "identifier": f'inputmode="url" {PART}',
}


class Lists(TitlesCase):
    """The library is the sample."""

    def test_form(self) -> None:
        """The form's own requests, the form of a request, and RIS."""
        reply = self.site.get("/find")
        self.tidy("the form", reply.text)
        names = re.findall(r'<input id="(\w+)" name="(\w+)"', reply.text)
        self.expect(
            "fields",
            [name for name, _ in names if f'<label for="{name}">' in reply.text],
            "title atitle au date volume issue spage number identifier".split(),
        )
        self.expect(
            "a form without script",
            ('<form action="/find" method="get"' in reply.text, "<script" in reply.text),
            (True, False),
        )
        self.expect("its policy", "form-action 'self'" in reply.headers["Content-Security-Policy"])
        empty = "&".join(f"{name}=" for name, _ in names)
        self.expect("an empty form", self.site.get(f"/find?{empty}").text.count("<form "), 1)
        sent = empty.replace("title=", "title=Annals+of+Tidal+Studies", 1).replace("date=", "date=2003")
        self.expect("a form with a title", self.targets(sent), "aggregate-net catalogue")
        sent = empty.replace("number=", "number=2943-081X").replace("date=", "date=2012")
        self.expect("a form with a number", self.targets(sent), "estuary-online")

    def test_fields(self) -> None:
        """How keyboards and spelling checkers treat each field; in a page from right to left, its direction too."""
        found = {name: rest.strip() for name, rest in FIELD.findall(self.site.get("/find").text)}
        self.expect("the fields of the form", found, OF_FIELDS)
        found = {name: rest.strip() for name, rest in FIELD.findall(self.site.get("/journals").text)}
        wanted = {"q": 'inputmode="search" autocapitalize="none" spellcheck="false"'}
        self.expect("the field of a search", found, wanted)

    def test_footers(self) -> None:
        """Each page for readers ends with links to the form and to the lists."""
        links = [("/find", "Find by citation"), ("/journals", "Journals A to Z"), ("/books", "Books A to Z")]
        for target in ("/find", f"/find?{ARTICLE}", "/journals?q=tid", "/none"):
            text = self.site.get(target).text
            self.expect(f"{target}: no link to nginx's own address", '"/fault' in text, False)
            footer = text.partition("<footer>")[2]
            self.expect(f"the end of {target}", re.findall(r'<a href="([^"]*)">([^<]*)</a>', footer)[:3], links)

    def test_form_of_a_request(self) -> None:
        filled = self.site.get(f"/cite?issn=2901-0012&{ARTICLE}&au=O%27Neill&id=doi:10.5555/a%22b")
        self.tidy("the form of a request", filled.text)
        self.expect("the bookmarklet is for the empty form alone", 'class="bookmarklet"' in filled.text, False)
        fields = re.findall(r'<input id="(\w+)" .* value="([^"]*)"', filled.text)
        values = {name: html.unescape(value) for name, value in fields}
        self.expect(
            "its values",
            values,
            {
                "title": "Annals of Tidal Studies",
                "atitle": "Storm surges",
                "au": "O'Neill",
                "date": "2003",
                "volume": "12",
                "issue": "3",
                "spage": "101",
                "number": "2901-0012",
                "identifier": '10.5555/a"b',
            },
        )

    def test_ris(self) -> None:
        authors = "rft.au=Smith,+Jane&rft.au=Li,+Wei"
        reply = self.site.get(f"/find.ris?issn=2901-0012&{ARTICLE}&epage=118&{authors}&id=doi:10.5555/a")
        named = reply.headers["Content-Disposition"]
        self.expect("a file to keep", named, 'attachment; filename="citation.ris"')
        self.expect(
            "RIS",
            (reply.headers["Content-Type"], reply.text.split("\r\n")),
            (
                "application/x-research-info-systems; charset=utf-8",
                [
                    "TY  - JOUR",
                    "AU  - Smith, Jane",
                    "AU  - Li, Wei",
                    "TI  - Storm surges",
                    "T2  - Annals of Tidal Studies",
                    "PY  - 2003",
                    "VL  - 12",
                    "IS  - 3",
                    "SP  - 101",
                    "EP  - 118",
                    "SN  - 2901-0012",
                    "DO  - 10.5555/a",
                    "ER  - ",
                    "",
                ],
            ),
        )

    def test_authors(self) -> None:
        for count, author in ((2, "A 0; A 1"), (3, "A 0; A 1; A 2"), (4, "A 0; A 1; A 2 and others")):
            authors = "&".join(f"rft.au=A+{number}" for number in range(count))
            self.expect(f"{count} authors", self.data(f"issn=2901-0012&{authors}")["citation"]["author"], author)

    def test_other_ris(self) -> None:
        fields = self.site.get(f"/find.ris?issn=2901-0012&atitle={'a' * 2000}&rft.au={'b' * 1001}").text.split("\r\n")
        self.expect(
            "long fields of RIS",
            [field for field in fields if field[:2] in ("TI", "AU")],
            [f"AU  - {'b' * 1000}", f"TI  - {'a' * 1000}"],
        )
        types = [
            self.site.get(f"/find.ris?{query}").text[:10]
            for query in (
                "isbn=9781234560102",
                "isbn=9781234562410&genre=bookitem&atitle=x",
                "genre=dissertation&title=On+Silt",
            )
        ]
        self.expect("types of RIS", types, ["TY  - BOOK", "TY  - CHAP", "TY  - THES"])

    def test_permanent_link(self) -> None:
        body = f"issn=2901-0012&{ARTICLE}".encode()
        posted = self.site.get("/find", "POST", body, {"Content-Type": "application/x-www-form-urlencoded"})
        link = f'<a href="/find?issn=2901-0012&amp;{html.escape(ARTICLE)}">'
        self.expect("the permanent link of a POST", link in posted.text)

    def test_lists(self) -> None:
        """Letters, pages and searches of the sample's journals and books."""
        journals, books = self.site.get("/journals"), self.site.get("/books")
        for name, reply in (("journals", journals), ("books", books)):
            self.tidy(f"the list of {name}", reply.text)
            self.expect(f"the form of {name}", f'<form action="/{name}" method="get"' in reply.text)
        self.expect("letters of journals", re.findall(r'href="/journals/(\w)/1"', journals.text), list("aehjrs"))
        self.expect("letters of books", re.findall(r'href="/books/(\w)/1"', books.text), list("achp"))
        page = self.site.get("/journals/s/1", headers=GERMAN)
        self.tidy("a letter", page.text)
        self.expect(
            "its titles",
            re.findall(r">([A-Z]\w+[^<]*)</a><p>", page.text),
            ["Saltmarsh Reports", "Shipwreck Archaeology", "Soundings", "Soundings"],
        )
        self.expect(
            "numbers and coverage",
            "ISSN 3020-2353, ISSN 3027-2483 AggregateNet: ab 1990, ohne die letzten 18 Monate"
            in re.sub(r"\s+", " ", shown_in(page.text)),
        )
        address = html.unescape(re.findall(r'<a href="(/find\?[^"]*)">Shipwreck', page.text)[0])
        self.expect("a title's link", address, "/find?rft.genre=journal&rft.issn=2992-183X")

    def test_searches(self) -> None:
        annals, studies = "Annals of Tidal Studies", "Études océanographiques ouvertes"
        cases: list[tuple[str, list[str]]] = [
            ("journals?q=sound", ["Soundings"] * 2),
            ("journals?q=TIDAL+ann", [annals]),
            ("journals?q=2908-0142", [annals]),
            ("books?q=harbours", ["A History of Harbours"]),
            ("journals?q=harbours", []),
            ("books?q=978-1-234-56472-8", ["Charts of the Inner Sea"]),
            ("journals?q=978-1-234-56472-8", []),
            ("books?q=2908-0142", []),
            ("journals?q=ouv+%C3%A9t+oceano", [studies]),
            ("journals?q=etudes+ou", [studies]),
            ("journals?q=of", [annals, "Journal of Lighthouse History", "Review of Coastal Law"]),
        ]
        for query, expected in cases:
            reply = self.search(f"/{query}")
            self.tidy(query, reply.text)
            self.expect(query, re.findall(r'<a href="/find\?[^"]*is[sb]n=[^"]*">([^<]*)</a>', reply.text), expected)
            count = {0: "No title has these words.", 1: "1 title<"}.get(len(expected), f"{len(expected)} titles")
            self.expect(f"{query}: how many", count in reply.text)
        self.expect("a letter alone", "at least two letters" in self.search("/journals?q=a").text)

    def test_no_lists(self) -> None:
        for target in (
            "/journals/s/2",
            "/journals/s/0",
            "/journals/q/1",
            "/journals/s",
            "/journals/../x/1",
            "/journalsx",
            "/journals/%2e%2e/1",
            "/index/format",
            "/index/keys/000",
            "/%69ndex/format",
            "/_report?a=b",
        ):
            self.expect(f"{target}", self.site.get(target).status, 404)

    def test_hostile(self) -> None:
        for target in (
            "/journals?q=",
            "/books?q=",
            "/journals?page=",
            "/cite?atitle=",
            "/find.ris?atitle=",
            "/find.ris?rft.au=",
            "/find?title=",
            "/find?lang=",
            "/go?atitle=",
            "/go?first=1&title=",
            "/journals/a/1?lang=",
            "/cite?genre=",
        ):
            reply = self.search(target + quote(HOSTILE))
            is_page = "ris" not in target
            found = re.findall("<script|<img", reply.text) if is_page else []
            self.expect(f"hostile {target}", (reply.status, found), (200, []))
            self.expect(
                f"hostile {target}: control characters",
                re.findall("[\x00-\x09\x0b\x0c\x0e-\x1f\x7f-\x9f\ufffe\u2028]", reply.text),
                [],
            )
            if "ris" in target:
                self.expect(f"fields of {target}", len(re.findall(r"(?m)^TY  - ", reply.text)), 1)
            else:
                self.tidy(f"hostile {target}", reply.text)
        for text in ("a" * 3000, "ab " * 1000, "%C3%A9" * 900, "=" * 500, "%00%ff", "~ab", "2901-0012 " * 100):
            self.search(f"/journals?q={text.replace(' ', '+')}")

    def test_long_search(self) -> None:
        """As many characters of a search count as its field takes."""
        field = re.compile(r'<input id="q" name="q" maxlength="(\d+)" value="(a*)"')
        for length in (200, 201):
            found = field.findall(self.search(f"/journals?q={'a' * length}").text)
            self.expect(f"{length} characters", found, [("200", "a" * 200)])

    def test_words(self) -> None:
        """The language is kept in the address."""
        reply = self.site.get(f"/find?lang=de&title=Annals+of+Tidal+Studies&{ARTICLE}")
        self.expect(
            "a language in the address",
            (reply.headers["Content-Language"], '<html lang="de"' in reply.text),
            ("de", True),
        )
        own = [html.unescape(address) for address in re.findall(r'<a href="(/[^"]*)"', reply.text)]
        self.expect(
            "it is kept",
            [address for address in own if "lang=de" not in address],
            [f"/find?title=Annals+of+Tidal+Studies&{ARTICLE}&lang=en"],
        )
        why = self.site.get("/why?lang=de&issn=2901-0012", port=self.site.report_port)
        self.expect("no language for the program", "lang=" in why.text.split("<h2>")[1], False)
        long = self.site.get("/find?issn=2901-0012&atitle=" + "x" * 3500).text
        self.expect(
            "a long request is not repeated",
            ("x" * 3500 in long, "/cite?" in long, "lang=de" in long),
            (True, False, False),
        )
        self.expect("another language", self.site.get("/find?lang=fr").headers["Content-Language"], "en")
        self.expect("a switch on the list", '<a href="/journals/a/1?lang=de"' in self.site.get("/journals/a/1").text)

    def test_logo(self) -> None:
        self.site.write("openlink/logo.svg", "<svg xmlns='http://www.w3.org/2000/svg'/>")
        targets = json.loads(self.site.read("openlink/targets.json"))
        for logo, shown in (("logo.svg", True), ("../logo.svg", False), ("targets.json", False), (3, False)):
            self.site.write_targets({**targets, "words": {**targets["words"], "logo": logo}})
            reply = self.site.get("/find")
            self.tidy(f"the logo {logo}", reply.text)
            self.expect(f"the logo {logo}", '<img src="/logo.svg" alt="">' in reply.text, shown)
        self.expect("the logo's file", self.site.get("/logo.svg").headers["Content-Type"], "image/svg+xml")

    def test_files_that_are_not_served(self) -> None:
        for target in ("/targets.json", "/find.js", "/words/en.json", "/fold.json"):
            self.expect(f"{target}", self.site.get(target).status, 404)

    def test_hostile_links(self) -> None:
        self.site.write_targets(
            {
                "words": {
                    "links": [
                        {"label": HOSTILE, "url": "javascript:alert(1)"},
                        3,
                        {"label": "A"},
                        {"label": HOSTILE, "url": 'https://e.org/"><script>'},
                    ]
                }
            }
        )
        reply = self.site.get("/find")
        self.expect("hostile links", ("javascript:alert" in reply.text, "<script" in reply.text), (False, False))

    def test_links_of_the_library(self) -> None:
        reply = self.site.get("/none", headers=GERMAN)
        links = re.findall(r'<li><a href="(https://library[^"]*)">([^<]*)', reply.text)
        self.expect(
            "links of the library",
            links,
            [
                (f"https://library.example.edu/{page}", name)
                for page, name in (
                    ("imprint", "Impressum"),
                    ("privacy", "Datenschutz"),
                    ("accessibility", "Barrierefreiheit"),
                )
            ],
        )

    def test_off(self) -> None:
        """Without lists there are no pages of them, and no links to them."""
        self.expect("with lists", self.site.get("/journals").status, 200)
        self.site.edit(("js_var $openlink_list on;", "js_var $openlink_list off;"))
        for path in ("/journals", "/books", "/journals/a/1", "/books?q=ab"):
            self.expect(f"no lists: {path}", self.site.get(path).status, 404)
        self.expect("no links to them", "/journals" in self.site.get("/find").text, False)
        self.expect(
            "titles are found without lists", self.targets(f"title=Annals+of+Tidal+Studies&{ARTICLE}"), BY_TITLE
        )
