"""What the front door takes from the index of the version for a request: titles, numbers and coverage."""
from __future__ import annotations

import html
import os
import re
from urllib.parse import quote

from fixtures.library_index import write_index
from fixtures.titles_case import ARTICLE
from fixtures.titles_case import BY_TITLE
from fixtures.titles_case import GERMAN
from fixtures.titles_case import TitlesCase
from fixtures.titles_case import main_of
from fixtures.titles_case import shown_in


# The headers of readers in English and German, and what they read.
LANGUAGES: tuple[dict[str, str], ...] = ({}, GERMAN)
NOTHING = ("We found no full text online.", "Wir haben online keinen Volltext gefunden.")

HELD = (
    "The library’s lists have this title. With the year and the volume we can look again.",
    "In den Listen der Bibliothek steht dieser Titel. Mit Jahr und Band können wir noch einmal suchen.",
)
UNKNOWN = "The library’s lists have no title of this name."

# Requests that cannot be looked up: an identifier alone, an article without its journal, a title that no list has.
NOT_KNOWN = [
    "id=pmid:99990001",
    "id=doi:10.5555/tidal.2003",
    "rft.atitle=Storm+surges&rft.date=2003",
    "au=Smith",
    "rft_id=info:oclcnum/123",
    "title=Annals+of+Tidal",
    "issn=unknown&volume=3",
]

# Requests of titles that the lists have, without a link for the year or volume; and others.
WITHOUT_LINK = [
    "rft.genre=journal&rft.issn=2901-0012&rft.volume=2",
    "issn=2915-0272&date=2003",
    "issn=2915-0272&volume=99",
    "issn=2943-081X&volume=15",
]
WITHOUT_FULL_TEXT = [
    "issn=2915-0272&date=2010",
    "issn=2915-0272&date=2003&volume=99",
    "issn=2992-183X",
    "issn=3006-1962",
    "issn=2943-081X&date=1950&volume=1",
    "isbn=9780000000002",
]
# A table with umlauts as one letter and as two.
UMLAUTS = (
    "publication_title\tprint_identifier\tpublication_type\n"
    "Zeitschrift für Küstenforschung\t2901-0039\tserial\n"
    "Haefen und Kanaele\t2901-0047\tserial\n"
    "A History of Harbours (Online)\t2901-0055\tserial\n"
)
EDITIONS = (
    "publication_title\tprint_identifier\ttitle_id\tpreceding_publication_title_id\tpublication_type\n"
    "Piers of the North\t9781234575014\tb0\t\tmonograph\n"
    "Piers of the North Sea\t9781234575021\tb1\tb0\tmonograph\n"
)


class Titles(TitlesCase):
    """The library is the sample."""

    def test_by_title(self) -> None:
        """A title that is that of one journal or book gives its numbers; otherwise the page offers what it may mean."""
        for title in (
            "title=Annals+of+Tidal+Studies",
            "rft.jtitle=The+ANNALS+of+tidal+studies.",
            "rft.title=Annals+of+Tidal+Studies",
            "rft.stitle=annals+of+tidal+studies",
            "jtitle=%3Ci%3EAnnals%3C/i%3E+of+Tidal+Studies",
        ):
            self.expect(title, self.targets(f"{title}&{ARTICLE}"), BY_TITLE)
            self.expect(f"{title}: its number", self.data(f"{title}&{ARTICLE}")["citation"]["issn"], "2901-0012")
        reply = self.site.get(f"/find?title=Annals+of+Tidal+Studies&{ARTICLE}")
        self.tidy("a page by title", reply.text)
        self.expect("what it was found by", "Found by its title: Annals of Tidal Studies, ISSN 2901-0012" in reply.text)

    def test_other_forms_of_a_title(self) -> None:
        self.expect(
            "marks", self.targets("jtitle=Etudes+oceanographiques+ouvertes&date=2019&volume=10&issue=2"), "open-shelf"
        )
        self.expect(
            "a book", self.targets("genre=book&title=A+history+of+harbours"), "book-house aggregate-net catalogue"
        )
        self.expect(
            "a title without a kind",
            self.data("title=A+history+of+harbours")["citation"],
            {"title": "A History of Harbours", "isbn": "9781234560102"},
        )
        for title in ("978-1-234-56010-2", "ISBN:+9781234560102", "Harbours+ISBN+9781234560102"):
            self.expect(
                f"an ISBN in the field of a title, {title}",
                self.data(f"title={title}")["citation"],
                {"title": "A History of Harbours", "isbn": "9781234560102"},
            )
        self.expect("an unknown one", self.data("title=9780198534532")["citation"].get("isbn"), None)
        for second in (
            "jtitle=Ann+Tidal+Stud&title=Annals+of+Tidal+Studies",
            "stitle=Annals+of+Tidal+Studies&jtitle=x",
        ):
            self.expect(f"the second title of {second}", self.targets(f"{second}&{ARTICLE}"), BY_TITLE)
        self.expect(
            "a book's title as that of a journal",
            self.targets("genre=bookitem&rft.jtitle=Handbook+of+Tidal+Power"),
            "book-house",
        )
        self.expect(
            "a title alone, with markup",
            self.data("rft.jtitle=Harbour+%26amp%3B+Coastal+Engineering")["citation"],
            {"journal": "Harbour & Coastal Engineering", "issn": "2978-1442"},
        )
        reply = self.site.get("/find?rft.jtitle=%3Ci%3ENothing%3C/i%3E+of+it")
        self.expect(
            "the page of a title alone, with markup",
            ("<h1>Nothing of it</h1>" in reply.text, UNKNOWN in reply.text),
            (True, True),
        )
        self.expect("a redirect by title", self.site.get("/go?title=Estuary+Biology&date=2012").status, 302)

    def check_choices(self, query: str, main: str) -> None:
        """Each title that a page offers for a query has one meaning."""
        for address in re.findall(r'<a href="/find\?([^"]*rft\.is[sb]n=[^"]*)">', main):
            chosen = html.unescape(address)
            if chosen != query:  # the permanent link
                data = self.data(chosen)
                self.expect(
                    f"the choice {chosen}",
                    (chosen.endswith(query), data.get("maybe"), ";" in str(data["citation"])),
                    (True, None, False),
                )

    def test_choices(self) -> None:
        """Nothing is added if two titles share a key, if the number is unknown, or if the subtitle is another."""
        soundings = [
            {"title": "Soundings", "numbers": ["2999-196X"]},
            {"title": "Soundings", "numbers": ["3006-2098", "3013-2223"]},
        ]
        annals = [{"title": "Annals of Tidal Studies", "numbers": ["2901-0012", "2908-0142"]}]
        for query, expected in (
            ("jtitle=Soundings", soundings),
            ("issn=1234-5679&jtitle=Annals+of+Tidal+Studies", annals),
            ("rft.issn=1234-5679,+2345-6781&jtitle=Annals+of+Tidal+Studies", annals),
            ("title=Annals+of+Tidal+Studies;issn=1234-5679", annals),
            ("genre=book&title=Annals+of+Tidal+Studies", annals),
            ("jtitle=Soundings&rft.title=Annals+of+Tidal+Studies", soundings),
            ("jtitle=Annals+of+Tidal+Studies+/+edited+by+W.+Li", annals),
            ("jtitle=Annals+of+Tidal+Studies:+a+journal", annals),
            ("jtitle=Annals+of+Tidal+Studies+(Online)", annals),
            ("jtitle=Annals+of+Tidal+Studies+(Online)+:+a+journal", annals),
        ):
            data = self.data(query)
            full = [group for group in data["groups"] if group["name"] == "Full text"]
            self.expect(f"titles for {query}", (sorted(data.get("maybe", []), key=str), full), (expected, []))
            reply = self.site.get(f"/find?{query}")
            self.tidy(f"titles for {query}", reply.text)
            self.expect(
                f"the page of {query}",
                (
                    "Do you mean one of them?" in reply.text,
                    NOTHING[0] in reply.text,
                    "Found by its title" in reply.text,
                    UNKNOWN in reply.text,
                ),
                (True, False, False, False),
            )
            self.expect(f"no redirect for {query}", self.site.get(f"/go?first=1&{query}").status, 200)
            self.check_choices(query, main_of(reply))
        self.expect("no titles", "maybe" in self.data("issn=2901-0012"), False)

    def test_separators_of_choices(self) -> None:
        """A choice keeps the pairs of the request: semicolons separate them only if there is no &."""
        for query, separator in (
            ("jtitle=Soundings", "&"),
            ("jtitle=Soundings;date=2003", ";"),
            ("jtitle=Soundings&date=2003", "&"),
            ("jtitle=Soundings&au=Li;+Wei", "&"),
        ):
            found = re.findall(r'<a href="/find\?(rft\.issn=[^"]*)">', main_of(self.site.get(f"/find?{query}")))
            wanted = [f"rft.issn={number}{separator}{query}" for number in ("2999-196X", "3006-2098")]
            self.expect(f"choices of {query}", sorted(map(html.unescape, found)), wanted)

    def test_redirects_of_choices(self) -> None:
        self.site.write_targets({"groups": [{"name": "Full text"}], "targets": {"web-search": {"group": "Full text"}}})
        for query, status in (
            ("issn=3006-1962&atitle=Depths", 302),
            ("jtitle=Soundings&atitle=Depths", 200),
            ("first=1&jtitle=Soundings&atitle=Depths", 200),
        ):
            self.expect(
                f"one link, and a redirect only for one title: {query}", self.site.get(f"/go?{query}").status, status
            )

    def test_umlauts(self) -> None:
        """Umlauts as two letters, in a request or in a table, offer the title."""
        self.site.write("tables/umlauts.txt", UMLAUTS)
        registry = self.site.read("registry.tsv")
        self.site.write("more.tsv", f"{registry}umlauts\tnone.olk\ttables/umlauts.txt\n")
        write_index(self.site.path("more.tsv"), self.site.folder, self.site.path("more"))
        self.put_in_use("more")
        coasts, harbours = "Zeitschrift für Küstenforschung", "Häfen und Kanäle"
        for title, number in (
            (coasts, "2901-0039"),
            ("Zeitschrift fu\u0308r Ku\u0308stenforschung", "2901-0039"),
            ("ZEITSCHRIFT FUR KUSTENFORSCHUNG", "2901-0039"),
            ("Haefen und Kanaele", "2901-0047"),
        ):
            self.expect(f"the number of {title}", self.data(f"jtitle={quote(title)}")["citation"].get("issn"), number)
        for title, number in (
            ("Zeitschrift fuer Kuestenforschung", "2901-0039"),
            (harbours, "2901-0047"),
            ("Haefen und Kan&auml;le: Berichte", "2901-0047"),
            ("Haefen & Kanaele", "2901-0047"),
            ("Zeitschrift fuer Kuestenforschung / hrsg. von A. Li", "2901-0039"),
        ):
            data = self.data(f"jtitle={quote(title)}")
            self.expect(f"titles for {title}", [one["numbers"] for one in data.get("maybe", [])], [[number]])
            self.expect(f"the page of {title}", UNKNOWN in self.site.get(f"/find?jtitle={quote(title)}").text, False)
        similar = self.data("genre=article&jtitle=A+History+of+Harbours").get("maybe", [])
        self.expect(
            "a similar title of the kind, and the same of another", [one["numbers"] for one in similar], [["2901-0055"]]
        )
        similar = self.data("jtitle=Harbour+et+Coastal+Engineering").get("maybe", [])
        self.expect("another word for &", [one["title"] for one in similar], ["Harbour and Coastal Engineering"])
        for text in ("kuesten", "küsten", "kusten", "KÜSTENFORSCHUNG+fuer"):
            found = self.search(f"/journals?q={quote(text, safe='+')}").text
            self.expect(f"a search for {text}", re.findall(r"<a href=[^>]*issn=[^>]*>([^<]*)</a>", found), [coasts])

    def test_no_index(self) -> None:
        """Without an index no page says that there is no title."""
        os.mkdir(self.site.path("empty"))
        self.put_in_use("empty")
        reply = self.site.get("/find?jtitle=Annals+of+Tidal+Studies&id=pmid:7")
        self.expect("no index", ("an ISSN or ISBN is missing." in reply.text, UNKNOWN in reply.text), (True, False))
        for path, status in (("/journals", 200), ("/journals/a/1", 404), ("/journals?q=tidal", 200)):
            self.expect(f"no index: {path}", self.site.get(path).status, status)

    def test_numbers(self) -> None:
        """A number gives its title, and the other numbers of the title their links."""
        self.expect(
            "the title of a number",
            self.data("issn=2908-0142")["citation"],
            {"journal": "Annals of Tidal Studies", "issn": "2908-0142"},
        )
        self.expect("the title that a request has", self.data("issn=2908-0142&title=x")["citation"]["journal"], "x")
        atlas = "genre=book&isbn=978-1-234-56549-7"
        self.expect("other editions", self.targets(atlas), "book-house catalogue")
        self.expect(
            "which edition",
            [self.link(atlas, name).get("edition") for name in ("book-house", "catalogue")],
            [None, "9781234566265"],
        )
        page = self.site.get(f"/find?{atlas}")
        self.tidy("a page with another edition", page.text)
        named = "Library catalogue <span>Edition with ISBN 9781234566265</span></a>"
        self.expect("which edition, on the page", named in page.text)
        self.expect(
            "the second ISBN",
            self.targets("genre=book&rft.isbn=9780000000002&rft.isbn=9781234564728"),
            "catalogue interlibrary-loan",
        )

    def test_numbers_in_dois(self) -> None:
        chapter = "rft_id=info:doi/10.1007/978-1-234-56241-0_3&rft.genre=bookitem&rft.spage=215"
        for doi in (
            "1007/978-1-234-56241-0_3",
            "1016/B978-1-234-56241-0.00003-5",
            "1017/CBO9781234562410.004",
            "4324/9781234562410-12",
            "1002/9781234562410.ch5",
            "1093/acprof:oso/9781234562410.003.0004",
        ):
            query = chapter.replace("1007/978-1-234-56241-0_3", doi)
            self.expect(
                f"the ISBN in {doi}",
                self.link(query, "book-house").get("url"),
                "https://books.example.net/isbn/9781234562410?page=215",
            )
        self.expect("no ISBN in a DOI", self.data("id=doi:10.5555/j.97812345624101")["citation"].get("isbn"), None)
        self.expect("its title", self.data(chapter)["citation"]["title"], "Handbook of Tidal Power")

    def test_related_titles(self) -> None:
        related = shown_in(main_of(self.site.get("/find?issn=2915-0272")))
        self.expect("a later title", re.findall(r"Later title:\s+(.*\S)", related), ["Harbour and Coastal Engineering"])
        related = main_of(self.site.get("/find?issn=2978-1442"))
        self.expect(
            "an earlier title",
            re.findall(r'Earlier title: <a href="(.*?)">(.*?)</a>', related),
            [("/find?rft.issn=2915-0272", "Harbour Engineering Letters")],
        )

    def test_related_books(self) -> None:
        """A book has the ISBN of the one before it."""
        self.site.write("tables/books.txt", EDITIONS)
        self.site.write("books.tsv", f"{self.site.read('registry.tsv')}books\tnone.olk\ttables/books.txt\n")
        write_index(self.site.path("books.tsv"), self.site.folder, self.site.path("books"))
        self.put_in_use("books")
        found = main_of(self.site.get("/find?isbn=9781234575021"))
        links = re.findall(r'Earlier title: <a href="(.*?)">(.*?)</a>', found)
        self.expect("the link", links, [("/find?rft.isbn=9781234575014", "Piers of the North")])

    def test_unnamed_keys(self) -> None:
        """What JavaScript calls a missing value is no key of a citation."""
        citation = self.data("undefined=x&null=x&issn=2901-0012")["citation"]
        self.expect("the citation", [name for name, value in citation.items() if value == "x"], [])

    def test_staff(self) -> None:
        """The report and the page for staff have the queries of the page."""
        atlas = "genre=book&isbn=9781234565497"
        port = self.site.report_port
        report = dict(line.split("\t") for line in self.site.get(f"/report.txt?{atlas}", port=port).text.splitlines())
        self.expect("the report of another edition", (report["book-house"], report["catalogue"]), ("link 2", "link 4"))
        page = self.site.get(f"/why?{atlas}", port=port)
        self.tidy("the page for staff with three queries", page.text)
        queries = [html.unescape(query) for query in re.findall(r'<pre dir="ltr">(.*?)</pre>', page.text)]
        numbers = [[pair for pair in query.split("&") if re.match(r"rft\.is[sb]n=", pair)] for query in queries]
        self.expect(
            "the queries for staff",
            numbers,
            [["rft.isbn=9781234565497"], ["rft.isbn=9781234566265"], ["rft.isbn=9781234567033"], ["rft.issn=ANY"]],
        )
        what = ["titles in the tables of the targets", *["the title by its other numbers"] * 2]
        what.append("the targets that answer every request")
        found = re.findall(r"<h2>(Query \d)</h2>\n<p>This query finds (.*?)\.</p>", page.text)
        self.expect("what each finds", found, [(f"Query {number}", it) for number, it in enumerate(what, 1)])
        row = re.findall(r'<tr><th scope="row"><a href="#target-catalogue">.*?</tr>', page.text)[0]
        self.expect(
            "their reasons",
            re.findall(r">([^<>]+)</code>(</strong>)?", row),
            [("no row", ""), ("link 4", "</strong>"), ("link 4", ""), ("no row", "")],
        )
        by_title = self.site.get(f"/report.txt?title=Annals+of+Tidal+Studies&{ARTICLE}", port=port).text
        self.expect("the report by title", "tidal-press\tlink 0\n" in by_title)

    def test_coverage(self) -> None:
        """The row that the program took says what is covered, in the reader's language and as data."""
        law = "issn=2929-0538&date="
        for date, expected, text in (
            ("1992", {"from": "1990-01-15", "to": "1995-10-15"}, "1990 bis 1995"),
            ("2005", {"from": "2001-01-15"}, "ab 2001"),
        ):
            self.expect(f"coverage in {date}", self.link(law + date, "coastal-law").get("coverage"), expected)
            page = self.site.get(f"/find?{law}{date}", headers=GERMAN)
            self.expect(f"coverage in German in {date}", f"Coastal Law Society <span>{text}</span></a>" in page.text)
        saltmarsh = self.site.get("/find?issn=3020-2353&date=1995", headers=GERMAN).text
        self.expect("a wall", "AggregateNet <span>ab 1990, ohne die letzten 18 Monate</span></a>" in saltmarsh)
        loan = self.link("issn=2992-183X&atitle=x", "interlibrary-loan")
        self.expect(
            "a target for every request", (loan["label"], loan.get("coverage")), ("Request by interlibrary loan", None)
        )

    def test_not_known(self) -> None:
        """No page says that there is no full text if nothing could be looked up; each leads to the form."""
        for query in NOT_KNOWN:
            for headers, words in zip(LANGUAGES, NOTHING):
                reply = self.site.get(f"/find?{query}", headers=headers)
                self.expect(
                    f"not known: {query}",
                    (
                        words in reply.text,
                        '<p class="nothing">' in reply.text,
                        main_of(reply).count('<form action="/find" method="get"'),
                    ),
                    (False, True, 1),
                )
            self.tidy(f"not known: {query}", reply.text)
        filled = self.site.get("/find?id=pmid:99990001&volume=12&lang=de").text
        for name, value in (("identifier", "99990001"), ("volume", "12"), ("title", "")):
            self.expect(f"the form, filled in: {name}", f'name="{name}" maxlength="300" value="{value}"' in filled)
        self.expect("the form keeps the language", '<input type="hidden" name="lang" value="de">' in filled)

    def test_held(self) -> None:
        """A title is in the lists, and the request has no year or volume with a link."""
        for query in WITHOUT_LINK:
            for headers, held, nothing in zip(LANGUAGES, HELD, NOTHING):
                reply = self.site.get(f"/find?{query}", headers=headers)
                self.expect(
                    f"held, without a link: {query}",
                    (held in reply.text, nothing in reply.text, main_of(reply).count("<form ")),
                    (True, False, 1),
                )
            self.tidy(f"held, without a link: {query}", reply.text)
        held = shown_in(main_of(self.site.get(f"/find?{WITHOUT_LINK[0]}")))
        shown = [
            "Tidal Press: since 1995",
            "North Sea Archive: 1992 to 1999",
            "AggregateNet: since 1992, without the last 12 months",
        ]
        self.expect(
            "what is held", [name in held for name in (*shown, "Library catalogue: 1992")], [True] * 3 + [False]
        )

    def test_nothing(self) -> None:
        for query in WITHOUT_FULL_TEXT:
            reply = self.site.get(f"/find?{query}")
            self.expect(f"nothing: {query}", (NOTHING[0] in reply.text, HELD[0] in reply.text), (True, False))
        known = self.site.get("/find?issn=2901-0012&date=1950").text
        self.expect("no form where the number is known", (NOTHING[0] in known, "<form" in known), (True, False))
        self.expect("known, and nothing found", NOTHING[0] in self.site.get("/find?issn=3006-1962&atitle=x").text)
