"""The reader's page, its JSON and its redirects: what they show of a request, and what is passed on to the program."""
from __future__ import annotations

import json
import re
from pathlib import Path
from typing import Any
from urllib.parse import quote

from fixtures.nginx_site import Reply
from fixtures.site_case import ARTICLE
from fixtures.site_case import FORM
from fixtures.site_case import SiteCase
from fixtures.site_case import faults_of_html

# Requests that are refused, and their statuses.
ERRORS = [
    ("/none", "GET", None, 404),
    ("/find", "DELETE", None, 405),
    ("/go", "POST", b"", 405),
    ("/openurl", "POST", b"", 405),
    ("/report", "GET", None, 404),
    ("/_menu", "GET", None, 404),
    ("/report.txt", "GET", None, 404),
    ("/_report", "GET", None, 404),
    ("/_before", "GET", None, 404),
    ("/fault", "GET", None, 404),
    ("/find", "TRACE", None, 405),
    ("/find", "POST", b"a" * 9000, 413),
    ("/find?" + "a" * 9000, "GET", None, 414),
]
DATA: dict[str, Any] = {
    "citation": {
        "title": "Storm surges",
        "journal": "Annals of Tidal Studies",
        "year": "2003",
        "volume": "12",
        "issue": "3",
        "pages": "101",
        "issn": "2901-0012",
    },
    "groups": [
        {
            "name": "Full text",
            "links": [
                {
                    "target": "tidal-press",
                    "label": "Tidal Press",
                    "coverage": {"from": "1995-03-01"},
                    "url": "https://press.example.com/2908-0142/12/3/101",
                },
                {
                    "target": "aggregate-net",
                    "label": "AggregateNet",
                    "coverage": {"from": "1992-03-01", "embargo": "P1Y"},
                    "url": "https://aggregator.example.net/titles/17",
                },
            ],
        },
        {
            "name": "In the library",
            "links": [
                {
                    "target": "catalogue",
                    "label": "Library catalogue",
                    "coverage": {"from": "1992-03-01", "to": "1999-12-01"},
                    "url": "https://catalogue.example.org/search?index=number&term=2901-0012",
                }
            ],
        },
        {
            "name": "More about it",
            "links": [
                {
                    "target": "web-search",
                    "label": "Search the web",
                    "url": "https://search.example.org/?q=Storm%20surges",
                }
            ],
        },
    ],
}
TITLES = {404: "Page not found", 405: "Method not accepted", 413: "Request too long", 414: "Request too long"}
_REQUESTS = Path(__file__).with_name("requests.tsv")


def names_in(reply: Reply) -> str:
    return " ".join(link["target"] for group in json.loads(reply.text)["groups"] for link in group["links"])


def problem_link(query: str) -> str:
    """The address that the page of the sample has for a report of a problem with a query."""
    return (
        "mailto:links@library.example.edu?subject=Link%20problem&amp;body=http:%2F%2F127.0.0.1:8079%2Fwhy%3F"
        + quote(query, safe="")
    )


# Requests, and the heading of the page that each gets.
OF_PAGES = [
    (ARTICLE, "Full text from Tidal Press, AggregateNet"),
    ("issn=2943-081X&date=2012", "Full text from Estuary Online"),
    ("issn=3006-1962&atitle=Notes+on+tar&date=1921", "Notes on tar"),
    ("jtitle=Soundings&atitle=Depths+of+the+strait&date=1970&volume=5", "Depths of the strait"),
    ("jtitle=Soundings", "Soundings"),
    ("rft.genre=journal&rft.issn=2901-0012", "Full text from Tidal Press, North Sea Archive, AggregateNet"),
    ("rft.genre=journal&rft.issn=2901-0012&rft.date=1850", "Annals of Tidal Studies"),
    ("au=Smith", "Find this item"),
    ("atitle=%D7%9B%D7%95%D7%AA%D7%A8+(%D7%90)", "\u2068כותר (א)\u2069"),
    ("atitle=1+%3C+2+%26+3", "1 &lt; 2 &amp; 3"),
]


def order_of(text: str) -> list[str]:
    """The headings, citation, notices and links of a page before its end, in the order of the text."""
    return re.findall(r'<(h1|h2|p class="\w+"|a href="[^"]*")>', text[: text.index("</main>")])


def actions(query: str) -> list[str]:
    """The links to change a request, to take it along and to come back to it."""
    return [f'a href="{path}?{query.replace("&", "&amp;")}"' for path in ("/cite", "/find.ris", "/find")]


class Find(SiteCase):
    """Requests of readers."""

    def test_requests(self) -> None:
        """Requests as real sources send them: each gets the targets that a reader expects."""
        lines = _REQUESTS.read_text(encoding="utf-8").splitlines()
        self.expect(f"{len(lines)} requests", len(lines) >= 41)
        for line in lines:
            source, query, expected = line.split("\t")
            reply = self.site.get(f"/find.json?{query}")
            self.expect(source, (reply.status, names_in(reply)), (200, expected))

    def test_page(self) -> None:
        reply = self.site.get(f"/find?{ARTICLE}")
        self.expect("the page", (reply.status, reply.headers["Content-Type"]), (200, "text/html; charset=utf-8"))
        self.tidy("a page with links", reply.text)
        for old, new in ("</li>", "</li>x"), ("</ul>", ""):
            spoilt = reply.text.replace(old, new, 1)
            self.expect(f"the check sees {new} for {old}", faults_of_html(spoilt) != "" and spoilt != reply.text)
        for part in (
            '<html lang="en" dir="ltr">',
            '<meta name="viewport"',
            "<title>Storm surges – Example University Library</title>",
            '<header><p><a href="/find">Example University Library</a></p></header>',
            "<h1>Full text from Tidal Press, AggregateNet</h1>",
            "<strong><bdi>Storm surges</bdi></strong>",
            "<cite><bdi>Annals of Tidal Studies</bdi></cite>",
            "vol. 12",
            "no. 3",
            "p. 101",
            "2003",
        ):
            self.expect(f"the page has {part}", part in reply.text)
        self.expect("one h1", reply.text.count("<h1>"), 1)
        self.expect(
            "order",
            order_of(reply.text),
            [
                'a href="/find"',
                "h1",
                'p class="citation"',
                "h2",
                'a href="https://press.example.com/2908-0142/12/3/101"',
                'a href="https://aggregator.example.net/titles/17"',
                "h2",
                'a href="https://catalogue.example.org/search?index=number&amp;term=2901-0012"',
                "h2",
                'a href="https://search.example.org/?q=Storm%20surges"',
                *actions(ARTICLE),
                'p class="problem"',
                f'a href="{problem_link(ARTICLE)}"',
            ],
        )

    def test_heading(self) -> None:
        """What was found: whose full text, or else what is sought."""
        for query, heading in OF_PAGES:
            text = self.site.get(f"/find?{query}").text
            self.expect(f"the heading of {query}", re.findall("<h1>(.*)</h1>", text), [heading])

    def test_home(self) -> None:
        """The library's name and its logo lead home, in the language that the reader has chosen."""
        for path, home in ((f"/find?{ARTICLE}&lang=de", "/find?lang=de"), ("/journals", "/find"), ("/none", "/find")):
            links = re.findall('<header><p><a href="([^"]*)">([^<]*)</a></p></header>', self.site.get(path).text)
            name = "Bibliothek der Beispieluniversität" if "lang" in home else "Example University Library"
            self.expect(f"home from {path}", links, [(home, name)])
        data = json.loads(self.site.read("openlink/targets.json"))
        data["words"] = {"logo": "logo.svg"}
        self.site.write_targets(data)
        text = self.site.get("/find").text
        self.expect("a logo alone", '<a href="/find"><img src="/logo.svg" alt="Find by citation"></a>' in text)
        self.tidy("a logo alone", text)

    def test_page_without_full_text(self) -> None:
        tar = "issn=3006-1962&atitle=Notes+on+tar&date=1921"
        reply = self.site.get(f"/find?{tar}")
        self.tidy("a page without full text", reply.text)
        self.expect(
            "without full text",
            order_of(reply.text),
            [
                'a href="/find"',
                "h1",
                'p class="citation"',
                'p class="nothing"',
                "h2",
                'a href="https://loans.example.org/article?issn=3006-1962&amp;title=Notes%20on%20tar"',
                "h2",
                'a href="https://search.example.org/?q=Notes%20on%20tar"',
                *actions(tar),
                'p class="problem"',
                f'a href="{problem_link(tar)}"',
            ],
        )

    def test_page_without_reference(self) -> None:
        self.expect("an identifier alone", "DOI 10.5555/a" in self.site.get("/find?id=doi:10.5555/a").text)
        self.expect("a PubMed number alone", "PubMed 7" in self.site.get("/find?id=pmid:7").text)
        for query in ("", "?", "?&&", "?rft.isbn="):
            reply = self.site.get(f"/find{query}")
            self.expect(
                f"no reference: {query}",
                (reply.status, "<h1>Find by citation</h1>" in reply.text, "<h2>" in reply.text),
                (200, True, False),
            )
        self.tidy("no reference", reply.text)

    def test_target_without_name(self) -> None:
        """A target that targets.json does not name."""
        reply = self.site.get("/find?rft.genre=unnamed&rft.atitle=x")
        self.expect(
            "a target that targets.json does not name",
            order_of(reply.text)[2:7],
            ['p class="citation"', 'p class="nothing"', "h2", 'a href="https://search.example.org/?q=x"', "h2"],
        )
        self.expect(
            "it comes last",
            re.findall(r"<h2>(.*)</h2>", reply.text),
            ["More about it", "More", "Add what you know and search again"],
        )
        self.expect("it is no full text", self.site.get("/go?first=1&rft.genre=unnamed&rft.atitle=x").status, 200)

    def test_end_of_page(self) -> None:
        for query in (ARTICLE, "", "id=pmid:7"):
            self.expect(
                f"help on the page of {query}", self.site.get(f"/find?{query}").text.count(">Ask a librarian</a>"), 1
            )
        self.expect(
            "HEAD",
            (self.site.get(f"/find?{ARTICLE}", "HEAD").status, self.site.get(f"/find?{ARTICLE}", "HEAD").body),
            (200, b""),
        )
        self.expect("style", self.site.get("/menu.css").headers["Content-Type"], "text/css")

    def test_json(self) -> None:
        reply = self.site.get(f"/find.json?{ARTICLE}")
        self.expect(
            "JSON",
            (reply.status, reply.headers["Content-Type"], reply.headers["Access-Control-Allow-Origin"]),
            (200, "application/json", "*"),
        )
        self.expect("JSON as a whole", json.loads(reply.text), DATA)

    def test_other_json(self) -> None:
        note = json.loads(self.site.get("/find.json?issn=2943-081X&date=2012").text)["groups"][0]["links"][0]
        self.expect("a note", note["note"], "Off campus, sign in with your library card")
        self.expect(
            "nothing found",
            json.loads(self.site.get("/find.json?rft.genre=article").text),
            {"citation": {}, "groups": []},
        )
        self.expect("no query", json.loads(self.site.get("/find.json").text), {"citation": {}, "groups": []})
        self.expect("a page has no origin", self.site.get("/find").headers["Access-Control-Allow-Origin"], None)

    def test_go(self) -> None:
        def go(query: str) -> tuple[int, str | None]:
            reply = self.site.get(f"/go?{query}")
            return reply.status, reply.headers["Location"]

        one = "https://proxy.example.org/login?qurl=https%3A%2F%2Festuary.example.com%2Fjournals%2Feb"
        self.expect("one link", go("issn=2943-081X&date=2012"), (302, one))
        self.expect("two links", go(ARTICLE), (200, None))
        self.expect("the first of two", go(f"{ARTICLE}&first=1"), (302, "https://press.example.com/2908-0142/12/3/101"))
        self.expect("first=0", go(f"first=0&{ARTICLE}"), (200, None))
        self.expect("no full text", go("first=1&issn=3006-1962&atitle=x"), (200, None))
        self.expect("no query", go(""), (200, None))
        reply = self.site.get("/go?first=1&issn=2943-081X&date=2012&volume=a%0d%0aX-Evil:1&issue=1&spage=1")
        self.expect("a redirect with line ends", (reply.status, reply.headers["X-Evil"]), (302, None))

    def test_form(self) -> None:
        form = {"Content-Type": f"{FORM['Content-Type']}; charset=UTF-8"}
        for target in ("/find", "/find.json"):
            self.expect(
                f"a form to {target}",
                self.site.get(target, "POST", ARTICLE.encode(), form).text,
                self.site.get(f"{target}?{ARTICLE}").text,
            )
        half = len("sid=google&issn=2901-0012")
        self.expect(
            "a form and a query",
            self.site.get(f"/find?{ARTICLE[:half]}", "POST", ARTICLE[half + 1 :].encode(), form).text,
            self.site.get(f"/find?{ARTICLE}").text,
        )
        longest = ("atitle=" + "%C3%A9" * 1300 + "&" + ARTICLE).encode()[:8192]
        self.expect("8 KB", self.site.get("/find", "POST", longest, form).status, 200)
        self.expect(
            "another kind of body",
            "Find by citation" in self.site.get("/find", "POST", ARTICLE.encode(), {"Content-Type": "text/plain"}).text,
        )

    def test_passed_on(self) -> None:
        queries = {
            "rft.issn=2901-0012&rft.volume=%2d12": 200,
            "rft.issn=2901-0012;..%2f&rft%2edate=2003": 200,
            "ctx_ver=wrong": 400,
            "": 200,
        }
        for query, status in queries.items():
            for path in ("/openurl", "/openurl.txt"):
                replies = [self.site.get(f"{path}?{query}", port=port) for port in (None, self.site.ports[0])]
                self.expect(f"{path}?{query}: status", replies[0].status, status)
                self.expect(f"{path}?{query}", replies[0].body, replies[1].body)

    def test_reports(self) -> None:
        report = self.site.get("/report?rft.issn=2901-0012", port=self.site.report_port)
        self.expect("the report", (report.status, "catalogue\tlink 0\n" in report.text), (200, True))
        report = self.site.get(f"/report.txt?{ARTICLE}", port=self.site.report_port)
        lines = report.text.split("\n")
        self.expect(
            "the report of both queries",
            (report.status, report.headers["Content-Type"]),
            (200, "text/plain; charset=utf-8"),
        )
        self.expect(
            "its reasons",
            [line for line in lines if line.split("\t")[0] in ("tidal-press", "coastal-law", "web-search", "pubmed")],
            ["tidal-press\tlink 0", "coastal-law\tno row", "pubmed\tno link", "web-search\tlink 0"],
        )
        self.expect("the report has each target once", len({line.split("\t")[0] for line in lines}), len(lines))
        for target in ("/_report?a=b", "/find"):
            self.expect(
                f"{target} on the server of the reports", self.site.get(target, port=self.site.report_port).status, 404
            )

    def test_errors(self) -> None:
        for target, method, body, status in ERRORS:
            reply = self.site.get(target, method, body, FORM)
            self.expect(
                f"{method} {target[:20]}",
                (
                    reply.status,
                    f"<h1>{TITLES[status]}</h1>" in reply.text,
                    f"<title>{TITLES[status]} – Example University Library</title>" in reply.text,
                    "nginx" in reply.text,
                ),
                (status, True, True, False),
            )
            self.tidy(f"{method} {target[:20]}", reply.text)

    def test_other_errors(self) -> None:
        self.expect("a long cookie", self.site.get("/find", headers={"Cookie": "a" * 9000}).status, 400)
        self.expect("a cookie", self.site.get("/find", headers={"Cookie": "a" * 7000}).status, 200)
        self.expect("no request", b"<h1>Request not readable</h1>" in self.site.send(b"\x01\x02\r\n\r\n"))
        reply = self.site.get("/find.json", "DELETE")
        self.expect("a fault as JSON", (reply.status, json.loads(reply.text)), (405, {"error": 405}))
        for path in ("/find", "/openurl"):
            reply = self.site.get(f"{path}/?a=b")
            self.expect(f"{path}/", (reply.status, reply.headers["Location"]), (301, f"{path}?a=b"))
