"""Links that readers follow: through /go, which leads to the links of the page and nowhere else, and counts them in a
log of its own, if the site says so."""
from __future__ import annotations

import datetime
import html
import itertools
import json
import re
import subprocess
import unittest.mock
from pathlib import Path
from urllib.parse import quote

from fixtures import nginx_site
from fixtures.nginx_site import Reply
from fixtures.nginx_site import Site
from fixtures.site_case import ARTICLE
from fixtures.site_case import SiteCase
from fixtures.site_case import added
from fixtures.site_case import lines_of
from fixtures.patience import wait_until
from fixtures.titles_case import main_of

LOG = "openlink-followed.log"
OFF, ON = "js_var $openlink_followed off;", "js_var $openlink_followed on;"
PRESS = "https://press.example.com/2908-0142/12/3/101"
NOTE = '<p class="counted">'
# Requests with pages of other kinds: a book, an edition, a title's own page, a loan, one by its title, a letter that is
# escaped, keys of this handler, and one with semicolons.
REQUESTS = (
    ARTICLE,
    "rft.genre=journal&rft.issn=2901-0012",
    "issn=2915-0272&date=2003",
    "issn=3006-1962&atitle=Notes+on+tar&date=1921",
    "jtitle=Soundings&atitle=Depths+of+the+strait&date=1970&volume=5",
    "issn=2943-081X&date=2012&atitle=%3Cscript%3E'\"%26%C3%A9",
    "genre=book&isbn=9781234561000",
    "isbn=9782345672008",
    "first=1&issn=2901-0012&volume=12",
    "target=nobody&issn=2901-0012&volume=12",
    "issn=2901-0012;volume=12;issue=3;date=2003",
    "au=Smith",
)
ECHO, TARGET_KEY = "https://echo.example.org/", "here"
LEAST = 15  # links
MARKS = itertools.count()
# What is no name of a target on the page of the article.
NO_TARGETS = (
    "",
    "nobody",
    "interlibrary-loan",  # which the page hides, since there is full text
    "TIDAL-PRESS",
    "tidal-press.2",
    "tidal-press%00",
    "tidal-press%0d%0aSet-Cookie:a=b",
    "https://evil.example",
    "//evil.example",
    "%2F%2Fevil.example",
    "__proto__",
    "constructor",
    "..%2F..%2Fetc",
    "<script>",
    "tidal-press,catalogue",
    "a" * 2000,
)
_LINK = re.compile(r'<li><a href="([^"]*)">')


def targets_of(reply: Reply) -> list[tuple[str, str]]:
    """The targets and links of a reply of /find.json, with the pages of titles."""
    data = json.loads(reply.text)
    links = [link for group in data["groups"] for link in group["links"]] + data.get("pages", [])
    return [(link["target"], link["url"]) for link in links]


def links_in(page: str) -> list[str]:
    """The addresses of a page's links to targets, by the form of the page."""
    lists = re.findall(r"<h2>[^<]*</h2>\n<ul>\n(.*?)\n</ul>", page, re.S)
    links = [html.unescape(link) for text in lists for link in _LINK.findall(text)]
    return [link for link in links if not link.startswith("/find?")]


class WhatTheProgramGets(SiteCase):
    """A target with rules that show the keys `target` and `first` of a request."""

    @classmethod
    def new_site(cls) -> Site:
        shown = "".join(f"rule\nwhen given {key}\nlink {ECHO}?{{{key}}}\n\n" for key in ("target", "first"))
        rules = f"{shown}rule\nlink {ECHO}none\n"
        with unittest.mock.patch.dict(nginx_site.FOR_EVERY_REQUEST, {"echo": rules}):
            return super().new_site()

    def test_target(self) -> None:
        self.site.edit((OFF, ON))
        query = "rft.genre=article&issn=3006-1962&atitle=x"
        echoed = f"{ECHO}?{TARGET_KEY}"
        self.expect("a key of another page", echoed in self.site.get(f"/find.json?{query}&target={TARGET_KEY}").text)
        # The program decodes keys, and the front door does not: an escaped one is a key of another page.
        for start, found in (("", "none"), ("target=c&", "none"), ("%74arget=b&", "?b")):
            reply = self.site.get(f"/go?target=echo&{start}{query}&target={TARGET_KEY}")
            got = reply.status, reply.headers["Location"]
            self.expect(f"{start}: the keys of the program", got, (302, f"{ECHO}{found}"))

    def test_first(self) -> None:
        query = "rft.genre=article&issn=3006-1962&atitle=x&first=1"
        self.expect("a key of another page", f"{ECHO}?1" in self.site.get(f"/find.json?{query}").text)
        for path in ("/go?", "/go?target=echo&"):
            reply = self.site.get(f"{path}{query}")
            found = [f"{ECHO}{it}" in f"{reply.headers['Location']} {reply.text}" for it in ("?1", "none")]
            self.expect(f"{path}: no key of the program", found, [False, True])


class Followed(SiteCase):
    is_sample = True

    def on(self) -> None:
        self.site.edit((OFF, ON))

    def page(self, query: str) -> str:
        return main_of(self.site.get(f"/find?{query}"))

    def redirects(self) -> int:
        """How many lines of redirects the log has, once all requests of this test are in it."""
        mark = f"mark{next(MARKS)}"
        self.site.get(f"/find?sid={mark}&issn=2901-0012")
        self.expect("the mark", wait_until(lambda: any(it.endswith(f"sid/{mark}") for it in lines_of(self.site))))
        return sum(" 302 GET /go " in line for line in lines_of(self.site))

    def test_off(self) -> None:
        """Without a word of the operator links lead to the providers, and nothing is logged."""
        before, clicks = lines_of(self.site), lines_of(self.site, LOG)
        page = self.page(ARTICLE)
        self.expect("the links", PRESS in links_in(page))
        self.expect("no link by /go, no note", [text for text in ("/go?", NOTE) if text in page], [])
        reply = self.site.get(f"/go?target=tidal-press&{ARTICLE}")
        self.expect("a link of an older page", (reply.status, reply.headers["Location"]), (302, PRESS))
        lines = added(self.site, "openlink.log", 2, before)
        self.expect("a request", [" 302 GET /go " in line and " targets=tidal-press " in line for line in lines][-1])
        self.expect("no line of followed links", lines_of(self.site, LOG), clicks)

    def test_links_of_pages(self) -> None:
        """Each link of a page leads by /go to what the data have, and is counted once."""
        self.on()
        count, redirects = 0, self.redirects()
        for query in REQUESTS:
            links, direct = links_in(self.page(query)), targets_of(self.site.get(f"/find.json?{query}"))
            self.expect(f"{query}: as many", len(links), len(direct))
            for link, (target, url) in zip(links, direct):
                self.expect(f"{query}: the address", link, f"/go?target={target}&{query}")
                before = lines_of(self.site, LOG)
                reply = self.site.get(link.replace('"', "%22").replace("<", "%3C"))
                self.expect(f"{query}: {target}", (reply.status, reply.headers["Location"]), (302, url))
                self.expect("no cookie", reply.headers["Set-Cookie"], None)
                (line,) = added(self.site, LOG, 1, before) or [""]
                self.expect(f"{query}: the target in the log", line.split(" ")[1], f"target={target}")
                count += 1
        self.expect("links", count >= LEAST)
        self.expect("clicks among the requests", self.redirects() - redirects, 0)

    def test_log(self) -> None:
        """The month, the target and the number alone; openlink-counts counts it as followed and not as a request."""
        self.on()
        before, redirects = lines_of(self.site, LOG), self.redirects()
        for query, method in ((ARTICLE, "GET"), ("isbn=978-1-234-56100-0", "GET"), (ARTICLE, "HEAD")):
            for target in ("tidal-press", "catalogue"):
                self.site.get(f"/go?target={target}&{query}", method)
        self.site.get(f"/go?target=tidal-press&{ARTICLE.replace('sid=google', 'rfr_id=info:sid/openlink:probe')}")
        self.expect("the probe alone is a request", self.redirects() - redirects, 1)
        lines = added(self.site, LOG, 2, before)
        months = {datetime.datetime.now(zone).strftime("%Y-%m") for zone in (None, datetime.timezone.utc)}
        self.expect("months", {line[:7] for line in lines} <= months)
        followed = [line[8:] for line in lines]
        self.expect("of the article", followed[:2], ["target=tidal-press 2901-0012", "target=catalogue 2901-0012"])
        self.expect("numbers", {line.split(" ")[1] for line in followed} <= {"2901-0012", "9781234561000"})
        self.expect("neither HEAD nor a probe", sum("2901-0012" in line for line in followed), 2)
        shown = subprocess.run(
            ["update/counts", self.site.path("log/" + LOG)], capture_output=True, text=True, check=True
        ).stdout
        kinds = {line.split("\t")[1] for line in shown.splitlines()[1:]}
        self.expect("counted", kinds, {"followed", "followed title"})

    def test_wanted(self) -> None:
        """A link of a page without full text is not asked for in vain again."""
        self.site.edit((OFF, ON), ("js_var $openlink_log_wanted off;", "js_var $openlink_log_wanted on;"))
        name, query = "openlink-wanted.log", "issn=3006-1962&atitle=x"
        before = lines_of(self.site, name)
        self.site.get(f"/find?{query}")
        self.expect("the page", len(added(self.site, name, 1, before)), 1)
        reply = self.site.get(f"/go?target=interlibrary-loan&{query}")
        self.expect("the link", reply.status, 302)
        self.redirects()
        self.expect("the link is no other", len(lines_of(self.site, name)) - len(before), 1)

    def test_nowhere_else(self) -> None:
        """A name that the page does not have gives the page, which is a request as any other. No link passes it on."""
        self.on()
        clicks = lines_of(self.site, LOG)
        for target in NO_TARGETS:
            before = lines_of(self.site)
            for query in (f"target={target}&{ARTICLE}&target=x", f"{ARTICLE}&target={target}&first=1"):
                reply = self.site.get(f"/go?{query}")
                self.expect(f"{target[:40]}: the page", (reply.status, reply.headers["Location"]), (200, None))
                self.expect(f"{target[:40]}: the links", "tidal-press" in reply.text)
                actions = re.findall(r'href="(/(?:cite|find|find\.ris)\?[^"]*)"', main_of(reply))
                self.expect(f"{target[:40]}: links of the page", len(actions) >= 3)
                self.expect(f"{target[:40]}: not passed on", [link for link in actions if "target=" in link], [])
            added(self.site, "openlink.log", 2, before)
        self.expect("no line", lines_of(self.site, LOG), clicks)
        single = "issn=2943-081X&date=2012"
        self.expect("one link alone", self.site.get(f"/go?{single}").status, 302)
        self.expect("one link alone, and another name", self.site.get(f"/go?target=nobody&{single}").status, 200)

    def test_long_requests(self) -> None:
        """A link does not repeat a long request."""
        self.on()
        for count, is_counted in ((3000, True), (3001, False)):
            query = f"{ARTICLE}&x=" + "y" * (count - len(ARTICLE) - 3)
            page = self.page(query)
            self.expect(f"{count}: by /go", any(link.startswith("/go?target=") for link in links_in(page)), is_counted)
            self.expect(f"{count}: the note", NOTE in page, is_counted)

    def test_language(self) -> None:
        """The language that a reader has chosen stays, and the note is in it."""
        self.on()
        page = self.page(f"{ARTICLE}&lang=de")
        link = next(link for link in links_in(page) if "target=tidal-press" in link)
        self.expect("the language", link.endswith("&lang=de"))
        self.expect("where it leads", self.site.get(link).headers["Location"], PRESS)
        self.expect("the note", f"{NOTE}Die Bibliothek zählt" in page)
        for path in sorted(Path("front_door/words").glob("*.json")):
            words = json.loads(path.read_text(encoding="utf-8"))
            self.expect(f"{path.name}: a note", len(words["followedNote"]) > 20)

    def test_json(self) -> None:
        before = self.site.get(f"/find.json?{ARTICLE}").text
        self.on()
        self.expect("direct links", self.site.get(f"/find.json?{ARTICLE}").text, before)
        self.expect("the links", PRESS in before)

    def test_page(self) -> None:
        self.on()
        hostile = quote("<b>&\"'")
        for query in (ARTICLE, f"atitle={hostile}&issn=2901-0012"):
            self.tidy(query, self.site.get(f"/find?{query}").text)
