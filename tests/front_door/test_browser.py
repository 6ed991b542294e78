"""What a site gives to browsers and to other sites: its search (OpenSearch), the bookmarklet, who may show it in a
frame, and what is closed."""
from __future__ import annotations

import html
import json
import re
import subprocess
import urllib.parse
from xml.etree import ElementTree

from fixtures import needs
from fixtures.site_case import ARTICLE
from fixtures.site_case import SiteCase

SPACE = "{http://a9.com/-/spec/opensearch/1.1/}"
FRAMES = '    #set $openlink_frames "https://discovery.example.org https://learning.example.org";\n'
CLOSED = '    #set $openlink_closed "find.json openurl";\n'
# What a site says of frames, and what its pages then say.
OF_FRAMES = [
    ("", "'self'"),
    ("https://discovery.example.org", "'self' https://discovery.example.org"),
    ("https://*.example.org https://a.example.net:8443", "'self' https://*.example.org https://a.example.net:8443"),
    ("http://discovery.example.org", "'self'"),
    ("discovery.example.org", "'self'"),
    ("https://a.example.org; script-src *", "'self'"),
    ("*", "'self'"),
]
MENU = "/openurl?ctx_ver=Z39.88-2004&rft_val_fmt=info:ofi/fmt:kev:mtx:journal&rft.issn=2901-0012"
# What a site closes, and the addresses that then are not there.
OPEN = {"/find.json?issn=2901-0012", MENU, MENU.replace("/openurl", "/openurl.txt"), "/openurl/?a=b"}
OF_CLOSED = [
    ("", set()),
    ("find.json", {"/find.json?issn=2901-0012"}),
    ("openurl", OPEN - {"/find.json?issn=2901-0012"}),
    ("find.json openurl", OPEN),
    ("openurls find_json", set()),
]
# The names and values of a page's own elements, its address, and what the bookmarklet sends.
OF_PAGES = [
    ([["citation_doi", "10.5555/abc"]], "https://press.example.com/a", "10.5555/abc"),
    ([["DC.Identifier", "doi:10.5555/abc"]], "https://press.example.com/a", "doi:10.5555/abc"),
    ([["dc.identifier", "1234"]], "https://press.example.com/a?b=c&d#e", "https://press.example.com/a?b=c&d#e"),
    ([["prism.doi", "doi:10.5555/p"], ["citation_doi", "10.5555/c"]], "https://e.org/", "10.5555/c"),
    ([], "https://press.example.com/doi/full/10.5555/abc", "https://press.example.com/doi/full/10.5555/abc"),
]
# Runs the bookmarklet as a page would, and prints where it leads.
SCRIPT = """
const made = {made};
globalThis.document = {{ querySelector: (text) => {{
    const name = /^meta\\[name="([^"]+)" i\\]$/.exec(text)[1];
    const found = made.elements.find((it) => it[0].toLowerCase() === name.toLowerCase());
    return found ? {{ content: found[1] }} : null;
}} }};
globalThis.location = {{ href: made.address }};
(0, eval)(decodeURIComponent(made.link.slice('javascript:'.length)));
console.log(location.href);
"""


class Browsers(SiteCase):
    """A site as a browser knows it."""

    def search_at(self, target: str, headers: dict[str, str] | None = None) -> dict[str, str]:
        reply = self.site.get(target, headers=headers or {})
        self.expect(
            f"{target}: its type",
            (reply.status, reply.headers["Content-Type"].partition(";")[0]),
            (200, "application/opensearchdescription+xml"),
        )
        root = ElementTree.fromstring(reply.body)
        texts = {it.tag.removeprefix(SPACE): it.text or "" for it in root}
        return {**texts, **{it.get("type", ""): it.get("template", "") for it in root.findall(f"{SPACE}Url")}}

    def test_search(self) -> None:
        """The page names the search, whose address finds what a reader types."""
        link = re.findall(r'<link rel="search" type="([^"]*)" href="([^"]*)"', self.site.get("/find").text)
        self.expect("the link", link, [("application/opensearchdescription+xml", "/opensearch.xml")])
        found = self.search_at("/opensearch.xml", {"Host": "links.library.example.org:8443"})
        self.expect(
            "its names",
            (found["ShortName"], found["Description"], found["Language"]),
            ("Example Universi", "Example University Library: Find by citation", "en"),
        )
        template = found["text/html"]
        self.expect("its address", template, "http://links.library.example.org:8443/find?title={searchTerms}")
        target = template.partition(":8443")[2]
        for text, name in (("Annals of Tidal Studies", "tidal"), ("10.5555/tidal.2003.12.101", "doi")):
            page = self.site.get(target.replace("{searchTerms}", urllib.parse.quote(text))).text
            wanted = "Annals of Tidal Studies" if name == "tidal" else "DOI 10.5555/tidal.2003.12.101"
            self.expect(f"what it finds: {text}", f"<bdi>{wanted}</bdi>" in page)

    def test_search_in_german(self) -> None:
        page = self.site.get("/find?lang=de").text
        link = re.findall(r'<link rel="search" type="[^"]*" href="([^"]*)"', page)
        self.expect("the link", link, ["/opensearch.xml?lang=de"])
        found = self.search_at(link[0], {"X-Forwarded-Proto": "https", "Host": 'x"><script>'})
        self.expect(
            "its address", found["text/html"], "https://links.library.example.org/find?title={searchTerms}&lang=de"
        )
        self.expect("its language", found["Language"], "de")

    def test_request_without_a_host(self) -> None:
        """As HTTP/1.0 allows: the name of the site is the one that nginx has for it."""
        text = self.site.send(b"GET /opensearch.xml HTTP/1.0\r\n\r\n").decode()
        template = re.findall(r'type="text/html" template="([^"]*)"', text)
        self.expect("its address", template, ["http://links.library.example.org/find?title={searchTerms}"])

    def test_base_of_the_site(self) -> None:
        data = json.loads(self.site.read("openlink/targets.json"))
        data["scholar"]["base"] = "https://resolver.example.org/"
        data["words"]["library"] = "A&B <Library>"
        self.site.write_targets(data)
        found = self.search_at("/opensearch.xml")
        self.expect(
            "the names",
            (found["ShortName"], found["text/html"]),
            ("A&B <Library>", "https://resolver.example.org/find?title={searchTerms}"),
        )

    def bookmarklet(self) -> str:
        page = self.site.get("/find", headers={"Host": "links.library.example.org"}).text
        links = re.findall(r'<p class="bookmarklet">[^<]* <a href="([^"]*)">([^<]*)</a></p>', page)
        self.expect("the link", [name for _, name in links], ["Example University Library: Find full text"])
        return html.unescape(links[0][0])

    @needs.command("node")
    def test_bookmarklet(self) -> None:
        """In a page that declares a DOI it sends that, and else the page's address."""
        link = self.bookmarklet()
        for elements, address, sent in OF_PAGES:
            made = json.dumps({"elements": elements, "address": address, "link": link})
            done = subprocess.run(["node", "-e", SCRIPT.format(made=made)], capture_output=True, text=True, check=True)
            base, _, value = done.stdout.strip().partition("?url=")
            self.expect(
                f"from {address}", (base, urllib.parse.unquote(value)), ("http://links.library.example.org/find", sent)
            )

    def test_page_of_an_article(self) -> None:
        """The address of a page leads to the article, and one without a number to the form, filled in with nothing."""
        sent = urllib.parse.quote("https://press.example.com/doi/full/10.5555/tidal.2003.12.101?a=b#c", "")
        data = json.loads(self.site.get(f"/find.json?url={sent}").text)
        self.expect("the DOI", data["citation"].get("doi"), "10.5555/tidal.2003.12.101")
        for length, doi in ((2000, "10.5555/abc"), (2001, None)):
            address = "https://e.org/".ljust(length - len("/10.5555/abc"), "a") + "/10.5555/abc"
            data = json.loads(self.site.get(f"/find.json?url={address}").text)
            self.expect(f"an address of {length} bytes", data["citation"].get("doi"), doi)
        page = self.site.get("/find?url=https%3A%2F%2Fpress.example.com%2Farticle")
        self.tidy("a page without a number", page.text)
        self.expect("the form", (page.status, page.text.count('<form action="/find"')), (200, 1))

    def test_staff_have_neither(self) -> None:
        page = self.site.get(f"/why?{ARTICLE}", port=self.site.report_port).text
        self.expect(
            "no search, no home, no bookmarklet",
            [it in page for it in ('rel="search"', '<a href="/find', "javascript:", "<base")],
            [False] * 4,
        )


class Embedding(SiteCase):
    """Who may show a site, and what of it is open."""

    def test_frames(self) -> None:
        for text, wanted in OF_FRAMES:
            before = self.site.edit((FRAMES, f'    set $openlink_frames "{text}";\n' if text else FRAMES))
            for target, status in ((f"/find?{ARTICLE}", 200), ("/journals", 200), ("/none", 404)):
                reply = self.site.get(target)
                policy = reply.headers["Content-Security-Policy"]
                self.expect(
                    f"frames {text!r}: {target}",
                    (reply.status, policy.partition("frame-ancestors ")[2]),
                    (status, wanted),
                )
                self.expect(
                    f"frames {text!r}: links of {target}", reply.text.count('<base target="_top">'), int(text != "")
                )
                self.tidy(f"frames {text!r}: {target}", reply.text)
            staff = self.site.get("/why", port=self.site.report_port).headers["Content-Security-Policy"]
            self.expect(f"frames {text!r}: staff", staff.endswith("frame-ancestors 'none'"))
            self.site.write("openlink.conf", before)

    def test_closed(self) -> None:
        for text, closed in OF_CLOSED:
            before = self.site.edit((CLOSED, f'    set $openlink_closed "{text}";\n' if text else CLOSED))
            found = {target for target in OPEN if self.site.get(target).status == 404}
            self.expect(f"closed {text!r}", found, closed)
            self.expect(f"closed {text!r}: the page", "Tidal Press" in self.site.get(f"/find?{ARTICLE}").text)
            self.expect(f"closed {text!r}: a redirect", self.site.get(f"/go?first=1&{ARTICLE}").status, 302)
            self.site.write("openlink.conf", before)
        self.site.edit((CLOSED, CLOSED.replace("#", "")))
        reply = self.site.get("/find.json?issn=2901-0012", "DELETE")
        self.expect("a wrong method", reply.status, 405)
        self.expect("data that are closed", json.loads(self.site.get("/find.json").text), {"error": 404})
