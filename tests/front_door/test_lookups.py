"""The look-up of a DOI or PubMed number that comes alone, by services that reply in every way."""
from __future__ import annotations

import concurrent.futures
import html
import http.client
import json
import os
import re
import stat
import time
from pathlib import Path
from typing import Any

from fixtures import needs
from fixtures.lookup_services import DOI_300
from fixtures.lookup_services import ENOUGH
from fixtures.lookup_services import FALSE_LENGTHS
from fixtures.lookup_services import FREE
from fixtures.lookup_services import NO_LINKS
from fixtures.lookup_services import READERS
from fixtures.lookup_services import Services
from fixtures.lookup_services import bytes_in
from fixtures.lookup_services import replaced
from fixtures.lookup_services import switched_on
from fixtures.local_ports import free_ports
from fixtures.nginx_site import Reply
from fixtures.patience import best_of_three
from fixtures.patience import patience
from fixtures.patience import wait_until
from fixtures.site_case import ARTICLE
from fixtures.site_case import SiteCase
from fixtures.site_case import added
from fixtures.site_case import lines_of

FULL_TEXT = "tidal-press aggregate-net catalogue"
SWITCHES = ("openlink_lookup_more", "openlink_free_copies")
ALONE = "so we do not know whether the library has the full text."


class SiteWithLookups(SiteCase):
    """The look-up is switched on, with `switches` of the site."""

    switches: tuple[str, ...] = ()
    services: Services
    plain: str

    @classmethod
    def setUpClass(cls) -> None:
        super().setUpClass()
        cls.services, cls.plain = Services(cls.site.folder), cls.site.read("openlink.conf")
        cls.addClassCleanup(cls.services.stop)
        cls.switch_on()
        cls.site.keep()

    @classmethod
    def switch_on(cls, port: int | None = None, certificate: str | None = None, **limits: str) -> None:
        services, cache = cls.services, cls.site.path("lookups")
        limits = {"rate": "rate=300r/s", **limits}
        pem = certificate or services.certificate
        text = switched_on(cls.plain, port or services.port, pem, cache, switches=cls.switches, **limits)
        cls.site.write_site(text)

    def data(self, query: str) -> Any:
        return json.loads(self.site.get(f"/find.json?{query}").text)

    def targets(self, query: str) -> str:
        return " ".join(link["target"] for group in self.data(query)["groups"] for link in group["links"])


@needs.command("openssl")
class Lookups(SiteWithLookups):
    """As the site has it, without a further switch."""

    def test_found(self) -> None:
        """What a service says fills in what the request lacks, and finds its links as any request does."""
        self.expect(
            "a DOI",
            self.data("id=doi:10.5555/good")["citation"],
            {
                "author": "Smith, Jane",
                "title": "Storm surges & the law",
                "journal": "Annals of Tidal Studies",
                "year": "2003",
                "volume": "12",
                "issue": "3",
                "pages": "101-118",
                "doi": "10.5555/good",
                "issn": "2901-0012",
            },
        )
        self.expect("its links", self.targets("id=doi:10.5555/good"), f"{FULL_TEXT} doi-resolver web-search")
        self.expect(
            "a PubMed number", self.targets("sid=Entrez:PubMed&id=pmid:99990001"), f"{FULL_TEXT} pubmed web-search"
        )
        self.expect("its citation", self.data("id=pmid:99990001")["citation"]["author"], "Smith")
        self.expect(
            "a title without a number", self.targets("id=doi:10.5555/title"), f"{FULL_TEXT} doi-resolver web-search"
        )
        self.expect("a chapter", self.targets("id=doi:10.5555/chapter"), "book-house doi-resolver web-search")
        self.expect("what the request says", self.data("id=doi:10.5555/good&volume=9")["citation"]["volume"], "9")
        self.expect("a large reply", self.targets("id=doi:10.5555/large"), f"{FULL_TEXT} doi-resolver web-search")
        page = self.site.get("/find?id=doi:10.5555/good")
        self.tidy("a page after a look-up", page.text)
        self.expect("asked once, then from the cache", self.services.asked["10.5555/good"], 1)

    def test_not_asked(self) -> None:
        before = sum(self.services.asked.values())
        for query in (
            "id=doi:10.5555/a&issn=2901-0012",
            "id=pmid:7&title=x",
            "rft.atitle=x",
            "id=pmid:1234567890",
            f"id=doi:{DOI_300}a",
        ):
            self.data(query)
        self.expect("not asked", sum(self.services.asked.values()), before)
        self.expect(
            "a DOI of 300 characters", self.targets(f"id=doi:{DOI_300}"), f"{FULL_TEXT} doi-resolver web-search"
        )

    def test_privacy(self) -> None:
        """The services get the number and the address for contact; the files of the cache are nginx's alone."""
        self.site.get(
            "/find?id=pmid:99990002&sid=secret",
            headers={
                "Cookie": "a=secret",
                "Referer": "http://secret/",
                "User-Agent": "secret",
                "X-Forwarded-For": "192.0.2.1",
            },
        )
        for number in ("good", "chapter", "title"):
            self.data(f"id=doi:10.5555/{number}")
        sent = json.dumps(self.services.heads)
        self.expect("nothing of a reader", ("secret" in sent, "192.0.2.1" in sent), (False, False))
        self.expect(
            "the contact",
            ("mailto:links@library.example.org" in sent, "email=links@library.example.org" in sent),
            (True, True),
        )
        files = [
            os.path.join(folder, name) for folder, _, names in os.walk(self.site.path("lookups")) for name in names
        ]
        modes = {oct(stat.S_IMODE(os.stat(file).st_mode)) for file in files}
        self.expect("the cache's files", (len(files) > 3, modes), (True, {"0o600"}))
        self.expect("no DOI in the log", "10.5555" in self.site.read("log/openlink.log"), False)

    def test_faults(self) -> None:
        """A service that fails in any way leaves the page as it is without one, within three seconds."""
        names = ("none", "busy", "half", "list", "null", "deep", "huge", "over", "hostile", "slow", "drip")

        def asked(name: str) -> tuple[Reply, float]:
            start = time.monotonic()
            reply = self.site.get(f"/find?id=doi:10.5555/{name}")
            return reply, time.monotonic() - start

        with concurrent.futures.ThreadPoolExecutor(len(names)) as pool:
            results = list(pool.map(asked, names))
        for name, (reply, seconds) in zip(names, results):
            self.expect(f"{name}: the seconds", seconds < patience(5))
            found = reply.status, "doi.example.org" in reply.text, ALONE in reply.text, "<script" in reply.text
            self.expect(f"{name}: the page", (*found, reply.headers["X-Evil"]), (200, True, True, False, None))
            self.expect(f"{name}: its numbers", "2901-0012" in reply.text, False)
            self.tidy(f"{name}: the page", reply.text)
        self.expect("a summary that is an error", ALONE in self.site.get("/find?id=pmid:99990002").text)

    def test_commands(self) -> None:
        """A reply chooses neither another service, nor that it is not kept, nor a header of the page."""
        for time_of in ("the first", "the second"):
            page = self.site.get("/find?id=doi:10.5555/commands")
            self.expect(f"{time_of} time", (page.status, "Tidal Press" in page.text), (200, True))
            self.expect(f"{time_of} time: no cookie", page.headers["Set-Cookie"], None)
        asked = [number for number in self.services.asked.elements() if number.startswith("copy:")]
        self.expect("what is asked", (self.services.asked["10.5555/commands"], asked), (1, []))
        server = int(re.findall(r'\$openlink_lookup "http://127\.0\.0\.1:(\d+)"', self.site.read("openlink.conf"))[0])
        reply = self.site.get("/doi?id=10.5555/charset", port=server)
        self.expect("the form of a text", (reply.status, reply.headers["Content-Type"]), (200, "application/json"))

    def test_endless(self) -> None:
        """A reply that does not end, whatever it says of its length: the page comes, nginx ends the connection, and the
        disk has less than a megabyte of it."""
        for name in ("endless", "dripping", *(f"says{length}" for length in FALSE_LENGTHS)):
            before = bytes_in(self.site.path("lookups")) + bytes_in(self.site.path("temp"))
            reply = self.site.get(f"/find?id=doi:10.5555/{name}")
            self.expect(f"{name}: the page", (reply.status, ALONE in reply.text), (200, True))
            ended = wait_until(lambda: self.services.endless.get(f"10.5555/{name}"))
            if not ended:
                self.expect(f"{name}: the end", "none")
                continue
            sent, disk = ended
            self.expect(f"{name}: nginx ends it, after {sent} bytes", sent < (400 if name == "dripping" else ENOUGH))
            self.expect(f"{name}: {disk - before} bytes on the disk", disk - before < 1_000_000)

    def test_connection_after_replies(self) -> None:
        """The next request on a connection does not wait for the rest of the three seconds that a look-up has."""
        peer = http.client.HTTPConnection("127.0.0.1", self.site.port, timeout=patience(30))
        self.addCleanup(peer.close)
        waits = []
        for target in ("/find?id=doi:10.5555/good", "/find?issn=2901-0012") * 5:
            start = time.monotonic()
            peer.request("GET", target)
            reply = peer.getresponse()
            self.expect(target, (reply.status, b"</html>" in reply.read()), (200, True))
            waits.append(time.monotonic() - start)
        self.expect("one of those after a look-up within a second", min(waits[1::2]) < 1)

    def test_connection(self) -> None:
        """The next request on a connection does not wait for a look-up that came too late."""

        def asked(number: str) -> None:
            peer = http.client.HTTPConnection("127.0.0.1", self.site.port, timeout=patience(30))
            start = time.monotonic()
            for target in (f"/find?id=doi:10.5555/{number}", "/find?issn=2901-0012"):
                peer.request("GET", target)
                reply = peer.getresponse()
                self.expect(f"{number}: {target}", (reply.status, b"</html>" in reply.read()), (200, True))
            self.expect(f"{number}: both within six seconds", time.monotonic() - start < patience(7))
            peer.close()

        with concurrent.futures.ThreadPoolExecutor(2) as pool:
            list(pool.map(asked, ("late", "trickle")))

    def ask_at_once(self, name: str) -> float:
        """Readers of that many addresses, each with a number of its own. All get the page. Returns the seconds of
        all."""

        def asked(i: int) -> tuple[int, bool, bool]:
            address = (f"127.0.1.{i + 1}", 0)
            peer = http.client.HTTPConnection("127.0.0.1", self.site.port, timeout=patience(30), source_address=address)
            peer.request("GET", f"/find?id=doi:10.5555/{name}{i}")
            reply = peer.getresponse()
            page = reply.read().decode()
            peer.close()
            return reply.status, "</html>" in page, "doi.example.org" in page

        start = time.monotonic()
        with concurrent.futures.ThreadPoolExecutor(READERS) as pool:
            results = list(pool.map(asked, range(READERS)))
        self.expect(f"{name}: the pages", results, [(200, True, True)] * READERS)
        return time.monotonic() - start

    def test_rate(self) -> None:
        """All readers together ask the services three times a second, after three that may come at once."""
        self.switch_on(rate="rate=3r/s")
        seconds = self.ask_at_once("rate")
        asked = sum(count for number, count in self.services.asked.items() if number.startswith("10.5555/rate"))
        self.expect(f"asked {asked} times in {seconds:.1f} s", 4 <= asked <= 4 + 3 * seconds)

    def test_requests_at_a_time(self) -> None:
        """Twenty for all readers together."""
        self.switch_on(burst=f"burst={READERS} nodelay;")

        def not_twenty() -> int | None:
            self.ask_at_once("held")
            return self.services.most_held if self.services.most_held != 20 else None

        # On a busy machine the first of twenty can run out of time before the last one comes.
        self.expect("asked at once", best_of_three(not_twenty), None)

    def test_a_service_that_seeps(self) -> None:
        """A reply that says its length is read to its end, however slowly it comes. Those of a service take its own
        look-ups, and no other's; the pages come without it."""
        self.addCleanup(self.services.let_go.set)
        self.switch_on(burst=f"burst={READERS} nodelay;")
        seconds = self.ask_at_once("seeping")
        self.expect(f"the pages come, in {seconds:.1f} s", seconds < patience(10))
        self.expect("those that are read on", wait_until(lambda: self.services.seeping == 20))
        self.expect("no other of this service", ALONE in self.site.get("/find?id=doi:10.5555/beside1").text)
        self.expect("it was not asked", self.services.asked["10.5555/beside1"], 0)
        self.expect("another service", FULL_TEXT in self.targets("id=pmid:99990006"))
        self.services.let_go.set()
        self.expect("the service again", wait_until(lambda: FULL_TEXT in self.targets("id=doi:10.5555/beside1")))

    def test_certificate_of_a_stranger(self) -> None:
        self.switch_on(certificate="/etc/ssl/certs/ca-certificates.crt")
        page = self.site.get("/find?id=doi:10.5555/again").text
        self.expect("a certificate of a stranger", ALONE in page)
        self.expect("it is asked for nothing", self.services.asked["10.5555/again"], 0)

    def test_no_services(self) -> None:
        self.switch_on(port=free_ports(1)[0])
        self.expect("down", ALONE in self.site.get("/find?id=doi:10.5555/down").text)

    def test_off(self) -> None:
        self.expect(
            "the look-up is off",
            [it in self.plain for it in ("\njs_var $openlink_lookup ", "\nproxy_cache_path")],
            [False] * 2,
        )
        self.site.write_site(self.plain)
        self.site.get("/find?id=doi:10.5555/off")
        self.expect("off: nothing is asked", self.services.asked["10.5555/off"], 0)

    def test_other_numbers(self) -> None:
        """A number of PMC goes to NCBI, whose reply has no ISSN, and one of arXiv to DataCite."""
        data = self.data("rft_id=https://www.ncbi.nlm.nih.gov/pmc/articles/PMC7000001/")["citation"]
        named = [data.get(name) for name in ("title", "journal", "issn", "doi", "pmid")]
        expected = ["Storm surges", "Annals of tidal studies", "2901-0012", "10.5555/good", "99990003"]
        self.expect("PMC", named, expected)
        self.expect("its links", self.targets("id=pmc:7000001"), f"{FULL_TEXT} doi-resolver pubmed web-search")
        self.expect("asked once", self.services.asked["pmc:7000001"], 1)
        for query, version in (("id=arXiv:2101.00001", ""), ("id=doi:10.48550/arXiv.2101.00001v2", "v2")):
            data = self.data(query)["citation"]
            named = [data.get(name) for name in ("title", "author", "year", "doi")]
            expected = ["Tides on other moons", "Smith, Jane", "2021", f"10.48550/arXiv.2101.00001{version}"]
            self.expect(query, named, expected)
        author = self.data("id=arXiv:2101.00003")["citation"].get("author")
        self.expect("an author without a family name", author, "Tide Collaboration")
        self.expect(
            "a reply of another form",
            self.data("id=arXiv:2101.00002")["citation"],
            {"doi": "10.48550/arXiv.2101.00002"},
        )
        hosts = {path.split("/")[1]: heads["Host"] for path, heads in self.services.heads}
        self.expect("the hosts", (hosts["dois"], hosts["entrez"]), ("api.datacite.org", "eutils.ncbi.nlm.nih.gov"))

    def test_notices(self) -> None:
        """What a record says of retractions and corrections stands above the links, and hides none of them."""
        retraction = {"kind": "retraction", "doi": "10.5555/notice"}
        correction = {"kind": "correction", "doi": "10.5555/erratum", "source": "publisher"}
        for name, notices, about in (
            ("retracted", [{**retraction, "source": "retraction-watch"}], None),
            ("corrected", [correction], None),
            ("both", [{**retraction, "source": "publisher"}, correction], None),
            ("notice", None, [{"kind": "retraction", "doi": "10.5555/retracted", "source": "publisher"}]),
            ("in-place", [{"kind": "retraction", "doi": "10.5555/IN-PLACE", "source": "publisher"}], None),
            ("version", None, None),
            ("remark", [{**retraction, "source": "retraction-watch"}], None),
            ("odd-updates", None, None),
        ):
            data = self.data(f"id=doi:10.5555/{name}")
            self.expect(name, (data.get("notices"), data.get("noticeAbout")), (notices, about))
            is_retracted = any(it["kind"] == "retraction" for it in notices or ())
            self.expect(f"{name}: retracted", data.get("retracted", False), is_retracted)
            links = " ".join(link["target"] for group in data["groups"] for link in group["links"])
            self.expect(f"{name}: its links", links, f"{FULL_TEXT} doi-resolver web-search")

    def lines_of(self, query: str) -> list[str]:
        """The lines of a page that say something of notices, without tags."""
        page = self.site.get(f"/find?{query}")
        self.expect(f"{query}: the status", (page.status, page.headers["X-Evil"]), (200, None))
        self.tidy(f"{query}: the page", page.text)
        lines = re.findall(r'<p class="(?:retracted|corrected|about)">(.*)</p>', page.text)
        where = [page.text.index(line) < page.text.index("<h2>") for line in lines]
        self.expect(f"{query}: above the links", where, [True] * len(lines))
        return [html.unescape(re.sub(r"<[^>]*>", "", line)) for line in lines]

    def test_lines_of_notices(self) -> None:
        retracted = "This article was retracted. Notice: doi.org/10.5555/notice."
        for query, expected in (
            ("id=doi:10.5555/retracted", [f"{retracted} Source: Retraction Watch."]),
            (
                "id=doi:10.5555/both",
                [
                    f"{retracted} Source: the publisher.",
                    "This article was corrected. Notice: doi.org/10.5555/erratum. Source: the publisher.",
                ],
            ),
            ("id=doi:10.5555/remark", [f"{retracted} Source: Retraction Watch."]),
            ("id=doi:10.5555/notice", ["This is a notice about DOI 10.5555/retracted."]),
            ("id=pmid:99990004", [f"{retracted} Source: PubMed."]),
            ("id=pmid:99990005", ["This article was retracted. Source: PubMed."]),
            ("id=pmid:99990006", []),
            (
                "id=doi:10.5555/other-source",
                [
                    "This article was corrected. Notice: doi.org/10.5555/erratum. Source: Watch & <3 'friends'.",
                ],
            ),
            ("id=doi:10.5555/good", []),
            ("id=doi:10.5555/good&atitle=RETRACTED:+Storms", ["The source says that this article was retracted."]),
            ("id=doi:10.5555/retracted&issn=2901-0012", []),
        ):
            self.expect(query, self.lines_of(query), expected)
        page = self.site.get("/find?id=doi:10.5555/notice").text
        self.expect("to the article", '"/find?rft_id=info%3Adoi%2F10.5555%2Fretracted"' in page)
        page = self.site.get("/find?id=doi:10.5555/retracted&lang=de").text
        self.expect(
            "to the notice", 'zurückgezogen.</strong> Mitteilung: <a href="https://doi.org/10.5555/notice">' in page
        )

    def test_hostile_notices(self) -> None:
        """No text of a notice is markup, leads to another host than doi.org or hides the links."""
        page = self.site.get("/find?id=doi:10.5555/other-source").text
        self.expect("a name of a source", "Source: Watch &amp; &lt;3 &#39;friends&#39;.</p>" in page)
        for name, least in (("marked-up", 1), ("forged-doi", 3), ("many-updates", 10)):
            lines = self.lines_of(f"id=doi:10.5555/{name}")
            self.expect(f"{name}: {lines}", len(lines), least)
            page = self.site.get(f"/find?id=doi:10.5555/{name}").text
            self.expect(f"{name}: no markup", [it for it in ("<script", "<img", "javascript:") if it in page], [])
            links = re.findall(r'<p class="(?:retracted|corrected|about)">.*?href="([^"]*)', page)
            beginnings = {link[: len("https://doi.org/")] for link in links} - {"https://doi.org/"}
            self.expect(f"{name}: where they lead", beginnings, set())
            self.expect(
                f"{name}: its links", self.targets(f"id=doi:10.5555/{name}"), f"{FULL_TEXT} doi-resolver web-search"
            )


@needs.command("openssl")
class Beside(SiteWithLookups):
    """A number that came with other things is looked up too."""

    switches = SWITCHES[:1]

    def citation(self, query: str, *names: str) -> list[object]:
        found = self.data(query)["citation"]
        return [found.get(name) for name in names]

    def test_found(self) -> None:
        """What the request says stays, although the service says something else."""
        doi = "id=doi:10.5555/beside"
        query = f"{doi}0&title=Nowhere&volume=9&date=1999"
        cited = self.citation(query, "journal", "volume", "year", "issn", "pages")
        self.expect("a title that the index does not know", cited, ["Nowhere", "9", "1999", "2901-0012", "101-118"])
        self.expect("its links", "tidal-press" in self.targets(query))
        page = self.site.get(f"/find?{query}")
        self.tidy("its page", page.text)
        query = f"{doi}1&issn=2901-0012&volume=12&date=2003"
        self.expect("without a page", self.citation(query, "pages", "volume"), ["101-118", "12"])
        links = [link["url"] for group in self.data(query)["groups"] for link in group["links"]]
        self.expect("its link", "https://press.example.com/2908-0142/12/3/101" in links)
        query = f"{doi}2&issn=2901-0012&spage=7&date=2003"
        self.expect("without a volume", self.citation(query, "pages", "volume"), ["7", "12"])
        query = f"{doi}3&issn=2901-0012&year=2001&volume=11"
        self.expect("another date", self.citation(query, "pages", "volume", "year"), ["101-118", "11", "2001"])
        query = f"{doi}4&issn=1111-1119&title=Nowhere"
        self.expect(
            "a number that the index does not know", self.citation(query, "issn", "journal"), ["1111-1119", "Nowhere"]
        )
        self.expect("the other number of the reply", "tidal-press" in self.targets(query))
        query = "id=doi:10.5555/no-number&stitle=Ann+Tid+Stud"
        self.expect("a title of the reply", self.citation(query, "issn"), ["2901-0012"])
        asked = [self.services.asked[f"10.5555/beside{i}"] for i in range(5)]
        self.expect("asked once, then from the cache", asked, [1] * 5)

    def test_not_asked(self) -> None:
        """A citation that lacks nothing that the rules of its targets name, or no title; all without a number."""
        before = sum(self.services.asked.values())
        doi = "id=doi:10.5555/beside"
        for query in (
            f"{doi}5&issn=2901-0012&volume=12&date=2003&spage=101",
            f"{doi}5&title=Annals+of+Tidal+Studies&volume=12&date=2003&pages=101-118",
            f"{doi}5&isbn=9781234564728",  # of the catalogue, whose rule names nothing
            f"{doi}5&issn=1111-1119",
            "title=Nowhere",
            "issn=2901-0012",
        ):
            self.data(query)
            self.expect(query, sum(self.services.asked.values()), before)

    def test_faults(self) -> None:
        """A service that fails leaves the page as it is without a look-up."""
        for name in ("none", "busy", "half", "deep", "slow"):
            query = f"id=doi:10.5555/{name}&title=Annals+of+Tidal+Studies&volume=12&date=2003"
            self.expect(name, self.targets(query), f"{FULL_TEXT} doi-resolver")

    def test_off(self) -> None:
        before = sum(self.services.asked.values())
        self.site.edit(("openlink_lookup_more on;", "openlink_lookup_more off;"))
        self.data("id=doi:10.5555/beside7&title=Nowhere")
        self.data("id=doi:10.5555/beside7&issn=2901-0012")
        self.expect("off", sum(self.services.asked.values()), before)
        self.expect("off as the site comes", "js_var $openlink_lookup_more off;" in self.plain)
        self.site.write_site(self.plain.replace("openlink_lookup_more off;", "openlink_lookup_more on;"))
        self.data("id=doi:10.5555/beside7&title=Nowhere")
        self.expect("without the look-up", sum(self.services.asked.values()), before)
        self.site.write_site(replaced(self.plain, ((f"js_var ${it} off;\n", "") for it in SWITCHES)))
        self.expect(
            "a site from before", self.targets(f"id=doi:10.5555/beside7&{ARTICLE}").split(" ")[0], "tidal-press"
        )
        self.expect("nothing is asked", sum(self.services.asked.values()), before)

    def test_named(self) -> None:
        """What the update has written of the rules of the title's own targets decides; before it did, nothing."""
        path = Path(self.site.path("current/index/named"))
        written = path.read_text(encoding="ascii")
        self.expect(
            "what the update writes",
            written.splitlines()[:2],
            ["open-shelf\tdate volume", "tidal-press\tdate volume page"],
        )
        for named, query, count in (
            ("tidal-press\tdate\n", "issn=2901-0012&date=2003", 0),
            ("book-house\tdate volume page\n", "issn=2901-0012", 0),
            ("", "issn=2901-0012", 0),
            (None, "issn=2901-0012", 0),
            ("tidal-press\tdate\n", "issn=2901-0012&volume=12", 1),
        ):
            if named is None:
                path.unlink()
            else:
                path.write_text(named, encoding="ascii")
            self.data(f"id=doi:10.5555/beside8&{query}")
            self.expect(f"{named} {query}", self.services.asked["10.5555/beside8"], count)
        path.write_text(written, encoding="ascii")


@needs.command("openssl")
class Copies(SiteWithLookups):
    """The page has free copies."""

    switches = SWITCHES[1:]

    def shown(self, query: str) -> list[tuple[str, list[str]]]:
        """The headings of a page, each with the names of its links, without coverage."""
        page = self.site.get(f"/find?{query}")
        self.expect(f"{query}: the status", (page.status, page.headers["X-Evil"]), (200, None))
        self.tidy(f"{query}: the page", page.text)
        parts = re.findall(r"<h2>(.*?)</h2>\n<ul>(.*?)</ul>", page.text, re.S)
        return [(name, re.findall(r'<a href="[^"]*">(.*?)(?: <span>.*?</span>)*</a>', text)) for name, text in parts]

    def copy(self, name: str) -> Any:
        """The link of the free copy in the data of a DOI, None if it has none."""
        groups = [
            group for group in self.data(f"id=doi:10.5555/{name}&{ARTICLE}")["groups"] if group["name"] == "Free copy"
        ]
        return groups[0]["links"] if groups else None

    def test_copies(self) -> None:
        """The best place that a reader may follow, with its version and host."""
        published, repository = "Free copy: publisher’s version, at ", "repository.example.org"
        for name, label, url, host, version in (
            ("good", published, FREE, repository, "publishedVersion"),
            ("accepted", "Free copy: accepted manuscript, at ", FREE, repository, "acceptedVersion"),
            (
                "submitted",
                "Free copy: submitted manuscript, at ",
                "HTTPS://Preprints.Example.ORG:443/7?a=1#b",
                "preprints.example.org",
                "submittedVersion",
            ),
            ("unversioned", "Free copy, at ", FREE, repository, None),
            ("landing", published, "https://a.example.org/12", "a.example.org", "publishedVersion"),
            ("second", "Free copy, at ", FREE, repository, None),
            ("puny", "Free copy, at ", "https://xn--rpository-b4a.example.org/", "xn--rpository-b4a.example.org", None),
            (
                "quoted",
                published,
                "https://a.example.org/o'neil?a=(1)&amp;b='x'",
                "a.example.org",
                "publishedVersion",
            ),
        ):
            link = {"label": label + host, "url": url, "host": host}
            self.expect(name, self.copy(name), [link if version is None else {**link, "version": version}])
            self.expect(
                f"{name}: on the page", ("Free copy", [label + host]) in self.shown(f"id=doi:10.5555/{name}&{ARTICLE}")
            )
        self.expect("asked once, then from the cache", self.services.asked["copy:10.5555/good"], 1)
        sent = json.dumps([path for path, _ in self.services.heads if path.startswith("/v2/")])
        self.expect(
            "what is sent",
            ("/v2/10.5555%2Fgood?email=links@library.example.org" in sent, "issn" in sent),
            (True, False),
        )
        hosts = {heads["Host"] for path, heads in self.services.heads if path.startswith("/v2/")}
        self.expect("the host", hosts, {"api.unpaywall.org"})

    def test_place(self) -> None:
        """Below the library's own links and before loans; in German too."""
        own = [("Full text", ["Tidal Press", "AggregateNet"]), ("In the library", ["Library catalogue"])]
        free = ("Free copy", ["Free copy: publisher’s version, at repository.example.org"])
        more = ("More about it", ["Publisher&#39;s page (DOI)", "Search the web"])
        self.expect("full text", self.shown(f"id=doi:10.5555/good&{ARTICLE}"), [*own, free, more])
        loan = "issn=2901-0012&date=1850&volume=1&atitle=x"
        found = self.shown(f"id=doi:10.5555/good&{loan}")
        self.expect(
            "before the loan",
            [name for name, _ in found],
            ["In the library", "Free copy", "Request a copy", "More about it"],
        )
        page = self.site.get(f"/find?id=doi:10.5555/good&{loan}").text
        self.expect("what is said", ("there is a free copy." in page, "We found no full text" in page), (True, False))
        page = self.site.get(f"/find?id=doi:10.5555/closed&{loan}").text
        self.expect("without a copy", ("there is a free copy." in page, "We found no full text" in page), (False, True))
        groups = self.data(f"lang=de&id=doi:10.5555/good&{ARTICLE}")["groups"]
        label = "Freie Kopie: Fassung des Verlags, bei repository.example.org"
        self.expect(
            "in German",
            [(it.get("label"), it["links"][0]["label"]) for it in groups if it["name"] == "Free copy"],
            [("Freie Kopie", label)],
        )
        targets = json.loads(self.site.read("openlink/targets.json"))
        del targets["groups"]
        self.site.write_targets(targets)
        self.expect(
            "without groups", [name for name, _ in self.shown(f"id=doi:10.5555/good&{ARTICLE}")], ["Links", "Free copy"]
        )

    def test_not_counted(self) -> None:
        """It is no link of /go, and not counted in the log."""

        def logged(address: str) -> str:
            before = lines_of(self.site)
            self.site.get(address)
            return " ".join(added(self.site, "openlink.log", 1, before)[0].split(" ")[5:7])

        with_copy = logged(f"/find?id=doi:10.5555/good&{ARTICLE}")
        self.expect("in the log", with_copy, logged(f"/find?id=doi:10.5555/closed&{ARTICLE}"))
        self.expect(
            "what it has", with_copy, "found=2/6 targets=tidal-press,aggregate-net,catalogue,doi-resolver,web-search"
        )
        before = self.services.asked["copy:10.5555/accepted"]
        reply = self.site.get(f"/go?first=1&id=doi:10.5555/accepted&{ARTICLE}")
        self.expect("/go", (reply.status, reply.headers["Location"][:26]), (302, "https://press.example.com/"))
        self.expect("it asks for nothing", self.services.asked["copy:10.5555/accepted"], before)
        for key in ("first=1", "target=nobody"):
            reply = self.site.get(f"/go?{key}&id=doi:10.5555/good&issn=2901-0012&date=1850&volume=1")
            self.expect(f"{key}: no full text but the copy", (reply.status, FREE in reply.text), (200, True))
        before = sum(self.services.asked.values())
        for place in ("/cite", "/find.ris"):
            self.site.get(f"{place}?id=doi:10.5555/copied&{ARTICLE}")
        self.site.get(f"/find?id=arXiv:2101.00001&{ARTICLE}")
        self.expect("no page, no question", sum(self.services.asked.values()), before)

    def test_hostile(self) -> None:
        """An address that no reader may follow is none, and the page is as without."""
        for number, address in enumerate(NO_LINKS):
            query = f"id=doi:10.5555/no-link{number}&{ARTICLE}"
            self.expect(f"{address}: the link", self.copy(f"no-link{number}"), None)
            self.expect(f"{address}: asked", self.services.asked[f"copy:10.5555/no-link{number}"], 1)
            names = [name for name, _ in self.shown(query)]
            self.expect(f"{address}: the page", names, ["Full text", "In the library", "More about it"])
        for name in ("closed", "list", "text", "none", "deep", "huge", "half", "busy", "slow", "drip", "endless"):
            self.expect(f"{name}: the link", self.copy(name), None)
            self.expect(f"{name}: other links", len(self.shown(f"id=doi:10.5555/{name}&{ARTICLE}")), 3)

    def test_both(self) -> None:
        """A look-up and a copy, whose DOI may be that of a reply, have three seconds together."""
        self.expect("a retracted article", [name for name, _ in self.shown("id=doi:10.5555/retracted")][2], "Free copy")
        self.expect("the DOI of a reply", "Free copy" in [name for name, _ in self.shown("id=pmc:7000001")])
        start = time.monotonic()
        self.data("id=doi:10.5555/slow")
        self.expect("both late", time.monotonic() - start < patience(4))

    def test_off(self) -> None:
        self.site.edit(("openlink_free_copies on;", "openlink_free_copies off;"))
        before = sum(self.services.asked.values())
        self.expect("off", self.copy("good"), None)
        self.expect("off as the site comes", "js_var $openlink_free_copies off;" in self.plain)
        self.site.write_site(self.plain.replace("openlink_free_copies off;", "openlink_free_copies on;"))
        self.expect("without the look-up", self.copy("good"), None)
        self.expect("nothing is asked", sum(self.services.asked.values()), before)
