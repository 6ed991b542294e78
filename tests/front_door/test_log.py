"""The log: its form, and what it has of the source of a request."""
from __future__ import annotations

from fixtures.site_case import ARTICLE
from fixtures.site_case import SiteCase
from fixtures.site_case import added
from fixtures.site_case import faults_of_logs
from fixtures.site_case import lines_of

# What a request names as its source, and what the log has of it: nothing after the host.
SOURCES = [
    ("rfr_id=info:sid/en.wikipedia.org:Tidal_power", "info:sid/en.wikipedia.org"),
    ("rfr_id=info%3Asid%2Fen.wikipedia.org%2Fwiki%2FTidal_power", "info:sid/en.wikipedia.org"),
    ("rfr_id=info:sid/https://en.wikipedia.org/wiki/Tidal", "info:sid/en.wikipedia.org"),
    ("rfr_id=https://en.wikipedia.org/wiki/Tidal?a=secret", "info:sid/en.wikipedia.org"),
    ("rfr_id=info:ofi/nam:http://en.wikipedia.org/wiki/Tidal", "info:sid/en.wikipedia.org"),
    ("sid=google", "info:sid/google"),
    ("sid=Entrez:PubMed", "info:sid/Entrez"),
    ("sid=wos:a%20secret", "info:sid/wos"),
    ("rfr_id=info:sid/", ""),
    ("rfr_id=%3Cb%3E%0D%0Aa", "info:sid/_b___a"),
    ("rfr_id=info:sid/openlink:probe", "info:sid/openlink:probe"),
    ("rfr_id=info:sid/openlink:other", "info:sid/openlink"),
    ("sid=" + "a" * 300, "info:sid/" + "a" * 60),
    ("sid=" + "a" * 32, "info:sid/" + "a" * 32),
    ("sid=%C3%A9" + "a" * 31, "info:sid/_" + "a" * 31),
]


class Log(SiteCase):
    """One line for each request, without its query."""

    def test_sources(self) -> None:
        before = lines_of(self.site)
        for query, _ in SOURCES:
            self.site.get(f"/find.json?{query}&issn=2901-0012")
        found = [line.rpartition("from=")[2] for line in added(self.site, "openlink.log", len(SOURCES), before)]
        for (query, expected), got in zip(SOURCES, found):
            self.expect(f"the source of {query[:50]}", got, expected)
        self.expect("a line each", len(found), len(SOURCES))

    def test_links(self) -> None:
        """What the page shows, and what a redirect leads to."""
        before = lines_of(self.site)
        for target in (f"/find?{ARTICLE}", "/go?issn=2943-081X&date=2012"):
            self.site.get(target)
        found = [line.partition(" ")[2] for line in added(self.site, "openlink.log", 2, before)]
        self.expect("the log has links and sources", found[0].split(" ")[:3], ["200", "GET", "/find"])
        links = "found=2/5 targets=tidal-press,aggregate-net,catalogue,web-search from=info:sid/google"
        self.expect("those of a page", found[0].endswith(f" {links}"))
        self.expect("the log has redirects", found[1].split(" ")[:3], ["302", "GET", "/go"])
        self.expect("that of a redirect", found[1].endswith(" found=1/2 targets=estuary-online from="))

    def test_what_is_wrong(self) -> None:
        """What each test says of a log after it."""
        good = "2026-11-20T10:00:00+00:00 200 GET /find 0.004 found=2/5 targets=a.2,b from=info:sid/secret"
        self.expect("a good line", faults_of_logs([good], []), [])
        for name, old, new in (
            ("an ISSN", "/find", "/find?issn=1"),
            ("a text", "a.2", "secret"),
            ("a form", "found=", ""),
        ):
            line = good.replace(old, new)
            self.expect(name, set(faults_of_logs([line], [])), {line})
        self.expect("a line of the error log", faults_of_logs([good], ["no"]), ["no"])
