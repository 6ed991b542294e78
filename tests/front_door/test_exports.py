"""What a site serves only if it says so: lists for others, the log of what was asked for in vain, and IPv6."""
from __future__ import annotations

import datetime
import socket
from pathlib import Path

from fixtures import needs
from fixtures.local_ports import free_ports
from fixtures.patience import patience
from fixtures.site_case import ARTICLE
from fixtures.site_case import FORM
from fixtures.site_case import SiteCase
from fixtures.site_case import added
from fixtures.site_case import lines_of

# Requests, and the number and year that the log has of those that found no full text.
WANTED = [
    ("issn=3006-1962&date=1921&atitle=secret&sid=secret&aulast=secret", "3006-1962 1921"),
    ("rft.eissn=3006-1962&rft.date=2013-08-01", "3006-1962 2013"),
    ("isbn=0-306-40615-2&genre=book", "9780306406157 -"),
    (ARTICLE, None),
    ("atitle=secret&title=secret", None),
    ("id=doi:10.5555/secret", None),
    ("issn=3006-1962&rfr_id=info:sid/openlink:probe", None),
    ("issn=secret", None),
    ("", None),
    ("issn=3006-1962&date=secret", "3006-1962 -"),
]
NO_EXPORTS = [
    "/export/",
    "/export/../index/format",
    "/export/scholar/",
    "/export/none.txt",
    "/index/format",
    "/export/scholar/../../registry.tsv",
    "/export/scholar/links.xml%20kbart%20/export/kbart.txt",
    "/export/kbart.txt/",
]


class Exports(SiteCase):
    """Each is off at first."""

    def test_exports(self) -> None:
        """Each list is served only if the site names it."""
        made = {
            "scholar/holdings-1.xml": "text/xml",
            "scholar/links.xml": "text/xml",
            "kbart.txt": "text/tab-separated-values",
            "titles.tsv": "text/tab-separated-values",
        }
        for name in made:
            path = Path(self.site.version(), "export", name)
            path.parent.mkdir(parents=True, exist_ok=True)
            path.write_text(f"{name} é\n", encoding="utf-8")
        line, on = 'js_var $openlink_export "{}";', ""
        for kinds, shown in (
            ("", ()),
            ("scholar", ("scholar",)),
            ("titles kbart", ("kbart", "titles")),
            ("scholars", ()),
        ):
            if kinds != on:
                self.site.edit((line.format(on), line.format(kinds)))
            on = kinds
            for name, kind in made.items():
                reply = self.site.get(f"/export/{name}")
                expected = (200, f"{kind}; charset=utf-8", f"{name} é\n") if name.startswith(shown or "-") else (404,)
                got = (
                    (reply.status, reply.headers["Content-Type"], reply.text)
                    if reply.status == 200
                    else (reply.status,)
                )
                self.expect(f"{name} with '{kinds}'", got, expected)
            for target in NO_EXPORTS:
                self.expect(f"{target} with '{kinds}'", self.site.get(target).status, 404)
        self.site.edit((line.format(on), line.format("kbart")))
        self.expect("another method", self.site.get("/export/kbart.txt", "POST", b"", FORM).status, 405)
        self.expect("its headers", self.site.get("/export/kbart.txt").headers["X-Content-Type-Options"], "nosniff")

    def test_wanted(self) -> None:
        """Only if the site says so; and then only the number and the year."""
        name, line = "openlink-wanted.log", "js_var $openlink_log_wanted {};"
        for query, _ in WANTED:
            self.site.get(f"/find?{query}")
        self.expect("off", lines_of(self.site, name), [])
        self.site.edit((line.format("off"), line.format("on")))
        expected = [text for _, text in WANTED if text is not None]
        for path in ("/find", "/find.json", "/go"):
            before = lines_of(self.site, name)
            for query, _ in WANTED:
                self.site.get(f"{path}?{query}")
            found = added(self.site, name, len(expected), before)
            self.expect(f"{path}: the numbers and years", [line.partition(" ")[2] for line in found], expected)
            months = {datetime.datetime.now(zone).strftime("%Y-%m") for zone in (None, datetime.timezone.utc)}
            self.expect(
                f"{path}: the month and nothing else",
                {line.split(" ")[0] for line in found} <= months and all(len(line.split(" ")) == 3 for line in found),
            )
        self.site.get("/cite?issn=3006-1962")
        self.site.get("/find.ris?issn=3006-1962")
        self.expect("forms are no requests", len(lines_of(self.site, name)), 3 * len(expected))

    @needs.ipv6()
    def test_address_families(self) -> None:
        """The line for IPv6 serves readers there."""
        port = free_ports(1)[0]
        self.site.edit(("    #listen [::]:80;", f"    listen [::1]:{port};"))
        with socket.create_connection(("::1", port), patience(30)) as peer:
            peer.sendall(b"GET /find HTTP/1.1\r\nHost: a\r\nConnection: close\r\n\r\n")
            self.expect("a reader by IPv6", peer.recv(12), b"HTTP/1.1 200")
