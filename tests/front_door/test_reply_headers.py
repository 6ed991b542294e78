"""The headers that each address sends: all that browsers and caches act on, compared as a whole, and compression."""
from __future__ import annotations

import gzip

from fixtures.nginx_site import Reply
from fixtures.site_case import SiteCase

ARTICLE = "issn=2901-0012&volume=12&issue=3&spage=101&date=2003&atitle=Storm+surges&title=Annals+of+Tidal+Studies"
# What a reply says of itself. All other headers are compared.
OF_THE_REPLY = {
    "date",
    "content-type",
    "content-length",
    "connection",
    "transfer-encoding",
    "content-language",
    "vary",
    "content-disposition",
    "location",
    "last-modified",
    "etag",
    "accept-ranges",
}
COMMON = {
    "cache-control": "private, no-store",
    "cross-origin-opener-policy": "same-origin",
    "cross-origin-resource-policy": "same-origin",
    "permissions-policy": "camera=(), display-capture=(), geolocation=(), microphone=(), payment=(), usb=()",
    "x-content-type-options": "nosniff",
    "x-robots-tag": "noindex, nofollow",
}
READERS = {
    **COMMON,
    "server": "nginx",
    "referrer-policy": "strict-origin",
    "content-security-policy": "default-src 'none'; style-src 'self'; img-src 'self'; base-uri 'none'; "
    "form-action 'self'; frame-ancestors 'self'",
}
STAFF = {
    **COMMON,
    "referrer-policy": "no-referrer",
    "content-security-policy": "default-src 'none'; style-src 'self'; img-src 'self'; base-uri 'none'; "
    "form-action 'self'; frame-ancestors 'none'",
}
DATA = {"access-control-allow-origin": "*", "cross-origin-resource-policy": "cross-origin"}
DAY = {"cache-control": "public, max-age=86400"}
PAGES = {"allow": "GET, HEAD"}
FORMS = {"allow": "GET, HEAD, POST"}
ADDRESSES: list[tuple[str, str, int, dict[str, str]]] = [  # method, address, status, and headers that differ
    ("GET", "/", 301, {}),
    ("GET", f"/find?{ARTICLE}", 200, {}),
    ("GET", "/find/", 301, {}),
    ("POST", "/find/", 308, {}),
    ("GET", f"/find.json?{ARTICLE}", 200, DATA),
    ("GET", f"/find.ris?{ARTICLE}", 200, {}),
    ("GET", "/cite", 200, {}),
    ("GET", "/go?issn=2943-081X&date=2012", 302, {}),
    ("GET", "/go", 200, {}),
    ("GET", "/journals", 200, {}),
    ("GET", "/books?q=tidal", 200, {}),
    ("GET", "/openurl", 200, {}),
    ("GET", "/openurl.txt", 200, {}),
    ("GET", "/openurl/", 301, {}),
    ("GET", "/menu.css", 200, {"cache-control": "public, max-age=3600"}),
    ("GET", "/logo.svg", 200, {}),
    ("GET", "/favicon.ico", 204, DAY),
    ("GET", "/robots.txt", 200, DAY),
    ("GET", "/opensearch.xml", 200, {}),
    ("GET", "/.well-known/security.txt", 404, {}),
    ("GET", "/.well-known/acme-challenge/none", 404, {}),
    ("GET", "/export/kbart.txt", 404, {}),
    ("GET", "/none", 404, {}),
    ("GET", "/journals/none/1", 404, {}),
    ("GET", "/find?" + "a" * 9000, 414, {}),
    ("GET", "/find.json?a=" + "%" * 4000, 200, DATA),
    ("POST", "/go", 405, PAGES),
    ("DELETE", "/journals", 405, PAGES),
    ("POST", "/openurl.txt", 405, PAGES),
    ("PUT", "/robots.txt", 405, {**PAGES, **DAY}),
    ("POST", "/export/kbart.txt", 405, PAGES),
    ("PUT", "/find", 405, FORMS),
    ("DELETE", "/find.json?a", 405, {**DATA, **FORMS}),
    ("PATCH", "/", 405, FORMS),
    ("TRACE", "/find?a", 405, FORMS),
    ("TRACE", "/cite", 405, PAGES),
    ("OPTIONS", "/cite", 405, PAGES),
    ("POST", "/menu.css", 405, {**PAGES, "cache-control": "public, max-age=3600"}),
    ("POST", "/opensearch.xml", 405, PAGES),
]
STAFF_ADDRESSES: list[tuple[str, str, int, dict[str, str]]] = [
    ("GET", f"/why?{ARTICLE}", 200, {}),
    ("GET", "/health", 200, {}),
    ("GET", "/metrics", 200, {}),
    ("GET", f"/report?{ARTICLE}", 200, {}),
    ("GET", f"/report.txt?{ARTICLE}", 200, {}),
    ("GET", "/desk", 301, {}),
    ("GET", "/none", 404, {}),
    ("POST", "/why", 405, PAGES),
    ("DELETE", "/health", 405, PAGES),
]


def compared(reply: Reply) -> list[tuple[str, str]]:
    """The headers of a reply, sorted, in small letters. One that is sent twice is here twice."""
    pairs = [(name.lower(), value) for name, value in reply.headers.items()]
    return sorted(pair for pair in pairs if pair[0] not in OF_THE_REPLY)


class Headers(SiteCase):
    """The site has a logo of the library."""

    def setUp(self) -> None:
        super().setUp()
        self.site.write("openlink/logo.svg", "<svg/>")

    def test_policies(self) -> None:
        for port, common, addresses in (
            (self.site.port, READERS, ADDRESSES),
            (self.site.report_port, STAFF, STAFF_ADDRESSES),
        ):
            for method, address, status, others in addresses:
                reply = self.site.get(address, method, port=port)
                found = compared(reply)
                if port == self.site.report_port:
                    found = [pair for pair in found if pair[0] != "server"]
                self.expect(
                    f"{method} {address[:40]}", (reply.status, found), (status, sorted({**common, **others}.items()))
                )

    def test_compression(self) -> None:
        """Each page and each kind of data is compressed for a client that accepts it, and for no other."""
        for address in (
            f"/find?{ARTICLE}",
            f"/cite?{ARTICLE}",
            "/journals?q=tidal",
            f"/find.json?{ARTICLE}",
            f"/find.ris?{ARTICLE}",
            f"/openurl?rft.{ARTICLE.replace('&', '&rft.')}",
            "/menu.css",
            "/none",
        ):
            plain = self.site.get(address)
            packed = self.site.get(address, headers={"Accept-Encoding": "gzip"})
            self.expect(f"{address[:20]}: plain", plain.headers["Content-Encoding"], None)
            self.expect(f"{address[:20]}: compressed", packed.headers["Content-Encoding"], "gzip")
            if packed.headers["Content-Encoding"] == "gzip":
                self.expect(f"{address[:20]}: its text", gzip.decompress(packed.body), plain.body)
                self.expect(f"{address[:20]}: its length", len(packed.body) < len(plain.body))
            self.expect(f"{address[:20]}: caches", "Accept-Encoding" in (packed.headers.get_all("Vary") or []))
            self.expect(f"{address[:20]}: its type", packed.headers["Content-Type"], plain.headers["Content-Type"])
