"""A client that sends numbers without a pause gets few of them looked up, and other readers' numbers are looked up as
before. A server on loopback plays Crossref, by HTTP."""
from __future__ import annotations

import http.server
import json
import re
import threading

from fixtures import needs
from fixtures.cases import Case
from fixtures.local_ports import free_ports
from fixtures.patience import wait_until
from limits.limited_site import LimitedSite
from limits.limited_site import Reader
from limits.limited_site import reader_of
from limits.limited_site import replaced

WORK = {"type": "journal-article", "title": ["Storm surges"], "ISSN": ["2901-0012"], "volume": "12", "issue": "3"}
REPLY = json.dumps({"status": "ok", "message": WORK}).encode()
OTHERS = 8  # readers, each with a number


class Crossref(http.server.BaseHTTPRequestHandler):
    """Knows every DOI."""

    heads: list[str] = []

    def do_GET(self) -> None:
        self.heads.append(f"{self.path}\n{self.headers}")
        self.send_response(200)
        self.send_header("Content-Length", str(len(REPLY)))
        self.end_headers()
        self.wfile.write(REPLY)

    def log_message(self, *_: object) -> None:
        """It has no log."""


class SiteWithLookups(LimitedSite):
    """The look-up is switched on, as an operator does it, and asks this port by HTTP."""

    service: int

    def write_configuration(self) -> None:
        super().write_configuration()
        self.edit_before_start(self._with_lookups)

    def _with_lookups(self, text: str) -> str:
        at = text.index("# ---- Look-up")
        text = text[:at] + re.sub(r"(?m)^#(?=[a-z}]| {4})", "", text[at:])
        return replaced(
            text.replace("127.0.0.1:8078", f"127.0.0.1:{free_ports(1)[0]}"),
            ("#js_var $openlink_lookup", "js_var $openlink_lookup"),
            ("/var/lib/nginx/openlink", self.path("lookups")),
            ("openlink_crossref api.crossref.org", f"openlink_crossref 127.0.0.1:{self.service}"),
            ("https://$openlink_crossref", "http://$openlink_crossref"),
        )


def is_looked_up(reader: Reader, doi: str) -> bool:
    return "2901-0012" in reader.get(f"/find.json?id=doi:{doi}")[1]


@needs.nginx()
@needs.program()
class Lookups(Case):
    def setUp(self) -> None:
        super().setUp()
        server = http.server.ThreadingHTTPServer(("127.0.0.1", 0), Crossref)
        threading.Thread(target=server.serve_forever, daemon=True).start()
        self.addCleanup(server.server_close)
        self.addCleanup(server.shutdown)
        SiteWithLookups.service = server.server_address[1]
        self.site = SiteWithLookups(processes=2)
        self.addCleanup(self.site.stop)
        self.site.start()

    def test_flood(self) -> None:
        sent, is_over = [], threading.Event()

        def flood() -> None:
            client = reader_of(self, self.site, "198.51.100.1")
            while not is_over.is_set():
                sent.append(is_looked_up(client, f"10.5555/flood{len(sent)}"))

        thread = threading.Thread(target=flood)
        thread.start()
        self.expect("the client is refused", wait_until(lambda: False in sent))
        others = [
            is_looked_up(reader_of(self, self.site, f"203.0.113.{number}"), f"10.5555/other{number}")
            for number in range(OTHERS)
        ]
        is_over.set()
        thread.join()
        self.expect(f"the others, beside {len(sent)} numbers of the client", others, [True] * OTHERS)
        heads = "\n".join(Crossref.heads).lower()
        self.expect("the service learns of no reader", ("/works/" in heads, "openlink-reader" in heads), (True, False))
        self.expect("nor of an address", [it for it in ("198.51.100", "c6336401") if it in heads], [])
