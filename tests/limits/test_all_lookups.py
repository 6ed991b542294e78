"""The limits of all look-ups together: how many wait for their turn, how many leave in a second, and what is kept."""
from __future__ import annotations

import contextlib
import http.server
import re
import select
import socket
import threading
import time
from pathlib import Path

from fixtures import needs
from fixtures.cases import Case
from fixtures.patience import best_of_three
from fixtures.patience import patience
from fixtures.patience import wait_until
from limits.test_lookups import SiteWithLookups

WAITING, RATE = 3, 3
COUNTED = 7  # requests whose time is measured
# A reply that may be kept has at most 999,999 bytes: with its head, 245 blocks of 4,096 bytes on a disk, and 50 MB are
# 12,800 blocks.
BODY = b"a" * 999_900
MOST_KEPT, SENT = 52, 55
_RATE = re.compile(r"(zone=(openlink_(?:lookup_rate|reader_lookup)):\w+ rate=)\d+r/s")


class Service(http.server.BaseHTTPRequestHandler):
    """Knows every number."""

    body = b"{}"

    def do_GET(self) -> None:
        self.send_response(200)
        self.send_header("Content-Length", str(len(self.body)))
        self.end_headers()
        self.wfile.write(self.body)

    def log_message(self, *_: object) -> None:
        """It has no log."""


class LongService(Service):
    body = BODY


@needs.nginx()
@needs.program()
class AllLookups(Case):
    def start(self, service: type[Service], rate: str) -> None:
        """A site that asks this service, and lets so many leave; one reader's own limit counts for nothing."""
        server = http.server.ThreadingHTTPServer(("127.0.0.1", 0), service)
        threading.Thread(target=server.serve_forever, daemon=True).start()
        self.addCleanup(server.server_close)
        self.addCleanup(server.shutdown)
        SiteWithLookups.service = server.server_address[1]
        self.site = SiteWithLookups(processes=1)
        self.addCleanup(self.site.stop)

        def rated(found: re.Match[str]) -> str:
            return f"{found[1]}100000r/s" if found[2] == "openlink_reader_lookup" or not rate else f"{found[1]}{rate}"

        self.site.edit_before_start(lambda text: _RATE.sub(rated, text))
        self.site.start()
        self.port = int(
            re.findall(r'\$openlink_lookup "http://127\.0\.0\.1:(\d+)"', self.site.read("openlink.conf"))[0]
        )

    def look_up(self, number: str) -> int:
        return self.site.get(f"/doi?id=10.5555/{number}", port=self.port).status

    def test_those_that_wait(self) -> None:
        """One leaves, three wait, and the next one is refused at once."""
        self.start(Service, "1r/m")
        self.expect("the first", self.look_up("first"), 200)
        with contextlib.ExitStack() as stack:
            peers = []
            for number in range(WAITING + 1):
                peer = stack.enter_context(socket.create_connection(("127.0.0.1", self.port), patience(10)))
                peer.sendall(f"GET /doi?id=10.5555/{number} HTTP/1.0\r\nHost: localhost\r\n\r\n".encode())
                peers.append(peer)
            ended = select.select(peers, [], [], patience(10))[0]
            self.expect("replies of those that wait", [it.recv(12) for it in ended], [b"HTTP/1.1 503"])

    def test_rate(self) -> None:
        """Each that follows another one at once leaves a third of a second after it."""
        self.start(Service, f"{RATE}r/s")
        shipped = Path("front_door/openlink.conf").read_text(encoding="utf-8")
        self.expect("the rate", re.findall(r"openlink_lookup_rate:\w+ rate=(\S+);", shipped), [f"{RATE}r/s"])
        rounds = []

        def fault() -> str | None:
            rounds.append(len(rounds))
            start = time.monotonic()
            statuses = [self.look_up(f"{rounds[-1]}-{number}") for number in range(COUNTED)]
            seconds, least = time.monotonic() - start, (COUNTED - 1) / RATE
            is_right = statuses == [200] * COUNTED and least - 0.1 <= seconds <= least * 1.15 + patience(0.1)
            return None if is_right else f"{statuses} in {seconds:.2f} s, and not {least:.2f} s"

        self.expect("the time of seven", best_of_three(fault), None)

    def test_what_is_kept(self) -> None:
        """Fifty megabytes stay on the disk, and nginx removes what is beyond."""
        self.start(LongService, "")
        folder = Path(self.site.path("lookups"))

        def kept() -> int:
            return sum(path.is_file() for path in folder.rglob("*"))

        self.expect("replies", {self.look_up(str(number)) for number in range(SENT)}, {200})
        self.expect("files", wait_until(lambda: kept() <= MOST_KEPT, 30))
        self.expect("those that stay", kept(), MOST_KEPT)
        self.expect("the last one is among them", self.look_up(str(SENT - 1)), 200)
