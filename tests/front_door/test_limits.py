"""The limits of readers: requests of an address at a time, long requests and searches a second."""
from __future__ import annotations

import re
import socket
import time

from fixtures.patience import patience
from fixtures.patience import wait_until
from fixtures.site_case import SiteCase


LONG, _BODY = "/find?issn=2901-0012&x=" + "a" * 3000, "issn=2901-0012&x=" + "a" * 4000
_POST = "POST /find HTTP/1.1\r\nHost: a\r\nContent-Type: application/x-www-form-urlencoded\r\nConnection: close\r\n"
FORMS = [
    f"{_POST}Content-Length: {len(_BODY):05}\r\n\r\n{_BODY}",
    f"{_POST}Transfer-Encoding: chunked\r\n\r\n{len(_BODY):x}\r\n{_BODY}\r\n0\r\n\r\n",
]
SEARCHES = ["/journals?q=tid", "/journals??q=tid", "/journals?%71=tid", "/books?a&amp;q=tid", "/books?q=a&lang=de"]


class Limits(SiteCase):
    """What comes too often gets a page with status 429, and all else is served."""

    def status_of(self, request: str) -> int:
        """That of the reply to a target, or to a whole request."""
        if request.startswith("POST "):
            return int(self.site.send(request.encode())[9:12])
        return self.site.get(request).status

    def test_requests_at_a_time(self) -> None:
        """Twenty requests of one address at a time; the next one gets a page with status 429. Each of the twenty has
        passed the limit once nginx asks for its body, which does not come."""
        form = b"Content-Type: application/x-www-form-urlencoded\r\nContent-Length: 10\r\nExpect: 100-continue\r\n\r\n"
        head = b"POST /find HTTP/1.1\r\nHost: a\r\n" + form
        peers = [socket.create_connection(("127.0.0.1", self.site.port), patience(5)) for _ in range(20)]
        for peer in peers:
            peer.sendall(head)
        self.expect("what twenty requests get", {peer.recv(1000) for peer in peers}, {b"HTTP/1.1 100 Continue\r\n\r\n"})
        reply = self.site.get("/find")
        self.expect("the request after twenty", (reply.status, "too many requests" in reply.text), (429, True))
        for peer in peers:
            peer.close()
        self.expect("after them", wait_until(lambda: self.site.get("/find").status == 200))

    def test_rates(self) -> None:
        """Fifty long requests and twenty searches a second, of all readers together, after fifty and forty at once. A
        search counts in every form of its key, and the pages of letters do not."""
        for name, its, rate, burst, count in (
            ("long", [LONG, *FORMS], 50, 50, 180),
            ("searches", SEARCHES, 20, 40, 120),
        ):
            start = time.monotonic()
            statuses = [self.status_of(its[i % len(its)]) for i in range(count)]
            seconds = time.monotonic() - start
            self.expect(f"{name}: statuses", set(statuses) <= {200, 429})
            good = statuses.count(200)
            self.expect(
                f"{name}: {good} of {count} in {seconds:.1f} s", min(count, burst) <= good <= 1 + burst + rate * seconds
            )
            others = [
                self.site.get(target).status for target in ("/find?issn=2901-0012", "/journals/a/1", "/books?lang=de")
            ]
            self.expect(f"{name}: other pages", others, [200, 200, 200])
        for target in (LONG, SEARCHES[0]):
            self.expect(f"after them: {target[:20]}", wait_until(lambda: self.site.get(target).status == 200))


class LongAddresses(SiteCase):
    """Those of every method are limited, by an nginx that has limited nothing before."""

    processes = 1

    def test_methods(self) -> None:
        """All are sent at once; nginx replies to one after the other."""
        for method, good in (("GET", 200), ("HEAD", 200), ("POST", 405)):
            lines = f"{method} /menu.css?x={'a' * 3000} HTTP/1.1\r\nHost: a\r\nContent-Length: 0\r\n"
            self.expect(f"before them: {method}", wait_until(lambda: self.site.get(LONG).status == 200))
            reply = self.site.send(f"{lines}\r\n".encode() * 150 + f"{lines}Connection: close\r\n\r\n".encode())
            statuses = re.findall(rb"^HTTP/1.1 (\d+)", reply, re.M)
            self.expect(f"replies: {method}", len(statuses), 151)
            self.expect(f"their statuses: {method}", {int(it) for it in statuses}, {good, 429})
