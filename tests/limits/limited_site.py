"""The site with the limits as they are shipped, and readers of any address: a balancer on 127.0.0.1 names theirs."""
from __future__ import annotations

import http.client
import subprocess
import time
from collections.abc import Callable
from collections.abc import Iterable
from pathlib import Path

from fixtures.cases import Case
from fixtures.nginx_site import Site
from fixtures.patience import patience

BALANCER = "set_real_ip_from 127.0.0.1;\nreal_ip_header X-Forwarded-For;\n"


class LimitedSite(Site):
    has_reader_limits = True

    def write_configuration(self) -> None:
        super().write_configuration()
        self.edit_before_start(lambda text: BALANCER + text)

    def edit_before_start(self, edited: Callable[[str], str]) -> None:
        """Edits openlink.conf before there is an nginx."""
        path = Path(self.path("openlink.conf"))
        path.write_text(edited(path.read_text(encoding="utf-8")), encoding="utf-8")

    def start_again(self) -> None:
        """With limits of which nothing is used."""
        self.nginx.terminate()
        self.nginx.wait()
        self.nginx = subprocess.Popen(self.command("-g", "daemon off;", "-e", self.path("log/start.log")))
        self.wait_for(self.port)


def replaced(text: str, *changes: tuple[str, str]) -> str:
    """The text with these changes, each of a text that it has once."""
    for old, new in changes:
        assert text.count(old) == 1, f"openlink.conf has {text.count(old)} times {old}"
        text = text.replace(old, new)
    return text


class Reader:
    """A client that has an address, and one connection for all that it sends."""

    def __init__(self, site: Site, address: str, **headers: str) -> None:
        self._headers = {"X-Forwarded-For": address, **headers}
        self._peer = http.client.HTTPConnection("127.0.0.1", site.port, timeout=patience(30))

    def get(self, target: str) -> tuple[int, str]:
        """The status and the text of a reply."""
        self._peer.request("GET", target, headers=self._headers)
        reply = self._peer.getresponse()
        return reply.status, reply.read().decode()

    def statuses(self, targets: Iterable[str]) -> list[int]:
        return [self.get(target)[0] for target in targets]

    def is_refused(self, target: str, most: int) -> bool:
        """Whether one of that many requests is refused; none is sent after it."""
        return any(self.get(target)[0] == 429 for _ in range(most))

    def close(self) -> None:
        self._peer.close()


def reader_of(case: Case, site: Site, address: str, **headers: str) -> Reader:
    """A reader whose connection ends with the test."""
    reader = Reader(site, address, **headers)
    case.addCleanup(reader.close)
    return reader


def timed(sent: Callable[[], list[int]]) -> tuple[list[int], float]:
    """What is sent, and the seconds that it took."""
    start = time.monotonic()
    return sent(), time.monotonic() - start
