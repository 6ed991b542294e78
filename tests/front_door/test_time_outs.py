"""The time-outs of front_door/pages.conf: how long a client may send nothing, or take nothing."""
from __future__ import annotations

import concurrent.futures
import os
import socket
import time

from fixtures.patience import best_of_three
from fixtures.patience import patience
from fixtures.patience import wait_until
from fixtures.site_case import SiteCase
from fixtures.site_case import lines_of

# The seconds after which nginx ends a connection, and what its client sends: then it sends nothing more.
SENT = {
    "a head that stops": (5, b"GET /find HTTP/1.1\r\nHost: a\r\n"),
    "a form that stops": (5, b"POST /find HTTP/1.1\r\nHost: a\r\nContent-Length: 10\r\n\r\nissn"),
    "an idle connection": (15, b"GET /robots.txt HTTP/1.1\r\nHost: a\r\n\r\n"),
}
TAKEN = 10  # seconds after which a client that takes nothing has no connection
MEGABYTES = 12  # of a list, more than the system keeps for a connection


class TimeOuts(SiteCase):
    """Each is measured up to three times, beside the others."""

    def seconds_of(self, limit: float, sent: bytes) -> float:
        """How long a connection lasts once its client has sent this."""
        with socket.create_connection(("127.0.0.1", self.site.port), patience(5)) as peer:
            start = time.monotonic()
            peer.sendall(sent)
            peer.settimeout(2 * limit + patience(2))
            try:
                while peer.recv(65536):
                    pass
            except TimeoutError:
                pass
            return time.monotonic() - start

    def seconds_of_taking(self) -> float:
        """What the log says of a list of which a client takes nothing."""
        before = lines_of(self.site)
        with socket.socket() as peer:
            peer.setsockopt(socket.SOL_SOCKET, socket.SO_RCVBUF, 4096)
            peer.connect(("127.0.0.1", self.site.port))
            start = time.monotonic()
            peer.sendall(b"GET /export/kbart.txt HTTP/1.1\r\nHost: a\r\n\r\n")

            def found() -> list[str]:
                return [it for it in lines_of(self.site)[len(before) :] if "/export/kbart.txt" in it]

            wait_until(found, 2 * TAKEN)
            return float(found()[0].split(" ")[4]) if found() else time.monotonic() - start

    def fault_of(self, name: str) -> str | None:
        """Why a time-out is not as it should be."""
        limit, sent = SENT.get(name, (TAKEN, b""))
        seconds = self.seconds_of(limit, sent) if sent else self.seconds_of_taking()
        is_right = limit - 0.5 < seconds < limit + patience(1)
        return None if is_right else f"the connection ended after {seconds:.1f} s, and not after {limit} s"

    def best_fault_of(self, name: str) -> object:
        fault: object = best_of_three(lambda: self.fault_of(name))
        return fault

    def test_clients_that_stop(self) -> None:
        os.makedirs(self.site.path("current/export"))
        self.site.write("current/export/kbart.txt", "a" * MEGABYTES * 1_000_000)
        self.site.edit(('$openlink_export "";', '$openlink_export "kbart";'))
        names = [*SENT, "a reply that is not taken"]
        with concurrent.futures.ThreadPoolExecutor(len(names)) as pool:
            faults = list(pool.map(self.best_fault_of, names))
        for name, fault in zip(names, faults):
            self.expect(name, fault, None)
