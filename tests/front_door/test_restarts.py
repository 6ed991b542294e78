"""Readers whose requests meet processes that are killed, restarted or stopped, and what they get if none is left."""
from __future__ import annotations

import http.client
import json
import signal
import threading
import time

from fixtures.nginx_site import Site
from fixtures.patience import best_of_three
from fixtures.patience import patience
from fixtures.patience import wait_until
from fixtures.site_case import ARTICLE
from fixtures.site_case import SiteCase

READERS = 4
# The seconds after which program.js asks once more, and after which openlink.conf leaves a process that does not reply.
ASKED_AGAIN, READ_TIMEOUT = 0.4, 3


Exchange = tuple[int, float, float]


class Readers:
    """Each sends a request after another as long as the block lasts. A reply is its status, or 0 if there is none, and
    when the request began and ended."""

    def __init__(self, site: Site, path: str) -> None:
        self.site, self.path, self.is_told = site, path, False
        self.replies: list[list[Exchange]] = [[] for _ in range(READERS)]
        self.threads = [threading.Thread(target=self.read, args=(replies,), daemon=True) for replies in self.replies]

    def __enter__(self) -> Readers:
        for thread in self.threads:
            thread.start()
        self.wait_for(5)
        return self

    def __exit__(self, *_: object) -> None:
        self.is_told = True
        for thread in self.threads:
            thread.join()

    def read(self, replies: list[Exchange]) -> None:
        while not self.is_told:
            start = time.monotonic()
            try:
                status = self.site.get(self.path).status
            except (OSError, http.client.HTTPException):
                status = 0
            replies.append((status, start, time.monotonic()))
            time.sleep(0.01)

    def wait_for(self, number: int, since: float = 0) -> None:
        """Waits until each reader has that many replies to requests that it sent after a moment."""

        def are_there() -> bool:
            return all(sum(start > since for _, start, _ in replies[:]) >= number for replies in self.replies)

        if not wait_until(are_there, 60):
            raise RuntimeError(f"a reader of {self.path} has no {number} replies")

    def all(self) -> list[Exchange]:
        return [reply for replies in self.replies for reply in replies]

    def statuses(self) -> set[int]:
        return {status for status, _, _ in self.all()}


class Restarts(SiteCase):
    """Four readers ask while it happens."""

    processes = 4

    def test_one_killed(self) -> None:
        one = self.site.ports[0]
        with Readers(self.site, f"/find?{ARTICLE}") as readers:
            self.site.kill(one)
            readers.wait_for(25, since=time.monotonic())
        self.expect("one process killed", readers.statuses(), {200})

    def test_all_restarted(self) -> None:
        """Only a request that begins before all processes listen again may fail, and none if they do so before
        program.js asks again."""
        with Readers(self.site, f"/find?{ARTICLE}") as readers:
            killed = time.monotonic()
            self.site.kill()
            for port in self.site.ports:
                self.site.start_process(port)
            for port in self.site.ports:
                self.site.wait_for(port)
            listening = time.monotonic()
            readers.wait_for(25, since=listening)
        is_long = listening - killed >= ASKED_AGAIN
        wrong = [
            (status, start - killed, end - killed)
            for status, start, end in readers.all()
            if status != 200 and not (is_long and status == 503 and end > killed and start < listening)
        ]
        self.expect(f"all processes restarted, which listen after {listening - killed:.2f} s", wrong[:3], [])

    def test_one_stopped(self) -> None:
        """A process that is stopped is left for another after its time-out."""
        one, statuses = self.site.processes[self.site.ports[0]], set[int]()

        def fault_of() -> str | None:
            with Readers(self.site, f"/find?{ARTICLE}") as readers:
                one.send_signal(signal.SIGSTOP)
                met = wait_until(
                    lambda: [end for _, start, end in readers.all() if end - start > READ_TIMEOUT * 0.9], 10
                )
                readers.wait_for(1, since=time.monotonic())
            one.send_signal(signal.SIGCONT)
            statuses.update(readers.statuses())
            slowest = max(end - start for _, start, end in readers.all())
            return None if met and slowest < READ_TIMEOUT + patience(1) else f"the slowest reply took {slowest:.2f} s"

        fault = best_of_three(fault_of)
        self.expect("one process stopped", statuses, {200})
        self.expect("the slowest of them", fault, None)

    def test_none_left(self) -> None:
        self.site.kill()
        reply = self.site.get(f"/find?{ARTICLE}")
        self.expect("no process", (reply.status, "The service is not available just now." in reply.text), (503, True))
        self.tidy("no process", reply.text)
        reply = self.site.get(f"/find.json?{ARTICLE}")
        self.expect("no process, as JSON", (reply.status, json.loads(reply.text)), (503, {"error": 503}))
        reply = self.site.get(f"/why?{ARTICLE}", port=self.site.report_port)
        is_said = "The service is not available just now." in reply.text
        self.expect("no process, for staff", (reply.status, reply.text.count("<h2>"), is_said), (503, 0, True))
        self.tidy("no process, for staff", reply.text)
        self.expect("no process, passed on", self.site.get(f"/openurl?{ARTICLE}").status in (502, 503, 504))
