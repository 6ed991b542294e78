"""openlink-fetch: what becomes of a download when one of its transfers ends, and what is left for the next try."""
from __future__ import annotations

import dataclasses
from unittest import mock

from fixtures.cases import Case
from openlink_update.fetch import downloads
from openlink_update.fetch import transfers

FIRST, OTHER = "https://press.example.com/a", "https://other.example.com/b"
MB = 2**20
CANNOT_WRITE = "the disk is full or cannot be written"


@dataclasses.dataclass
class Ended:
    """A transfer that has ended so, after these seconds and with these bytes."""

    status: int = 0
    exit: int = 0
    seconds: float = 1
    bytes: int = 0
    said: str | None = None
    redirect: str = ""

    @property
    def reply(self) -> transfers._Reply:
        return transfers._Reply(status=self.status, remote="8.8.8.8", redirect=self.redirect)

    def end(self) -> None:
        """It has ended already."""

    def took(self) -> float:
        return self.seconds

    def written(self) -> int:
        return self.bytes

    def fault(self) -> str | None:
        return self.said


def download(conditions: list[str] | None = None) -> downloads.Download:
    return downloads.Download(FIRST, ["X-Key: 1"], conditions or [], "/nonexistent/body", 600, 10)


def after(*ends: Ended, conditions: list[str] | None = None) -> downloads.Download:
    """A download after its transfers have ended so."""
    made = download(conditions)
    for end in ends:
        made.transfer = end  # type: ignore[assignment]
        made.end()
    return made


class Replies(Case):
    def test_statuses(self) -> None:
        for status in (408, 425, 429, 500, 502, 503, 504):
            self.expect(f"{status} once", (after(Ended(status)).fault, after(Ended(status)).tries), (None, 2))
            self.expect(f"{status} twice", after(*[Ended(status)] * 2).fault, None)
            words = downloads.http.client.responses[status]
            self.expect(f"{status} three times", after(*[Ended(status)] * 3).fault, f"{status} {words}")
        for status in (204, 206, 300, 304, 305, 400, 401, 403, 404, 410, 501):
            words = downloads.http.client.responses[status]
            self.expect(f"{status}", after(Ended(status)).fault, f"{status} {words}")
        self.expect("a status without words", after(Ended(299)).fault, "299")
        whole = after(Ended(200))
        self.expect("200", (whole.is_whole, whole.is_unchanged, whole.fault), (True, False, None))
        same = after(Ended(304), conditions=['If-None-Match: "1"'])
        self.expect("304 that was asked for", (same.is_whole, same.is_unchanged, same.fault), (False, True, None))

    def test_redirects(self) -> None:
        """They lead to another address, which gets none of the headers; a new try begins at the first one."""
        with mock.patch.object(downloads, "Lookup"):
            for status in (301, 302, 303, 307, 308):
                led = after(Ended(status, redirect=OTHER))
                self.expect(f"{status}", (led.address, led.redirects, led.fault), (OTHER, 1, None))
                self.expect(f"{status} to nowhere", after(Ended(status)).fault is None, False)
            again = after(Ended(302, redirect=OTHER), Ended(503))
            self.expect("a new try", (again.address, again.redirects, again.tries), (FIRST, 0, 2))
            led = after(*[Ended(302, redirect=OTHER)] * 5)
            self.expect("five", (led.redirects, led.fault), (5, None))
            led = after(*[Ended(302, redirect=OTHER)] * 3, Ended(503), *[Ended(302, redirect=OTHER)] * 5)
            self.expect("five of a new try", (led.redirects, led.fault), (5, None))
            led = after(*[Ended(302, redirect=OTHER)] * 6)
            self.expect("six", led.fault, "more than 5 redirects")
            self.expect("capitals", after(Ended(302, redirect="HTTPS://Other.example.com/b")).fault, None)


class Limits(Case):
    def test_pauses(self) -> None:
        """Ten seconds before the second try, and twice as many before the third."""
        with mock.patch.object(downloads.time, "monotonic", return_value=100.0):
            self.expect("the second", after(Ended(503)).ready_at, 110)
            self.expect("the third", after(*[Ended(503)] * 2).ready_at, 120)

    def test_time(self) -> None:
        """All tries have 600 seconds together, and so have lookups."""
        slow = after(Ended(503, seconds=299.5))
        self.expect("some are left", (slow.seconds, slow.fault), (300.5, None))
        said = "503 Service Unavailable, within 600 seconds"
        self.expect("none are left", after(*[Ended(503, seconds=299.75)] * 2).fault, said)
        self.expect("one is left", after(*[Ended(503, seconds=299.5)] * 2).fault, None)
        with mock.patch.object(downloads, "Lookup") as lookup:
            lookup.return_value.took.return_value = 9
            lookup.return_value.addresses.return_value = ["198.51.100.7"]
            led = after(Ended(302, redirect=OTHER, seconds=599.5))
            self.expect("a redirect", led.fault, "no end, within 600 seconds")
            led = after(Ended(302, redirect=OTHER, seconds=100))
            with mock.patch.object(downloads, "is_inner", return_value=False):
                self.expect("after a lookup", (led.is_ready(), led.seconds, led.fault), (True, 491, None))

    def test_bytes(self) -> None:
        """All tries bring 256 MB together."""
        some = after(Ended(0, exit=18, said="ended", bytes=156 * MB))
        self.expect("some are left", (some.bytes, some.fault), (100 * MB, None))
        none = after(*[Ended(0, exit=18, said="ended", bytes=128 * MB)] * 2)
        self.expect("none are left", none.fault, "ended")

    def test_ends_of_curl(self) -> None:
        for name, exit, is_tried in (
            ("no name", 6, True),
            ("no connection", 7, True),
            ("HTTP/2", 16, True),
            ("a part", 18, True),
            ("no end", 28, True),
            ("TLS", 35, True),
            ("no reply", 52, True),
            ("sending", 55, True),
            ("receiving", 56, True),
            ("a stream", 92, True),
            ("ended by a signal", -15, True),
            ("a certificate", 60, False),
            ("too large", 63, False),
            ("an address", 3, False),
        ):
            ended = after(Ended(exit=exit, said=name))
            self.expect(name, (ended.fault, ended.tries), (None, 2) if is_tried else (name, 1))

    def test_whose_fault(self) -> None:
        """A write that fails is this machine's, unless the file was too large."""
        for written, is_own in ((7, True), (256 * MB, False)):
            ended = after(Ended(exit=23, said=CANNOT_WRITE, bytes=written))
            self.expect(f"after {written} bytes", (ended.has_failed, ended.fault), (is_own, CANNOT_WRITE))
