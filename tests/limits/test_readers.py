"""One reader who sends too much is refused, and all others get their pages as before. Readers who share an address are
one reader, and so are all addresses of a /56 of IPv6."""
from __future__ import annotations

import base64
from typing import NamedTuple

from fixtures import needs
from fixtures.cases import Case
from limits.limited_site import LimitedSite
from limits.limited_site import reader_of
from limits.limited_site import replaced
from limits.limited_site import timed

SHARED = "192.0.2.10"  # openlink.conf names it
SEARCH = "/journals?q=tid"
LONG = "/find?issn=2901-0012&x=" + "a" * 3000
PAGE = "/find"


class Flood(NamedTuple):
    """What a client sends, the requests at once and in a second that it may send, and those that it sends."""

    name: str
    target: str
    burst: int
    rate: int
    count: int


FLOODS = (
    Flood("pages", PAGE, 150, 30, 400),
    Flood("long queries", LONG, 20, 5, 120),
    Flood("searches", SEARCH, 30, 2, 120),
    Flood("passwords", "/why", 10, 1, 120),
)


def password(of: str) -> dict[str, str]:
    return {"Authorization": f"Basic {base64.b64encode(of.encode()).decode()}"}


@needs.nginx()
@needs.program()
class Readers(Case):
    site: LimitedSite

    @classmethod
    def setUpClass(cls) -> None:
        cls.site = LimitedSite(processes=2)
        cls.addClassCleanup(cls.site.stop)
        with open(cls.site.path("openlink/passwords"), "w", encoding="utf-8") as file:
            file.write("staff:{PLAIN}right\n")
        line = f"include {cls.site.path('openlink/why.conf')};"
        cls.site.edit_before_start(lambda text: replaced(text, (f"#{line}", line)))
        cls.site.start()

    def setUp(self) -> None:
        super().setUp()
        self.site.start_again()

    def test_floods(self) -> None:
        """A client that sends without a pause, and another reader who sends the same twice a hundred times less."""
        for number, flood in enumerate(FLOODS):
            client = reader_of(self, self.site, f"198.51.100.{number}", **password("staff:guess"))
            other = reader_of(self, self.site, f"203.0.113.{number}", **password("staff:right"))
            others: list[int] = []

            def sent() -> list[int]:
                found: list[int] = []
                for round_ in range(10):
                    found += client.statuses([flood.target] * (flood.count // 10))
                    others.extend(other.statuses([flood.target]))
                return found

            statuses, seconds = timed(sent)
            good = len(statuses) - statuses.count(429)
            most = 1 + flood.burst + flood.rate * seconds
            self.expect(f"{flood.name}: {good} of the client's in {seconds:.1f} s", flood.burst < good <= most)
            self.expect(f"{flood.name}: the other reader", others, [200] * 10)

    def test_readers_who_share_an_address(self) -> None:
        """Thirty, each with a page, its style, the logo, the icon, and a search."""
        each = ["/journals", "/menu.css", "/logo.svg", "/favicon.ico", SEARCH]
        statuses = [reader_of(self, self.site, "198.51.100.30").statuses(each) for _ in range(30)]
        self.expect("what they get", statuses, [[200, 200, 404, 204, 200]] * 30)

    def test_shared_addresses(self) -> None:
        """An address that openlink.conf names is in no limit of a reader."""
        reader = reader_of(self, self.site, SHARED, **password("staff:right"))
        self.expect("pages", set(reader.statuses([PAGE] * 400)), {200})
        for name, target, count in (("searches", SEARCH, 38), ("passwords", "/why", 18), ("long", LONG, 45)):
            self.expect(name, set(reader.statuses([target] * count)), {200})

    def test_prefixes(self) -> None:
        """Who counts as the same reader as whom."""
        for name, one, two, is_same in (
            ("two of IPv4", "198.51.100.40", "198.51.100.41", False),
            ("IPv4 written as IPv6", "198.51.100.42", "::ffff:198.51.100.42", True),
            ("the first and the last of a /56", "2001:db8:0:100::", "2001:db8:0:1ff:ffff:ffff:ffff:ffff", True),
            ("the next /56", "2001:db8:0:2ff::1", "2001:db8:0:300::1", False),
            ("another /48", "2001:db8:1:400::1", "2001:db8:2:400::1", False),
        ):
            self.site.start_again()
            self.expect(f"{name}: the first", reader_of(self, self.site, one).is_refused(SEARCH, 200))
            # Fewer than a reader may send at once, and more than are allowed again meanwhile on a slow machine.
            is_refused = reader_of(self, self.site, two).is_refused(SEARCH, 5)
            self.expect(f"{name}: whether the second is refused", is_refused, is_same)
