"""The limits of all readers together: how many requests may come at once, and how many in a second. Where one is tried,
all others are so high that they count for nothing."""
from __future__ import annotations

import re
import time
from pathlib import Path
from typing import NamedTuple

from fixtures import needs
from fixtures.cases import Case
from limits.limited_site import LimitedSite
from limits.limited_site import reader_of
from limits.limited_site import replaced

LONG = "a" * 3000
SECONDS = 1.5  # of a flood
_RATE = re.compile(r"(?<=zone=)(\w+)(:\w+ rate=)\d+r/s(?=;)")


class Limit(NamedTuple):
    name: str
    target: str
    zone: str
    burst: int
    rate: int


LIMITS = (
    Limit("long queries", f"/menu.css?{LONG}", "openlink_long", 50, 50),
    Limit("long queries of the lists", f"/journals?lang={LONG}", "openlink_long", 50, 50),
    Limit("long queries of staff", f"/why?{LONG}", "openlink_long", 50, 50),
    Limit("searches", "/journals?q=tid", "openlink_search", 40, 20),
    Limit("passwords", "/why", "openlink_staff", 20, 5),
)


@needs.nginx()
@needs.program()
class AllReaders(Case):
    site: LimitedSite
    limits: str  # http.conf as it is shipped

    @classmethod
    def setUpClass(cls) -> None:
        cls.site = LimitedSite(processes=1)
        cls.addClassCleanup(cls.site.stop)
        Path(cls.site.path("openlink/passwords")).write_text("staff:{PLAIN}right\n", encoding="utf-8")
        line = f"include {cls.site.path('openlink/why.conf')};"
        cls.site.edit_before_start(lambda text: replaced(text, (f"#{line}", line)))
        cls.limits = cls.site.read("openlink/http.conf")
        cls.site.start()

    def start_with(self, zone: str, rate: str) -> None:
        """This zone has the rate, or its own if there is none, and all others have a high one."""

        def rated(found: re.Match[str]) -> str:
            own = rate or found[0].rpartition("rate=")[2]
            return f"{found[1]}{found[2]}{own if found[1] == zone else '100000r/s'}"

        text, count = _RATE.subn(rated, self.limits)
        self.expect("zones", (count, text.count("100000r/s")), (7, 6))
        self.site.write("openlink/http.conf", text)
        self.site.start_again()

    def test_bursts(self) -> None:
        """One request, and as many more as may come at once, are served, and the next one is refused."""
        for limit in LIMITS:
            self.start_with(limit.zone, "1r/m")
            reader = reader_of(self, self.site, "198.51.100.1")
            statuses = reader.statuses([limit.target] * (limit.burst + 2))
            refused = [place for place, status in enumerate(statuses, 1) if status == 429]
            self.expect(f"{limit.name}: those that are refused", refused, [limit.burst + 2])

    def test_rates(self) -> None:
        """Of a flood, as many are served as the rate says, from its first request to one that is refused."""
        for limit in [it for place, it in enumerate(LIMITS) if place not in (1, 2)]:
            self.start_with(limit.zone, "")
            reader = reader_of(self, self.site, "198.51.100.1")
            begun = time.monotonic()
            status, served = reader.get(limit.target)[0], 1
            first = sent = came = time.monotonic()
            while status != 429 or came - first < SECONDS:
                sent = time.monotonic()
                status = reader.get(limit.target)[0]
                came = time.monotonic()
                served += status != 429
            least, most = limit.burst + limit.rate * (sent - first), 1 + limit.burst + limit.rate * (came - begun)
            what = f"{limit.name}: {served} in {came - begun:.2f} s, {least:.1f} to {most:.1f}"
            self.expect(what, least - 1 <= served <= most + 1)
