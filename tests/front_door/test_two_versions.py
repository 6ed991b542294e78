"""Pages while processes have different versions, as they do while an update restarts them: each page is that of one
process, since the links of two versions together are those of none."""
from __future__ import annotations

import json
import re

from fixtures.nginx_site import Site
from fixtures.site_case import SiteCase
from fixtures.stand_in_processes import ASKED_AGAIN
from fixtures.stand_in_processes import LINK
from fixtures.stand_in_processes import QUERY
from fixtures.stand_in_processes import ReplyTo
from fixtures.stand_in_processes import in_place
from fixtures.stand_in_processes import menu
from fixtures.stand_in_processes import reply_with

PAGES = 12
PORT = r"https://(?:coastal-law|tidal-press)\.example\.com/(\d+)"


def reply_of(port: int) -> ReplyTo:
    """What a process replies whose version has the links of no other's."""

    def link(name: str) -> dict[str, object]:
        return {**LINK, "link": f"https://{name}.example.com/{port}", "part": name, "target": name}

    return lambda _: reply_with(menu(link("tidal-press"), link("coastal-law")))


def ended_after_one(port: int) -> ReplyTo:
    """The same of one that ends before it replies to the second query of a page."""
    reply_to = reply_of(port)
    return lambda request: "" if ASKED_AGAIN in request else reply_to(request)


def ports_of_pages(site: Site, path: str) -> list[list[int]]:
    """The ports in the links of each page, of which a status other than 200 has none."""
    found = []
    for _ in range(PAGES):
        reply = site.get(f"{path}?{QUERY}")
        found.append(sorted(map(int, re.findall(PORT, reply.text))) if reply.status == 200 else [])
    return found


class TwoVersions(SiteCase):
    """All processes have ended."""

    processes = 4
    has_processes = False

    def test_pages(self) -> None:
        ports = self.site.ports
        with in_place(ports, map(reply_of, ports)):
            for path in ("/find.json", "/find"):
                found = ports_of_pages(self.site, path)
                mixed = [ports for ports in found if len(ports) != 2 or len(set(ports)) != 1]
                self.expect(f"{path}: pages of two versions", mixed, [])
                replied = {port for ports in found for port in ports}
                self.expect(f"{path}: several processes replied", len(replied) > 1 and replied <= set(ports))

    def test_one_ends(self) -> None:
        one, *others = self.site.ports
        with in_place(self.site.ports, [ended_after_one(one), *map(reply_of, others)]):
            found = ports_of_pages(self.site, "/find.json")
        wrong = [ports for ports in found if len(ports) != 2 or len(set(ports)) != 1 or one in ports]
        self.expect("pages of a process that ends between its replies, and of two versions", wrong, [])

    def test_all_end(self) -> None:
        with in_place(self.site.ports, map(ended_after_one, self.site.ports)):
            reply = self.site.get(f"/find.json?{QUERY}")
        got = (reply.status, json.loads(reply.text))
        self.expect("all processes end between their replies", got, (503, {"error": 503}))
