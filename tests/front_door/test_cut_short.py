"""Replies that a process leaves when it ends while it writes, and those of a stranger at its port. No page may then say
that there are no links: nginx gives such a reply as status 200."""
from __future__ import annotations

import concurrent.futures
import json
from typing import Any

from fixtures.nginx_site import Site
from fixtures.site_case import SiteCase
from fixtures.stand_in_processes import ASKED_AGAIN
from fixtures.stand_in_processes import HEAD
from fixtures.stand_in_processes import LINK
from fixtures.stand_in_processes import QUERY
from fixtures.stand_in_processes import in_place
from fixtures.stand_in_processes import menu
from fixtures.stand_in_processes import reply_with
from fixtures.stand_in_processes import whole

TEXT = menu(LINK)
WHOLE = reply_with(TEXT)
CUT_SHORT = {
    "the head alone": HEAD.format(len(TEXT)),
    "half of the text": WHOLE[:-20],
    "all but the last byte": WHOLE[:-1],
    "half of the head": WHOLE[:40],
    "nothing": "",
    "the text without a head": TEXT,
    "another server": "HTTP/1.1 200 OK\r\nContent-Type: text/html\r\nConnection: close\r\n\r\n<h1>It works!</h1>\n",
}


def statuses(site: Site) -> tuple[list[int], Any]:
    """The statuses of /find, /go, /find.json, /report.txt and /why, and what /find.json says."""
    pages = [
        ("/find", site.port),
        ("/go", site.port),
        ("/find.json", site.port),
        ("/report.txt", site.report_port),
        ("/why", site.report_port),
    ]
    with concurrent.futures.ThreadPoolExecutor(len(pages)) as pool:
        replies = list(pool.map(lambda page: site.get(f"{page[0]}?{QUERY}", port=page[1]), pages))
    return [reply.status for reply in replies], json.loads(replies[2].text)


class CutShort(SiteCase):
    """All processes have ended."""

    has_processes = False

    def test_cut_short(self) -> None:
        down = ([503] * 5, {"error": 503})
        for name, text in CUT_SHORT.items():
            with in_place(self.site.ports, [lambda _: text] * 2):
                self.expect(f"{name}, for both queries", statuses(self.site), down)
            for which, is_first in (("first", True), ("second", False)):

                def reply_to(request: str) -> str:
                    return text if (ASKED_AGAIN not in request) == is_first else whole(request)

                with in_place(self.site.ports, [reply_to] * 2):
                    self.expect(f"{name}, for the {which} query", statuses(self.site), down)

    def test_whole(self) -> None:
        with in_place(self.site.ports, [whole] * 2):
            got, data = statuses(self.site)
        links = [link["url"] for group in data["groups"] for link in group["links"]]
        self.expect("whole replies", (got, links), ([200, 302, 200, 200, 200], ["https://press.example.com/12"]))

    def test_asked_again(self) -> None:
        seen = set()

        def first_cut_short(request: str) -> str:
            is_new = request not in seen
            seen.add(request)
            return whole(request)[: -1 if is_new else None]

        with in_place(self.site.ports, [first_cut_short] * 2):
            reply = self.site.get(f"/find.json?{QUERY}")
        got = (reply.status, "https://press.example.com/12" in reply.text)
        self.expect("each query is asked once more", got, (200, True))
