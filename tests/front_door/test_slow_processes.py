"""A process that takes five seconds for a menu: readers get no page of it, and so no probe of an update may hold there,
since both ask the processes by the same file of front_door. And no process at all."""
from __future__ import annotations

from pathlib import Path

from fixtures.site_case import SiteCase
from fixtures.stand_in_processes import QUERY
from fixtures.stand_in_processes import in_place
from fixtures.stand_in_processes import whole
from openlink_update.site import front_door
from openlink_update.site import probes

SECONDS = 5  # nginx leaves a process after three


def links_at(address: str) -> list[str] | str:
    """The names of the links that a probe finds there, or why there are none."""
    try:
        return list(probes.links(address, QUERY) or {})
    except probes.Unreachable as fault:
        return str(fault).removeprefix(f"{address}: ")


class SlowProcesses(SiteCase):
    """All processes have ended."""

    has_processes = False

    def test_readers_and_probes(self) -> None:
        site = self.site
        of_update = front_door.Site(Path(site.path("openlink.conf")))
        trial = Path(site.path("trial"))
        trial.mkdir(0o700)
        with front_door.FrontDoor(of_update, trial) as doors:
            door = doors.add_door(site.ports[:1], Path(site.version()), "")
            doors.start()
            self.expect("who may read and enter its folder", oct(trial.stat().st_mode), "0o40755")
            for seconds, expected in ((0, ["tidal-press"]), (SECONDS, f"status 503 for /find.json?{QUERY}")):
                with in_place(site.ports, [whole] * 2, seconds):
                    for name, address in (("readers", f"http://127.0.0.1:{site.port}"), ("probes", door)):
                        self.expect(f"{name}, of processes that take {seconds} s", links_at(address), expected)

    def test_an_empty_request_needs_none(self) -> None:
        """Readers get the form, and programs no link."""
        for page, text in (("/find", "<form "), ("/find.json", '"groups":[]')):
            empty, full = (self.site.get(f"{page}{query}") for query in ("", f"?{QUERY}"))
            self.expect(f"{page}: the status", (empty.status, full.status), (200, 503))
            self.expect(f"{page}: its text", text in empty.text)
