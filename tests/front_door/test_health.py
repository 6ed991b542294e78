"""What monitoring asks: the page /health, and which names the server for the machine itself takes."""
from __future__ import annotations

import datetime
import json
import os
from pathlib import Path

from fixtures.site_case import FORM
from fixtures.site_case import SiteCase
from fixtures.tls_site import HOST


def stamp(days: int) -> str:
    """The name of a version that was made that many days and an hour ago."""
    time = datetime.datetime.now(datetime.timezone.utc) - datetime.timedelta(days, 3600)
    return time.strftime("%Y%m%dT%H%M%SZ")


class Health(SiteCase):
    """What the page says."""

    processes = 4

    @classmethod
    def setUpClass(cls) -> None:
        super().setUpClass()
        targets = json.loads(cls.site.read("openlink/targets.json"))
        cls.site.write_targets({**targets, "folder": cls.site.path("in_use")})
        cls.site.keep()

    def setUp(self) -> None:
        super().setUp()
        self.addCleanup(Path(self.site.path("in_use")).unlink, missing_ok=True)

    def health(self) -> tuple[int, list[str]]:
        reply = self.site.get("/health", port=self.site.report_port)
        return reply.status, reply.text.splitlines()

    def use_version(self, days: int) -> str:
        """A version that was made that many days and an hour ago is in use. Returns its name."""
        name = stamp(days)
        os.makedirs(self.site.path(f"versions/{name}"), exist_ok=True)
        if os.path.lexists(self.site.path("in_use")):
            os.unlink(self.site.path("in_use"))
        os.symlink(f"versions/{name}", self.site.path("in_use"))
        return name

    def test_old(self) -> None:
        """The first line is `old` if the last update is longer ago than the limit of openlink.conf, or 9 days."""
        limit = "js_var $openlink_most_days 9;\n"
        self.use_version(9)
        now = datetime.datetime.now(datetime.timezone.utc)
        for days, line, first in (
            (8.9, limit, "ok"),
            (9.1, limit, "old"),
            (9.1, "", "old"),
            (8.9, "", "ok"),
            (9.1, limit.replace("9", "10"), "ok"),
            (300, limit.replace("9", "0"), "ok"),
        ):
            self.site.write("updated", (now - datetime.timedelta(days)).strftime("%Y%m%dT%H%M%SZ\n"))
            before = self.site.edit((limit, line))
            status, lines = self.health()
            self.expect(
                f"updated {days} days ago, with {line!r}",
                (status, lines[0], lines[-1].split(", ")[1]),
                (200, first, f"{int(days)} days ago"),
            )
            self.site.write("openlink.conf", before)

    def test_health(self) -> None:
        """Each process, the version and its age."""
        self.expect("no version", self.health()[1][-2], "no version")
        for days, text in ((0, "0 days old"), (1, "1 day old"), (9, "9 days old")):
            name = self.use_version(days)
            ports = [f"port {port} answers" for port in self.site.ports]
            self.expect(
                f"all is well, {text}",
                self.health(),
                (200, ["ok", *ports, f"version {name}, {text}", "no update by openlink-update is known"]),
            )

    def test_processes(self) -> None:
        """What is said once a process, or each, has ended."""
        self.use_version(0)
        self.site.kill(self.site.ports[0])
        status, lines = self.health()
        self.expect(
            "a process has ended",
            (status, lines[0], lines[1], lines[2]),
            (
                200,
                "some processes do not answer",
                f"port {self.site.ports[0]} does not answer",
                f"port {self.site.ports[1]} answers",
            ),
        )
        self.site.edit(*((f"    server 127.0.0.1:{port} max_fails=0;\n", "") for port in self.site.ports[1:]))
        status, lines = self.health()
        self.expect(
            "no process answers",
            (status, lines[:2]),
            (503, ["no process answers", f"port {self.site.ports[0]} does not answer"]),
        )

    def test_for_whom(self) -> None:
        self.expect(
            "another method", self.site.get("/health", "POST", b"", FORM, port=self.site.report_port).status, 405
        )
        self.expect("not for readers", self.site.get("/health").status, 404)

    def test_hosts(self) -> None:
        """A page whose name leads to the server for staff gets nothing from it."""
        for path in (
            "/why?issn=2901-0012",
            "/report.txt?issn=2901-0012",
            "/report?rft.issn=2901-0012",
            "/health",
            "/menu.css",
        ):
            for host in (
                "evil.example",
                f"evil.example:{self.site.report_port}",
                "127.0.0.1.evil.example",
                HOST,
                "[::1]",
            ):
                reply = self.site.get(path, headers={"Host": host}, port=self.site.report_port)
                self.expect(f"{path} as {host}", (reply.status, "2901" in reply.text), (421, False))
            for host in ("127.0.0.1:8079", "localhost:9000", "LOCALHOST"):
                self.expect(
                    f"{path} as {host}",
                    self.site.get(path, headers={"Host": host}, port=self.site.report_port).status,
                    200,
                )
