"""The page /metrics: it has the form that Prometheus reads, says the same as /health, and shows of the desk's lines
those of that form alone."""
from __future__ import annotations

import datetime
import json
import os
import re
from pathlib import Path

from fixtures.site_case import SiteCase

LINE = re.compile(r'openlink_[a-z_]+(\{[a-z]+="[\w.-]*"\})? -?\d+(\.\d+)?(e[+-]\d+)?')
STAMP = "%Y%m%dT%H%M%SZ"
DESK = """# HELP openlink_run_status The exit status of the last update.
# TYPE openlink_run_status gauge
openlink_run_status 1
openlink_target_rows{target="a.b-c_D"} 1234567
"""
# The first line of each number.
HELP = (
    "# HELP openlink_process_up Whether a process of the program answers.",
    "# HELP openlink_version_timestamp_seconds When the version in use was made.",
    "# HELP openlink_update_timestamp_seconds When an update last ended well.",
    "# HELP openlink_nginx_connections Open connections of nginx, of all its sites.",
    "# HELP openlink_nginx_requests_total Requests of nginx, of all its sites.",
    DESK.partition("\n")[0],
)
# What no line of the desk may bring in.
ODD = (
    "other_name 1",
    'openlink_x{a="<b>"} 1',
    "openlink_x 1 2\t3",
    'openlink_x{a="b\\""} 1',
    "# EOF",
    "openlink_x NaNx",
    "\x00",
    "x openlink_x 1",
    "openlink_x 1 x",
    "# HELP openlink_x <b>",
    "# TYPE other_name gauge",
)


def seconds(name: str) -> float:
    return datetime.datetime.strptime(name, STAMP).replace(tzinfo=datetime.timezone.utc).timestamp()


class Metrics(SiteCase):
    processes = 3

    @classmethod
    def setUpClass(cls) -> None:
        super().setUpClass()
        site = cls.site
        targets = json.loads(site.read("openlink/targets.json"))
        site.write_targets({**targets, "folder": site.path("in_use")})
        os.makedirs(site.path("versions/20261120T040000Z"))
        os.symlink("versions/20261120T040000Z", site.path("in_use"))
        Path(site.path("updated")).write_bytes(b"20261127T040102Z\r\n")  # as an editor may leave it
        os.makedirs(site.path("desk/current/state"))
        Path(site.path("desk/current/state/metrics.txt")).write_text(DESK + "\n".join(ODD) + "\n")
        site.keep()

    def metrics(self) -> dict[str, float]:
        reply = self.site.get("/metrics", port=self.site.report_port)
        self.expect(
            "the page", (reply.status, reply.headers["Content-Type"]), (200, "text/plain; version=0.0.4; charset=utf-8")
        )
        self.expect("the end of its last line", reply.text[-1:], "\n")
        lines = reply.text.splitlines()
        self.expect("lines of another form", [it for it in lines if it[:1] != "#" and not LINE.fullmatch(it)], [])
        typed = [it.split()[2] for it in lines if it.startswith("# TYPE")]
        help_lines = [it for it in lines if it.startswith("# HELP")]
        helped = [it.split()[2] for it in help_lines]
        self.expect("other descriptions", sorted({*help_lines} - {*HELP}), [])
        self.expect("each is described once", (typed, len(set(typed))), (helped, len(helped)))
        self.expect("lines of the desk that have another form", sorted({*lines} & {*ODD}), [])
        counters = [it.split()[2] for it in lines if it.startswith("# TYPE") and it.endswith(" counter")]
        self.expect("counters", counters, ["openlink_nginx_requests_total"])
        return {name: float(value) for name, value in (it.rsplit(" ", 1) for it in lines if it[:1] != "#")}

    def test_same_as_health(self) -> None:
        for stopped in (0, 1):
            if stopped:
                self.site.kill(self.site.ports[0])
            found = self.metrics()
            health = self.site.get("/health", port=self.site.report_port).text
            for port in self.site.ports:
                self.expect(
                    f"port {port}",
                    found[f'openlink_process_up{{port="{port}"}}'],
                    float(f"port {port} answers" in health),
                )
            self.expect(
                "processes that answer", sum(it for name, it in found.items() if "process_up" in name), 3 - stopped
            )
            self.expect("the version", "version 20261120T040000Z" in health, True)
            self.expect("its time", found["openlink_version_timestamp_seconds"], seconds("20261120T040000Z"))
            self.expect("the update", "updated 20261127T040102Z" in health, True)
            self.expect("its time too", found["openlink_update_timestamp_seconds"], seconds("20261127T040102Z"))
        self.site.start_process(self.site.ports[0])
        self.site.wait_for(self.site.ports[0])

    def test_nginx_and_desk(self) -> None:
        first = self.metrics()
        request = "GET /none HTTP/1.1\r\nHost: a\r\n{}\r\n".format
        self.site.send((request("") * 4 + request("Connection: close\r\n")).encode())
        second, name = self.metrics(), "openlink_nginx_requests_total"
        plain = [it.removeprefix("openlink_") for it in first if "{" not in it]
        times = ["version_timestamp_seconds", "update_timestamp_seconds"]
        self.expect("the order", plain, [*times, "nginx_connections", "nginx_requests_total", "run_status"])
        self.expect("five requests of one connection, and this one", second[name] - first[name], 6)
        self.expect("connections", first["openlink_nginx_connections"] >= 1, True)
        self.expect(
            "the desk's", (first["openlink_run_status"], first['openlink_target_rows{target="a.b-c_D"}']), (1, 1234567)
        )
        os.rename(self.site.path("desk"), self.site.path("away"))
        try:
            self.expect("without a desk", "openlink_run_status" in self.metrics(), False)
        finally:
            os.rename(self.site.path("away"), self.site.path("desk"))

    def test_without_times(self) -> None:
        """Before the first version, and the first update that ended well, there is no time of one, and none is zero."""
        for name, metric in (("in_use", "openlink_version"), ("updated", "openlink_update")):
            time = f"{metric}_timestamp_seconds"
            os.rename(self.site.path(name), self.site.path("away"))
            try:
                found = self.metrics()
            finally:
                os.rename(self.site.path("away"), self.site.path(name))
            self.expect(f"{time} without {name}", time in found, False)
            self.expect(f"{time} with {name}", time in self.metrics())

    def test_lines_of_the_desk(self) -> None:
        path = Path(self.site.path("desk/current/state/metrics.txt"))
        before = path.read_text()
        try:
            for count in (2000, 2001):
                path.write_text("".join(f'openlink_target_rows{{target="t{it}"}} 1\n' for it in range(count)))
                text = self.site.get("/metrics", port=self.site.report_port).text
                self.expect(f"{count} lines", text.count("openlink_target_rows"), 2000)
        finally:
            path.write_text(before)

    def test_for_whom(self) -> None:
        for path in ("/metrics", "/_status", "/_status/"):
            self.expect(f"{path} for readers", self.site.get(path).status, 404)
        self.expect("/_status", self.site.get("/_status", port=self.site.report_port).status, 404)
        self.expect("a method", self.site.get("/metrics", "POST", port=self.site.report_port).status, 405)
