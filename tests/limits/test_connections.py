"""Connections of one client that send no request: First start allows nginx more of them than such a client opens."""
from __future__ import annotations

import re
import subprocess
from pathlib import Path

from fixtures import needs
from fixtures.cases import Case
from fixtures.nginx_site import Site
from limits.idle_clients import idle_connections
from limits.idle_clients import status_for

DEBIAN = 768  # connections of a worker, in Debian's nginx.conf
IDLE = 900  # connections of one client
CLIENT, READER = "127.0.0.2", "127.0.0.3"


def command_of_first_start() -> str:
    """The command of INSTALLING that allows more connections."""
    page = Path("docs/INSTALLING.md").read_text(encoding="utf-8")
    found = re.findall(r"^```\n(grep -q worker_rlimit_nofile .*?)^nginx -t ", page, re.M | re.S)
    assert len(found) == 1, "INSTALLING has not once the command for connections"
    return str(found[0])


class DebianSite(Site):
    """nginx.conf allows as few connections as Debian's does."""

    def write_configuration(self) -> None:
        super().write_configuration()
        path = Path(self.path("nginx.conf"))
        text = path.read_text(encoding="utf-8").replace("worker_rlimit_nofile 8192;\n", "")
        assert "worker_connections 2048;" in text, "nginx.conf has another limit"
        path.write_text(text.replace("worker_connections 2048;", f"worker_connections {DEBIAN};"), encoding="utf-8")


@needs.nginx()
@needs.program()
class Connections(Case):
    def test_idle_connections(self) -> None:
        site = DebianSite(processes=2)
        self.addCleanup(site.stop)
        command = command_of_first_start().replace("/etc/nginx/nginx.conf", site.path("nginx.conf"))
        subprocess.run(["sh", "-c", command], check=True)
        text = Path(site.path("nginx.conf")).read_text(encoding="utf-8")
        limits = re.findall(r"worker_(?:connections|rlimit_nofile) (\d+);", text)
        self.expect("descriptors and connections", limits, ["16384", "4096"])
        site.start()
        with idle_connections(CLIENT, site.port, IDLE) as peers:
            self.expect("connections of the client", len(peers), IDLE)
            self.expect("another reader", [status_for(READER, site.port) for _ in range(5)], [200] * 5)
