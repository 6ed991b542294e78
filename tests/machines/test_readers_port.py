"""The line of SEVERAL.md that closes a machine's site to whoever comes past the balancer, with front_door/balancer.conf."""
from __future__ import annotations

import http.client
import os
import pathlib
import re
import shutil
import subprocess
import tempfile

from fixtures import needs
from fixtures.cases import Case
from fixtures.local_ports import free_ports
from fixtures.patience import patience
from fixtures.patience import wait_until

PAGE, BALANCER = "docs/SEVERAL.md", "front_door/balancer.conf"
LINE = re.compile(r"^ +(if \(\$openlink_direct\).*)$", re.M)
CONF = """{user}pid {folder}/nginx.pid;
error_log {folder}/error.log crit;
events {{ worker_connections 64; }}
http {{
    access_log off;
    client_body_temp_path {folder}/temp;
    proxy_temp_path {folder}/temp;
    fastcgi_temp_path {folder}/temp;
    uwsgi_temp_path {folder}/temp;
    scgi_temp_path {folder}/temp;
    {balancer}
    server {{
        listen 127.0.0.1:{port};
        {line}
        location / {{ return 200 $remote_addr; }}
    }}
}}
"""


@needs.nginx()
class ReadersPort(Case):
    def setUp(self) -> None:
        super().setUp()
        self.folder, self.port = pathlib.Path(tempfile.mkdtemp(prefix="port.")), free_ports(1)[0]
        self.addCleanup(shutil.rmtree, self.folder)

    def start(self, line: str) -> None:
        """nginx with the part of balancer.conf before its health page, and a site with a line. The balancer is at
        127.0.0.2."""
        balancer = pathlib.Path(BALANCER).read_text(encoding="utf-8").partition("\nserver {")[0]
        text = CONF.format(
            folder=self.folder,
            port=self.port,
            line=line,
            user="user root;\n" if os.getuid() == 0 else "",
            balancer=balancer.replace("192.0.2.20", "127.0.0.2"),
        )
        (self.folder / "nginx.conf").write_text(text, encoding="utf-8")
        words = ["nginx", "-c", f"{self.folder}/nginx.conf", "-p", str(self.folder), "-g", "daemon off;"]
        child = subprocess.Popen([*words, "-e", f"{self.folder}/start.log"])
        self.addCleanup(child.wait)
        self.addCleanup(child.terminate)
        self.assertTrue(wait_until(lambda: self.answer("127.0.0.1") is not None), "nginx does not start")

    def answer(self, source: str) -> str | None:
        """What a request from an address gets, which names a reader as the balancer does."""
        peer = http.client.HTTPConnection("127.0.0.1", self.port, timeout=patience(10), source_address=(source, 0))
        try:
            peer.request("GET", "/", headers={"X-Forwarded-For": "198.51.100.7"})
            return peer.getresponse().read().decode()
        except (ConnectionError, http.client.RemoteDisconnected):
            return None
        finally:
            peer.close()

    def test_only_the_balancer(self) -> None:
        lines = LINE.findall(pathlib.Path(PAGE).read_text(encoding="utf-8"))
        self.expect("the page has the line", len(lines), 1)
        self.start(lines[0])
        self.expect("the balancer, for a reader", self.answer("127.0.0.2"), "198.51.100.7")
        self.expect("the machine itself", self.answer("127.0.0.1"), "127.0.0.1")
        self.expect("anybody else", self.answer("127.0.0.3"), None)

    def test_without_the_line(self) -> None:
        self.start("")
        self.expect("anybody else", self.answer("127.0.0.3"), "127.0.0.3")
