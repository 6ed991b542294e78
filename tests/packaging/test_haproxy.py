"""The example of a balancer: each line of haproxy.cfg is one that its table explains."""
from __future__ import annotations

import contextlib
import http.client
import os
import re
import shutil
import ssl
import subprocess
import tempfile

from fixtures import needs
from fixtures.cases import Case
from fixtures.certificates import write_certificate
from fixtures.patience import wait_until
from openlink_update import children
from packaging import declarations
from packaging import spoiling

FILE = "packaging/haproxy/haproxy.cfg"
HEALTH = "front_door/balancer.conf"


def text_of(path: str) -> str:
    with open(path, encoding="utf-8") as file:
        return file.read()


class Balancer(Case):
    """What haproxy.cfg declares, and what it must have in common with the machines' balancer.conf."""

    def test_each_line_is_as_the_table_says(self) -> None:
        self.expect("the files", os.listdir(os.path.dirname(FILE)), [os.path.basename(FILE)])
        spoiling.check_files(self, FILE)

    def test_each_spoilt_line_is_a_fault(self) -> None:
        spoiling.check_spoilt(self, FILE)

    def test_checks_are_for_the_page_of_the_machines(self) -> None:
        ports = set(re.findall(r"\bcheck port (\d+)", text_of(FILE)))
        page = [it.value for it in declarations.nginx(text_of(HEALTH)) if it[:2] == ("server", "listen")]
        self.expect("the port of the health page", [*ports], page)

    def test_all_backends_have_the_same_machines(self) -> None:
        machines: dict[str, list[str]] = {}
        for place, name, value in declarations.haproxy(text_of(FILE)):
            if name == "server":
                machines.setdefault(place, []).append(value)
        self.expect("the machine that makes versions", machines["backend maker"], machines["backend machines"][:1])
        self.expect("machines that are drained", machines["backend drained"], machines["backend machines"])


@needs.command("haproxy", "openssl")
class Tls(Case):
    """haproxy with the lines for TLS taken out of their comments. None of its machines exists."""

    def setUp(self) -> None:
        self.folder = tempfile.mkdtemp(prefix="haproxy.")
        self.addCleanup(shutil.rmtree, self.folder)
        self.plain, self.secure, self.closed = (children.free_port() for _ in range(3))
        write_certificate(f"{self.folder}/key", f"{self.folder}/chain", "a")
        with open(f"{self.folder}/certificate", "w", encoding="utf-8") as file:
            file.write(text_of(f"{self.folder}/chain") + text_of(f"{self.folder}/key"))
        with open(f"{self.folder}/haproxy.cfg", "w", encoding="utf-8") as file:
            file.write(self.configuration())
        path = f"{os.environ.get('PATH', '')}:/usr/sbin"
        words = ["haproxy", "-db", "-f", f"{self.folder}/haproxy.cfg"]
        child = children.start(words, self.folder, stderr=subprocess.DEVNULL, env={**os.environ, "PATH": path})
        self.addCleanup(children.stop, child)
        self.assertTrue(wait_until(lambda: self.replies("GET", "/find")), "haproxy does not start")

    def configuration(self) -> str:
        """The file with ports of this test, and without what needs root."""
        text = re.sub(r"^    (chroot|stats|user|group|log /dev/log) .*\n", "", text_of(FILE), flags=re.M)
        text = re.sub(r"^    #(?=\S)", "    ", text, flags=re.M).replace(
            "/etc/haproxy/certificate.pem", f"{self.folder}/certificate"
        )
        text = re.sub(r"192\.0\.2\.\d+:80 check port 8077", f"127.0.0.1:{self.closed} check", text)
        return text.replace("bind :80\n", f"bind 127.0.0.1:{self.plain}\n").replace(
            "bind :443 ", f"bind 127.0.0.1:{self.secure} "
        )

    def replies(self, method: str, path: str, is_secure: bool = False) -> tuple[int, str | None, str | None] | None:
        """The status, the address and the HSTS of a reply."""
        context = ssl.create_default_context(cafile=f"{self.folder}/chain")
        context.check_hostname = False
        connection = (
            http.client.HTTPSConnection("127.0.0.1", self.secure, context=context, timeout=60)
            if is_secure
            else http.client.HTTPConnection("127.0.0.1", self.plain, timeout=60)
        )
        with contextlib.suppress(ConnectionError), contextlib.closing(connection):
            connection.request(
                method, path, body="a=b" if method == "POST" else None, headers={"Host": "links.example"}
            )
            reply = connection.getresponse()
            return reply.status, reply.getheader("Location"), reply.getheader("Strict-Transport-Security")
        return None

    def test_pages_and_forms_go_to_tls(self) -> None:
        address = "https://links.example/find?a=b"
        self.expect("a page", self.replies("GET", "/find?a=b"), (301, address, None))
        self.expect("a form", self.replies("POST", "/find?a=b"), (308, address, None))
        self.expect("certbot", self.replies("GET", "/.well-known/acme-challenge/a"), (503, None, None))

    def test_browsers_keep_to_tls(self) -> None:
        for method in ("GET", "POST"):
            self.expect(method, self.replies(method, "/find", is_secure=True), (503, None, "max-age=31536000"))
