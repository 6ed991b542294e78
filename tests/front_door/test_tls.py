"""What an operator switches on with TLS: redirects to it, HSTS, a balancer, and /why with a password."""
from __future__ import annotations

import base64
import os
import re
import socket
import ssl
import subprocess
import time
import warnings
from pathlib import Path
from typing import Any

from fixtures import needs
from fixtures.patience import patience
from fixtures.patience import wait_until
from fixtures.site_case import ARTICLE
from fixtures.site_case import FORM
from fixtures.site_case import SiteCase
from fixtures.tls_site import HOST
from fixtures.tls_site import Peer
from fixtures.tls_site import with_tls

ONCE = (
    "Content-Security-Policy",
    "Cache-Control",
    "Cross-Origin-Opener-Policy",
    "Cross-Origin-Resource-Policy",
    "Permissions-Policy",
    "Referrer-Policy",
    "X-Content-Type-Options",
    "X-Robots-Tag",
)
# Addresses of the server for the machine itself, of which /why alone has a password.
OF_THE_LOCAL_SERVER = (
    "/report.txt",
    "/report",
    "/_report",
    "/health",
    "/why/",
    "/why/../report.txt",
    "/why/..%2freport.txt",
    "/why%2f..%2freport.txt",
    "/why/%2e%2e/report",
    "/why;/../report.txt",
    "/why%3f/../report.txt",
    "//why/../report",
)
SUITES = [  # of TLS 1.2, and whether the site takes them
    ("ECDHE-RSA-AES128-GCM-SHA256", True),
    ("ECDHE-RSA-AES256-GCM-SHA384", True),
    ("ECDHE-RSA-CHACHA20-POLY1305", True),
    ("AES128-SHA", False),
    ("AES256-GCM-SHA384", False),
    ("ECDHE-RSA-AES128-SHA256", False),
    ("ECDHE-RSA-AES256-SHA", False),
    ("DHE-RSA-AES128-SHA", False),
]
REFUSING = re.compile(r"# TLS for a name that .*?\n(#server \{\n.*?\n#\}\n)", re.S)


def greeted(
    peer: Peer, version: ssl.TLSVersion | None = None, suites: str | None = None, name: str | None = HOST
) -> Any:
    """A connection by TLS, ended, or the reason why there is none."""
    context = ssl.create_default_context(cafile=peer.certificate)
    context.check_hostname = False
    if version:
        context.minimum_version = context.maximum_version = version
    context.set_ciphers(suites or "ALL:@SECLEVEL=0")
    try:
        with socket.create_connection(("127.0.0.1", peer.port), patience(30)) as plain:
            with context.wrap_socket(plain, server_hostname=name) as connection:
                connection.sendall(b"GET /robots.txt HTTP/1.0\r\n\r\n")
                while connection.recv(1000):
                    pass
                return connection.version(), bool(connection.session and connection.session.has_ticket)
    except ssl.SSLError as fault:
        return fault.reason


def basic(text: str) -> dict[str, str]:
    return {"Authorization": "Basic " + base64.b64encode(text.encode()).decode()}


@needs.command("openssl")
class Tls(SiteCase):
    """A site with the lines of TLS."""

    def test_tls(self) -> None:
        """Readers are sent to it, with their forms, but neither certbot nor what watches the machine is."""
        os.makedirs(self.site.path("www/.well-known/acme-challenge"), exist_ok=True)
        self.site.write("www/.well-known/acme-challenge/token", "token.key")
        self.expect("certbot, without TLS", self.site.get("/.well-known/acme-challenge/token").text, "token.key")
        peer = with_tls(self.site)
        reply = peer.get(f"/find?{ARTICLE}")
        self.expect(
            "a page by TLS",
            (reply.status, "press.example.com" in reply.text, reply.headers["Strict-Transport-Security"]),
            (200, True, None),
        )
        for method, body, expected in (("GET", None, 301), ("HEAD", None, 301), ("POST", ARTICLE.encode(), 308)):
            reply = self.site.get("/find?a=b", method, body, FORM)
            self.expect(
                f"{method} without TLS",
                (reply.status, reply.headers["Location"]),
                (expected, f"https://{HOST}/find?a=b"),
            )
        reply = peer.get("/find/?a=b", "POST", ARTICLE.encode(), FORM)
        self.expect("a form with a slash too many", (reply.status, reply.headers["Location"]), (308, "/find?a=b"))
        reply = self.site.get("/.well-known/acme-challenge/token")
        self.expect("certbot, with TLS", (reply.status, reply.text), (200, "token.key"))
        for path in ("/.well-known/acme-challenge/none", "/.well-known/acme-challenge/../../../openlink.conf"):
            self.expect(f"{path}", self.site.get(path).status in (301, 404))
        self.expect("the readers' reports", peer.get("/report.txt").status, 404)

    def test_ciphers(self) -> None:
        """Forward secrecy in every version, no tickets, and no handshake for the name of a stranger."""
        peer = with_tls(self.site)
        for suite, is_taken in SUITES:
            got = greeted(peer, ssl.TLSVersion.TLSv1_2, f"{suite}:@SECLEVEL=0")
            self.expect(
                f"TLS 1.2 with {suite}", got, ("TLSv1.2", False) if is_taken else "SSLV3_ALERT_HANDSHAKE_FAILURE"
            )
        self.expect("TLS 1.3", greeted(peer, ssl.TLSVersion.TLSv1_3)[0], "TLSv1.3")
        with warnings.catch_warnings():
            warnings.simplefilter("ignore", DeprecationWarning)
            for version in (ssl.TLSVersion.TLSv1, ssl.TLSVersion.TLSv1_1):
                self.expect(f"{version.name}", greeted(peer, version), "TLSV1_ALERT_PROTOCOL_VERSION")

    def test_names_of_strangers(self) -> None:
        blocks = []
        for name in ("openlink.conf", "machine.conf"):
            blocks += REFUSING.findall(Path("front_door", name).read_text(encoding="utf-8"))
        self.expect("both sites have the same server for strangers", (len(blocks), len(set(blocks))), (2, 1))
        peer = with_tls(self.site)
        block = REFUSING.findall(self.site.read("openlink.conf"))[0]
        self.site.edit((block, re.sub(r"(?m)^#", "", block)))
        self.expect("the site's own name", greeted(peer)[0], "TLSv1.3")
        for other in ("evil.example", None):
            self.expect(f"the name {other}", greeted(peer, name=other), "TLSV1_UNRECOGNIZED_NAME")

    @needs.command("curl")
    def test_monitoring(self) -> None:
        """The commands that INSTALLING.md has for it."""
        with_tls(self.site)
        section = Path("docs/INSTALLING.md").read_text(encoding="utf-8").split("\n## Monitoring\n")[1]
        commands = section.split("```\n")[1].splitlines()
        self.expect("commands of Monitoring", len(commands), 2)
        for command in commands:
            words = ["sh", "-c", command.replace("127.0.0.1:8079", f"127.0.0.1:{self.site.report_port}")]
            self.expect(f"monitoring: {command}", subprocess.run(words, capture_output=True).returncode, 0)
            other = command.replace("ok", "down").replace("tidal-press", "nobody")
            words[2] = other.replace("127.0.0.1:8079", f"127.0.0.1:{self.site.report_port}")
            self.expect(f"monitoring finds a fault: {other}", subprocess.run(words, capture_output=True).returncode, 1)

    def test_balancer(self) -> None:
        peer = with_tls(self.site, "Strict-Transport-Security", "location = /health")
        self.expect("HSTS", peer.get("/find").headers["Strict-Transport-Security"], "max-age=31536000")
        self.expect("the other headers stay", peer.get("/find").headers["X-Content-Type-Options"], "nosniff")
        self.expect("another address", self.site.get("/health").status, 403)
        self.site.edit(("allow 192.0.2.20;", "allow 127.0.0.1;"))
        reply = self.site.get("/health", headers={"Host": "a"})
        self.expect("a balancer", (reply.status, reply.text.split("\n")[0]), (200, "ok"))

    def test_password(self) -> None:
        """The page for staff through the site: with a password, and nothing else of its server."""
        self.expect("off", self.site.get(f"/why?{ARTICLE}").status, 404)
        peer = with_tls(self.site, "why.conf")
        hashed = subprocess.run(["openssl", "passwd", "-6", "right"], capture_output=True, text=True, check=True).stdout
        self.site.write("openlink/passwords", f"staff:{hashed}")
        without: list[dict[str, str]] = [{}, basic("staff:wrong"), basic("nobody:right")]
        for sent in without:
            reply = peer.get(f"/why?{ARTICLE}", headers=sent)
            self.expect(
                f"without the password: {sent}",
                (reply.status, reply.headers["WWW-Authenticate"], "2901" in reply.text),
                (401, 'Basic realm="Link resolver"', False),
            )
        reply = peer.get(f"/why?{ARTICLE}", headers={**basic("staff:right"), "Accept-Language": "de"})
        self.expect(
            "with it",
            (reply.status, "<h2>Abfrage 2</h2>" in reply.text, "rft.issn=2901-0012" in reply.text),
            (200, True, True),
        )
        self.expect("its headers once", [len(reply.headers.get_all(name) or []) for name in ONCE], [1] * len(ONCE))
        self.expect("a form", peer.get("/why", "POST", ARTICLE.encode(), {**FORM, **basic("staff:right")}).status, 405)
        for path in OF_THE_LOCAL_SERVER:
            self.expect(path, peer.get(path, headers=basic("staff:right")).status, 404)
        reply = self.site.get(f"/why?{ARTICLE}", headers=basic("staff:right"))
        self.expect(
            "never without TLS", (reply.status, "2901-0012" in reply.text.replace("issn=2901-0012", "")), (301, False)
        )

    def test_guesses_of_a_password(self) -> None:
        """Five a second, after twenty that come at once. They are sent at once, in one connection."""
        peer = with_tls(self.site, "why.conf")
        self.site.write("openlink/passwords", "staff:{PLAIN}right\n")
        sent = basic("staff:wrong")["Authorization"]
        request = f"GET /why HTTP/1.1\r\nHost: {HOST}\r\nAuthorization: {sent}\r\n"
        start = time.monotonic()
        reply = peer.send(f"{request}\r\n".encode() * 99 + f"{request}Connection: close\r\n\r\n".encode())
        seconds = time.monotonic() - start
        statuses = [int(it) for it in re.findall(rb"^HTTP/1.1 (\d+)", reply, re.M)]
        self.expect("statuses", (len(statuses), set(statuses)), (100, {401, 429}))
        taken = statuses.count(401)
        self.expect(f"{taken} guesses in {seconds:.1f} s", 21 <= taken <= 22 + 5 * seconds)
        right = basic("staff:right")
        self.expect("the right one after them", wait_until(lambda: peer.get("/why", headers=right).status == 200))
