"""Services of a given number of connections: the sample library with its front door, and one that ends after three."""
from __future__ import annotations

import html
import re
import socket
import subprocess
from urllib.parse import urlsplit

from fixtures import needs
from fixtures.cases import Case
from fixtures.examples import Examples
from fixtures.needs import PROGRAM
from fixtures.patience import patience

LINK = re.compile(r'^<li><a href="(.*)">(.*)</a></li>$', re.M)


def reaches(host: str, port: int) -> bool:
    """A connection is taken there."""
    try:
        socket.create_connection((host, port), patience(5)).close()
        return True
    except OSError:
        return False


def body_at(address: str, target: str) -> str:
    """The body of the reply to a request for this target at an address with a port."""
    host, port = address.split(":")
    with socket.create_connection((host, int(port)), patience(30)) as peer:
        peer.sendall(f"GET {target} HTTP/1.1\r\nHost: {address}\r\nConnection: close\r\n\r\n".encode())
        reply = b""
        while part := peer.recv(65536):
            reply += part
    return reply.partition(b"\r\n\r\n")[2].decode()


class ServeCase(Case):
    """Services that end by themselves, or with the test."""

    def setUp(self) -> None:
        super().setUp()
        self.examples = Examples()
        self.addCleanup(self.examples.close)

    def start(self, *words: str) -> subprocess.Popen[str]:
        service = self.examples.start(*words)
        self.addCleanup(self.end, service)
        return service

    def end(self, service: subprocess.Popen[str]) -> None:
        service.terminate()
        service.communicate()

    def expect_end(self, service: subprocess.Popen[str]) -> None:
        self.expect("it ends after the last connection", service.wait(patience(30)), 0)

    def read(self, name: str) -> str:
        return (self.examples.folder / "examples" / name).read_text(encoding="utf-8")


@needs.program()
@needs.nginx()
class SampleLibrary(ServeCase):
    """examples/library/serve, for two connections: the menu takes one, and so does the reader's page."""

    def test_both_addresses(self) -> None:
        service = self.start("examples/library/serve", PROGRAM, "0", "2")
        assert service.stdout
        offers = [service.stdout.readline().rstrip("\n") for _ in range(2)]
        self.expect("what is offered", [re.sub(r" http://.*", "", it) for it in offers], ["open", "for readers"])
        menu, page = [urlsplit(it.rpartition(" ")[2]) for it in offers]
        links = LINK.findall(body_at(menu.netloc, f"{menu.path}?{menu.query}"))
        lines = [f"{name}\t{html.unescape(link)}" for link, name in links]
        self.expect("the menu", lines, self.read("library/article.menu").splitlines())
        text = html.unescape(body_at(page.netloc, f"{page.path}?{page.query}"))
        others = self.read("library/any-article.menu").splitlines()
        of_any = [it for it in others if not it.startswith("interlibrary-loan")]
        for line in [*lines, *of_any]:
            name, _, link = line.partition("\t")
            self.expect(f"the reader's page has {name}", f'<a href="{link}"' in text)
        self.expect_end(service)


@needs.program()
class Connections(ServeCase):
    """`serve` for three connections."""

    def test_three(self) -> None:
        self.expect("the codes", self.examples.run("examples/menu/compile")[0], 0)
        service = self.start(PROGRAM, "serve", "examples/menu/registry.tsv", "0", "3")
        assert service.stdout
        address = service.stdout.readline().rstrip("\n").rpartition(" ")[2]
        port = int(address.rpartition(":")[2])
        self.expect("it is found at another address", reaches("127.0.0.2", port), False)
        query = self.read("menu/article.query").strip()
        for number in (1, 2, 3):
            got = body_at(address, f"/openurl.txt?{query}")
            self.expect(f"connection {number}", got, self.read("menu/article.menu"))
        self.expect_end(service)
        self.expect("it listens after the last", reaches("127.0.0.1", port), False)
