"""openlink-fetch: where a redirect may lead. Some hosts of this machine stand for public ones."""
from __future__ import annotations

import os
from unittest import mock

from fixtures.fetch_input import Input
from fixtures.fetch_input import TABLE
from fixtures.patience import wait_until
from fixtures.providers import HOSTS
from fixtures.providers import NAME
from fixtures.providers import ProvidersCase
from openlink_update.fetch import downloads
from openlink_update.fetch import transfers

PUBLIC = HOSTS[:4]
INSIDE = "a redirect that leads into a private network"
INNER = (
    "127.0.0.1",
    "10.1.2.3",
    "172.16.0.1",
    "172.31.255.254",
    "192.168.1.1",
    "169.254.169.254",
    "100.64.0.1",
    "0.0.0.0",
    "224.0.0.1",
    "255.255.255.255",
    "::",
    "::1",
    "fe80::1",
    "fe80::1%eth0",
    "fd00::1",
    "fec0::1",
    "ff02::1",
    "::ffff:10.0.0.1",
    "::7f00:1",
    "64:ff9b::a00:1",
    "2002:7f00:1::",
)
OUTER = (
    "8.8.8.8",
    "172.15.0.1",
    "172.32.0.1",
    "100.128.0.1",
    "2a00:1450:4001:80e::200e",
    "::ffff:8.8.8.8",
    "64:ff9b::808:808",
)


class Stand:
    """For as long as the block lasts, PUBLIC are public, and the name server knows one address of each name."""

    def __init__(self, address: str | None = None) -> None:
        self.kept, self.address = (downloads.is_inner, transfers.LOOK_UP), address

    def __enter__(self) -> None:
        is_inner = self.kept[0]
        downloads.is_inner = lambda text: text not in PUBLIC and is_inner(text)
        if self.address is not None:
            transfers.LOOK_UP = f"print('{self.address}')"

    def __exit__(self, *_: object) -> None:
        downloads.is_inner, transfers.LOOK_UP = self.kept


class Redirects(ProvidersCase):
    """Downloads with their redirects, each in this process."""

    def setUp(self) -> None:
        super().setUp()
        trusted = mock.patch.dict(os.environ, CURL_CA_BUNDLE=self.authority)
        trusted.start()
        self.addCleanup(trusted.stop)

    def download(self, path: str, host: int = 0) -> tuple[tuple[str | None, bool], downloads.Download]:
        """The end of a download: its fault, and whether it brought the table; and the download."""
        with Input() as folder:
            [done] = downloads.run(
                [downloads.Download(self.providers.address(path, host), [], [], folder.path("body"), 60, 0)]
            )
            return (done.fault, done.is_whole and folder.read("body") == TABLE), done

    def test_addresses(self) -> None:
        self.expect("inner addresses", [it for it in INNER if not downloads.is_inner(it)], [])
        self.expect("public addresses", [it for it in OUTER if downloads.is_inner(it)], [])
        self.expect(
            "ports",
            [
                transfers.place_of(it)
                for it in (
                    "https://H.example/",
                    "https://h.example:443",
                    "https://h:99999/",
                    "https://[::1/",
                    "http://h.example",
                )
            ],
            [("h.example", 443), ("h.example", 443), ("", 0), ("", 0), ("h.example", 80)],
        )

    def test_redirects_inside(self) -> None:
        """A public host cannot lead into this network, neither by an address nor by a name."""
        with Stand():
            self.expect("to a public host", self.download("/to-another")[0], (None, True))
            for path in ("/to-inner", "/to-number"):
                self.expect(f"{path} of a public host", self.download(path)[0], (INSIDE, False))
            self.expect(
                "to a name that has no address",
                self.download("/to-name")[0],
                ("a redirect that leads to a host whose name is unknown", False),
            )
        with Stand("10.0.0.1"):
            self.expect("to a name with a private address", self.download("/to-name")[0], (INSIDE, False))
        with Stand(f"{HOSTS[1]}\\n10.0.0.1"):
            self.expect("to a name with a private address, too", self.download("/to-name")[0], (INSIDE, False))
        self.expect("nobody was led there", self.providers.requests("/table.txt?inner"), [])

    def test_pins(self) -> None:
        """curl takes the addresses that were judged."""
        with Stand(HOSTS[2]):
            ended, done = self.download("/to-name")
            self.expect(
                "to a name with a public address",
                (ended, done.transfer and done.transfer.reply.remote),
                ((None, True), HOSTS[2]),
            )
            self.expect("its name", [host for host, _, _, _ in self.providers.requests("/table.txt?name")], [NAME])

    def test_inner_servers(self) -> None:
        """A server of this network may lead to another, also by a name, which curl then looks up."""
        with Stand():
            self.expect("to another server", self.download("/to-another", 5)[0], (None, True))
            fault, _ = self.download("/to-inner", 5)[0]
            self.expect(
                "to a name, for which the certificate is not",
                fault in ("the certificate is that of another host", "no connection"),
            )

    def test_proxies(self) -> None:
        """Where a proxy looks up names, a name that is unknown here is left to it, and a private address is refused."""
        proxy = {"https_proxy": f"http://{HOSTS[1]}:{self.providers.plain}"}
        for address, fault in (("", None), ("10.0.0.1", INSIDE)):
            with mock.patch.dict(os.environ, proxy), Stand(address):
                done = downloads.Download(self.providers.address("/"), [], [], "/nonexistent", 60, 0)
                done.follow(self.providers.address("/to-name").replace(HOSTS[0], NAME))
                self.expect("it is judged", wait_until(done.is_ready))
                self.expect(f"a name with the address {address!r}", done.fault, fault)
