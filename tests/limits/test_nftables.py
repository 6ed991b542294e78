"""packaging/nftables/connections.nft: one reader has few connections at the site's ports, also if they send no request.
Each address of a /56 of IPv6 is the same reader. It runs in a network of its own, where all these addresses are."""
from __future__ import annotations

import contextlib
import json
import os
import socket
import subprocess
import sys

from fixtures import needs
from fixtures.cases import Case
from fixtures.patience import patience
from fixtures.patience import wait_until

FILE = "packaging/nftables/connections.nft"
MOST, TRIED = 120, 130
# The client's addresses, that of another reader, that of the site, and its port.
CASES = {
    "IPv4": (["127.0.0.2"], "127.0.0.3", "127.0.0.1", 80),
    "IPv4, TLS": (["127.0.0.4"], "127.0.0.5", "127.0.0.1", 443),
    "IPv6": (["2001:db8:0:100::1", "2001:db8:0:1ff::2"], "2001:db8:0:200::1", "2001:db8:0:300::1", 80),
    "a shared address": (["192.0.2.10"], "127.0.0.3", "127.0.0.1", 80),
    "a shared address by IPv6": (["2001:db8::10"], "2001:db8:0:200::1", "2001:db8:0:300::1", 80),
    "another port": (["127.0.0.2"], "127.0.0.3", "127.0.0.1", 81),
}


def connected(client: str, site: socket.socket) -> list[socket.socket]:
    """Both ends of a connection; none if it is refused."""
    with contextlib.suppress(ConnectionRefusedError):
        peer = socket.create_connection(site.getsockname()[:2], 10, source_address=(client, 0))
        return [peer, site.accept()[0]]
    return []


def counted(clients: list[str], other: str, site: socket.socket) -> list[object]:
    """The connections that a client gets beside each other, whether these are the first ones, whether another reader
    gets one meanwhile, and whether the client does once they have ended."""
    tried = [connected(clients[number % len(clients)], site) for number in range(TRIED)]
    guest = connected(other, site)
    for each in (*tried, guest):
        for end in each:
            end.close()
    got = [bool(it) for it in tried]
    is_back = wait_until(lambda: bool(connected(clients[0], site)))
    return [sum(got), got == sorted(got, reverse=True), bool(guest), is_back]


def listed() -> str:
    return subprocess.run(["nft", "list", "ruleset"], check=True, capture_output=True, text=True).stdout


def inside() -> None:
    """Prints what each case gives, and what is left of the rules once the table is taken away."""
    commands = ["ip link set lo up", "ip address add 192.0.2.10/32 dev lo"]
    every = [it for clients, other, place, _ in CASES.values() for it in (*clients, other, place)]
    commands += [f"ip -6 address add {it}/128 dev lo nodad" for it in dict.fromkeys(every) if ":" in it]
    for command in (*commands, "nft add table inet other"):
        subprocess.run(command.split(), check=True)
    before = listed()
    for _ in range(2):
        subprocess.run(["nft", "--file", sys.argv[1]], check=True)
    found = {}
    for name, (clients, other, place, port) in CASES.items():
        family = socket.AF_INET6 if ":" in place else socket.AF_INET
        with socket.create_server((place, port), family=family) as site:
            found[name] = counted(clients, other, site)
    subprocess.run(["nft", "delete", "table", "inet", "openlink"], check=True)
    print(json.dumps({**found, "other rules": listed() == before and "other" in before}))


@needs.root()
@needs.ipv6()
@needs.command("ip", "nft", "unshare")
class Connections(Case):
    def test_connections(self) -> None:
        words = ["unshare", "--net", sys.executable, "-B", "-m", "limits.test_nftables", os.path.abspath(FILE)]
        done = subprocess.run(
            words,
            cwd="tests",
            env={**os.environ, "PATH": f"{os.environ.get('PATH', '')}:/usr/sbin:/sbin"},
            capture_output=True,
            text=True,
            timeout=patience(60),
            check=False,
        )
        self.assertEqual(done.stderr, "")
        found = json.loads(done.stdout)
        for name in CASES:
            most = MOST if name in ("IPv4", "IPv4, TLS", "IPv6") else TRIED
            self.expect(f"{name}: connections, the first ones, another's, afterwards", found[name], [most, *[True] * 3])
        self.expect("other rules stay", found["other rules"])


if __name__ == "__main__":
    inside()
