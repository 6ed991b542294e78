"""packaging/haproxy/haproxy.cfg: one reader has few of the balancer's connections, also if they send no request. Each
address of a /56 of IPv6 is the same reader. It runs in a network of its own, where all these addresses are."""
from __future__ import annotations

import contextlib
import json
import os
import re
import socket
import subprocess
import sys
import tempfile
from pathlib import Path

from fixtures import needs
from fixtures.cases import Case
from fixtures.patience import patience
from fixtures.patience import wait_until

MOST, TRIED = 120, 200
# The client's addresses, that of another reader, and the one that haproxy listens at.
CASES = {
    "IPv4": (["127.0.0.2"], "127.0.0.3", "127.0.0.1"),
    "IPv6": (["2001:db8:0:100::1", "2001:db8:0:1ff::2"], "2001:db8:0:200::1", "2001:db8:0:300::1"),
    "a shared address": (["192.0.2.10"], "127.0.0.3", "127.0.0.1"),
}


def reply_to(peer: socket.socket) -> bytes:
    """The first bytes of the reply to a request; none if the connection has ended."""
    with contextlib.suppress(OSError):
        peer.sendall(b"GET /find HTTP/1.1\r\nHost: a\r\nConnection: close\r\n\r\n")
        return peer.recv(12)
    return b""


def kept_of(peers: list[socket.socket]) -> int:
    """How many of the connections are still open."""
    kept = 0
    for peer in peers:
        peer.setblocking(False)
        try:
            peer.recv(1)
        except BlockingIOError:
            kept += 1
        except OSError:
            pass
    return kept


def counted(clients: list[str], other: str, place: str) -> tuple[int, bytes]:
    """The connections that a client keeps beside each other, and what another reader gets meanwhile."""
    peers = []
    for number in range(TRIED):
        address = (clients[number % len(clients)], 0)
        with contextlib.suppress(OSError):
            peers.append(socket.create_connection((place, 80), 10, source_address=address))
    with socket.create_connection((place, 80), 10, source_address=(other, 0)) as peer:
        got = reply_to(peer)
    wait_until(lambda: kept_of(peers) <= MOST, 3)
    kept = kept_of(peers)
    for peer in peers:
        peer.close()
    return kept, got


def inside() -> None:
    """Prints what each case gives, by the haproxy whose file is the argument."""
    commands = ["ip link set lo up", "ip address add 192.0.2.10/32 dev lo"]
    every = [it for clients, other, place in CASES.values() for it in (*clients, other, place)]
    commands += [f"ip -6 address add {it}/128 dev lo nodad" for it in dict.fromkeys(every) if ":" in it]
    for command in commands:
        subprocess.run(command.split(), check=True)
    child = subprocess.Popen(["haproxy", "-db", "-f", sys.argv[1]], stderr=subprocess.DEVNULL)
    try:
        found = {}
        for name, (clients, other, place) in CASES.items():
            wait_until(lambda: _listens(place))
            kept, got = counted(clients, other, place)
            found[name] = [kept, got.decode()]
        print(json.dumps(found))
    finally:
        child.kill()
        child.wait()


def _listens(place: str) -> bool:
    with contextlib.suppress(OSError), socket.create_connection((place, 80), 1):
        return True
    return False


@needs.root()
@needs.command("haproxy", "ip", "unshare")
class Balancer(Case):
    def test_connections(self) -> None:
        text = Path("packaging/haproxy/haproxy.cfg").read_text(encoding="utf-8")
        text = re.sub(r"^    (chroot|stats|user|group|log /dev/log) .*\n", "", text, flags=re.M)
        text = re.sub(r"timeout (http-request|client|http-keep-alive) \d+s", r"timeout \1 600s", text)
        text = text.replace("bind :80\n", "bind :::80 v4v6\n").replace("192.0.2.21:80", "127.0.0.1:1")
        with tempfile.TemporaryDirectory() as folder:
            path = Path(folder, "haproxy.cfg")
            path.write_text(text, encoding="utf-8")
            words = ["unshare", "--net", sys.executable, "-B", "-m", "limits.test_balancer", str(path)]
            done = subprocess.run(
                words,
                cwd="tests",
                env={**os.environ, "PATH": f"{os.environ.get('PATH', '')}:/usr/sbin:/sbin"},
                capture_output=True,
                text=True,
                timeout=patience(60),
                check=False,
            )
        self.assertEqual(done.stderr, "")
        found = json.loads(done.stdout)
        for name, most in (("IPv4", MOST), ("IPv6", MOST), ("a shared address", TRIED)):
            self.expect(f"{name}: connections, and the reply to another", found[name], [most, "HTTP/1.1 503"])


if __name__ == "__main__":
    inside()
