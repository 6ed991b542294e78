"""Connections that send half a head and no more, all from one address."""
from __future__ import annotations

import contextlib
import resource
import socket
from collections.abc import Iterator

from fixtures.patience import patience

_HALF = b"GET /find HTTP/1.1\r\nHost: a\r\n"
_SPARE = 200  # descriptors of the test itself


@contextlib.contextmanager
def idle_connections(address: str, port: int, count: int) -> Iterator[list[socket.socket]]:
    """Meanwhile that many connections have been tried; those that were made."""
    soft, hard = resource.getrlimit(resource.RLIMIT_NOFILE)
    resource.setrlimit(resource.RLIMIT_NOFILE, (max(soft, min(hard, count + _SPARE)), hard))
    peers: list[socket.socket] = []
    try:
        for _ in range(count):
            with contextlib.suppress(OSError):
                peer = socket.create_connection(("127.0.0.1", port), patience(5), source_address=(address, 0))
                peers.append(peer)
                peer.sendall(_HALF)
        yield peers
    finally:
        for peer in peers:
            peer.close()


def status_for(address: str, port: int, target: str = "/find") -> int:
    """The status of a reader's page, on a connection of its own; 0 without a reply."""
    try:
        with socket.create_connection(("127.0.0.1", port), patience(5), source_address=(address, 0)) as peer:
            peer.sendall(f"GET {target} HTTP/1.1\r\nHost: a\r\nConnection: close\r\n\r\n".encode())
            reply = peer.recv(12)
    except OSError:
        return 0
    return int(reply[9:12]) if reply.startswith(b"HTTP/1.1 ") else 0
