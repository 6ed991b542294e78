"""Arguments given to `serve` with which it does not listen, and how it counts its connections."""
import socket
import struct

from fixtures.patience import patience
from fixtures.program import ProgramCase
from fixtures.service import Service

# A port and a count of connections, of which one is no such number.
NO_NUMBERS = [
    ("65536", "1"),
    ("8080", "0"),
    ("8080", "1000001"),
    ("", "1"),
    ("8080", ""),
    ("+80", "1"),
    ("-1", "1"),
    ("80 ", "1"),
    ("8080", "1x"),
    ("8080", "99999999999999999999"),
]


class ServeCommand(ProgramCase):
    def test_other_arguments(self):
        for port, count in NO_NUMBERS:
            self.program.fails(["serve", "none.txt", port, count], 2, "usage")
        self.program.fails(["serve"], 2, "usage")
        self.program.fails(["serve", "none.txt", "8080"], 2, "usage")
        self.program.fails(["serve", "none.txt", "8080", "1", "1"], 2, "usage")

    def test_numbers_may_begin_with_zeros(self):
        self.program.fails(["serve", "none.txt", "0008080", "01000000"], 4, "device: none.txt")

    def test_the_registry_and_the_port(self):
        self.program.write("empty.txt", "")
        self.program.write("bad.txt", "alpha\n")
        with socket.create_server(("127.0.0.1", 0)) as other:
            port = str(other.getsockname()[1])
            self.program.fails(["serve", "bad.txt", port, "1"], 3, "registry: line 1")
            self.program.fails(["serve", "empty.txt", port, "1"], 4, f"device: 127.0.0.1:{port}")

    def test_counts(self):
        """A reply, a peer that sends nothing, and peers that reset the connection within a head."""
        self.program.write("registry", "")
        for peers in ["reply"], ["silent"], ["reset"], ["reply", "silent", "reply", "reset", "reply"]:
            with Service(self.program, len(peers)) as service:
                for peer in peers:
                    self.meet(service.port, peer)
            expected = tuple(peers.count(kind) for kind in ("reply", "silent", "reset"))
            self.program.expect(f"the counts of {peers}", service.counts, expected)

    def meet(self, port, kind):
        """Connects, and waits until the service has closed the connection, unless this peer resets it."""
        with socket.create_connection(("127.0.0.1", port), patience(30)) as peer:
            if kind == "reply":
                peer.sendall(b"GET /x HTTP/1.1\r\nHost: a\r\n\r\n")
            if kind == "reset":
                peer.sendall(b"GET /x")
                peer.setsockopt(socket.SOL_SOCKET, socket.SO_LINGER, struct.pack("ii", 1, 0))
                return
            peer.shutdown(socket.SHUT_WR)
            while peer.recv(65536):
                pass
