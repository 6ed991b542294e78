"""Connections of a service whose peers send much at once, read late or never, send nothing, or go away."""
import socket
import struct
import time

from fixtures.patience import best_of_three, patience
from fixtures.program import ProgramCase
from fixtures.service import PATIENCE, Service, reply_of, request_of
from fixtures.system_calls import SEND, Watch
from fixtures.targets import DATE_RULES, write_alpha, write_registry

REQUEST = request_of("/x")
NOT_FOUND = reply_of(404, "not found\n")

# How long a read or a write of the service may take, in seconds.
WAIT = 2


def connect(service, room=None):
    """A connection for which the system keeps few bytes that were not read, if their number is given."""
    peer = socket.socket()
    if room:
        peer.setsockopt(socket.SOL_SOCKET, socket.SO_RCVBUF, room)
    peer.settimeout(patience(PATIENCE))
    peer.connect(("127.0.0.1", service.port))
    return peer


def rest(peer):
    """All that comes until the service closes the connection."""
    received = b""
    try:
        while piece := peer.recv(65536):
            received += piece
    except ConnectionError:
        pass
    return received


def fault_of_wait(waited):
    """What is wrong with a time-out of the service that took these seconds; None if nothing is."""
    return None if WAIT * 0.9 < waited < WAIT + patience(1) else f"a time-out of {waited:.2f} s"


def expect_served(program, service):
    """The next connection is served as any other."""
    program.expect("the next connection", service.reply(REQUEST), NOT_FOUND)


# The lengths of heads that the system can give in one read.
LENGTHS = (28, 4_096, 4_097, 5_000, 16_383, 16_384)

# A row whose link has 65,513 bytes.
LONG_ROW = "print_identifier\ttitle_url\n1234-567X\thttp://e.org/" + "b" * 65_500 + "\n"
LINK = '<li><a href="http://e.org/' + "b" * 65_500 + '">{}</a></li>\n'
LONG_REQUEST = request_of("/openurl?rft.issn=1234567x&rft.date=2003")


def write_long(program, count):
    """A registry of that many targets with the long row, and the page of its links."""
    names = [f"t{number}" for number in range(count)]
    write_registry(program, [(name, DATE_RULES, LONG_ROW) for name in names])
    links = "".join(LINK.format(name) for name in names)
    return reply_of(200, f"<!DOCTYPE html>\n<title>Links</title>\n<ul>\n{links}</ul>\n", "text/html")


# A page of this number of links has six megabytes, more than the system keeps for a peer that does not read.
MANY = 100

# The line of the service, the heads and bodies of two replies, and some writes of which the system takes a part.
MOST_WRITES = 12


class Connections(ProgramCase):
    def test_heads_that_come_at_once(self):
        write_alpha(self.program)
        with Service(self.program, len(LENGTHS)) as service:
            for length in LENGTHS:
                field = f"X: {'x' * (length - 33)}\r\n" if length > 33 else ""
                request = f"GET /x HTTP/1.1\r\nHost: a\r\n{field}\r\n".encode()
                self.program.expect("the length of the head", len(request), length)
                self.program.expect(f"the reply to a head of {length} bytes", service.reply(request), NOT_FOUND)

    def test_a_peer_that_reads_late(self):
        page = write_long(self.program, MANY)

        def fault_of():
            with Service(self.program, 1) as service, connect(service, 4096) as peer:
                peer.sendall(LONG_REQUEST)
                peer.recv(1, socket.MSG_PEEK)
                # The first write has begun. By the end of this pause it has taken as many bytes as the system keeps,
                # and then no more within its time-out, and the time-out of the second write is not over.
                time.sleep(WAIT * 1.4)
                received = rest(peer)
            return None if received == page else f"{len(received)} bytes of {len(page)}, or others"

        self.program.expect("the whole page", best_of_three(fault_of), None)

    def test_a_peer_that_does_not_read(self):
        write_long(self.program, MANY)

        def fault_of():
            with Watch(SEND) as watch, Service(self.program, 2, **watch.how) as service, connect(service, 4096) as peer:
                peer.sendall(LONG_REQUEST)
                peer.recv(1, socket.MSG_PEEK)
                expect_served(self.program, service)
            # A write that has taken some bytes ends with its time-out too, and the next one begins. One that has taken
            # none is the last.
            self.program.expect(f"{len(watch.times)} writes, which are few", len(watch.times) <= MOST_WRITES)
            return fault_of_wait(max(end - start for start, end in zip(watch.times, watch.times[1:])))

        self.program.expect("the time-out of a write", best_of_three(fault_of), None)

    def test_a_peer_that_sends_nothing(self):
        write_alpha(self.program)
        for sent in b"", REQUEST[:20]:

            def fault_of():
                with Service(self.program, 2) as service, connect(service) as peer:
                    start = time.monotonic()
                    peer.sendall(sent)
                    self.program.expect("what a peer gets whose head does not end", rest(peer), b"")
                    fault = fault_of_wait(time.monotonic() - start)
                    expect_served(self.program, service)
                    return fault

            self.program.expect("the time-out of a read", best_of_three(fault_of), None)

    def test_peers_that_go_away(self):
        write_long(self.program, MANY)
        with Service(self.program, 4) as service:
            for sent in b"", REQUEST[:20], LONG_REQUEST:
                with connect(service) as peer:
                    peer.sendall(sent)
                    # With this option the connection is reset, and what has come is lost.
                    peer.setsockopt(socket.SOL_SOCKET, socket.SO_LINGER, struct.pack("ii", 1, 0))
            expect_served(self.program, service)

    def test_one_exchange_a_connection(self):
        """The service closes the connection after its reply, and does not wait for another request."""
        write_alpha(self.program)

        def fault_of():
            with Service(self.program, 1) as service, connect(service) as peer:
                peer.sendall(REQUEST)
                start = time.monotonic()
                self.program.expect("the one reply", rest(peer), NOT_FOUND)
                waited = time.monotonic() - start
            return None if waited < WAIT * 0.9 else f"it ends after {waited:.2f} s"

        self.program.expect("the end of the connection at once", best_of_three(fault_of), None)
