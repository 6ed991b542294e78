"""A service that is stopped and continued, as by a shell or in a frozen container. If it has a time-out, the call that
it waits in ends then (signal(7)), and is made again, up to 16 times, each time with the whole time-out."""
import signal
import socket

from commands.test_connections import MANY, LONG_REQUEST, NOT_FOUND, REQUEST, connect, rest, write_long
from fixtures.patience import best_of_three, wait_until
from fixtures.program import ProgramCase
from fixtures.service import Service
from fixtures.targets import write_alpha

MOST = 16


def state_of(process):
    """The state of the process: `R` it runs, `S` it waits in a call, `T` it is stopped, `Z` it has ended."""
    if process.returncode is not None:
        return "Z"
    with open(f"/proc/{process.pid}/stat", encoding="ascii", errors="replace") as file:
        return file.read().rpartition(")")[2].split()[0]


def interrupt(process):
    """Stops and continues a process that waits in a call; then it waits again, or has ended."""
    for sent, states in (signal.SIGSTOP, "TZ"), (signal.SIGCONT, "SZ"):
        process.send_signal(sent)
        wait_until(lambda: state_of(process) in states)


def has_read(service, peer):
    """Whether the service has read all that the peer has sent."""
    ours, theirs = f":{peer.getsockname()[1]:04X}", f":{service.port:04X}"
    with open("/proc/net/tcp", encoding="ascii") as file:
        rows = [line.split() for line in file]
    return any(row[1].endswith(theirs) and row[2].endswith(ours) and row[4].endswith(":00000000") for row in rows)


def reply_after(program, interruptions):
    """What a peer gets if the service is interrupted that many times while it waits for the end of the head."""
    with Service(program, 1) as service, connect(service) as peer:
        peer.sendall(REQUEST[:20])
        wait_until(lambda: has_read(service, peer) and state_of(service.process) == "S")
        for _ in range(interruptions):
            interrupt(service.process)
        try:
            peer.sendall(REQUEST[20:])
        except ConnectionError:
            pass
        return rest(peer)


class Interruptions(ProgramCase):
    def test_interrupted_reads(self):
        write_alpha(self.program)
        for count, expected in (1, NOT_FOUND), (MOST, NOT_FOUND), (MOST + 1, b""):

            def fault_of():
                reply = reply_after(self.program, count)
                return None if reply == expected else reply

            self.program.expect(f"the reply after {count} interruptions", best_of_three(fault_of), None)

    def test_interrupted_writes(self):
        """The first interruption ends a write that has taken some bytes, the others one that has taken none."""
        page = write_long(self.program, MANY)

        def fault_of():
            with Service(self.program, 1) as service, connect(service, 4096) as peer:
                peer.sendall(LONG_REQUEST)
                peer.recv(1, socket.MSG_PEEK)
                wait_until(lambda: state_of(service.process) == "S")
                for _ in range(3):
                    interrupt(service.process)
                received = rest(peer)
            return None if received == page else f"{len(received)} bytes of {len(page)}, or others"

        self.program.expect("the whole page", best_of_three(fault_of), None)
