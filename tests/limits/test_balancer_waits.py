"""packaging/haproxy/haproxy.cfg: how long haproxy waits for clients and machines, which stop in the middle."""
from __future__ import annotations

import concurrent.futures
import contextlib
import csv
import io
import queue
import re
import select
import socket
import tempfile
import threading
import time
from collections.abc import Iterator
from pathlib import Path

from bounds.test_front_door import without_room
from fixtures import needs
from fixtures.cases import Case
from fixtures.local_ports import free_ports
from fixtures.patience import best_of_three
from fixtures.patience import patience
from fixtures.patience import wait_until
from openlink_update import children

FILE = "packaging/haproxy/haproxy.cfg"
HEAD = b"GET /find HTTP/1.1\r\nHost: a\r\n"
REPLY = b"HTTP/1.1 200 OK\r\nContent-Length: 2\r\n\r\nok"
ENDS = {
    "http-request": b"408",
    "client": b"",
    "http-keep-alive": b"",
    "connect": b"503",
    "server": b"504",
    "queue": b"503",
}
MOST, TRIED = 8000, 5  # connections of all clients; so many in place of them


def settings() -> dict[str, float]:
    """The times of the file in seconds."""
    found = re.findall(r"^    timeout ([\w-]+) (\d+)(ms|s)\b", Path(FILE).read_text(encoding="utf-8"), re.M)
    return {name: int(number) * (0.001 if unit == "ms" else 1) for name, number, unit in found}


def serve(listener: socket.socket, may_reply: bool) -> None:
    """Replies to each request, or to none."""
    peers = []
    with contextlib.suppress(OSError):
        while True:
            peer = listener.accept()[0]
            peers.append(peer)
            if may_reply:
                peer.recv(4096)
                peer.sendall(REPLY)
                peer.close()


class Endless:
    """A machine whose replies do not end. It knows when the last one was broken off."""

    def __init__(self) -> None:
        self.listener, self.ended_at = socket.create_server(("127.0.0.1", 0)), queue.Queue[float]()
        threading.Thread(target=self.serve, daemon=True).start()

    def serve(self) -> None:
        with contextlib.suppress(OSError):
            while True:
                peer = self.listener.accept()[0]
                peer.recv(4096)
                with contextlib.suppress(OSError):
                    peer.sendall(b"HTTP/1.1 200 OK\r\nContent-Length: 1000000000\r\n\r\n")
                    while True:
                        peer.sendall(bytes(65536))
                self.ended_at.put(time.monotonic())


@contextlib.contextmanager
def machine(may_reply: bool) -> Iterator[int]:
    """The port of a stand-in for a machine."""
    with socket.create_server(("127.0.0.1", 0)) as listener:
        threading.Thread(target=serve, args=(listener, may_reply), daemon=True).start()
        yield listener.getsockname()[1]


class Balancer:
    """haproxy with the times of the file, and a port for each case with its machine."""

    def __init__(self, folder: str, machines: dict[str, str], most: int = MOST) -> None:
        self.socket = f"{folder}/admin.sock"
        self.ports = dict(zip(machines, free_ports(len(machines))))
        text = Path(FILE).read_text(encoding="utf-8").partition("\nfrontend ")[0]
        text = re.sub(r"^    (chroot|user|group|log|stats) .*\n", "", text, flags=re.M)
        text = text.replace("global\n", f"global\n    stats socket {self.socket} mode 600 level admin\n")
        for changed in ("retries 2", "option redispatch 1", "retry-on conn-failure empty-response 502 503"):
            assert text.count(changed) == 1, f"{FILE} has no {changed}"
            text = text.replace(changed, "retries 0" if changed == "retries 2" else "")
        assert text.count(f"    maxconn {MOST}\n") == 1, f"{FILE} has another number of connections"
        text = text.replace(f"    maxconn {MOST}\n", f"    maxconn {most}\n")
        for name, server in machines.items():
            text += f"\nlisten {name}\n    bind 127.0.0.1:{self.ports[name]}\n    server one {server}\n"
        Path(folder, "haproxy.cfg").write_text(text, encoding="utf-8")
        self.child = children.start(["haproxy", "-db", "-f", f"{folder}/haproxy.cfg"], folder)

    def told(self, command: bytes) -> str:
        """What haproxy answers at its socket."""
        data = b""
        with contextlib.suppress(OSError), socket.socket(socket.AF_UNIX) as peer:
            peer.settimeout(10)
            peer.connect(self.socket)
            peer.sendall(command + b"\n")
            while part := peer.recv(65536):
                data += part
        return data.decode()

    def checked(self) -> tuple[str, str]:
        """How the last check of the machine of `check` ended, and its milliseconds."""
        rows = csv.DictReader(io.StringIO(self.told(b"show stat").lstrip("# ")))
        found = [it for it in rows if (it["pxname"], it["svname"]) == ("check", "one")]
        return (found[0]["check_status"], found[0]["check_duration"]) if found else ("", "")


def ended_after(port: int, *parts: bytes) -> tuple[bytes, float]:
    """What comes after the last of these parts until haproxy closes, and after how many seconds. The reply to each part
    before is read."""
    with socket.create_connection(("127.0.0.1", port), patience(30)) as peer:
        for part in parts[:-1]:
            peer.sendall(part)
            peer.recv(4096)
        peer.sendall(parts[-1])
        start, data = time.monotonic(), b""
        while part := peer.recv(4096):
            data += part
        return data, time.monotonic() - start


@needs.command("haproxy")
class Waits(Case):
    def setUp(self) -> None:
        super().setUp()
        with contextlib.ExitStack() as stack:
            folder = stack.enter_context(tempfile.TemporaryDirectory())
            good, silent = stack.enter_context(machine(True)), stack.enter_context(machine(False))
            self.endless = Endless()
            stack.callback(self.endless.listener.close)
            closed = free_ports(1)[0]
            stack.enter_context(without_room(closed))
            self.balancer = Balancer(
                folder,
                {
                    "http-request": f"127.0.0.1:{good}",
                    "client": f"127.0.0.1:{self.endless.listener.getsockname()[1]}",
                    "http-keep-alive": f"127.0.0.1:{good}",
                    "connect": f"127.0.0.1:{closed}",
                    "server": f"127.0.0.1:{silent}",
                    "queue": f"127.0.0.1:{silent} maxconn 1",
                    "check": f"127.0.0.1:{silent} check\n    option httpchk",
                },
            )
            stack.callback(children.stop, self.balancer.child)
            self.addCleanup(stack.pop_all().close)
        self.expect(
            "haproxy listens", children.wait_for(self.balancer.ports["check"], self.balancer.child, patience(10))
        )

    def fault_of(self, name: str) -> str | None:
        """Why haproxy does not end after the time of the file."""
        limit, port = settings()[name], self.balancer.ports[name]
        parts = [HEAD] if name == "http-request" else [HEAD + b"Connection: close\r\n\r\n"]
        with contextlib.ExitStack() as stack:
            if name == "http-keep-alive":
                parts = [HEAD + b"\r\n", b""]
            if name == "queue":
                holder = stack.enter_context(socket.create_connection(("127.0.0.1", port), patience(10)))
                holder.sendall(HEAD + b"\r\n")
                time.sleep(0.2)
            data, seconds = self.left_unread(port) if name == "client" else ended_after(port, *parts)
        is_right = limit * 0.95 < seconds < limit * 1.05 + patience(0.3) and data[9:12] == ENDS[name]
        return None if is_right else f"{data[:20]!r} after {seconds:.2f} s, and not after {limit} s"

    def left_unread(self, port: int) -> tuple[bytes, float]:
        """After how many seconds haproxy breaks off a reply that its client does not read."""
        with socket.create_connection(("127.0.0.1", port), patience(10)) as peer:
            start = time.monotonic()
            peer.sendall(HEAD + b"\r\n")
            return b"", self.endless.ended_at.get(timeout=patience(30)) - start

    def test_times(self) -> None:
        with concurrent.futures.ThreadPoolExecutor(len(ENDS)) as pool:
            faults = list(pool.map(lambda name: best_of_three(lambda: self.fault_of(name)), ENDS))
        for name, fault in zip(ENDS, faults):
            self.expect(name, fault, None)

    def test_check(self) -> None:
        """A check of a machine that says nothing fails after its time."""
        self.expect("it fails", wait_until(lambda: self.balancer.checked()[0] == "L7TOUT", 10))
        took, limit = int(self.balancer.checked()[1] or 0) / 1000, settings()["check"]
        self.expect(f"after {took} s", limit * 0.95 <= took <= limit * 1.05 + patience(0.1))


@needs.command("haproxy")
class Connections(Case):
    def balancer(self, most: int) -> Balancer:
        with contextlib.ExitStack() as stack:
            folder = stack.enter_context(tempfile.TemporaryDirectory())
            found = Balancer(folder, {"good": f"127.0.0.1:{stack.enter_context(machine(True))}"}, most)
            stack.callback(children.stop, found.child)
            self.addCleanup(stack.pop_all().close)
        self.expect("haproxy listens", wait_until(lambda: found.told(b"show info") != "", 10))
        return found

    def test_of_all_clients(self) -> None:
        """One beyond them is not refused, but waits until another one ends. They are few, for the file's number."""
        port = self.balancer(TRIED).ports["good"]
        with contextlib.ExitStack() as stack:
            peers = [
                stack.enter_context(socket.create_connection(("127.0.0.1", port), patience(10))) for _ in range(TRIED)
            ]
            for peer in peers[1:]:
                peer.sendall(HEAD)
            peers[0].sendall(HEAD + b"\r\n")
            self.expect("the last one of them", peers[0].recv(12), b"HTTP/1.1 200")
            after = stack.enter_context(socket.create_connection(("127.0.0.1", port), patience(10)))
            after.sendall(HEAD + b"Connection: close\r\n\r\n")
            self.expect("the first beyond them waits", bool(select.select([after], [], [], 0.5)[0]), False)
            peers[0].close()
            self.expect("until one ends", after.recv(12), b"HTTP/1.1 200")

    def test_of_the_file(self) -> None:
        """haproxy takes its number, and gets a descriptor for each side of each."""
        told = self.balancer(MOST).told(b"show info")
        found = {name: int(re.findall(rf"^{name}: (\d+)$", told, re.M)[0]) for name in ("Maxconn", "Ulimit-n")}
        self.expect("connections", found["Maxconn"], MOST)
        self.expect(f"descriptors: {found['Ulimit-n']}", found["Ulimit-n"] > 2 * MOST)
