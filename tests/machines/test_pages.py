"""The health page that the balancer reads, and the addresses of readers that it passes on."""
from __future__ import annotations

import http.client
import http.server
import os
import shutil
import threading
import time

from fixtures import needs
from fixtures.balanced_machine import Machine
from fixtures.cases import Case
from fixtures.local_ports import free_ports
from fixtures.patience import patience
from fixtures.patience import wait_until

BEFORE, NAMED, AFTER = "20261121T000000Z", "20261122T000000Z", "20261123T000000Z"
MISSING = f"the delivery {AFTER} is missing: openlink-update --send brings it"
VERSION = "20261120T000000Z"
# The files `delivery` and `drain`, what the balancer expects, and the status and first line of the page.
CASES = [
    (None, None, "", 200, "ok"),
    (None, None, AFTER, 503, MISSING),
    (NAMED, None, "", 200, "ok"),
    (NAMED, None, NAMED, 200, "ok"),
    (NAMED, None, f"{NAMED}\t", 200, "ok"),
    (NAMED, None, BEFORE, 200, "ok"),
    (NAMED, None, AFTER, 503, MISSING),
    (NAMED, "", "", 404, "drained"),
    (NAMED, "", NAMED, 404, "drained"),
    (NAMED, "", AFTER, 503, MISSING),
    (NAMED, "20990101T000000Z\n", "", 404, "drained"),
    (NAMED, "20200101T000000Z\n", "", 200, "ok"),
]
# Seconds from now at which draining ends, and the status and first line of the page. Those ahead are more than a
# request takes here.
ENDS = [(-1, 200, "ok"), (-60, 200, "ok"), (600, 404, "drained"), (1200, 404, "drained")]


class Process(http.server.BaseHTTPRequestHandler):
    """Answers as a process of the program does."""

    def do_GET(self):
        self.send_response(200)
        self.send_header("Content-Length", "0")
        self.end_headers()

    def log_message(self, *_):
        pass


def put(machine, name, text):
    if text is not None:
        machine.write(name, text)
    elif os.path.exists(machine.path(name)):
        os.unlink(machine.path(name))


def add_second(machine, port):
    """Another library of the machine, with one process."""
    os.makedirs(machine.path("second", "versions", VERSION))
    os.symlink(f"versions/{VERSION}", machine.path("second", "current"))
    machine.write("second/current/registry.tsv", "")
    machine.write("second/site.conf", f"upstream openlink.second {{\n    server 127.0.0.1:{port} max_fails=0;\n}}\n")


def addresses(machine, source, sent):
    """The address that nginx takes for the reader's, of a request from one that sends another as the balancer does."""
    path = machine.site.path("log/addresses.log")
    with open(path) as file:
        before = len(file.readlines())
    peer = http.client.HTTPConnection("127.0.0.1", machine.site.port, timeout=patience(10), source_address=(source, 0))
    peer.request("GET", "/find", headers={"X-Forwarded-For": sent})
    peer.getresponse().read()
    peer.close()

    def line():
        with open(path) as file:
            return file.readlines()[before:]

    return [text.split()[0] for text in wait_until(line)]


@needs.nginx()
@needs.program()
class HealthPage(Case):
    machine: Machine

    @classmethod
    def setUpClass(cls) -> None:
        cls.machine = Machine(probes=6)
        cls.machine.__enter__()
        cls.addClassCleanup(cls.machine.__exit__)

    def test_page(self) -> None:
        """What it says of deliveries and draining."""
        machine = self.machine
        for delivery, drain, expected, status, first in CASES:
            put(machine, "delivery", delivery and f"{delivery}\n")
            put(machine, "drain", drain)
            got, lines, header = machine.health(expected)
            case = f"delivery {delivery}, drain {drain!r}, expected {expected!r}"
            self.expect(case, (got, lines[0], header), (status, first, delivery))
            self.expect(
                f"{case}: the last lines",
                lines[-2:],
                [f"delivery {delivery}" if delivery else "no delivery", lines[-1]],
            )
            self.expect(f"{case}: the version", lines[-1].startswith(f"version {machine.current()}, "))
        put(machine, "drain", None)
        self.expect("not for readers", machine.site.get("/health").status, 404)
        self.expect("another path", machine.site.get("/find", port=machine.site.balancer_port).status, 404)
        self.expect(
            "another method", machine.site.get("/health", "POST", b"", port=machine.site.balancer_port).status, 405
        )

    def test_ends_of_draining(self) -> None:
        """Draining ends at the second that the file names, as after a delivery that was killed."""
        machine = self.machine
        put(machine, "delivery", f"{NAMED}\n")
        for seconds, status, first in ENDS:
            put(machine, "drain", time.strftime("%Y%m%dT%H%M%SZ\n", time.gmtime(time.time() + seconds)))
            got, lines, _ = machine.health()
            self.expect(f"an end at {seconds} seconds from now", (got, lines[0]), (status, first))
        put(machine, "drain", None)

    def test_processes(self) -> None:
        """Each library of the machine must have a process that answers."""
        machine = self.machine
        port = free_ports(1)[0]
        add_second(machine, port)
        dead = f"openlink.second: port {port} does not answer"
        status, lines, _ = machine.health()
        self.expect(
            "the second library has no process",
            (status, lines[0], dead in lines),
            (503, "no process of openlink.second answers", True),
        )
        server = http.server.ThreadingHTTPServer(("127.0.0.1", port), Process)
        threading.Thread(target=server.serve_forever, daemon=True).start()
        status, lines, _ = machine.health()
        self.expect("it has one", (status, lines[0], dead in lines), (200, "ok", False))
        self.expect("its version", lines[-1].startswith(f"second: version {VERSION}, "))
        first, *others = machine.site.supervisors
        first.is_down = True
        first.child.kill()
        first.child.wait()
        status, lines, _ = machine.health()
        self.expect("a process has ended", (status, lines[0]), (200, "some processes do not answer"))
        for it in others:
            it.is_down = True
            it.child.kill()
            it.child.wait()
        status, lines, _ = machine.health()
        self.expect("all have ended", (status, lines[0]), (503, "no process of openlink answers"))
        for it in (first, *others):
            it.is_down = False
        self.expect("they are back", bool(wait_until(lambda: machine.health()[0] == 200)))
        server.shutdown()
        server.server_close()
        os.unlink(machine.path("second", "current"))
        self.expect("a library without a version", machine.health()[0], 200)
        shutil.rmtree(machine.path("second"))

    def test_addresses(self) -> None:
        machine = self.machine
        self.expect("from the balancer", addresses(machine, "127.0.0.1", "192.0.2.77"), ["192.0.2.77"])
        self.expect("from a reader", addresses(machine, "127.0.0.9", "192.0.2.77"), ["127.0.0.9"])
        self.expect("two of them", addresses(machine, "127.0.0.1", "192.0.2.76, 192.0.2.77"), ["192.0.2.77"])
