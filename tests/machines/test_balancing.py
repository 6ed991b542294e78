"""packaging/haproxy/haproxy.cfg: haproxy reads it, and it sends readers to the machines that should have some."""
from __future__ import annotations

import http.client
import re
import shutil
import subprocess
import tempfile

from fixtures import needs
from fixtures.balanced_machine import two_machines
from fixtures.cases import Case
from fixtures.haproxy_states import states_of
from fixtures.local_ports import free_ports
from fixtures.patience import patience
from fixtures.patience import wait_until
from openlink_update import children

FILE = "packaging/haproxy/haproxy.cfg"
MOST_SECONDS = 3  # until a machine that is down, or has an older version, gets no more readers
UNITS = {"ms": 0.001, "s": 1}


def text():
    with open(FILE, encoding="utf-8") as file:
        return file.read()


def said(words):
    done = subprocess.run(words, capture_output=True, text=True)
    return done.returncode, (done.stdout + done.stderr).strip()


def seconds(name):
    """A time of the file."""
    found = re.search(rf"^ +.*\b{name} +(\d+)(ms|s)\b", text(), re.M)
    return int(found[1]) * UNITS[found[2]]


class Balancer:
    """haproxy with the file, before these machines; the first one makes the versions."""

    def __init__(self, machines):
        self.folder, self.port = tempfile.mkdtemp(prefix="balancer."), free_ports(1)[0]
        names = dict(zip(("one", "two"), machines))
        lines = []
        for line in text().split("\n"):
            found = re.match(r"    server (\w+) ", line)
            if found and found[1] not in names:
                continue
            if found:
                site = names[found[1]].site
                line = re.sub(r"\S+:80 check port 8077", f"127.0.0.1:{site.port} check port {site.balancer_port}", line)
            lines.append(re.sub(r"bind :80$", f"bind 127.0.0.1:{self.port}", line))
        made = re.sub(r"^    (log|chroot|user|group) .*\n", "", "\n".join(lines), flags=re.M)
        with open(f"{self.folder}/haproxy.cfg", "w") as file:
            file.write(made.replace("/run/haproxy/admin.sock mode 660", f"{self.folder}/admin.sock"))
        self.child = children.start(
            ["haproxy", "-f", f"{self.folder}/haproxy.cfg"],
            self.folder,
            stdout=subprocess.DEVNULL,
            stderr=subprocess.DEVNULL,
        )
        if not children.wait_for(self.port, self.child, patience(10)):
            raise RuntimeError("haproxy does not listen")

    def stop(self):
        children.stop(self.child)
        shutil.rmtree(self.folder, ignore_errors=True)

    def states(self):
        """The state of each machine for readers."""
        return states_of(f"{self.folder}/admin.sock", "machines")

    def wait_for(self, **wanted):
        """The states of the machines, once they are these or that takes too long."""
        wait_until(lambda: self.states() == wanted, 10)
        return self.states()

    def get(self, source="127.0.0.1", headers=None):
        """The status and the server's port of a reader's page; the port is that of the machine's log."""
        peer = http.client.HTTPConnection("127.0.0.1", self.port, timeout=patience(10), source_address=(source, 0))
        try:
            peer.request("GET", "/find", headers=headers or {})
            reply = peer.getresponse()
            reply.read()
            return reply.status
        finally:
            peer.close()


def addresses_in(machine):
    with open(machine.site.path("log/addresses.log")) as file:
        return [line.split()[0] for line in file]


def check_addresses(case, balancer, one, two):
    """The reader's address, whatever the reader sends."""
    case.expect("both again", balancer.wait_for(one="UP", two="UP"), {"one": "UP", "two": "UP"})
    before = [len(addresses_in(machine)) for machine in (one, two)]
    case.expect("a reader", balancer.get("127.0.0.77", {"X-Forwarded-For": "192.0.2.99"}), 200)
    places = list(zip((one, two), before))
    found = wait_until(lambda: [it for machine, count in places for it in addresses_in(machine)[count:]])
    case.expect("its address", found, ["127.0.0.77"])


@needs.command("haproxy", "openssl")
class BalancerFile(Case):
    def test_file(self) -> None:
        """It is valid, also with its lines for TLS; and its times keep the limit."""
        self.expect(FILE, said(["haproxy", "-c", "-q", "-f", FILE]), (0, ""))
        folder = tempfile.mkdtemp(prefix="balancer.")
        try:
            certificate = f"{folder}/certificate.pem"
            subprocess.run(
                [
                    "openssl",
                    "req",
                    "-x509",
                    "-newkey",
                    "rsa:2048",
                    "-nodes",
                    "-days",
                    "2",
                    "-subj",
                    "/CN=a",
                    "-keyout",
                    f"{folder}/key",
                    "-out",
                    f"{folder}/cert",
                ],
                check=True,
                capture_output=True,
            )
            with open(certificate, "wb") as both:
                for name in ("cert", "key"):
                    with open(f"{folder}/{name}", "rb") as file:
                        both.write(file.read())
            with open(f"{folder}/haproxy.cfg", "w") as file:
                file.write(
                    re.sub(r"^    #(bind|http-request)", r"    \1", text(), flags=re.M).replace(
                        "/etc/haproxy/certificate.pem", certificate
                    )
                )
            self.expect("with TLS", said(["haproxy", "-c", "-q", "-f", f"{folder}/haproxy.cfg"]), (0, ""))
        finally:
            shutil.rmtree(folder)
        # The link is cut just after a check: the next check and the one after it end without a reply.
        found = re.search(r"\bfall (\d+)", text())
        longest = (
            seconds("inter") + int(found[1]) * seconds("timeout check") + (int(found[1]) - 1) * seconds("fastinter")
        )
        self.expect(f"a machine whose link is cut: {longest:.1f} s", longest <= MOST_SECONDS)


@needs.nginx()
@needs.program()
@needs.command("haproxy")
class Balancing(Case):
    def setUp(self) -> None:
        super().setUp()
        self.one, self.two = two_machines(self)

    def test_states(self) -> None:
        """A machine that missed a delivery, one that is drained, and one without processes get no readers."""
        one, two = self.one, self.two
        balancer = Balancer([one, two])
        try:
            self.expect("both", balancer.wait_for(one="UP", two="UP"), {"one": "UP", "two": "UP"})
            named = "20261121T000000Z"
            for machine in (one, two):
                machine.write("delivery", f"{named}\n")
            self.expect("both have it", balancer.wait_for(one="UP", two="UP"), {"one": "UP", "two": "UP"})
            one.write("delivery", "20990101T000000Z\n")
            self.expect("one missed it", balancer.wait_for(one="UP", two="DOWN"), {"one": "UP", "two": "DOWN"})
            before = len(addresses_in(two))
            self.expect("readers", {balancer.get() for _ in range(8)}, {200})
            self.expect("none is sent to it", len(addresses_in(two)), before)
            one.site.nginx.terminate()
            one.site.nginx.wait()
            self.expect(
                "the maker is down: the name counts on",
                balancer.wait_for(one="DOWN", two="DOWN"),
                {"one": "DOWN", "two": "DOWN"},
            )
            one.site.start_nginx()
            two.write("delivery", "20990101T000000Z\n")
            self.expect("it has it", balancer.wait_for(one="UP", two="UP"), {"one": "UP", "two": "UP"})
            two.write("drain", "")
            self.expect("drained", balancer.wait_for(one="UP", two="NOLB"), {"one": "UP", "two": "NOLB"})
            one.write("drain", "")
            self.expect("both are drained", balancer.wait_for(one="NOLB", two="NOLB"), {"one": "NOLB", "two": "NOLB"})
            self.expect("a drained machine is better than none", bool(wait_until(lambda: balancer.get() == 200, 5)))
            for machine in (one, two):
                machine.remove("drain")
            check_addresses(self, balancer, one, two)
        finally:
            balancer.stop()
            for machine in (one, two):
                machine.forget_deliveries()
