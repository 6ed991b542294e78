"""The limits of the front door's nginx: the sizes of heads, forms and replies, and how long it waits for processes and
for the services of a look-up."""
from __future__ import annotations

import concurrent.futures
import contextlib
import json
import re
import socket
import subprocess
import tempfile
import time
from collections.abc import Callable
from collections.abc import Iterator
from pathlib import Path

from fixtures import needs
from fixtures.cases import Case
from fixtures.local_ports import free_ports
from fixtures.lookup_services import Services
from fixtures.lookup_services import switched_on
from fixtures.patience import best_of_three
from fixtures.patience import patience
from fixtures.site_case import FORM
from fixtures.site_case import SiteCase
from fixtures.stand_in_processes import ASKED_AGAIN
from fixtures.stand_in_processes import HEAD
from fixtures.stand_in_processes import LINK
from fixtures.stand_in_processes import QUERY
from fixtures.stand_in_processes import in_place
from fixtures.stand_in_processes import menu
from fixtures.stand_in_processes import reply_with
from fixtures.stand_in_processes import whole
from openlink_update.machines import library_files

KB = 1024


def menu_of(length: int) -> str:
    """A reply of a process with a menu of that many bytes, of which most are white space."""
    return reply_with(menu(LINK).rjust(length))


def reading_of_doi(request: str) -> str:
    """A menu without links for a DOI, with the title that a service has found."""
    found = {"rft.atitle": "Silt"} if "rft.atitle=Silt" in request else {}
    return reply_with(menu(pairs={"x.doi": "10.5555/a", **found}))


class Heads(SiteCase):
    """What a reader and staff may send."""

    processes = 1

    def status_of(self, lines: list[str], port: int) -> int:
        head = [*lines[:1], "Host: localhost", *lines[1:], "Connection: close", "", ""]
        return int(self.site.send("\r\n".join(head).encode(), port)[9:12])

    def test_lines(self) -> None:
        """A line has its end in a buffer of nginx, and four lines have one each."""
        for name, path, port, size in (
            ("readers", "/robots.txt", self.site.port, 8 * KB),
            ("staff", "/health", self.site.report_port, 32 * KB),
        ):
            for length, status in ((size, 200), (size + 1, 414)):
                line = f"GET {path}?{'a' * (length - len(f'GET {path}? HTTP/1.1') - 2)} HTTP/1.1"
                self.expect(f"{name}: a request line of {length} bytes", self.status_of([line], port), status)
            line = f"GET {path} HTTP/1.1"
            for length, status in ((size, 200), (size + 1, 400)):
                field = "A: ".ljust(length - 2, "a")
                self.expect(f"{name}: a line of {length} bytes", self.status_of([line, field], port), status)
            for count, status in ((4, 200), (5, 400)):
                fields = [f"A{i}: {'a' * (size - 100)}" for i in range(count)]
                self.expect(f"{name}: {count} long lines", self.status_of([line, *fields], port), status)

    def test_forms(self) -> None:
        """A form of 8 KB is read to its end."""
        for length, expected in ((8 * KB, (200, "12")), (8 * KB + 1, (413, None))):
            end = "&issn=2901-0012&volume=12"
            form = "x=".ljust(length - len(end), "a") + end
            reply = self.site.get("/find.json", "POST", form, FORM)
            volume = json.loads(reply.text).get("citation", {}).get("volume")
            self.expect(f"a form of {length} bytes", (reply.status, volume), expected)

    def test_addresses_and_forms(self) -> None:
        """Together they have 14,000 bytes, three of them for each that is escaped."""
        address, start = "x=".ljust(7000, "a"), b"issn=2901-0012&y="
        for form, status in (
            (start.ljust(6999, b"a"), 200),
            (start.ljust(7000, b"a"), 413),
            (start + b"\xe9" * 2327, 200),
            (start + b"\xe9" * 2328, 413),
        ):
            for path in ("/find", "/find.json"):
                reply = self.site.get(f"{path}?{address}", "POST", form, FORM)
                self.expect(f"{path}, a form of {len(form)} bytes", reply.status, status)


class Replies(SiteCase):
    """What a process may reply. All have ended, and others are in their places."""

    processes = 1
    has_processes = False

    def expect_soon(self, name: str, got: Callable[[], object], wanted: object) -> None:
        """One of three tries gives this. nginx waits some seconds for a reply, which may be late on a busy machine."""

        def fault_of() -> str | None:
            found = got()
            return None if found == wanted else f"got {found!r}, wanted {wanted!r}"

        fault: object = best_of_three(fault_of)
        self.expect(name, fault, None)

    def links(self, length: int) -> list[str] | str:
        """Those of a page if the menu of a process has that many bytes, or why there is no page."""
        with in_place(self.site.ports, [lambda head: whole(head) if ASKED_AGAIN in head else menu_of(length)]):
            try:
                groups = json.loads(self.site.get(f"/find.json?{QUERY}").text)["groups"]
            except OSError as fault:
                return type(fault).__name__
        return [link["target"] for group in groups for link in group["links"]]

    def test_menus(self) -> None:
        """Eight megabytes are read, and beyond them nginx ends the connection."""
        self.expect_soon("8 MB", lambda: self.links(8 * KB * KB), ["tidal-press"])
        self.expect_soon("8 MB and a byte", lambda: self.links(8 * KB * KB + 1), "RemoteDisconnected")

    def title_of(self, length: int) -> str | None:
        """That of an article whose DOI a service knows, if the reply of the service has that many bytes."""
        work = json.dumps({"message": {"title": ["Silt"], "abstract": ""}})
        text = work.replace('"abstract": "', '"abstract": "' + "a" * (length - len(work)))
        lookup = free_ports(1)[0]
        line = 'js_var $openlink_lookup "http://127.0.0.1:{}";'
        before = self.site.edit((f"#{line.format(8078)}", line.format(lookup)))
        with in_place([*self.site.ports, lookup], [reading_of_doi, lambda _: HEAD.format(length) + text]):
            citation = json.loads(self.site.get("/find.json?id=doi:10.5555/a").text)["citation"]
        self.site.write_site(before)
        title: str | None = citation.get("title")
        return title

    def test_replies_of_services(self) -> None:
        self.expect_soon("1 MB", lambda: self.title_of(KB * KB), "Silt")
        self.expect("1 MB and a byte", self.title_of(KB * KB + 1), None)

    def test_replies_for_health(self) -> None:
        def answers(length: int) -> bool:
            with in_place(self.site.ports, [lambda _: menu_of(length)]):
                lines = self.site.get("/health", port=self.site.report_port).text.splitlines()
            return f"port {self.site.ports[0]} answers" in lines

        self.expect_soon("64 KB", lambda: answers(64 * KB), True)
        self.expect("64 KB and a byte", answers(64 * KB + 1), False)


@contextlib.contextmanager
def without_room(port: int) -> Iterator[None]:
    """A process at a port that accepts no connection: nobody gets in, and nobody is refused."""
    with contextlib.ExitStack() as stack:
        listener = stack.enter_context(socket.socket())
        listener.setsockopt(socket.SOL_SOCKET, socket.SO_REUSEADDR, 1)
        listener.bind(("127.0.0.1", port))
        listener.listen(0)
        late = 0  # one alone may be late on a busy machine
        while late < 2:
            peer = stack.enter_context(socket.socket())
            peer.settimeout(0.3)
            try:
                peer.connect(("127.0.0.1", port))
            except TimeoutError:
                late += 1
        yield


class Waiting(SiteCase):
    """What nginx waits for, and how long."""

    processes = 1
    has_processes = False

    def fault_of(self, limit: float, target: str, port: int) -> str | None:
        """Why a page does not come once nginx has waited that many seconds."""
        start = time.monotonic()
        self.site.get(target, port=port)
        seconds = time.monotonic() - start
        is_right = limit * 0.9 < seconds < limit * 1.1 + patience(0.3)
        return None if is_right else f"the page came after {seconds:.2f} s, and not after {limit} s"

    def check(self, *cases: tuple[str, float, str, int]) -> None:
        def best_fault_of(case: tuple[str, float, str, int]) -> object:
            fault: object = best_of_three(lambda: self.fault_of(*case[1:]))
            return fault

        with concurrent.futures.ThreadPoolExecutor(len(cases)) as pool:
            faults = list(pool.map(best_fault_of, cases))
        for case, fault in zip(cases, faults):
            self.expect(case[0], fault, None)


class Processes(Waiting):
    """A stand-in for a process, or for the proxy of a look-up, replies later than any of them waits."""

    lookup: int
    balancer: int

    @classmethod
    def setUpClass(cls) -> None:
        super().setUpClass()
        cls.lookup, cls.balancer = free_ports(2)
        balancer = Path("front_door/balancer.conf").read_text(encoding="utf-8")
        for old, new in (
            ("listen 8077;", f"listen 127.0.0.1:{cls.balancer};"),
            ("192.0.2.20", "127.0.0.1"),
            ("/etc/nginx/conf.d/openlink.conf", cls.site.path("openlink.conf")),
            ("/etc/openlink", cls.site.folder),
            ("/var/log/nginx/", cls.site.path("log/")),
        ):
            assert old in balancer, f"balancer.conf has no {old}"
            balancer = balancer.replace(old, new)
        cls.site.write("current/registry.tsv", "")
        line = 'js_var $openlink_lookup "http://127.0.0.1:{}";'
        cls.site.edit((f"#{line.format(8078)}", line.format(cls.lookup)))
        cls.site.write_site(cls.site.read("openlink.conf") + balancer)
        cls.site.keep()

    def test_replies(self) -> None:
        """A process that does not reply, and a service that does not."""
        with in_place([*self.site.ports, self.lookup], [whole] * 2, patience(30)):
            self.check(
                ("a process, for a reader", 3, "/openurl.txt", self.site.port),
                ("a process, for the machine itself", 4, "/health", self.site.report_port),
                ("a process, for the balancer", 0.5, "/health", self.balancer),
            )
        with in_place([self.lookup], [whole], patience(30)), in_place(self.site.ports, [reading_of_doi]):
            self.check(("a look-up", 2, "/find?id=doi:10.5555/a", self.site.port))

    def test_connections(self) -> None:
        """A process whose connections are all taken."""
        with without_room(self.site.ports[0]):
            self.check(("a connection", 10, "/openurl.txt", self.site.port))


@needs.command("openssl")
class LookUps(Waiting):
    """The look-up is switched on, and its server is asked itself."""

    services: Services
    plain: str

    @classmethod
    def setUpClass(cls) -> None:
        super().setUpClass()
        cls.services, cls.plain = Services(cls.site.folder, ["10.5555/slow"]), cls.site.read("openlink.conf")
        cls.addClassCleanup(cls.services.stop)

    def switch_on(self, port: int) -> int:
        """The look-up asks services at this port. Returns that of its own server."""
        cache = self.site.path("lookups")
        text = switched_on(self.plain, port, self.services.certificate, cache, rate="rate=300r/s")
        self.site.write_site(text)
        return int(text.partition('js_var $openlink_lookup "http://127.0.0.1:')[2].partition('"')[0])

    def test_replies(self) -> None:
        """A service that does not reply."""
        self.check(("a reply", 2, "/doi?id=10.5555/slow", self.switch_on(self.services.port)))

    def test_connections(self) -> None:
        """A service whose connections are all taken."""
        port = free_ports(1)[0]
        with without_room(port):
            self.check(("a connection", 1, "/doi?id=10.5555/slow", self.switch_on(port)))


@needs.nginx()
class Names(Case):
    """The names of the sites of a machine, as openlink-library takes them."""

    def test_host_names(self) -> None:
        """The longest one that it takes."""
        lines = re.findall(r"^server_names_hash_\w+ \d+;$", Path("front_door/machine.conf").read_text(), re.M)
        self.expect("lines of machine.conf", len(lines), 2)
        for length, taken in ((253, True), (254, False)):
            name = ".".join(["a" * 49] * 5) + ".org"[: length - 249] + "a" * (length - 253)
            self.expect(f"{length} characters: their count", len(name), length)
            self.expect(f"{length} characters: openlink-library", library_files.HOST.fullmatch(name) is not None, taken)
            listen = f"listen 127.0.0.1:{free_ports(1)[0]};"
            servers = f"server {{ {listen} server_name {name}; }} server {{ {listen} }}"
            with tempfile.TemporaryDirectory() as folder:
                text = f"pid {folder}/pid;\nevents {{}}\nhttp {{\n{' '.join(lines)}\naccess_log off;\n{servers}\n}}\n"
                Path(folder, "nginx.conf").write_text(text, encoding="utf-8")
                words = ["nginx", "-t", "-c", f"{folder}/nginx.conf", "-e", f"{folder}/error.log"]
                done = subprocess.run(words, capture_output=True, text=True)
            if taken:
                self.expect(f"{length} characters: nginx: {done.stderr[-200:]}", done.returncode, 0)
