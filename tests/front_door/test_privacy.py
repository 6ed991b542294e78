"""Plants a name, a title, a source and an address of a reader in requests for each page, in each error and in each
failure of a connection, and then searches all that nginx and the scripts have written. Nothing of it may be there but
what the form of the access log means: the path of a request, and the host of its source."""
from __future__ import annotations

import base64
import concurrent.futures
import contextlib
import http.client
import os
import re
import socket
import ssl
import struct
import subprocess
from collections.abc import Collection

from fixtures import needs
from fixtures.lookup_services import Services
from fixtures.lookup_services import switched_on
from fixtures.nginx_site import Site
from fixtures.patience import patience
from fixtures.patience import wait_until
from fixtures.site_case import SiteCase
from fixtures.site_case import lines_of
from fixtures.tls_site import HOST
from fixtures.tls_site import with_tls

ADDRESS = "127.0.0.77"
NAME, TITLE, SOURCE, PAGE, PATH, DOI = "Zwyrtelius", "Mooncatcher", "snark.example", "Boojum", "vorpal", "10.5555/good"
READER = f"rft.aulast={NAME}&rfr_id=info:sid/{SOURCE}:{PAGE}"
QUERY = f"{READER}&rft.atitle={TITLE}&issn=2901-0012&volume=12"
SENT = {"User-Agent": NAME, "Referer": f"https://{PAGE}.example/{TITLE}", "X-Forwarded-For": NAME}
FORM = {**SENT, "Content-Type": "application/x-www-form-urlencoded"}
PAGES = [
    f"{path}?{QUERY}"
    for path in (
        "/",
        "/find",
        "/find/",
        "/find.json",
        "/find.ris",
        "/cite",
        "/go",
        "/openurl",
        "/openurl.txt",
        "/journals",
        "/why",
        "/menu.css",
        "/favicon.ico",
        "/robots.txt",
        "/export/kbart.txt",
    )
]
PAGES += [
    f"/journals?q={TITLE}",
    f"/books?q={NAME}",
    f"/go?issn=2943-081X&date=2012&{READER}",
    f"/find?issn=3006-1962&date=1921&{READER}",
]
STAFF = [f"{path}?{QUERY}" for path in ("/why", "/report.txt", "/report", "/health")]
ERRORS = {  # the whole request, and its status
    "no host": (f"GET /find?{QUERY} HTTP/1.1\r\n\r\n", 400),
    "a long header": (f"GET /find?{QUERY} HTTP/1.1\r\nHost: a\r\nCookie: {NAME * 900}\r\n\r\n", 400),
    "denied": (f"GET /health?{QUERY} HTTP/1.0\r\n\r\n", 403),
    "no page": (f"GET /{PATH}?{QUERY} HTTP/1.0\r\n\r\n", 404),
    "no file": (f"GET /{PATH}.png?{QUERY} HTTP/1.0\r\n\r\n", 404),
    "a method": (f"TRACE /find?{QUERY} HTTP/1.0\r\n\r\n", 405),
    "a long form": (f"POST /find?{QUERY} HTTP/1.0\r\nContent-Length: 9000\r\n\r\n{NAME}", 413),
    "a long address": (f"GET /find?{QUERY}{'a' * 9000} HTTP/1.0\r\n\r\n", 414),
}
LINE = re.compile(r"\S+ (\d{3}) \S+ (\S*) [\d.]+ found=([\w/:]*) targets=([\w.,-]*) from=(\S*)")
RESETS = 60
DESCRIPTORS = 40  # of a worker whose table is full


class Reader:
    """A reader of the planted address."""

    def __init__(self, site: Site) -> None:
        self.site = site

    def get(
        self,
        target: str,
        method: str = "GET",
        body: str | None = None,
        headers: dict[str, str] | None = None,
        port: int | None = None,
    ) -> int:
        """The status of a page, or 0 if there is no reply."""
        peer = http.client.HTTPConnection(
            "127.0.0.1", port or self.site.port, timeout=patience(30), source_address=(ADDRESS, 0)
        )
        try:
            peer.request(method, target, body, headers or SENT)
            reply = peer.getresponse()
            reply.read()
            return reply.status
        except (OSError, http.client.HTTPException):
            return 0
        finally:
            peer.close()

    def connect(self, port: int | None = None) -> socket.socket:
        return socket.create_connection(("127.0.0.1", port or self.site.port), patience(30), (ADDRESS, 0))

    def send(self, text: str) -> int:
        """The status of the reply to this text."""
        with self.connect() as peer:
            peer.sendall(text.encode())
            return int(peer.recv(12)[9:] or 0)

    def reset(self, target: str) -> None:
        """Asks for a page and breaks the connection, with a reset, before it has come."""
        with self.connect() as peer:
            peer.setsockopt(socket.SOL_SOCKET, socket.SO_LINGER, struct.pack("ii", 1, 0))
            peer.sendall(f"GET {target} HTTP/1.1\r\nHost: a\r\n\r\n".encode())

    def at_once(self, targets: list[str]) -> list[int]:
        with concurrent.futures.ThreadPoolExecutor(len(targets)) as pool:
            return list(pool.map(self.get, targets))


def edit_file(site: Site, name: str, old: str, new: str) -> None:
    """Replaces a text that a file has once."""
    before = site.read(name)
    assert before.count(old) == 1, f"{name} has {before.count(old)} times {old}"
    site.write(name, before.replace(old, new))


def descriptors_of(site: Site) -> int:
    """The most descriptors that a worker has."""
    counts = [0]
    for worker in site.workers():
        try:
            counts.append(len(os.listdir(f"/proc/{worker}/fd")))
        except FileNotFoundError:
            pass  # it has ended since
    return max(counts)


def found_in(site: Site, left_out: Collection[tuple[str, str]] = ()) -> list[tuple[str, str]]:
    """Each planted text in a file of the site, by the file's name. The access log is read without the fields that have
    a path or a source."""
    found = []
    for folder, _, names in os.walk(site.folder):
        for name in names:
            path = os.path.join(folder, name)
            with open(path, "rb") as file:
                text = file.read().decode("latin-1")
            if name == "openlink.log":
                text = "\n".join(outside_of_fields(line) for line in text.splitlines())
            found += [
                (os.path.relpath(path, site.folder), it)
                for it in (NAME, TITLE, SOURCE, PAGE, PATH, ADDRESS, DOI)
                if it.lower() in text.lower() and (os.path.basename(folder), it) not in left_out
            ]
    return sorted(set(found))


def outside_of_fields(line: str) -> str:
    """A line of the access log without its path and the host of its source, or all of it if it has another form."""
    it = LINE.fullmatch(line)
    if it is None:
        return f"{NAME}: {line}"
    path = it[2].replace(f"/{PATH}.png", "").replace(f"/{PATH}", "")
    return f"{it[1]} {path} {it[3]} {it[4]} {it[5].removeprefix(f'info:sid/{SOURCE}')}"


def wrong_hello() -> bytes:
    """A greeting by TLS whose version is none, which nginx calls critical. The version is after nine bytes: the type,
    version and length of the record, and the type and length of the greeting."""
    sent = ssl.MemoryBIO()
    with contextlib.suppress(ssl.SSLWantReadError):
        ssl.create_default_context().wrap_bio(ssl.MemoryBIO(), sent, server_hostname=HOST).do_handshake()
    data = sent.read()
    return data[:9] + b"\0" + data[10:]


def counted(site: Site, *words: str) -> str:
    os.makedirs(site.path("counts"), exist_ok=True)
    return subprocess.run(
        ["update/counts", *words], capture_output=True, text=True, env={**os.environ, "TMPDIR": site.path("counts")}
    ).stdout


@needs.command("openssl")
class Privacy(SiteCase):
    """The look-up, the password, the lists and all logs are switched on. After each test, all files are searched."""

    services: Services
    plain: str

    @classmethod
    def new_site(cls) -> Site:
        site = Site(2)
        edit_file(site, "nginx.conf", "log/error.log crit;", "log/error.log;")  # as Debian has it
        return site

    @classmethod
    def setUpClass(cls) -> None:
        super().setUpClass()
        site = cls.site
        cls.services, cls.plain = Services(site.folder), site.read("openlink.conf")
        cls.addClassCleanup(cls.services.stop)
        text = switched_on(cls.plain, cls.services.port, cls.services.certificate, site.path("lookups"))
        for line in ("#include", "#location = /health"):
            text = text.replace(f"    {line}", f"    {line[1:]}")
        site.write("openlink/passwords", "staff:{PLAIN}right\n")
        site.write_site(text.replace("log_wanted off", "log_wanted on").replace('_export "";', '_export "kbart";'))
        site.keep()

    def setUp(self) -> None:
        super().setUp()
        self.reader, self.before = Reader(self.site), lines_of(self.site)

    def check_logs(self) -> None:
        logs = [self.site.path("log/openlink.log")], ["--wanted", self.site.path("log/openlink-wanted.log")]
        counts = "".join(counted(self.site, *words) for words in logs if os.path.exists(words[-1]))
        planted = [it for it in (NAME, TITLE, PAGE, PATH, ADDRESS) if it in counts]
        self.expect("planted texts in the counts", planted, [])
        self.expect(
            "planted texts in files", found_in(self.site, [(name, DOI) for name in self.folders_of_cache()]), []
        )

    def folders_of_cache(self) -> list[str]:
        return [os.path.basename(folder) for folder, _, names in os.walk(self.site.path("lookups")) if names]

    def expect_statuses(self, *wanted: str) -> None:
        """The log of this test has these."""

        def are_there() -> bool:
            lines = [LINE.fullmatch(line) for line in lines_of(self.site)[len(self.before) :]]
            return set(wanted) <= {it[1] for it in lines if it}

        self.expect(f"statuses in the log: {' '.join(wanted)}", wait_until(are_there))

    def test_pages(self) -> None:
        """Each page, with and without a password where there is one."""
        for target in PAGES:
            self.expect(f"{target[:20]}", self.reader.get(target) in (200, 204, 301, 302, 401, 404))
        for user in ("staff:right", f"staff:{NAME}", f"{NAME}:right"):
            sent = {**SENT, "Authorization": "Basic " + base64.b64encode(user.encode()).decode()}
            self.reader.get(PAGES[10], headers=sent)
        for target in STAFF:
            self.expect(f"{target[:12]} for staff", self.reader.get(target, port=self.site.report_port), 200)
        self.expect("a form", self.reader.get("/find", "POST", QUERY, FORM), 200)
        self.expect_statuses("200", "302", "401", "404")

    def test_lookup(self) -> None:
        """A number alone is in the cache, where the search finds it, and nowhere else."""
        self.expect("by their DOI", self.reader.get(f"/find?id=doi:{DOI}&{READER}"), 200)
        self.expect("the search finds what is there", wait_until(lambda: found_in(self.site) != []))
        kept = [
            (os.path.relpath(os.path.join(folder, name), self.site.folder), DOI)
            for folder, _, names in os.walk(self.site.path("lookups"))
            for name in names
        ]
        self.expect("it is in the cache", found_in(self.site), sorted(kept))

    def test_errors(self) -> None:
        for name, (text, status) in ERRORS.items():
            self.expect(f"{name}: status", self.reader.send(text), status)
        # However slow the machine is, more than forty searches are too many.
        edit_file(
            self.site,
            "openlink/http.conf",
            "zone=openlink_search:128k rate=20r/s;",
            "zone=openlink_search:128k rate=1r/m;",
        )
        self.site.reload()
        statuses = self.reader.at_once([f"/find?{QUERY}&x={'a' * 3000}"] * 40 + [f"/journals?q={TITLE}"] * 60)
        self.expect("too many: statuses", set(statuses), {200, 429})
        self.expect_statuses("200", "400", "403", "404", "405", "413", "414", "429")

    def test_resets(self) -> None:
        """Connections that break before or while a page is sent, by HTTP. Here the error log has all that nginx calls
        critical; and the access log has these requests as any other."""
        edit_file(self.site, "openlink/readers.conf", " emerg;", " crit;")
        self.site.reload()
        before = lines_of(self.site)
        for i in range(RESETS):
            self.reader.reset(PAGES[i % 10])
        self.expect("after them", self.reader.get(f"/find?{QUERY}"), 200)
        self.expect(
            "resets: most are in the log", wait_until(lambda: len(lines_of(self.site)) > len(before) + RESETS / 2)
        )
        wrong = [line for line in lines_of(self.site)[len(before) :] if " 503 " in line or "exception" in line]
        self.expect("resets: counted as failures", wrong[:2], [])

    def test_descriptors(self) -> None:
        """A worker whose table of descriptors is full of connections: one of them asks for a page."""
        edit_file(self.site, "nginx.conf", "nofile 8192;", f"nofile {DESCRIPTORS};")
        self.site.reload()
        with contextlib.ExitStack() as held:
            peers = [held.enter_context(self.reader.connect()) for _ in range(DESCRIPTORS)]
            # Those that nginx cannot accept wait.
            self.expect("the table is full", wait_until(lambda: descriptors_of(self.site) >= DESCRIPTORS))
            peers[0].sendall(f"GET /find?{QUERY} HTTP/1.0\r\n\r\n".encode())
            self.expect("descriptors ran out", peers[0].recv(12)[9:] in (b"500", b"503"))

    def test_tls(self) -> None:
        """Greetings that are none, connections that break, and a page."""
        self.site.write_site(self.plain)
        peer = with_tls(self.site)
        for hello in (
            wrong_hello(),
            b"\x16\x03\x01\x02\x00\x01\x00\x01\xfc\x03\x03" + NAME.encode() * 60,
            b"\x16\x03\x01\x00\x05\x01",
            f"GET /find?{QUERY} HTTP/1.0\r\n\r\n".encode(),
            b"\x80\x2e\x01\x00\x02" + bytes(60),
        ):
            with self.reader.connect(peer.port) as connection:
                connection.sendall(hello)
                connection.shutdown(socket.SHUT_WR)
                while connection.recv(1000):
                    pass
        self.expect("a page by TLS", peer.get(f"/find?{QUERY}").status, 200)

    def test_no_process(self) -> None:
        self.site.write_site(self.plain)
        self.site.kill()
        for path in ("/find", "/find.json", "/go", "/openurl"):
            self.expect(
                f"{path} without a process", self.reader.get(f"{path}?{QUERY}"), 503 if path != "/openurl" else 502
            )
        self.expect_statuses("503", "502")
