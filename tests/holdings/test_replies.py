"""openlink-fetch: each kind of reply, and what is kept of the old file."""
from __future__ import annotations

import gzip
import io
import os
import resource
import stat
import subprocess
import time
import zipfile

from fixtures.fetch_input import Input
from fixtures.fetch_input import OLD
from fixtures.fetch_input import TABLE
from fixtures.patience import patience
from fixtures.providers import ANOTHER
from fixtures.raw_replies import DATE
from fixtures.providers import HOSTS
from fixtures.providers import ProvidersCase
from fixtures.raw_replies import SENT
from fixtures.raw_replies import TAG
from fixtures.raw_replies import WHOLE

ROWS = TABLE.count(b"\n") - 1


def zipped(members: dict[str, bytes]) -> bytes:
    data = io.BytesIO()
    with zipfile.ZipFile(data, "w", zipfile.ZIP_DEFLATED) as archive:
        for name, text in members.items():
            archive.writestr(name, text)
    return data.getvalue()


class Replies(ProvidersCase):
    """What a fetch makes of the replies of providers."""

    @classmethod
    def setUpClass(cls) -> None:
        super().setUpClass()
        write = cls.providers.write
        write("table.txt", TABLE)
        write("table.gz", gzip.compress(TABLE))
        write("cut.gz", gzip.compress(TABLE)[:-20])
        write("one.zip", zipped({"Press_2026-11-01.txt": TABLE}))
        write("both.zip", zipped({"a.tsv": TABLE, "b.tsv": TABLE}))
        write("two.zip", zipped({"readme.txt": b"read me", "Press_2026-11-01.tsv": TABLE}))
        write("cut.zip", zipped({"Press_2026-11-01.txt": TABLE})[:-30])
        write("empty.txt", b"")
        write("blank.txt", b"\n \r\n")
        write("header.txt", TABLE.split(b"\n")[0] + b"\n")
        write("page.gz", gzip.compress(b"<html><body>Sign in</body></html>"))
        write("utf16.txt", TABLE.decode().encode("utf-16"))
        write("bomb.gz", gzip.compress(bytes(300 * 2**20), 1))
        write("long.txt", TABLE + b"Annals of Tides\t2901-0012\t2908-0142\thttps://press.example.com/ats\n" * 1_100_000)

    def test_bad_replies(self) -> None:
        """Each of these replies leaves the old file as it is, and a line says why."""
        cases = {
            "401": ("/401", "401 Unauthorized"),
            "404": ("/404", "404 Not Found"),
            "500": ("/500", "500 Internal Server Error"),
            "204": ("/204", "204 No Content"),
            "nowhere": ("/302", "302 Found"),
            "login": ("/login", "a web page, not a table: the address may want a login"),
            "page": ("/page.gz", "a web page, not a table: the address may want a login"),
            "to-http": ("/to-http", "a redirect that leads to no https: address"),
            "to-file": ("/to-file", "a redirect that leads to no https: address"),
            "to-gopher": ("/to-gopher", "a redirect that leads to no https: address"),
            "to-a-user": ("/to-a-user", "a redirect that leads nowhere"),
            "to-nowhere": ("/to-nowhere", "a redirect that leads nowhere"),
            "loop": ("/loop", "more than 5 redirects"),
            "six": ("/hops/6", "more than 5 redirects"),
            "cut": ("/raw/cut", f"ended after {SENT:,} of {WHOLE:,} bytes"),
            "pieces": ("/raw/cut-pieces", "ended after 1,024 bytes, too early"),
            "large": ("/raw/large", "more than 256 MB"),
            "bomb": ("/bomb", "more than 256 MB"),
            "packed": ("/bomb.gz", "more than 256 MB when unpacked: ask the provider for smaller files"),
            "empty": ("/empty.txt", "empty"),
            "blank": ("/blank.txt", "empty"),
            "header": ("/header.txt", "0 rows, and at least 1 must be there"),
            "least": ("/table.txt\tleast 3 rows", "2 rows, and at least 3 must be there"),
            "cut-gz": ("/cut.gz", "a gzip file that is cut short or damaged"),
            "cut-zip": ("/cut.zip", "a zip file that is cut short, damaged or encrypted"),
            "two-zip": ("/both.zip", "a zip file with 2 members: name one by `member PATTERN` in sources.tsv"),
            "no-member": ("/two.zip\tmember *.csv", "a zip file with 0 members that fit *.csv"),
        }
        with Input(self.authority) as folder:
            lines = [
                f"{name}.txt\t{self.address(path, number % 4)}"
                for number, (name, (path, _)) in enumerate(cases.items())
            ]
            lines.append(f"stranger.txt\thttps://{HOSTS[0]}:{self.providers.stranger}/table.txt")
            lines.append(f"expired.txt\thttps://{HOSTS[0]}:{self.providers.expired}/table.txt")
            lines.append(f"another.txt\thttps://{ANOTHER}:{self.providers.port}/table.txt")
            lines.append(f"closed.txt\thttps://{HOSTS[7]}:{self.providers.plain}/table.txt")
            reasons = {name: reason for name, (_, reason) in cases.items()}
            reasons.update(
                stranger="the certificate is not trusted",
                expired="the certificate has expired",
                another="the certificate is that of another host",
                closed="no connection",
            )
            folder.write_sources(*lines)
            for name in reasons:
                folder.write(f"{name}.txt", OLD)
            status, printed = folder.fetch()
            self.expect("the status of bad replies", status, 1)
            self.expect(
                "what is said of bad replies",
                printed.splitlines(),
                [
                    *(f"{name}.txt: kept the old file: {reason}" for name, reason in reasons.items()),
                    f"{len(reasons)} files asked for, 0 new or changed, {len(reasons)} not fetched",
                ],
            )
            self.expect("the old files are whole", {folder.read(f"{name}.txt") for name in reasons}, {OLD})
            self.expect(
                "nothing else is there", folder.names(), sorted([*(f"{name}.txt" for name in reasons), "sources.tsv"])
            )
            self.expect(
                "tries of a fault that may pass",
                (len(self.providers.requests("/500")), len(self.providers.requests("/401"))),
                (3, 1),
            )
            reached = [len(self.providers.requests(path)) for path in ("/hops/1", "/table.txt")]
            self.expect("of six redirects five are followed", reached, [1, 1])

    def test_long_length(self) -> None:
        """A header with more digits than Python reads is the fault of its own file."""
        with Input(self.authority) as folder:
            plain = self.providers.raw.server_address[1]
            folder.write_sources(
                f"long.txt\thttp://127.0.0.1:{plain}/raw/long-length\tplain http",
                f"table.txt\t{self.address('/table.txt')}",
            )
            folder.write("long.txt", OLD)
            self.expect(
                "a length of 5,000 digits",
                folder.fetch(),
                (
                    1,
                    "".join(
                        f"{line}\n"
                        for line in [
                            "long.txt: kept the old file: ended after 1,024 bytes, too early",
                            f"table.txt: new, {len(TABLE)} bytes",
                            "2 files asked for, 1 new or changed, 1 not fetched",
                        ]
                    ),
                ),
            )
            self.expect("the files", (folder.read("long.txt"), folder.read("table.txt")), (OLD, TABLE))

    def test_good_replies(self) -> None:
        """Each of these replies brings the file; a second run brings nothing that is there."""
        wanted = {
            "table": TABLE,
            "gz": self.providers.served("table.gz"),
            "zip": self.providers.served("one.zip"),
            "member": TABLE,
            "utf16": self.providers.served("utf16.txt"),
            "hops": TABLE,
            "another": TABLE,
            "slow": TABLE,
            "third": TABLE,
            "sub/folder/plain": TABLE,
            "long": self.providers.served("long.txt"),
        }
        lines = [
            f"table.txt\t{self.address('/table.txt')}\tevery 1 days; least {ROWS} rows",
            f"gz.txt\t{self.address('/table.gz')}",
            f"zip.txt\t{self.address('/one.zip')}",
            f"member.txt\t{self.address('/two.zip')}\tmember Press_*.tsv",
            f"utf16.txt\t{self.address('/utf16.txt')}\tleast 2 rows",
            f"hops.txt\t{self.address('/hops/5', 1)}",
            f"another.txt\t{self.address('/to-another', 2)}",
            f"slow.txt\t{self.address('/raw/slow', 3)}",
            f"third.txt\t{self.address('/raw/third-time', 4)}",
            f"sub/folder/plain.txt\thttp://{HOSTS[0]}:{self.providers.plain}/table.txt\tplain http",
            f"long.txt\t{self.address('/long.txt', 5)}",
        ]
        with Input(self.authority) as folder:
            folder.write_sources("# the providers", "", *lines)
            status, printed = folder.fetch()
            self.expect(f"good replies: {printed}", status, 0)
            for name, data in wanted.items():
                self.expect(f"the file {name}", folder.read(f"{name}.txt") == data)
                self.expect_lines("a new file", printed, f"{name}.txt: new, {len(data):,} bytes")
            self.expect("a file of 70 MB", len(wanted["long"]) > 70_000_000)
            self.expect("it was compressed on its way", self.providers.requests("/long.txt")[0][2] < 10_000_000)
            self.expect(
                "nothing else is there", folder.names(), sorted(["sources.tsv", *(f"{name}.txt" for name in wanted)])
            )
            self.expect("anyone may read them", stat.S_IMODE(os.stat(folder.path("table.txt")).st_mode), 0o644)
            self.second_run(folder)

    def second_run(self, folder: Input) -> None:
        status, printed = folder.fetch()
        self.expect("a second run", (status, printed), (0, "10 files asked for, 0 new or changed, 0 not fetched\n"))
        self.expect(
            "what has not changed is not sent",
            [status for _, status, _, _ in self.providers.requests("/table.gz")],
            ["200", "304"],
        )
        self.expect("nor what is not due", len(self.providers.requests("/long.txt")), 2)
        self.providers.write("table.gz", gzip.compress(TABLE + b"More\t2957-1057\t\t\n"))
        folder.write("utf16.txt", OLD)
        self.expect(
            "what has changed, here or there, is",
            folder.fetch("gz.txt", "utf16.txt"),
            (
                0,
                f"gz.txt: changed, {len(folder.read('gz.txt') or b''):,} bytes\n"
                f"utf16.txt: changed, {len(folder.read('utf16.txt') or b'')} bytes\n"
                "2 files asked for, 2 new or changed, 0 not fetched\n",
            ),
        )
        self.expect("the changed file", gzip.decompress(folder.read("gz.txt") or b""), TABLE + b"More\t2957-1057\t\t\n")
        self.expect("the file that was changed here", folder.read("utf16.txt"), TABLE.decode().encode("utf-16"))

    def test_names(self) -> None:
        """What a server calls a file is sent back as it was, unless it is too long or no text."""
        with Input(self.authority) as folder:
            folder.write_sources(
                f"named.txt\t{self.address('/raw/named')}", f"misnamed.txt\t{self.address('/raw/misnamed', 1)}"
            )
            self.expect("the first time", folder.fetch()[0], 0)
            headers = self.providers.raw.headers
            self.expect(
                "no condition", [name for it in ("named", "misnamed") for name in headers[it] if name[:3] == "if-"], []
            )
            self.expect("the second time", folder.fetch(), (0, "2 files asked for, 0 new or changed, 0 not fetched\n"))
            sent = [headers["named"].get(it) for it in ("if-none-match", "if-modified-since")]
            self.expect("the conditions", sent, [TAG, DATE])
            self.expect("no other condition", [name for name in headers["misnamed"] if name[:3] == "if-"], [])
            folder.write_sources(f"named.txt\t{self.address('/raw/named?other')}")
            self.expect("another address", (folder.fetch()[0], headers["named"].get("if-none-match")), (0, None))

    def test_limit_of_time(self) -> None:
        """Replies that come byte by byte, or never, end with the time that a file has; others are fetched meanwhile."""
        with Input(self.authority) as folder:
            folder.write_sources(
                f"drip.txt\t{self.address('/raw/drip')}",
                f"silent.txt\t{self.address('/raw/silent', 1)}",
                f"after.txt\t{self.address('/table.txt')}",
                f"table.txt\t{self.address('/table.txt', 2)}",
            )
            folder.write("drip.txt", OLD)
            seconds = round(patience(2.5))
            start = time.monotonic()
            status, printed = folder.fetch("--seconds", str(seconds))
            took = time.monotonic() - start
            lines = printed.splitlines()
            self.expect(
                f"slow replies: {printed}",
                (
                    status,
                    len(lines),
                    lines[0].startswith("drip.txt: kept the old file: no end, after "),
                    lines[0].endswith(f" bytes, within {seconds} seconds"),
                ),
                (1, 5, True, True),
            )
            self.expect_lines(
                "no reply",
                printed,
                "silent.txt: not fetched, and there is no old file: no end, after 0 bytes, "
                f"within {seconds} seconds",
            )
            self.expect("the old file is whole", (folder.read("drip.txt"), folder.read("silent.txt")), (OLD, None))
            self.expect("others are fetched", (folder.read("table.txt"), folder.read("after.txt")), (TABLE, TABLE))
            self.expect(f"it ends in time: {took:.1f} s", took < seconds + patience(5))

    def test_hosts(self) -> None:
        """One connection to a host at a time, and four hosts at once, of six with three files each."""
        with Input(self.authority) as folder:
            folder.write_sources(
                *(
                    f"{host}-{number}.txt\t{self.address(f'/raw/busy?{number}', host)}"
                    for host in range(6)
                    for number in range(3)
                )
            )
            self.providers.raw.forget()
            status, printed = folder.fetch()
            self.expect(f"many hosts: {printed}", (status, len(folder.names())), (0, 19))
            self.expect("one connection to a host", self.providers.raw.most, {host: 1 for host in HOSTS[:6]})
            self.expect("four hosts at once", self.providers.raw.most_of_all, 4)

    def test_second_try(self) -> None:
        """After an error at the address of a redirect, the next try begins at the first address."""
        with Input(self.authority) as folder:
            folder.write_sources(f"signed.txt\t{self.address('/raw/signed')}")
            status, printed = folder.fetch()
            self.expect(f"the file: {printed}", (status, folder.read("signed.txt")), (0, TABLE))
            asked = [len(self.providers.requests(it)) for it in ("/raw/signed", "/raw/run-out", "/table.txt?signed")]
            self.expect("requests", asked, [2, 1, 1])

    def test_full_disk(self) -> None:
        with Input(self.authority) as folder:
            folder.write_sources(f"long.txt\t{self.address('/long.txt')}", f"table.txt\t{self.address('/table.txt')}")
            folder.write("long.txt", OLD)
            folder.write("table.txt", OLD)
            if subprocess.run(
                ["mount", "-t", "tmpfs", "-o", "size=1m", "tmpfs", folder.top], stderr=subprocess.DEVNULL
            ).returncode:
                limit = lambda: resource.setrlimit(resource.RLIMIT_FSIZE, (2**20, 2**20))
                status, printed = folder.fetch("long.txt", preexec_fn=limit)
            else:
                folder.write_sources(
                    f"long.txt\t{self.address('/long.txt')}", f"table.txt\t{self.address('/table.txt')}"
                )
                folder.write("long.txt", OLD)
                status, printed = folder.fetch()
                self.expect("a smaller file", folder.read("table.txt"), TABLE)
            self.expect_lines(
                "a full disk", printed, "long.txt: kept the old file: the disk is full or cannot be written"
            )
            self.expect("a full disk", (status, folder.read("long.txt")), (4, OLD))
            subprocess.run(["umount", "-l", folder.top], stderr=subprocess.DEVNULL)
