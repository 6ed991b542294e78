"""A fetch: how many bytes, hosts and tries a file may take, and for how long anything is waited for."""
from __future__ import annotations

import datetime
import os
import shutil
import socket
import tempfile
import time
from pathlib import Path
from unittest import mock

from fixtures import needs
from fixtures.cases import Case
from fixtures.patience import best_of_three
from fixtures.patience import patience
from fixtures.patience import wait_until
from fixtures.provider import Held
from fixtures.provider import Provider
from fixtures.provider import Step
from fixtures.provider import cut
from fixtures.provider import reply
from openlink_update.fetch import downloads
from openlink_update.fetch import fetch_folder
from openlink_update.fetch import fetching
from openlink_update.fetch import sources
from openlink_update.fetch import transfers
from openlink_update.fetch.downloads import Download
from openlink_update.fetch.fetch_folder import FetchFolder
from openlink_update.fetch.sources import Source
from openlink_update.fetch.transfers import Transfer
from openlink_update.input_files import InputFolder
from openlink_update.outcome import Failure

TOO_MANY = "more than 256 MB"
ENDLESS = "headers of more than 1 MB"
EARLY = "ended after 0 bytes, too early"
LINE = b"X-Odd: " + b"x" * 4000 + b"\r\n"
WITH_TRAILERS = b"HTTP/1.1 200 X\r\nTransfer-Encoding: chunked\r\n\r\n5\r\nTable\r\n0\r\n"


class _Step:
    """A download that ends when it is told to."""

    lookup = transfer = None

    def __init__(self, name: str) -> None:
        self.name, self.has_begun, self.may_end = name, False, False

    def host(self) -> str:
        return self.name

    def is_ready(self) -> bool:
        return True

    def is_done(self) -> bool:
        return self.may_end and self.has_begun

    def start(self) -> None:
        self.has_begun = True

    def has_ended(self) -> bool:
        return self.may_end

    def stop(self) -> None:
        pass


@needs.command("curl")
class Bytes(Case):
    def setUp(self) -> None:
        super().setUp()
        self.provider = Provider(has_tls=False)
        self.addCleanup(self.provider.stop)
        self.folder = Path(tempfile.mkdtemp())
        self.addCleanup(shutil.rmtree, self.folder)

    def end_of(self, most: int, *steps: Step) -> tuple[bool, str | None, int]:
        """How a download ends that may take this number of bytes: whether it is whole, its error, and its tries."""
        self.provider.steps = {"/table": list(steps)}
        body = self.folder / "body"
        body.write_bytes(b"")
        with mock.patch.object(downloads, "_MOST_BYTES", most):
            download = Download(self.provider.address("/table"), [], [], body, 60, 0)
        list(downloads.run([download]))
        return download.is_whole, download.fault, download.tries

    def test_bytes(self) -> None:
        """Of one reply, and of all tries together."""
        self.expect("of a file", downloads._MOST_BYTES, 268_435_456)
        self.expect("the last", self.end_of(5000, reply(200, bytes(5000))), (True, None, 1))
        self.expect("beyond", self.end_of(5000, reply(200, bytes(5001))), (False, TOO_MANY, 1))
        for name, more, wanted in (
            ("the last of two tries", 2000, (True, None, 2)),
            ("beyond, in the second", 2001, (False, TOO_MANY, 2)),
        ):
            self.expect(name, self.end_of(5000, cut(bytes(3000), 4000), reply(200, bytes(more))), wanted)
        # Without a length curl learns of them as they come.
        endless = Held(b"HTTP/1.1 200 X\r\nConnection: close\r\n\r\n" + bytes(5001), bytes(1000))
        self.expect("beyond, without a length", self.end_of(5000, endless), (False, TOO_MANY, 1))
        self.expect("the connection is closed", wait_until(endless.has_ended.is_set))
        self.expect(
            "none are left for a third try",
            self.end_of(6000, cut(bytes(3000), 4000), cut(bytes(3000), 4000))[::2],
            (False, 2),
        )

    def test_output(self) -> None:
        """Of what curl writes out, the last bytes count: what it says at its end, after all headers."""
        head, end = b"HTTP/1.1 200 X\r\n", b"\nend 200 7 0.1 0 127.0.0.1\n"
        for more, wanted in (
            (2**20 - len(head + end), (200, None)),
            (2**20 - len(head + end) + 1, (200, ENDLESS)),
            (2**20 - len(end), (200, ENDLESS)),
            (2**20 - len(end) + 1, (0, ENDLESS)),
        ):
            transfer = Transfer.__new__(Transfer)
            transfer._output, transfer._child = tempfile.TemporaryFile(), mock.Mock(returncode=0)
            transfer._output.write(head + end + b"x" * more)
            transfer.end()
            self.expect(f"{more} bytes after its end", (transfer.reply.status, transfer.fault()), wanted)

    def test_headers_without_an_end(self) -> None:
        """Of a reply, of one before it, and after its body, which curl would read and keep until the time is over."""
        for name, first, line, wanted in (
            ("headers", b"HTTP/1.1 200 X\r\n", LINE, EARLY),
            ("one header", b"HTTP/1.1 200 X\r\nX-Odd: ", b"x" * 4000, "curl: status 27"),
            ("replies before the reply", b"", b"HTTP/1.1 103 X\r\n" + LINE + b"\r\n", EARLY),
            ("headers after the body", WITH_TRAILERS, LINE, ENDLESS),
            ("one header after the body", WITH_TRAILERS + b"X-Odd: ", b"x" * 4000, EARLY),
        ):
            floods = [Held(first, line * 50) for _ in range(3)]  # for each try
            is_whole, fault, _ = self.end_of(2**21, *floods)
            self.expect(name, (is_whole, (fault or "").replace("after 5 bytes", "after 0 bytes")), (False, wanted))
            self.expect(f"{name}: the connection is closed", wait_until(floods[0].has_ended.is_set))

    def fault_of_slow_headers(self, first: bytes, sent: int) -> str | None:
        """What is wrong with a download of which headers come without an end, after these bytes of a body."""
        self.provider.steps = {"/table": [Held(first, b"X-Odd: x\r\n")]}
        body = self.folder / "body"
        body.write_bytes(b"")
        seconds = round(patience(2))
        download = Download(self.provider.address("/table"), [], [], body, seconds, 0)
        start = time.monotonic()
        list(downloads.run([download]))
        took, wanted = time.monotonic() - start, f"no end, after {sent} bytes, within {seconds} seconds"
        is_right = not download.is_whole and download.fault == wanted and took < seconds + patience(5)
        return None if is_right else f"after {took:.1f} of {seconds} s: {download.fault}"

    def test_headers_that_come_slowly(self) -> None:
        for name, first, sent in (("headers", b"HTTP/1.1 200 X\r\n", 0), ("after the body", WITH_TRAILERS, 5)):
            fault: object = best_of_three(lambda: self.fault_of_slow_headers(first, sent))
            self.expect(name, fault, None)

    def test_length_that_is_told(self) -> None:
        for digits, wanted in (("9" * 15, f"of {int('9' * 15):,} bytes"), ("9" * 16, "bytes, too early")):
            transfer = Transfer.__new__(Transfer)
            transfer.reply = transfers._Reply(200, {"content-length": digits}, 7, True)
            self.expect(f"{len(digits)} digits", transfer._fault_of_length(), f"ended after 7 {wanted}")


@needs.command("curl")
class Times(Case):
    def setUp(self) -> None:
        super().setUp()
        self.folder = Path(tempfile.mkdtemp())
        self.addCleanup(self.folder.rmdir)

    def download(self, seconds: float = 600) -> Download:
        return Download("https://127.0.0.1:9/", [], [], self.folder / "body", seconds, 10)

    def test_least_seconds(self) -> None:
        """A file has ten minutes. With less than a second, neither another try nor another address is begun."""
        self.expect("that a file has", fetching.SECONDS, 600)
        for left, wanted in ((1, None), (0.99, "503, within 600 seconds")):
            download = self.download()
            download.seconds = left
            download._try_again("503", True)
            self.expect(f"another try with {left}", download.fault, wanted)
        for left, wanted in ((1, None), (0.99, "no end, within 600 seconds")):
            download = self.download()
            download.seconds, download.may_lead_inside = left, True
            download.follow("https://127.0.0.2/")
            self.expect(f"another address with {left}", download.fault, wanted)

    def test_pauses(self) -> None:
        """Ten seconds before the second try, and twenty before the third."""
        self.expect("of the command", fetching.PAUSE, 10)
        download = self.download()
        for wanted in (10, 20):
            start = time.monotonic()
            download._try_again("503", True)
            end = time.monotonic()
            self.expect(f"{wanted} seconds", start + wanted <= download.ready_at <= end + wanted)
            self.expect("it is not ready", download.is_ready(), False)
        download._try_again("503", True)
        self.expect("no fourth try", (download.fault, download.tries), ("503", 3))

    def test_connection(self) -> None:
        """A server that takes a connection and says nothing of TLS: curl goes after the seconds to connect, long before
        the time of the file is over."""
        self.expect(
            "seconds", (transfers._SECONDS_TO_CONNECT, "connect-timeout = 10" in transfers._OPTIONS), (10, True)
        )
        options = tuple(it.replace("connect-timeout = 10", "connect-timeout = 1") for it in transfers._OPTIONS)
        # The system takes the connection. Nobody reads what curl sends of TLS, of which a part is random.
        with socket.create_server(("127.0.0.1", 0)) as server, mock.patch.object(transfers, "_OPTIONS", options):
            address = f"https://127.0.0.1:{server.getsockname()[1]}/"
            transfer = Transfer(address, [], self.folder / "body", 600, 1000)
            self.expect("it ends", wait_until(transfer.has_ended, 30))
        transfer.end()
        self.expect("what is said", (transfer.fault(), transfer.exit in transfers.PASSING), ("no connection", True))

    def test_curl_that_does_not_end(self) -> None:
        """curl ends by itself when the time of a file is over; if it does not, it is ended some seconds later."""
        self.expect("seconds", transfers._SECONDS_TO_END, 10)
        with tempfile.TemporaryDirectory() as folder:
            path = Path(folder, "curl")
            path.write_text("#!/bin/sh\nexec sleep 1000\n")
            path.chmod(0o755)
            with mock.patch.dict(os.environ, PATH=f"{folder}:{os.environ['PATH']}"), mock.patch.object(
                transfers, "_SECONDS_TO_END", 1000
            ):
                transfer = Transfer("https://127.0.0.1:9/", [], self.folder / "body", 0.1, 1000)
                time.sleep(0.2)
                self.expect("within these seconds", transfer.has_ended(), False)
                with mock.patch.object(transfers, "_SECONDS_TO_END", 0):
                    self.expect("after them", transfer.has_ended())
            transfer.end()
            self.expect("what is said", transfer.fault(), "no connection")

    def test_names_of_hosts(self) -> None:
        """A name server that does not answer in time, and one that answers too much."""
        self.expect("seconds", transfers._SECONDS_TO_LOOK_UP, 10)
        with mock.patch.object(transfers, "LOOK_UP", "import time; time.sleep(1000)"):
            lookup = transfers.Lookup("press.example.com")
            self.expect("within the time", lookup.has_ended(), False)
            with mock.patch.object(transfers, "_SECONDS_TO_LOOK_UP", 0):
                self.expect("after it", lookup.has_ended())
            self.expect("no address", lookup.addresses(), [])
        for count, wanted in ((65_536, 1), (65_537, 0)):
            with mock.patch.object(transfers, "LOOK_UP", f"import sys; sys.stdout.write('1' * {count})"):
                lookup = transfers.Lookup("press.example.com")
                wait_until(lookup.has_ended)
                self.expect(f"{count} bytes", len(lookup.addresses()), wanted)


class Numbers(Case):
    def test_hosts(self) -> None:
        """Four at once; the fifth begins when one has ended."""
        steps, turns = [_Step(f"host{number}") for number in range(6)], list[int]()

        def sleep(_: float) -> None:
            """Ends a turn; after the third, each download that has begun may end."""
            turns.append(sum(step.has_begun for step in steps))
            for step in steps if len(turns) > 2 else ():
                step.may_end = step.has_begun

        with mock.patch("time.sleep", sleep):
            list(downloads.run(steps))  # type: ignore[arg-type]
        self.expect("at first", turns[:3], [4, 4, 4])
        self.expect("in the end", turns[-1], 6)

    def test_names_that_servers_give(self) -> None:
        """A name of 1,000 characters is sent back, one more is not."""
        for count, wanted in ((1000, True), (1001, False)):
            self.expect(f"{count}", fetch_folder._name_in({"etag": "x" * count}, "etag") is not None, wanted)

    def test_bytes_of_the_list(self) -> None:
        """sources.tsv has a megabyte at most."""
        for count, wanted in ((2**20, ""), (2**20 + 1, "sources.tsv: more than 1,048,576 bytes")):
            with tempfile.TemporaryDirectory() as folder:
                os.chmod(folder, 0o755)
                path = Path(folder, "input", "sources.tsv")
                path.parent.mkdir()
                path.write_text("#" * (count - 1) + "\n")
                lines: list[str] = []
                said = ""
                try:
                    fetching.fetch(path.parent, lines.append, 600, 10)
                except Failure as failure:
                    said = str(failure)
            self.expect(f"{count} bytes", said.endswith(wanted) and bool(said) == bool(wanted))

    def test_days_without_a_change(self) -> None:
        """After 90 days, or those between two fetches if they are more, a line says so."""
        today = datetime.date(2026, 11, 1)
        for every, days, wanted in ((0, 90, False), (0, 91, True), (100, 100, False), (100, 101, True)):
            lines: list[str] = []
            with tempfile.TemporaryDirectory() as folder:
                inputs = InputFolder(f"{folder}/input")
                run = fetching._Fetch(inputs, FetchFolder(inputs), lines.append, 600, 10)
                source = Source("table.txt", "https://press.example.com/", every=every)
                run._state = fetch_folder.State(inputs, FetchFolder(inputs), None, today)
                run._state._entries["table.txt"] = fetch_folder._Entry(changed=str(today - datetime.timedelta(days)))
                run._say([source], 0)
            self.expect(
                f"{days} days, fetched every {every}", f"table.txt: not changed for {days} days" in lines, wanted
            )

    def test_names_and_numbers_of_the_list(self) -> None:
        """Names of secrets have 64 characters, days five digits, rows nine."""
        for count, wanted in ((64, {"k" * 64}), (65, set())):
            address = f"https://press.example.com/?{{{'k' * count}}}"
            self.expect(f"a name of {count}", Source("a", address).names(), wanted)
        for text, wanted in (("every 99999 days", 99_999), ("least 999999999 rows", 999_999_999)):
            source = sources._with_option(Source("a", "https://press.example.com/"), text)
            self.expect(text, source.every if "every" in text else source.least, wanted)
        for text in ("every 100000 days", "least 1000000000 rows"):
            with self.assertRaises(sources.Wrong):
                sources._with_option(Source("a", "https://press.example.com/"), text)
            self.compared += 1
