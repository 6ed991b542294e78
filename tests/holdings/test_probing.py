"""Probes at a front door that a small server stands for: what each reply means, what is said, and which probes are kept
for the next version."""
from __future__ import annotations

import contextlib
import http.server
import io
import json
import tempfile
import threading
from pathlib import Path
from unittest import mock
from urllib.parse import urlsplit

from bounds.refusals import reason
from fixtures.cases import Case
from fixtures.local_ports import free_ports
from openlink_update.input_files import InputFolder
from openlink_update.site import probes
from openlink_update.site import probing
from openlink_update.site.probes import Unreachable

MARK = "&rfr_id=info:sid/openlink:probe"
PAGE = {"groups": [{"links": [{"target": "press", "url": "https://press.example.com/1"}]}, {"links": []}]}
REPORT = "press\tlink 0\nother\tno row\nother.2\tno link\nhidden\tlink 3\nother.1\tno row\n"


class Door(http.server.ThreadingHTTPServer):
    """Gives the replies that are set for a path, the last of them again and again."""

    def __init__(self) -> None:
        super().__init__(("127.0.0.1", 0), _Handler)
        self.replies: dict[str, list[tuple[int, str]]] = {}
        self.asked: list[tuple[str, str]] = []  # a path, and the languages that are asked for

    @property
    def address(self) -> str:
        return f"http://127.0.0.1:{self.server_port}"


class _Handler(http.server.BaseHTTPRequestHandler):
    def do_GET(self) -> None:
        door = self.server
        assert isinstance(door, Door)
        door.asked.append((self.path, self.headers["Accept-Language"]))
        left = door.replies.get(urlsplit(self.path).path, [(404, "")])
        status, text = left.pop(0) if len(left) > 1 else left[0]
        self.send_response(status)
        self.send_header("Content-Length", str(len(text.encode())))
        self.end_headers()
        self.wfile.write(text.encode())

    def log_message(self, format: str, *words: object) -> None:
        """Nothing is printed."""


class DoorCase(Case):
    def setUp(self) -> None:
        self.door = Door()
        threading.Thread(target=self.door.serve_forever, args=(0.01,), daemon=True).start()
        self.addCleanup(self.door.server_close)
        self.addCleanup(self.door.shutdown)
        self.give("/find.json", (200, json.dumps(PAGE)))
        self.give("/report.txt", (200, REPORT))
        room = tempfile.TemporaryDirectory()
        self.addCleanup(room.cleanup)
        self.folder = Path(room.name)

    def give(self, path: str, *replies: tuple[int, str]) -> None:
        self.door.replies[path] = [*replies]

    def said(self) -> str:
        """Why there are no links of a query."""
        try:
            probes.links(self.door.address, "issn=1")
        except Unreachable as fault:
            return str(fault).replace(self.door.address, "door")
        return ""


class Replies(DoorCase):
    def test_links(self) -> None:
        self.expect("the links", probes.links(self.door.address, "a=1"), {"press": "https://press.example.com/1"})
        self.expect("what is asked", self.door.asked, [(f"/find.json?a=1{MARK}", "*")])
        for status in (400, 413, 414):
            self.give("/find.json", (status, ""))
            self.expect(f"status {status}", probes.links(self.door.address, "a=1"), None)

    def test_other_replies(self) -> None:
        for status in (204, 403, 404, 500):
            self.give("/find.json", (status, ""))
            self.expect(f"status {status}", self.said(), f"door: status {status} for /find.json?issn=1")
        for text in ("<html>", "[]", '{"groups": [{"links": [{"target": "a"}]}]}', '{"groups": 3}'):
            self.give("/find.json", (200, text))
            self.expect(text, self.said(), "door: /find.json gives no JSON of the front door")

    def test_too_many_requests(self) -> None:
        """It is sent again after a pause, sixty times at most."""
        with mock.patch("time.sleep") as sleep:
            self.give("/find.json", *[(429, "")] * 59, (200, json.dumps(PAGE)))
            self.expect("the sixtieth", list(probes.links(self.door.address, "a=1") or ()), ["press"])
            self.expect("pauses", [it.args for it in sleep.call_args_list], [(0.5,)] * 59)
            self.give("/find.json", (429, ""))
            self.expect("no more", self.said(), "door: status 429 for /find.json?issn=1")

    def test_no_reply(self) -> None:
        address = f"http://127.0.0.1:{free_ports(1)[0]}"
        for kind in ("http", "https"):
            try:
                probes.links(address.replace("http", kind), "a=1")
                said = ""
            except Unreachable as fault:
                said = str(fault)
            self.expect(kind, said, f"{address.replace('http', kind)}: [Errno 111] Connection refused")


class Differences(DoorCase):
    def found(self, *targets: str) -> list[str]:
        probe = probes.Probe(3, "issn=2901-0012", targets)
        return probes.differences(self.door.address, self.door.address, probe)

    def test_reasons(self) -> None:
        """Of the parts of a table the reason that says most counts: a link, or else one of a row."""
        self.expect("it holds", self.found("press"), [])
        self.expect("no report is asked for then", [path for path, _ in self.door.asked if "report" in path], [])
        hidden = "  missing hidden: link 3 but not shown: onlyWithout in targets.json hides its group"
        lines = [
            "  missing other: no link",
            hidden,
            "  missing nobody: not in the registry",
            "  too many press: link 0",
        ]
        self.expect("four differ", self.found("other", "hidden", "nobody"), lines)

    def test_no_report(self) -> None:
        self.give("/report.txt", (503, ""))
        text = f"  missing other: no report: {self.door.address}: status 503"
        self.expect("another status", self.found("press", "other"), [text])
        probe = probes.Probe(3, "issn=2901-0012", ("press", "other"))
        nothing = f"http://127.0.0.1:{free_ports(1)[0]}"
        found = probes.differences(self.door.address, nothing, probe)
        text = f"  missing other: no report: {nothing}: [Errno 111] Connection refused"
        self.expect("no server", found, [text])

    def test_command(self) -> None:
        file, errors, printed = self.folder / "probes.tsv", io.StringIO(), io.StringIO()

        def ended(text: str, *words: str) -> tuple[int, str, str]:
            file.write_text(text, encoding="utf-8")
            for stream in (errors, printed):
                stream.seek(0)
                stream.truncate()
            with contextlib.redirect_stdout(printed), contextlib.redirect_stderr(errors):
                status = probes.main([str(file), *(words or (self.door.address, self.door.address))])
            return status, printed.getvalue(), errors.getvalue()

        self.expect("all hold", ended("a=1\tpress\n"), (0, "", ""))
        text = f"{file}:2: a=2\n  too many press: link 0\n1 of 2 probes differ\n"
        self.expect("one differs", ended("a=1\tpress\na=2\tnone\n"), (1, text, ""))
        self.expect("no address", ended("a=1\tpress\n", "127.0.0.1")[0], 2)
        self.expect("with a slash", ended("a=1\tpress\n", f"{self.door.address}/")[0], 0)
        secure = f"https://127.0.0.1:{free_ports(1)[0]}"
        self.expect("a door with TLS", ended("a=1\tpress\n", secure)[0], 4)
        for address in ("ftp://127.0.0.1", "http://", "http://a/b", "http://a:0", "http://a:x"):
            self.expect(address, ended("a=1\tpress\n", address)[0], 2)
        self.expect("no probe", ended("# a\n"), (3, "", f"openlink-probe: {file}: no probe\n"))
        nothing = f"http://127.0.0.1:{free_ports(1)[0]}"
        text = f"openlink-probe: {nothing}: [Errno 111] Connection refused\n"
        self.expect("no front door", ended("a=1\tpress\n", nothing), (4, "", text))
        file.unlink()
        with contextlib.redirect_stderr(errors):
            self.expect("no file", probes.main([str(file)]), 3)


class Kept(DoorCase):
    """The probes of an input."""

    def probes(self, text: str) -> probing.Probes:
        (self.folder / "probes.tsv").write_text(text, encoding="utf-8")
        return probing.Probes(InputFolder(self.folder), "probes.tsv")

    def test_files(self) -> None:
        self.expect("none", probing.Probes(InputFolder(self.folder), "probes.tsv").list, [])
        path = self.folder / "probes.tsv"
        said = f"{path}: line 2 is not a query, a tab, and names of targets or none"
        self.expect("a wrong line", reason(self.probes, "a=1\tpress\na=2\n"), said)
        said = f"{path}: line 1 has none together with names of targets"
        for names in ("none press", "press none", "press\tnone", "none none"):
            self.expect(names, reason(self.probes, f"a=1\t{names}\n"), said)
        queries = [it.query for it in self.probes("a=é#\x01b \tpress\n").list]
        self.expect("bytes that no address has", queries, ["a=%C3%A9%23%01b%20"])
        path.unlink()
        path.mkdir()
        self.expect("a folder", reason(probing.Probes, InputFolder(self.folder), path.name), f"{path}: Is a directory")

    def test_what_they_show(self) -> None:
        found = self.probes("a=1\tpress\na=2\tother\na=3\tnone\n")
        menu = {"press": "https://press.example.com/1"}
        self.expect("links", found.links(self.door.address), [menu] * 3)
        self.expect("which differ", [it.probe.number for it in found.differences(self.door.address)], [2, 3])
        new = [{"press": "https://press.example.com/2"}, {}, {"web": "https://e.org/"}]
        path = self.folder / "probes.tsv"
        lines = [
            f"{path}:1: a=1",
            "  press https://press.example.com/1 is now https://press.example.com/2",
            f"{path}:2: a=2",
            "  loses press https://press.example.com/1",
            f"{path}:3: a=3",
            "  gains web https://e.org/",
            "  loses press https://press.example.com/1",
        ]
        self.expect("what becomes of links", found.changes([menu] * 3, new), lines)
        self.expect("nothing", found.changes(new, new), [])
        self.expect("links of those that hold", found.keep_those_that_hold([menu] * 3), ([menu], ["2", "3"]))
        self.expect("which are left", [probe.query for probe in found.list], ["a=1"])

    def test_refused_queries(self) -> None:
        self.give("/find.json", (400, ""))
        self.expect("no links", self.probes("a=1\tpress\n").links(self.door.address), [{}])

    def test_no_front_door(self) -> None:
        found, nothing = self.probes("a=1\tpress\n"), f"http://127.0.0.1:{free_ports(1)[0]}"
        said = f"{nothing}: [Errno 111] Connection refused"
        self.expect("links", reason(found.links, nothing), said)
        self.expect("differences", reason(found.differences, nothing), said)
