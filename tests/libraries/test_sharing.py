"""Tables that several libraries serve: fetched and prepared once, and once on the disk."""
from __future__ import annotations

import datetime
import glob
import http.server
import os
import shutil
import tempfile
import threading

from fixtures import needs
from fixtures.cases import Case
from fixtures.machine_of_libraries import Machine
from fixtures.machine_of_libraries import ended
from fixtures.machine_of_libraries import free_ports
from fixtures.machine_of_libraries import read
from fixtures.machine_of_libraries import write
from fixtures.weeks import TITLE
from openlink_update.outcome import Refused
from openlink_update.tables import preparation
from openlink_update.versions import same_files
from openlink_update.versions import shared_tables
from openlink_update.versions.served import prepared_table

SHELF = "examples/library/OpenShelf_Global_AllTitles_2026-11-01.csv"  # preparation has much to do for it
FEW = ("tidal-press", "coastal-law", "open-shelf")


def contents(path):
    with open(path, "rb") as file:
        return file.read()


def name_shared(library, shared, target):
    """Has a library's list name the shared table for its target, perhaps by another name of the target."""
    own = library.input.path("open-shelf.txt")
    if os.path.exists(own):
        os.unlink(own)
    lines = library.input.read("targets.tsv").decode().splitlines()
    lines = [
        f"{target}\topen-shelf.rules\t{shared}\tdropped up to 40" if line.startswith("open-shelf\t") else line
        for line in lines
    ]
    library.input.write("targets.tsv", ("\n".join(lines) + "\n").encode())
    library.input.names = [target if it == "open-shelf" else it for it in library.input.names]
    library.write_targets()
    library.input.write("probes.tsv", b"issn=0000-0000\tnone\n")


class Provider(http.server.BaseHTTPRequestHandler):
    """Gives the tables of a dictionary, by path, and counts what is asked."""

    tables, requests = {}, []

    def do_GET(self):
        self.requests.append(self.path)
        data = self.tables.get(self.path)
        self.send_response(200 if data else 404)
        self.send_header("Content-Length", str(len(data or b"")))
        self.end_headers()
        self.wfile.write(data or b"")

    def log_message(self, *_):
        pass


def in_use(libraries, names):
    """The inodes of a table as it came and as it is served, in the version in use of each library."""
    return [
        {library.inode("received", f"{name}.txt") for library, name in zip(libraries, names)},
        {library.inode("tables", f"{name}.txt") for library, name in zip(libraries, names)},
    ]


def check_first(case, libraries, names):
    """One file for all, and the same words about it from who prepared it and who did not."""
    case.expect("one file as it came, and one as it is served", [len(it) for it in in_use(libraries, names)], [1, 1])
    told = [it.report()[1].replace("shelf:", "open-shelf:").replace("open-open-", "open-") for it in libraries]
    lines = [[line for line in text.splitlines() if "in use" not in line] for text in told]
    case.expect("what is said of it", (lines[1], lines[2], len(lines[0]) > 5), (lines[0], lines[0], True))
    case.expect(
        "it is as preparation makes it",
        [contents(it.path("current/tables", f"{name}.txt")) for it, name in zip(libraries, names)],
        [prepared_table(SHELF, datetime.date.today())] * 3,
    )
    own = [library.inode("received", "coastal-law.txt") for library in libraries]
    case.expect("equal tables of their own are one file too", len(set(own)), 1)
    other = {library.inode("index", "format") for library in libraries}
    case.expect("each has its own index", len(other), 3)


def check_next(case, machine, libraries, names):
    """Another week: what has not changed stays the same file, and the shared table is a new one, once."""
    before = [in_use(libraries, names), [it.inode("received", "tidal-press.txt") for it in libraries]]
    keys = {os.path.basename(it) for it in glob.glob(libraries[0].path("current/index/keys/*"))}
    inodes = {name: libraries[0].inode("index/keys", name) for name in keys}
    Provider.tables["/shelf"] = (
        contents(SHELF).rstrip(b"\n") + b"\n" + contents(SHELF).splitlines()[-1].replace(b"-", b"-", 1) + b"\n"
    )
    libraries[1].input.add_row("tidal-press", TITLE.encode())
    old = [library.current() for library in libraries]
    status, printed = machine.update("--fetch", "--all")
    case.expect(
        f"another week: {printed}", (status, [it.current() != was for it, was in zip(libraries, old)]), (0, [True] * 3)
    )
    after = [in_use(libraries, names), [it.inode("received", "tidal-press.txt") for it in libraries]]
    case.expect(
        "the shared one is new, and one", ([len(it) for it in after[0]], after[0][0] & before[0][0]), ([1, 1], set())
    )
    case.expect("what has not changed", [one == other for one, other in zip(before[1], after[1])], [True, False, True])
    same = [
        name
        for name in keys
        if os.path.exists(libraries[0].path("current/index/keys", name))
        and libraries[0].inode("index/keys", name) == inodes[name]
    ]
    case.expect("files of the index", len(same) > len(keys) / 2, True)
    case.expect(
        "the version before is whole",
        [contents(it.path(was, "received", f"{name}.txt")) for it, was, name in zip(libraries, old, names)],
        [contents(SHELF)] * 3,
    )
    for library in libraries[:2]:
        status, printed = machine.update("--back", library.name)
        case.expect(f"back: {printed}", status, 0)
        case.expect("its bytes", contents(library.path("current/received/open-shelf.txt")), contents(SHELF))
    case.expect("forward", machine.update("--all")[0], 0)


def check_faults(case, machine, libraries, names, shared):
    """A shared table that is not fetched, or is bad: each library says so and keeps the old one."""
    del Provider.tables["/shelf"]
    status, printed = machine.update("--fetch", "--all")
    case.expect(f"not fetched: {printed}", (status, [it.report()[0] for it in libraries]), (1, ["0"] * 3))
    case.expect_lines("not fetched", printed, f"{shared}:")
    before = in_use(libraries, names)
    write(f"{shared}/shelf.csv", "<!DOCTYPE html><html><body>Sign in</body></html>")
    status, printed = machine.update("--all")
    case.expect(
        f"a web page: {printed}",
        (status, [it.report()[0] for it in libraries], in_use(libraries, names)),
        (1, ["1"] * 3, before),
    )
    case.expect("no two libraries share a lock", [os.path.exists(it.path("lock")) for it in libraries], [True] * 3)


@needs.command("curl")
@needs.nginx()
@needs.program()
class Sharing(Case):
    def test_shared(self) -> None:
        """Three libraries serve a table, one of them under another name, and each has a table of its own."""
        with Machine(has_desk=False) as machine:
            server = http.server.ThreadingHTTPServer(("127.0.0.1", free_ports(1)), Provider)
            threading.Thread(target=server.serve_forever, daemon=True).start()
            libraries, names = [machine.add(it, FEW) for it in ("a", "b", "c")], ("open-shelf", "open-shelf", "shelf")
            shared = machine.path("etc/openlink/shared")
            os.makedirs(shared)
            address = f"http://127.0.0.1:{server.server_port}"
            write(f"{shared}/sources.tsv", f"shelf.csv\t{address}/shelf\tplain http\n")
            Provider.tables["/shelf"] = contents(SHELF)
            for library, name in zip(libraries, names):
                name_shared(library, f"{shared}/shelf.csv", name)
            machine.start_nginx()
            machine.close_gate(libraries[-1])
            child = machine.begin("update", *machine.update_words("--fetch", "--all"))
            self.expect("the last library is at its restarts", machine.wait_at_gate())
            made = sorted(glob.glob(machine.path("tmp/openlink.*/*")))
            self.expect("prepared", [len(os.path.basename(it)) for it in made if not it.endswith("marks")], [64])
            machine.open_gate()
            status, printed = ended(child)
            self.expect(f"the first versions: {printed}", status, 0)
            self.expect("fetched once", Provider.requests, ["/shelf"])
            self.expect("nothing is left", os.listdir(machine.path("tmp")), [])
            check_first(self, libraries, names)
            check_next(self, machine, libraries, names)
            check_faults(self, machine, libraries, names, shared)
            server.shutdown()

    def test_prepare(self) -> None:
        """What is prepared again, and what is not."""
        counted, real = [], preparation.prepare

        def counting(files):
            counted.append([path for path, _ in files])
            return real(files)

        preparation.prepare = counting
        with tempfile.TemporaryDirectory() as folder:
            shared, place = f"{folder}/shared", f"{folder}/place"
            os.makedirs(f"{shared}/below")
            os.makedirs(place)
            one, two = contents(SHELF), contents("examples/library/CoastalLawSociety_Global_Journals_2026-10-15.txt")
            for name, data in (("one", one), ("below/two", two), ("bad", b"<html><body></body></html>")):
                with open(f"{shared}/{name}", "wb") as file:
                    file.write(data)
            shared_tables.prepare([("a", one)])
            shared_tables.prepare([("a", one)])
            self.expect("without a folder", len(counted), 2)
            shared_tables.mark(place, shared, [])
            shared_tables.folder = place
            for name, files, count in (
                ("first", [("a", one)], 1),
                ("from another path", [("b", one)], 0),
                ("another", [("b", two)], 1),
                ("not shared", [("b", one + b"\n")], 1),
                ("not shared, again", [("b", one + b"\n")], 1),
                ("two", [("a", one), ("b", two)], 1),
                ("two, the same paths", [("a", one), ("b", two)], 0),
                ("two, other paths", [("c", one), ("b", two)], 1),
                ("the other order", [("b", two), ("a", one)], 1),
            ):
                counted.clear()
                made = shared_tables.prepare(files)
                self.expect(name, len(counted), count)
                self.expect(f"{name}: the same", vars(made), vars(real(files)))
            for _ in "12":
                try:
                    shared_tables.prepare([("a", b"<html><body></body></html>")])
                    self.expect("a web page", False)
                except Refused as refusal:
                    self.expect("a web page", refusal.reasons, ["a: a web page, not a table"])
        shared_tables.folder, preparation.prepare = None, real

    def test_links(self) -> None:
        """Which files become one."""
        with tempfile.TemporaryDirectory() as folder:
            texts = {
                "new": {
                    "received/a": "aaaa",
                    "tables/a": "bbbb",
                    "index/k": "kkkk",
                    "registry.tsv": "r",
                    "code/a": "",
                    "received/c": "xxxx",
                },
                "old": {"received/a": "aaaa", "index/k": "kkkk", "index/l": "kkkk", "code/a": "", "received/c": "yyyy"},
                "other": {
                    "received/z": "aaaa",
                    "tables/z": "bbbb",
                    "index/m": "kkkk",
                    "registry.tsv": "r",
                    "received/c": "zzzz",
                },
            }
            for version, files in texts.items():
                for name, text in files.items():
                    os.makedirs(os.path.dirname(f"{folder}/{version}/{name}"), exist_ok=True)
                    write(f"{folder}/{version}/{name}", text)
                    os.utime(f"{folder}/{version}/{name}", (0, 0))  # one time: the bytes alone tell them apart
            for _ in "12":
                same_files.link(f"{folder}/new", f"{folder}/old", [f"{folder}/other"])
                same = {
                    (one, other)
                    for one in texts["new"]
                    for version in ("old", "other")
                    for other in texts[version]
                    if os.path.samefile(f"{folder}/new/{one}", f"{folder}/{version}/{other}")
                }
                self.expect(
                    "links", same, {("received/a", "received/z"), ("tables/a", "tables/z"), ("index/k", "index/k")}
                )
                for version, files in texts.items():
                    names = same_files.files_below(f"{folder}/{version}")
                    self.expect(
                        f"{version} is as it was", {name: read(f"{folder}/{version}/{name}") for name in names}, files
                    )
            shutil.rmtree(f"{folder}/old")
            shutil.rmtree(f"{folder}/other")
            self.expect("without the others", read(f"{folder}/new/tables/a"), "bbbb")
            same_files.link(f"{folder}/new", None, [])
