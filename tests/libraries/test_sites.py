"""Two libraries of one nginx: each gets its own host, targets.json, words, processes, index, logs, limits and local
server. Then one is removed."""
from __future__ import annotations

import glob
import json
import os
import re
import shutil
import signal
import socket

from fixtures import needs
from fixtures.cases import Case
from fixtures.machine_of_libraries import Library
from fixtures.machine_of_libraries import Machine
from fixtures.machine_of_libraries import ended
from fixtures.machine_of_libraries import read
from fixtures.machine_of_libraries import write
from fixtures.patience import patience
from fixtures.patience import wait_until
from fixtures.weeks import QUERY

OLD, NEW = "https://coastal.example.com/journals/pp", "https://coastal.example.com/titles/pp"
FORM = (
    "POST /find HTTP/1.1\r\nHost: {host}\r\nContent-Type: application/x-www-form-urlencoded\r\n"
    "Content-Length: 10\r\nExpect: 100-continue\r\n\r\n"
)
LONG = "/menu.css?x=" + "a" * 3000


def links(library, host=None):
    status, text = library.machine.get(host or library.host, f"/find.json?{QUERY}")
    groups = json.loads(text).get("groups", ()) if status == 200 else ()
    return {link["label"]: link["url"] for group in groups for link in group["links"]} or status


def start(case, machine):
    """Two libraries in use, one in week A and one in week B, with other targets."""
    east, wing = machine.add("east"), machine.add("east-wing", ("tidal-press", "coastal-law"))
    wing.input.deliver("B")
    east.edit_site('$openlink_export "";', '$openlink_export "kbart";')
    east.edit_site("#js_preload_object words_fr__east", "js_preload_object words_fr__east")
    wing.edit_site("$openlink_list on;", "$openlink_list off;")
    wing.edit_site("$openlink_log_wanted off;", "$openlink_log_wanted on;")
    os.mkdir(east.path("words"))
    words = json.loads(read("front_door/words/en.json"))
    write(east.path("words/fr.json"), json.dumps({**words, "language": "Français", "journals": "Les revues"}))
    targets = json.loads(east.input.read("targets.json"))
    east.input.write("targets.json", json.dumps({**targets, "languages": ["en", "fr"]}).encode())
    for library in (east, wing):
        library.edit_site(f"#include {machine.share}/nginx/why.conf", f"include {machine.share}/nginx/why.conf")
        write(library.path("passwords"), f"staff:{{PLAIN}}{library.name}\n")
        write(library.path("logo.svg"), f"<svg>{library.name}</svg>")
    machine.start_nginx()
    case.expect(
        "no site before the first version", [machine.get(it.host, "/find")[0] for it in (east, wing)], [404, 404]
    )
    status, printed = machine.update("--all")
    case.expect(f"the first versions: {printed}", status, 0)
    case.expect(
        "the sites are there",
        wait_until(
            lambda: [links(it) for it in (east, wing)]
            == [
                {"coastal-law of east": OLD},
                {"tidal-press of east-wing": "https://press.example.com/3030-0010/5", "coastal-law of east-wing": NEW},
            ]
        ),
    )
    return east, wing


def check_limits_of_each(case, machine, wing):
    """The other library has the same limits."""
    case.expect("long, too", machine.until_refused(wing.host, LONG, 600), (200, 429))


@needs.nginx()
@needs.program()
class Sites(Case):
    """Each test finds the libraries as they were when they came in use."""

    machine: Machine
    is_made = False
    east: Library
    wing: Library

    def setUp(self) -> None:
        super().setUp()
        kind = type(self)
        if kind.is_made:
            kind.machine.restore()
            return
        kind.machine = machine = Machine()
        kind.addClassCleanup(machine.close)
        kind.east, kind.wing = start(self, machine)
        machine.keep()
        kind.is_made = True

    def test_readers(self) -> None:
        """What a reader of each gets."""
        machine, east, wing = self.machine, self.east, self.wing
        for library in (east, wing):
            self.expect(
                f"{library.name}: its name", f"The library {library.name}" in machine.get(library.host, "/find")[1]
            )
            self.expect(
                f"{library.name}: its logo", machine.get(library.host, "/logo.svg")[1], f"<svg>{library.name}</svg>"
            )
            self.expect(f"{library.name}: a fault", f"The library {library.name}" in machine.get(library.host, "/x")[1])
        self.expect("another host", machine.get("other.example.org", "/find")[0], 404)
        self.expect(
            "books", ["Handbook" in machine.get(it.host, "/books?q=handbook")[1] for it in (east, wing)], [True, False]
        )
        self.expect("the list", [machine.get(it.host, "/journals")[0] for it in (east, wing)], [200, 404])
        formats = [read(it.path("current/index/format")).split(" ", 1)[1] for it in (east, wing)]
        self.expect("and its index", formats, ["list\n", "no list\n"])
        exported = [machine.get(it.host, "/export/kbart.txt") for it in (east, wing)]
        self.expect("exports", ([it[0] for it in exported], "book-house of east" in exported[0][1]), ([200, 404], True))
        for library in (east, wing):
            folder = library.path("exported")
            done = ended(
                machine.begin(
                    "holdings", "kbart", folder, "--library", library.path(), "--site", library.path("site.conf")
                )
            )
            labels = {it.split("\t")[-1] for it in read(f"{folder}/kbart.txt").splitlines()[1:]}
            self.expect(
                f"{library.name}: holdings {done[1]}",
                (done[0], {it.partition(" of ")[2] for it in labels}),
                (0, {library.name}),
            )
            shutil.rmtree(folder)
        self.expect(
            "own words",
            ["Les revues" in machine.get(it.host, "/find?lang=fr")[1] for it in (east, wing)],
            [True, False],
        )
        self.expect(
            "the other languages",
            ['hreflang="fr"' in machine.get(it.host, "/find")[1] for it in (east, wing)],
            [True, False],
        )
        menus = [machine.get(it.host, f"/openurl.txt?{QUERY}")[1] for it in (east, wing)]
        self.expect(
            "the program's menu",
            menus,
            [f"coastal-law\t{OLD}\n", "tidal-press\thttps://press.example.com/3030-0010/5\n" f"coastal-law\t{NEW}\n"],
        )

    def test_local(self) -> None:
        """The servers for the machine itself, and the page for staff."""
        machine, east, wing = self.machine, self.east, self.wing
        for library, other in ((east, wing), (wing, east)):
            port, ports = library.ports()
            status, text = machine.get("127.0.0.1", "/health", port)
            lines = ["ok", *(f"port {it} answers" for it in ports)]
            self.expect(f"{library.name}: health", (status, text.splitlines()[:3]), (200, lines))
            self.expect(f"{library.name}: version", f"version {os.path.basename(library.current())}," in text)
            report = machine.get("127.0.0.1", f"/report.txt?{QUERY}", port)[1]
            self.expect(
                f"{library.name}: report",
                ("book-house" in report, "coastal-law\tlink " in report),
                (library is east, True),
            )
            page = machine.get("127.0.0.1", f"/why?{QUERY}", port)[1]
            self.expect(
                f"{library.name}: why", (library.path("current") in page, other.path("current") in page), (True, False)
            )
            self.expect(f"{library.name}: no other name", machine.get(library.host, "/health", port)[0], 421)
            found = [machine.get(library.host, f"/why?{QUERY}", user=f"staff:{it.name}") for it in (library, other)]
            self.expect(f"{library.name}: its password", [it[0] for it in found], [200, 401])
            self.expect(f"{library.name}: its own page", f"{library.path('current')}/" in found[0][1])

    def test_logs(self) -> None:
        """Each request is in the log of one library; what was asked for in vain is only where it is switched on."""
        machine, east, wing = self.machine, self.east, self.wing
        logs = [
            machine.path("var/log/nginx", f"openlink.{it.name}.{end}")
            for it in (east, wing)
            for end in ("log", "wanted.log", "followed.log")
        ]

        def lines():
            return [read(path).count("from=info:sid/here") for path in logs]

        for library, count in ((east, 3), (wing, 2)):
            for _ in range(count):
                machine.get(library.host, "/find?sid=here&issn=1234-5679&date=1999")
        wait_until(lambda: lines() == [3, 0, 0, 2, 0, 0], 5)
        self.expect("lines", lines(), [3, 0, 0, 2, 0, 0])
        self.expect(
            "asked for in vain",
            [read(logs[1]), re.sub("[0-9]{4}-[0-9]{2} ", "", read(logs[4]))],
            ["", "1234-5679 1999\n" * 2],
        )
        self.expect("modes", [os.stat(path).st_mode & 0o777 for path in logs], [0o640] * 6)
        self.expect(
            "no other log of readers",
            sorted(glob.glob(machine.path("var/log/nginx", "openlink*"))),
            sorted([*logs, machine.path("var/log/nginx", "openlink-error.log")]),
        )

    def test_limits(self) -> None:
        """What readers of one library send too often is no matter of the other."""
        machine, east, wing = self.machine, self.east, self.wing
        for name, target, user, good, other, count in (
            ("long", LONG, None, 200, 200, 600),
            ("passwords", "/why", "staff:x", 401, 401, 200),
            ("searches", "/books?q=tid", None, 200, 404, 400),
        ):  # the other one has no lists
            self.expect(f"{name}: too many", machine.until_refused(east.host, target, count, user), (good, 429))
            self.expect(f"{name}: the other library", machine.get(wing.host, target, user=user)[0], other)
        peers = [socket.create_connection(("127.0.0.1", machine.port), patience(5)) for _ in range(20)]
        for peer in peers:
            peer.sendall(FORM.format(host=east.host).encode())
        self.expect("twenty at once", {peer.recv(1000) for peer in peers}, {b"HTTP/1.1 100 Continue\r\n\r\n"})
        self.expect("one more", [machine.get(it.host, "/find")[0] for it in (east, wing)], [429, 200])
        for peer in peers:
            peer.close()
        check_limits_of_each(self, machine, wing)

    def test_one_process(self) -> None:
        """A restart of one library's processes, and processes of one that have ended."""
        machine, east, wing = self.machine, self.east, self.wing
        port = wing.ports()[1][0]
        self.expect(
            "folder of a process",
            os.readlink(f"/proc/{read(machine.path('run', str(port)))}/cwd".replace("\n", "")),
            os.path.realpath(wing.path("current")),
        )
        for it in wing.ports()[1]:
            os.kill(int(read(machine.path("run", str(it)))), signal.SIGKILL)
        self.expect(
            "no process of one", wait_until(lambda: (links(wing), links(east)) == (503, {"coastal-law of east": OLD}))
        )
        health = [machine.get("127.0.0.1", "/health", it.ports()[0])[0] for it in (east, wing)]
        self.expect("its health", health, [200, 503])

    def test_remove(self) -> None:
        """The other library stays, and nothing of the removed one is left but its input, its site, its desk, the
        records of its runs, and what the operator has added to its units."""
        machine, east, wing = self.machine, self.east, self.wing
        port, ports = wing.ports()
        units = [f"openlink@{it}" for it in ports]
        own = machine.path("etc/systemd/system", f"openlink@{ports[0]}.service.d")
        write(f"{own}/memory.conf", "[Service]\nMemoryMax=1G\n")
        machine.calls()
        self.expect(
            "remove",
            machine.library("remove", wing.name),
            (0, f"{wing.name} is removed; its input and its site are in {wing.path()}.removed\n"),
        )
        self.expect(
            "what systemd is told",
            machine.calls(),
            ["reload-or-restart nginx", f"disable --now {' '.join(units)}", "daemon-reload"],
        )
        self.expect(
            "its units",
            glob.glob(machine.path("etc/systemd/system", "openlink@*")),
            [os.path.dirname(it) for it in glob.glob(machine.path("etc/systemd/system", "*", "*"))],
        )
        self.expect(
            "the operator's own file",
            (os.listdir(own), read(f"{own}/memory.conf")),
            (["memory.conf"], "[Service]\nMemoryMax=1G\n"),
        )
        left = [
            it
            for path in glob.glob(machine.path("etc/systemd/system", "*", "*"))
            for it in read(path).splitlines()
            if it.startswith("WorkingDirectory=")
        ]
        self.expect("those of the other", left, [f"WorkingDirectory={east.path('current')}"] * 2)
        self.expect("its processes", [os.path.exists(machine.path("run", str(it))) for it in ports], [False, False])
        self.expect(
            "the folder",
            (os.path.lexists(wing.path()), sorted(os.listdir(f"{wing.path()}.removed"))),
            (False, ["desk", "input", "local.conf", "logo.svg", "passwords", "report", "runs", "site.conf", "updated"]),
        )
        self.expect("its site is gone", wait_until(lambda: machine.get(wing.host, "/find")[0] == 404))
        self.expect("and its local server", wait_until(lambda: not machine.listens(port)))
        self.expect("the other site", links(east), {"coastal-law of east": OLD})
        self.expect("the list", [it.split("\t")[0] for it in machine.library("list")[1].splitlines()], ["east"])
        self.expect("once more", machine.library("remove", wing.name)[0], 2)
        again = machine.add(wing.name)
        self.expect(
            "the name again",
            (machine.update(wing.name)[0], wait_until(lambda: links(again) == {"coastal-law of east-wing": OLD})),
            (0, True),
        )
        self.expect(
            "no folder is overwritten", (machine.library("remove", wing.name)[0], again.current() is None), (3, False)
        )
