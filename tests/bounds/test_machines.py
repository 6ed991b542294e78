"""Several libraries and machines: names, ports, and what another machine may print and for how long."""
from __future__ import annotations

import os
import random
import socket
import tempfile
from pathlib import Path
from unittest import mock

from bounds.refusals import reason
from fixtures.cases import Case
from openlink_update import children
from openlink_update.machines import libraries
from openlink_update.machines import library_files
from openlink_update.machines import machines
from openlink_update.shown_text import line_of

MIB_4 = 4_194_304


class Names(Case):
    def test_bytes(self) -> None:
        self.expect("32", libraries.is_name("a" * 32))
        self.expect("33", libraries.is_name("a" * 33), False)

    def test_hosts(self) -> None:
        """A label has 63 characters, a name 253."""
        for name, host, wanted in (
            ("63", "a" * 63 + ".org", True),
            ("64", "a" * 64 + ".org", False),
            ("253", ".".join(["a" * 49] * 5) + ".org", True),
            ("254", ".".join(["a" * 49] * 4 + ["a" * 50]) + ".org", False),
        ):
            self.expect(name, library_files.HOST.fullmatch(host) is not None, wanted)

    def test_ports(self) -> None:
        """The lowest that are free from 214 to 318, then ten from 8100 on, none from 32000 on; at most nine
        processes."""
        self.expect("processes", library_files.MOST_PROCESSES, 9)
        with tempfile.TemporaryDirectory() as root:
            places = library_files.Places(root)
            for taken, wanted in (
                ({213}, (214, [215, 216])),
                ({214}, (215, [216, 217])),
                ({216}, (217, [218, 219])),
                ({*range(214, 316)}, (316, [317, 318])),
                ({*range(214, 317)}, (8100, [8101, 8102])),
                ({*range(214, 319), 8099}, (8100, [8101, 8102])),
                ({*range(214, 319), 8102}, (8110, [8111, 8112])),
            ):
                with mock.patch.object(children, "is_open", taken.__contains__):
                    self.expect(f"{taken} are taken", library_files.ports_of(places, None, 2), wanted)
            for last, said in ((31_989, ""), (31_990, "the ports from 214 on are not free")):
                with mock.patch.object(children, "is_open", lambda port: port <= last):
                    self.expect(f"all up to {last} are taken", reason(library_files.ports_of, places, None, 2), said)

    def test_protected_ports(self) -> None:
        """The system gives the ports below 1024 to root, and to processes whose unit says so: theirs alone says it."""
        with tempfile.TemporaryDirectory() as root:
            places = library_files.Places(root)
            library_files.write_units(places, "east", Path("/etc/openlink/east"), [1023, 1024])
            self.expect("units of the library", library_files.unit_ports(places), [1023, 1024])
            for port, wanted in ((1023, 2), (1024, 0)):
                text = library_files.read(library_files._unit_path(places, port))
                self.expect(f"{port}", text.count("=CAP_NET_BIND_SERVICE\n"), wanted)

    def test_processes(self) -> None:
        """Nine, which openlink-library counts; and of the ten ports of a library."""
        from openlink_update.commands import library

        for count, wanted in ((9, 9), (1, 1)):
            words = ["add", "east", "east.example.org", "--processes", str(count)]
            self.expect(f"{count}", library._parse(words).processes, wanted)
        for count in (10, 0):
            with open(os.devnull, "w") as null, mock.patch("sys.stderr", null), self.assertRaises(SystemExit) as ending:
                library._parse(["add", "east", "east.example.org", "--processes", str(count)])
            self.expect(f"{count}", ending.exception.code, 2)

    def test_ports_of_trials(self) -> None:
        """Below those that the system gives to clients."""
        self.expect("the range", (children._PORTS[0], children._PORTS[-1]), (20_000, 31_999))
        with mock.patch.object(children, "_PORTS", range(31_000, 31_002)), mock.patch.object(
            children, "claimed", list[object]()
        ):
            with mock.patch.object(socket, "create_server", mock.Mock()):
                found = {children.free_port(), children.free_port()}
                self.expect("two of two", found, {31_000, 31_001})
                self.expect("a third", reason(children.free_port).startswith("no free port from 31000 to 31001"))
            for claim in children.claimed:
                claim.close()

    def test_ports_that_others_have(self) -> None:
        """One at which something listens is left out."""
        with socket.create_server(("127.0.0.1", 0)) as server, mock.patch.object(children, "claimed", list[object]()):
            with mock.patch.object(children, "_PORTS", [server.getsockname()[1]]):
                told = reason(children.free_port)
            self.expect("none is free", told.startswith("no free port from "))
            self.expect("none is claimed", children.claimed, [])

    def test_where_the_ports_of_trials_begin(self) -> None:
        """At any of them, so that two runs rarely try the same; those before it come last."""
        with mock.patch.object(children, "_PORTS", range(31_000, 31_003)), mock.patch.object(
            children, "claimed", list[object]()
        ):
            with mock.patch.object(socket, "create_server", mock.Mock()), mock.patch.object(
                random, "randrange", lambda count: count - 2
            ):
                found = [children.free_port() for _ in range(3)]
            for claim in children.claimed:
                claim.close()
        self.expect("in their order", found, [31_001, 31_002, 31_000])


class Machines(Case):
    def test_bytes(self) -> None:
        """4 MiB, of both streams together."""
        self.expect("4 MiB", machines.MOST_BYTES, MIB_4)
        said = "sh: it prints more than 4,194,304 bytes"
        for name, script, wanted in (
            ("the last", f"head -c {MIB_4} /dev/zero", ""),
            ("beyond", f"head -c {MIB_4 + 1} /dev/zero", said),
            ("the last of both", f"head -c {MIB_4 - 7} /dev/zero; printf seven77 >&2", ""),
            ("beyond, of both", f"head -c {MIB_4 - 6} /dev/zero; printf seven77 >&2", said),
        ):
            self.expect(name, reason(machines.run, ["sh", "-c", script], 600), wanted)
        self.expect("all of it is read", len(machines.run(["head", "-c", str(MIB_4), "/dev/zero"], 600)), MIB_4)

    def test_seconds(self) -> None:
        """A command that ends in time, and one that does not, with its streams open or closed."""
        times = machines.SECONDS_TO_ASK, machines._SECONDS_TO_SEND, machines._SECONDS_TO_RECEIVE
        self.expect("to ask, to send, to receive", times, (60, 3600, 3600))
        self.expect("in time", reason(machines.run, ["true"], 600), "")
        for name, script in (("open", "exec sleep 1000"), ("closed", "exec sleep 1000 >&- 2>&-")):
            self.expect(
                f"streams are {name}", reason(machines.run, ["sh", "-c", script], 0.5), "sh: no end after 0.5 seconds"
            )

    def test_each_step_has_its_seconds(self) -> None:
        asked: list[tuple[str, float]] = []

        def run(words: list[str], seconds: float) -> str:
            asked.append((words[0], seconds))
            return ""

        machine = machines.Machine("other", "ssh", "openlink-update", Path("/etc/openlink"), 0)
        with mock.patch.object(machines, "run", run), mock.patch.object(machines, "report"):
            machine.ask()
            machine._copy("a/", "b/")
            machine._receive(machines._Sendable(".", mock.Mock(), "20261122T000000Z", mock.Mock(), Path("/none")))
        self.expect("steps", asked, [("ssh", 60), ("rsync", 3600), ("ssh", 60), ("ssh", 3600)])

    def test_lines(self) -> None:
        """Of a command that fails the last twelve lines are told, and of each the first 500 characters."""
        for count, wanted in ((12, "1"), (13, "2")):
            told = reason(machines.run, ["sh", "-c", f"seq {count}; exit 1"], 600).split("\n  ")
            self.expect(f"{count} lines", (told[0], len(told)), (wanted, 12))
        for count, wanted in ((500, "x" * 500), (501, f"{'x' * 500}..")):
            self.expect(f"{count} characters", line_of("x" * count), wanted)
