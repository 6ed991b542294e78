"""The files of a library beside its folder: its site, its logs and its units, on machines that differ."""
from __future__ import annotations

import contextlib
import io
import os
import shutil
import stat
import tempfile
from pathlib import Path
from unittest import mock

from bounds.refusals import reason
from fixtures.cases import Case
from openlink_update import children
from openlink_update.commands import library
from openlink_update.machines import library_files
from openlink_update.machines.library_files import Places

INET6 = "/proc/net/if_inet6"
LINKS = ("current", "before")


class Machines(Case):
    def setUp(self) -> None:
        room = tempfile.TemporaryDirectory()
        self.addCleanup(room.cleanup)
        self.places = Places(room.name)

    def sites(self, has_ipv6: bool) -> list[str]:
        """The lines that listen by IPv6 of a library's site and of the machine's."""
        exists, folder = os.path.exists, self.places.libraries / "north"
        shutil.rmtree(folder, ignore_errors=True)
        self.places.machine.unlink(missing_ok=True)
        with mock.patch("os.path.exists", lambda path: has_ipv6 if path == INET6 else exists(path)):
            library_files.write_library(self.places, folder, "north", "north.example.org", 214, [215, 216])
            library_files.write_machine(self.places)
        texts = [library_files.read(path) for path in (folder / "site.conf", self.places.machine)]
        return [line.split(";")[0].strip() for text in texts for line in text.splitlines() if "[::]:80" in line]

    def test_ipv6(self) -> None:
        """nginx does not start where it has to listen by a protocol that the machine lacks."""
        lines = self.sites(True)
        self.expect(f"{len(lines)} lines", len(lines) >= 2)
        self.expect("with it", [line for line in lines if line.startswith("#")], [])
        self.expect("without it", [line.lstrip("#").strip() for line in self.sites(False)], lines)
        self.expect("as comments", [line for line in self.sites(False) if not line.startswith("#")], [])

    def test_sites_that_exist(self) -> None:
        """What all libraries have once is the operator's from then on."""
        self.places.nginx.mkdir(parents=True)
        for path in (self.places.machine, self.places.sites):
            path.write_text("# the operator's\n", encoding="utf-8")
        library_files.write_machine(self.places)
        texts = [library_files.read(path) for path in (self.places.machine, self.places.sites)]
        self.expect("both stay", texts, ["# the operator's\n"] * 2)

    def test_logs(self) -> None:
        """Another system may have neither the user of nginx nor the group, or not let this process give files away."""
        for fault in (LookupError("no such user"), PermissionError(1, "Operation not permitted")):
            shutil.rmtree(self.places.logs, ignore_errors=True)
            with mock.patch("shutil.chown", side_effect=fault) as chown:
                library_files.write_logs(self.places, "north")
            names = sorted(os.listdir(self.places.logs))
            ends = ("followed.log", "log", "wanted.log")
            self.expect(f"files after {fault}", names, [f"openlink.north.{end}" for end in ends])
            self.expect("to whom they belong", {it.args[1:] for it in chown.call_args_list}, {("www-data", "adm")})
            modes = {stat.S_IMODE((self.places.logs / name).stat().st_mode) for name in names}
            self.expect("their modes", modes, {0o640})
        path, other = (self.places.logs / f"openlink.north.{end}" for end in ("log", "wanted.log"))
        path.write_text("a line\n", encoding="utf-8")
        other.unlink()
        library_files.write_logs(self.places, "north")
        self.expect("one that exists", path.read_text(encoding="utf-8"), "a line\n")
        self.expect("one that does not", other.exists())

    def test_units(self) -> None:
        """Each library has the ports of its units; what else an operator has put beside one stays."""
        north, south = self.places.libraries / "north", self.places.libraries / "south"
        library_files.write_units(self.places, "north", north, [216, 215])
        library_files.write_units(self.places, "south", south, [8101])
        ports = [library_files.unit_ports(self.places, it) for it in (north, south, None)]
        self.expect("ports", ports, [[215, 216], [8101], [215, 216, 8101]])
        with mock.patch.object(children, "is_open", lambda _: False):
            found = library_files.ports_of(self.places, None, 1)
        self.expect("a library without a site keeps its own", found, (217, [218]))
        folder = self.places.units / "openlink@215.service.d"
        (folder / "own.conf").write_text("[Service]\n", encoding="utf-8")
        library_files.remove_units(self.places, [215, 216])
        self.expect("what is left", sorted(os.listdir(self.places.units)), [folder.name, "openlink@8101.service.d"])
        self.expect("the operator's file", os.listdir(folder), ["own.conf"])
        library_files.remove_units(self.places, [])
        self.expect("of no ports", library_files.unit_ports(self.places), [8101])


    def test_processes_of_a_site(self) -> None:
        """nginx asks a process that is restarted again at once."""
        folder = self.places.libraries / "north"
        library_files.write_library(self.places, folder, "north", "north.example.org", 214, [215, 216])
        lines = [line.strip() for line in library_files.read(folder / "site.conf").splitlines()]
        servers = [line for line in lines if line.startswith("server ") and "127.0.0.1" in line]
        self.expect("processes", servers, ["server 127.0.0.1:215 max_fails=0;", "server 127.0.0.1:216 max_fails=0;"])

    def test_hosts(self) -> None:
        """A host is taken by the site that has it, and by no comment, part of a name or library that was removed."""
        self.places.nginx.mkdir(parents=True)
        (self.places.nginx / "other.conf").write_text(
            "# server_name old.example.org;\nserver { server_name a.example.org\n    b.example.org; }\n"
        )
        for name in ("north", "south.removed", "west.new"):
            (self.places.libraries / name).mkdir(parents=True)
            site = f"server {{\n    server_name {name.partition('.')[0]}.example.org;\n}}\n"
            (self.places.libraries / name / "site.conf").write_text(site)
        for host in ("a.example.org", "b.example.org", "north.example.org"):
            said = f"{host}: another site of this machine has this name"
            self.expect(host, reason(library_files.check_host, self.places, host), said)
        for host in ("old.example.org", "example.org", "south.example.org", "west.example.org"):
            self.expect(host, reason(library_files.check_host, self.places, host), "")


class Commands(Case):
    """openlink-library on a machine whose systemctl notes what it is told."""

    def setUp(self) -> None:
        room = tempfile.TemporaryDirectory()
        self.addCleanup(room.cleanup)
        self.room, self.places = room.name, Places(room.name)
        systemctl = Path(room.name, "bin/systemctl")
        systemctl.parent.mkdir()
        systemctl.write_text(f'#!/bin/sh\necho "$*" >>{room.name}/calls\n', encoding="utf-8")
        systemctl.chmod(0o755)
        self.enterContext(mock.patch.dict(os.environ, PATH=f"{systemctl.parent}:{os.environ['PATH']}"))

    def library(self, *words: str) -> tuple[int, str]:
        """The status of openlink-library, and what it prints."""
        with contextlib.redirect_stdout(io.StringIO()) as said, contextlib.redirect_stderr(said):
            status = library.main(["--root", self.room, *words])
        return status, said.getvalue().replace(f"{self.places.libraries}", "FOLDER")

    def test_what_add_says(self) -> None:
        """Ports from 1024 on are open to others, also if they are not all of the library's."""
        with mock.patch.object(children, "is_open", lambda _: False):
            said = self.library("add", "north", "north.example.org", "--ports", "1022")
        line = "FOLDER/north: north.example.org, local port 1022, processes openlink@1023 openlink@1024\n"
        warning = "any user of this machine can take a port from 1024 on while its process restarts\n"
        self.expect("lines", said, (0, f"{line}{warning}next: fill FOLDER/north/input, then openlink-update north\n"))
        calls = Path(self.room, "calls").read_text(encoding="utf-8")
        self.expect("what systemd is told", calls, "daemon-reload\nenable openlink@1023 openlink@1024\n")
        (self.places.libraries / "north/versions/20261121T000000Z").mkdir(parents=True)
        (self.places.libraries / "north/current").symlink_to("versions/20261121T000000Z")
        listed = "north\tnorth.example.org\t1022\t1023 1024\t20261121T000000Z\n"
        self.expect("the list", self.library("list"), (0, listed))

    def test_a_full_disk(self) -> None:
        """What was made of the library is removed."""
        fault = OSError(28, "No space left on device", "/x")
        with mock.patch.object(library_files, "write_units", side_effect=fault):
            said = self.library("add", "north", "north.example.org")
        self.expect("what is said", said, (4, "openlink-library: /x: No space left on device\n"))
        self.expect("what is left", os.listdir(self.places.libraries), [])

    def test_a_library_of_an_earlier_release(self) -> None:
        """It may have a name that no new one can have. Its host is its own, and it can be removed."""
        (self.places.libraries / "desk").mkdir(parents=True)
        (self.places.libraries / "desk/site.conf").write_text("server { server_name desk.example.org; }\n")
        said = "openlink-library: desk.example.org: another site of this machine has this name\n"
        self.expect("its host", self.library("add", "north", "desk.example.org"), (3, said))
        said = "desk is removed; its input and its site are in FOLDER/desk.removed\n"
        self.expect("it is removed", self.library("remove", "desk"), (0, said))

    def test_links(self) -> None:
        """A library that is removed while a run of it was killed: neither link to a version stays."""
        added, folder = self.library("add", "north", "north.example.org"), self.places.libraries / "north"
        for link in LINKS:
            (folder / link).symlink_to("versions/20261121T000000Z")
        self.expect("the statuses", (added[0], self.library("remove", "north")[0]), (0, 0))
        names = os.listdir(f"{folder}.removed")
        self.expect(f"{names}", ("site.conf" in names, [it for it in LINKS if it in names]), (True, []))

    def test_names(self) -> None:
        """What can be no library's name is no name of one to remove either, whatever is at its path."""
        with tempfile.TemporaryDirectory() as room:
            Places(room).libraries.mkdir(parents=True)
            inside, outside = Places(room).libraries / "North", Places(room).libraries.parent / "kept"
            for folder in inside, outside:
                folder.mkdir()
            for name in ("", "..", "../kept", "North", "a b"):
                said = io.StringIO()
                with contextlib.redirect_stderr(said), self.assertRaises(SystemExit) as ended:
                    library.main(["--root", room, "remove", name])
                self.expect(f"{name!r}: the status", ended.exception.code, 2)
                self.expect(f"{name!r}", f"no library can have the name {name}\n" in said.getvalue(), True)
            self.expect("both stay", (inside.is_dir(), outside.is_dir()), (True, True))
