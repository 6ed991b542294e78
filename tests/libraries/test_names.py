"""What `openlink-library add` accepts and writes, and what it leaves if it fails."""
from __future__ import annotations

import fcntl
import glob
import os
import re
import subprocess

from fixtures import needs
from fixtures.cases import Case
from fixtures.machine_of_libraries import Machine
from fixtures.machine_of_libraries import free_ports
from fixtures.machine_of_libraries import read
from fixtures.machine_of_libraries import write
from openlink_update.machines import libraries
from openlink_update.machines import library_files

GOOD = ("a", "east", "east-wanted", "a-1-b", "error", "lookup-rate", "l" * 32)
BAD = (
    "",
    "desk",
    "runs",
    "-",
    "-east",
    "east-",
    "east--hall",
    "1st",
    "East",
    "east_hall",
    "east.hall",
    "east hall",
    "öst",
    "a/b",
    "..",
    "a\nb",
    "a\n",
    "l" * 33,
    "input",
    "versions",
    "current",
    "before",
    "trial",
    "lock",
    "shared",
    "delivery",
    "drain",
    "sending",
    "ssh",
    "updated",
)
BAD_HOSTS = (
    "",
    "East.example.org",
    "east.example.org;",
    "a b",
    "a..b",
    "a-.example.org",
    "a_b.example.org",
    "a.example.org\nlisten 81",
    "a.example.org\n",
    "*.example.org",
    "$host",
    "a" * 64 + ".org",
    ".".join(["a" * 60] * 5),
)
RIGHT = ["AmbientCapabilities=CAP_NET_BIND_SERVICE", "CapabilityBoundingSet=CAP_NET_BIND_SERVICE"]


def left(machine):
    """What a library has outside of its folder, and folders of libraries."""
    return sorted(
        os.path.relpath(path, machine.folder)
        for pattern in ("etc/openlink/*", "etc/systemd/system/*")
        for path in glob.glob(machine.path(pattern))
    )


def syntax(machine):
    """Why nginx would not take the sites; nothing if it would."""
    done = subprocess.run(
        [
            "nginx",
            "-t",
            "-q",
            "-c",
            machine.path("etc/nginx/nginx.conf"),
            "-p",
            machine.folder,
            "-e",
            machine.path("test.log"),
        ],
        capture_output=True,
        text=True,
    )
    return done.stderr if done.returncode else ""


def put_in_use(machine, name):
    """A version that has only what nginx reads."""
    folder = machine.path("etc/openlink", name)
    os.makedirs(f"{folder}/versions/20261123T040000Z")
    write(f"{folder}/versions/20261123T040000Z/targets.json", read(f"{folder}/input/targets.json"))
    os.symlink("versions/20261123T040000Z", f"{folder}/current")


@needs.nginx()
@needs.program()
class Names(Case):
    def test_names(self) -> None:
        """All good names together are a configuration that nginx takes, and no bad one leaves anything."""
        with Machine() as machine:
            self.expect("no library", (machine.library("list"), syntax(machine)), ((0, ""), ""))
            self.expect("good names", [name for name in GOOD if not libraries.is_name(name)], [])
            self.expect("bad names", [name for name in BAD if libraries.is_name(name)], [])
            self.expect("bad hosts", [host for host in BAD_HOSTS if library_files.HOST.fullmatch(host)], [])
            self.expect("a bad name", machine.library("add", "East", "a.example.org")[0], 2)
            self.expect("a bad host", machine.library("add", "a", "a.example.org;")[0], 3)
            self.expect("nothing is left", (left(machine), machine.calls()), ([], []))
            for number, name in enumerate(GOOD):
                status, printed = machine.library(
                    "add", name, f"links{number}.example.org", "--ports", str(free_ports(3))
                )
                self.expect(f"name {name}: {printed}", status, 0)
                put_in_use(machine, name)
            self.expect("nginx -t", syntax(machine), "")
            found = subprocess.run(
                [
                    "nginx",
                    "-T",
                    "-q",
                    "-c",
                    machine.path("etc/nginx/nginx.conf"),
                    "-p",
                    machine.folder,
                    "-e",
                    machine.path("test.log"),
                ],
                capture_output=True,
                text=True,
            ).stdout
            for name in GOOD:
                for pattern in (
                    rf"^upstream openlink\.{name} {{",
                    rf"^    set \$openlink_library {name};",
                    rf"^js_preload_object targets__{name.replace('-', '_')} from " rf"\S+/{name}/current/targets",
                ):
                    self.expect(f"{name}: {pattern}", len(re.findall(pattern, found, re.M)), 1)
            listed = [line.split("\t")[0] for line in machine.library("list")[1].splitlines()]
            self.expect("list", listed, sorted(GOOD))
            ends = ("followed.log", "log", "wanted.log")
            logs = sorted(f"openlink.{name}.{end}" for name in GOOD for end in ends)
            written = glob.glob(machine.path("var/log/nginx/openlink.*"))
            self.expect("the logs", sorted(map(os.path.basename, written)), logs)
            self.expect(
                "one machine",
                read(machine.path("etc/nginx/conf.d/openlink.conf")),
                read(f"{machine.share}/nginx/machine.conf"),
            )

    def test_host_and_ports(self) -> None:
        """A host and ports are those of one library alone, also of one that is not in use yet."""
        with Machine() as machine:
            first = free_ports(12)
            words = ("--ports", str(first), "--processes", "9")
            self.expect("the first", machine.library("add", "east", "east.example.org", *words)[0], 0)
            self.expect(
                "its line",
                machine.library("list")[1],
                f"east\teast.example.org\t{first}\t{' '.join(str(first + it) for it in range(1, 10))}" "\tno version\n",
            )
            other = "server { listen 127.0.0.1:1; server_name a b.example.org; }"
            write(machine.path("etc/nginx/conf.d/other.conf"), other)
            taken = "another site of this machine has this name"
            for name, host, port, reason in (
                ("west", "east.example.org", first + 10, f"east.example.org: {taken}"),
                ("west", "b.example.org", first + 10, f"b.example.org: {taken}"),
                ("east", "west.example.org", first + 10, f"{machine.path('etc/openlink/east')} exists"),
                ("west", "west.example.org", first + 9, f"the ports from {first + 9} on are not free"),
                ("west", "west.example.org", first - 2, f"the ports from {first - 2} on are not free"),
            ):
                self.expect(
                    f"{name} {host} {port}",
                    machine.library("add", name, host, "--ports", str(port)),
                    (3, f"openlink-library: {reason}\n"),
                )
            self.expect("nothing is left", [it for it in left(machine) if "west" in it or str(first + 10) in it], [])
            for words in (
                ("--processes", "0"),
                ("--processes", "10"),
                ("--mail", ""),
                ("--mail", "a b"),
                ("--mail", "-s"),
                ("--mail=-s",),
            ):
                self.expect(f"{words}", machine.library("add", "west", "west.example.org", *words)[0], 2)
            ports = set()
            for name in ("north", "south"):  # at ports of their own choice
                self.expect(name, machine.library("add", name, f"{name}.example.org")[0], 0)
                cells = machine.library("list")[1].split(f"{name}\t")[1].split("\t")
                ports.add(int(cells[1]))
                self.expect(
                    f"{name}: ports",
                    (213 < int(cells[1]) < 317, cells[2].split()),
                    (True, [str(int(cells[1]) + 1), str(int(cells[1]) + 2)]),
                )
                for port in cells[2].split():
                    unit = read(machine.path(f"etc/systemd/system/openlink@{port}.service.d/library.conf"))
                    self.expect(f"{port}: its right", unit.splitlines()[-2:], RIGHT)
            self.expect("other ports for each", len(ports), 2)
            warning = "any user of this machine can take a port from 1024 on while its process restarts\n"
            for name, more in (("centre", ()), ("coast", ("--ports", str(free_ports(3))))):
                status, printed = machine.library("add", name, f"{name}.example.org", *more)
                self.expect(f"{name}: the warning", (status, warning in printed), (0, bool(more)))

    @needs.file("/etc/services", "netbase")
    def test_ports_are_of_no_other_service(self) -> None:
        """Those that libraries and a first installation get are of no service that the system names."""
        with open("/etc/services", encoding="utf-8") as file:
            services = {int(it) for it in re.findall(r"^[^#\s]+\s+(\d+)/", file.read(), re.M)}
        self.expect(f"{len(services)} services", {22, 80, 443} <= services)
        site = [int(it) for it in library_files.ADDRESS.findall(read("front_door/openlink.conf")) if int(it) < 1024]
        self.expect("of a first installation", site, [291, 292, 293, 294])
        self.expect("taken by services", services & {*library_files._PORTS, *site}, set())

    def test_files(self) -> None:
        """What `add` writes, as it is without the paths of this test; and a machine that has a library alone."""
        with Machine() as machine:
            alone = machine.path("etc/nginx/conf.d/openlink.conf")
            write(alone, "# the site of one library\n")
            template, text = f"{machine.share}/nginx/library.conf", read("front_door/library.conf")
            write(template, text)
            status, printed = machine.library("add", "east", "east.example.org", "--mail", "staff@example.org")
            self.expect(f"add: {printed}", status, 0)
            site, local = (read(machine.path("etc/openlink/east", it)) for it in ("site.conf", "local.conf"))
            self.expect("IPv6", "\n    listen [::]:80;\n" in site, os.path.exists("/proc/net/if_inet6"))
            self.expect("no place is left", re.findall("@[A-Z]+@", site + local), [])
            self.expect("the site of one library alone", read(alone), "# the site of one library\n")
            self.expect("mail", read(machine.path("etc/openlink/east/mail")), "staff@example.org\n")
            self.expect(
                "the sites",
                read(machine.path("etc/nginx/conf.d/openlink.libraries.conf")).splitlines()[-1],
                f"include {machine.path('etc/openlink')}/*/current/../../site.conf;",
            )
            self.expect(
                "read after openlink.conf",
                sorted(os.listdir(machine.path("etc/nginx/conf.d"))),
                ["openlink.conf", "openlink.libraries.conf"],
            )

    def test_failures(self) -> None:
        """A step that fails leaves nothing, and the next try ends well."""
        with Machine() as machine:
            real = machine.path("bin/systemctl")
            os.rename(real, f"{real}.real")
            for name, text in (("none", None), ("enable fails", "[ $1 != enable ] || { echo no unit >&2; exit 5; }")):
                if text:
                    write(real, f"#!/bin/sh\n{text}\n")
                    os.chmod(real, 0o755)
                machine.environment["PATH"] = f"{machine.path('bin')}:/nowhere" if text is None else os.environ["PATH"]
                machine.environment["PATH"] = f"{machine.path('bin')}:{machine.environment['PATH']}"
                status, printed = machine.library("add", "east", "east.example.org")
                self.expect(f"{name}: {printed}", (status, left(machine)), (3, []))
            os.makedirs(machine.path("etc/openlink/east.new/input"))
            os.rename(f"{real}.real", real)
            self.expect("then", machine.library("add", "east", "east.example.org")[0], 0)
            os.makedirs(machine.path("etc/openlink/east/versions/20261123T040000Z"))
            with open(machine.path("etc/openlink/east/lock"), "w") as file:
                fcntl.flock(file, fcntl.LOCK_EX)
                status, printed = machine.library("remove", "east")
                self.expect(f"during an update: {printed}", (status, len(left(machine))), (4, 3))
            machine.calls()
            self.expect(
                "no such library",
                machine.library("remove", "west"),
                (
                    2,
                    f"openlink-library: {machine.path('etc/openlink/west')}: no such library: "
                    "openlink-library list\n",
                ),
            )
            self.expect("and nothing was told", machine.calls(), [])
