"""The maintainer scripts of the Debian package, with each of the arguments that Debian policy names (sections 6.5 to
6.8): what they call, in which order, and how they end. Stand-ins take the place of all commands."""
from __future__ import annotations

import os
import shutil

from fixtures.cases import Case
from packaging.standins import Machine

FOLDER = "packaging/debian"
COMMANDS = ("systemctl", "deb-systemd-invoke", "deb-systemd-helper", "invoke-rc.d", "curl", "nginx", "sleep")
RELOAD = "systemctl daemon-reload"
LIST = "systemctl list-units --plain --no-legend --state=active openlink@*.service"
STOP = (
    "deb-systemd-invoke stop openlink-desk.timer openlink-update.timer openlink-walls.timer "
    "openlink-desk.service openlink-update.service openlink-walls.service openlink-connections.service "
    "openlink@*.service"
)
TO_NGINX = ["systemctl is-active -q nginx", "nginx -t -q", "invoke-rc.d nginx reload"]
# As systemctl prints them.
PROCESSES = (
    "openlink@8081.service loaded active running Link resolver on port 8081\n"
    "openlink@8082.service loaded active running Link resolver on port 8082\n"
)
UPGRADE = ("configure", "0.1.0")
OF_A_CONFLICT = ("in-favour", "other", "2.0")
# All arguments of each script, and what it calls on a machine with two processes and the site.
CALLS: dict[str, dict[tuple[str, ...], list[str]]] = {
    "postinst": {
        ("configure",): [RELOAD],
        ("configure", ""): [RELOAD],
        ("abort-upgrade", "0.2.0"): [],
        ("abort-remove",): [
            "deb-systemd-invoke start openlink@8081.service",
            "deb-systemd-invoke start openlink-update.timer",
        ],
        ("abort-remove", *OF_A_CONFLICT): [
            "deb-systemd-invoke start openlink@8081.service",
            "deb-systemd-invoke start openlink-update.timer",
        ],
        ("abort-deconfigure", *OF_A_CONFLICT): [],
        ("abort-deconfigure", *OF_A_CONFLICT, "removing", "third", "1.0"): [],
        ("triggered", "/usr/share/man"): [],
    },
    "prerm": {
        ("remove",): [STOP],
        ("remove", *OF_A_CONFLICT): [STOP],
        ("upgrade", "0.2.0"): [],
        ("failed-upgrade", "0.1.0"): [],
        ("deconfigure", *OF_A_CONFLICT): [],
        ("deconfigure", *OF_A_CONFLICT, "removing", "third", "1.0"): [],
    },
    "postrm": {
        ("remove",): [RELOAD],
        ("purge",): [RELOAD],
        ("upgrade", "0.2.0"): [RELOAD],
        ("failed-upgrade", "0.1.0"): [RELOAD],
        ("abort-install",): [RELOAD],
        ("abort-install", "0.1.0"): [RELOAD],
        ("abort-upgrade", "0.1.0"): [RELOAD],
        ("disappear", "other", "2.0"): [RELOAD],
    },
}


def restart(port: int, tries: int = 1) -> list[str]:
    """The calls for one process, which listens at the last of these tries."""
    ask = f"curl -fs --max-time 4 -o /dev/null http://127.0.0.1:{port}/openurl.txt"
    return [f"deb-systemd-invoke restart openlink@{port}.service", *[ask, "sleep 1"] * (tries - 1), ask]


class Scripts(Case):
    """A machine with systemd, two processes of which one is enabled, the site, and the library's data."""

    def setUp(self) -> None:
        self.machine = Machine(self, *COMMANDS)
        self.machine.make("run/systemd/system/made", "")
        self.machine.make("etc/nginx/conf.d/openlink.conf", "")
        self.machine.make("etc/openlink/current/registry.tsv", "data")
        self.machine.make("systemctl.out", PROCESSES)
        wants = "etc/systemd/system"
        self.machine.link(f"{wants}/multi-user.target.wants/openlink@8081.service", "/lib/openlink@.service")
        self.machine.link(f"{wants}/multi-user.target.wants/nginx.service", "/lib/nginx.service")
        self.machine.link(f"{wants}/timers.target.wants/openlink-update.timer", "/lib/openlink-update.timer")

    def run_script(self, name: str, *arguments: str, **more: str) -> tuple[int, str, list[str]]:
        return self.machine.run(f"{FOLDER}/{name}", *arguments, more=more)

    def data_stays(self) -> None:
        path = f"{self.machine.folder}/etc/openlink/current/registry.tsv"
        self.expect("the library's data stays", os.path.exists(path))


class Arguments(Scripts):
    """Each script with each of its arguments."""

    def test_calls_of_each_argument(self) -> None:
        for name, rows in CALLS.items():
            for arguments, wanted in rows.items():
                status, _, calls = self.run_script(name, *arguments)
                self.expect(f"{name} {' '.join(arguments)}", (status, calls), (0, wanted))
        self.data_stays()

    def test_without_systemd_nothing_is_called(self) -> None:
        os.remove(f"{self.machine.folder}/run/systemd/system/made")
        os.rmdir(f"{self.machine.folder}/run/systemd/system")
        for name, rows in CALLS.items():
            for arguments in [*rows, UPGRADE]:
                status, _, calls = self.run_script(name, *arguments)
                self.expect(f"{name} {' '.join(arguments)}", (status, calls), (0, []))

    def test_in_another_root_nothing_is_called(self) -> None:
        for name, rows in CALLS.items():
            for arguments in [*rows, UPGRADE]:
                status, _, calls = self.run_script(name, *arguments, DPKG_ROOT=self.machine.folder)
                self.expect(f"{name} {' '.join(arguments)}", (status, calls), (0, []))

    def test_a_purge_names_the_data_that_stays(self) -> None:
        line = "openlink: /etc/openlink, the library's rules and tables, was not removed\n"
        self.expect("purge", self.run_script("postrm", "purge")[1], line)
        self.expect("purge of another root", self.run_script("postrm", "purge", DPKG_ROOT=self.machine.folder)[1], line)
        self.expect("remove", self.run_script("postrm", "remove")[1], "")
        self.data_stays()
        shutil.rmtree(f"{self.machine.folder}/etc/openlink")
        self.expect("purge without data", self.run_script("postrm", "purge"), (0, "", [RELOAD]))


class Upgrades(Scripts):
    """What postinst does after an upgrade."""

    def test_processes_are_restarted_one_at_a_time(self) -> None:
        status, said, calls = self.run_script("postinst", *UPGRADE)
        self.expect(
            "an upgrade", (status, said, calls), (0, "", [RELOAD, LIST, *restart(8081), *restart(8082), *TO_NGINX])
        )

    def test_the_next_process_waits_until_the_one_before_listens(self) -> None:
        self.machine.fails("curl", 7, 7, 28, 0)
        status, _, calls = self.run_script("postinst", *UPGRADE)
        self.expect(
            "the first one listens late",
            (status, calls),
            (0, [RELOAD, LIST, *restart(8081, 4), *restart(8082), *TO_NGINX]),
        )

    def test_a_process_that_never_listens_ends_the_upgrade(self) -> None:
        self.machine.fails("curl", 7)
        status, said, calls = self.run_script("postinst", *UPGRADE)
        self.expect("calls", calls, [RELOAD, LIST, *restart(8081, 61)[:-1]])
        self.expect(
            "it is said",
            (status, said),
            (
                1,
                "openlink: openlink@8081.service does not answer; the processes "
                "after it still run the old version\n",
            ),
        )

    def test_a_restart_that_fails_ends_the_upgrade(self) -> None:
        self.machine.fails("deb-systemd-invoke", 1)
        status, _, calls = self.run_script("postinst", *UPGRADE)
        self.expect("the second process is left", (status, calls), (1, [RELOAD, LIST, restart(8081)[0]]))

    def test_a_systemctl_that_fails_ends_the_upgrade(self) -> None:
        self.machine.fails("systemctl", 0, 1)
        status, _, calls = self.run_script("postinst", *UPGRADE)
        self.expect("the list fails", (status, calls), (1, [RELOAD, LIST]))
        self.machine.fails("systemctl", 1)
        status, _, calls = self.run_script("postinst", *UPGRADE)
        self.expect("all fails", (status, calls), (1, [RELOAD]))

    def test_without_processes_nginx_alone_is_reloaded(self) -> None:
        self.machine.make("systemctl.out", "")
        status, _, calls = self.run_script("postinst", *UPGRADE)
        self.expect("no process", (status, calls), (0, [RELOAD, LIST, *TO_NGINX]))

    def test_without_curl_processes_are_restarted(self) -> None:
        os.remove(f"{self.machine.folder}/bin/curl")
        status, _, calls = self.run_script("postinst", *UPGRADE)
        wanted = [RELOAD, LIST, restart(8081)[0], restart(8082)[0], *TO_NGINX]
        self.expect("no curl", (status, calls), (0, wanted))


class NginxOfUpgrades(Scripts):
    """What an upgrade does with nginx."""

    BEFORE = [RELOAD, LIST, *restart(8081), *restart(8082)]

    def test_nginx_that_refuses_its_files_is_not_reloaded(self) -> None:
        self.machine.fails("nginx", 1)
        self.machine.make("nginx.errors", "nginx: [emerg] unknown directive\n")
        status, said, calls = self.run_script("postinst", *UPGRADE)
        self.expect("calls", (status, calls), (0, [*self.BEFORE, *TO_NGINX[:2]]))
        self.expect("it is said", said, "openlink: nginx still has the old front door; nginx -t says why\n")

    def test_nginx_that_does_not_run_is_left(self) -> None:
        self.machine.fails("systemctl", 0, 0, 3)
        status, _, calls = self.run_script("postinst", *UPGRADE)
        self.expect("calls", (status, calls), (0, [*self.BEFORE, TO_NGINX[0]]))

    def test_nginx_without_the_site_is_left(self) -> None:
        os.remove(f"{self.machine.folder}/etc/nginx/conf.d/openlink.conf")
        status, _, calls = self.run_script("postinst", *UPGRADE)
        self.expect("calls", (status, calls), (0, self.BEFORE))


class Removals(Scripts):
    """What a removal does if a command fails."""

    def test_processes_that_cannot_be_ended_keep_the_package(self) -> None:
        self.machine.fails("deb-systemd-invoke", 1)
        status, _, calls = self.run_script("prerm", "remove")
        self.expect("prerm", (status, calls), (1, [STOP]))

    def test_a_systemd_that_cannot_reload_does_not_keep_it(self) -> None:
        self.machine.fails("systemctl", 1)
        for arguments in CALLS["postrm"]:
            status, _, calls = self.run_script("postrm", *arguments)
            self.expect(f"postrm {' '.join(arguments)}", (status, calls), (0, [RELOAD]))

    def test_nothing_is_started_that_was_not_enabled(self) -> None:
        os.remove(f"{self.machine.folder}/etc/systemd/system/multi-user.target.wants/openlink@8081.service")
        os.remove(f"{self.machine.folder}/etc/systemd/system/timers.target.wants/openlink-update.timer")
        status, _, calls = self.run_script("postinst", "abort-remove")
        self.expect("postinst abort-remove", (status, calls), (0, []))
