"""The chapter "Backup and restore" of INSTALLING.md: its commands bring back what readers see if all else is lost."""
from __future__ import annotations

import glob
import os
import re
import shlex
import shutil
import stat
import subprocess
import sys
import tempfile

from fixtures import needs
from fixtures.cases import Case
from fixtures.machine_of_libraries import FEW
from fixtures.machine_of_libraries import Machine
from fixtures.machine_of_libraries import read
from fixtures.machine_of_libraries import write
from fixtures.patience import patience
from fixtures.weeks import HTML
from fixtures.weeks import QUERY

HOSTS = ("links.library.example.org", "east.example.org")
PATHS = (f"/find?{QUERY}", "/find?issn=2901-0012&volume=12&issue=3", "/journals", "/books", "/find", "/menu.css")
SECRET = "BOOKHOUSE\ta secret\n"


def blocks(case):
    """The commands of the chapter, by block."""
    section = read("docs/INSTALLING.md").split("\n## Backup and restore\n")[1].split("\n## ")[0]
    found = [it.splitlines() for it in section.split("```\n")[1::2]]
    case.expect("blocks of commands", [bool(it) for it in found], [True, True])
    return found


def here(machine, safe, line):
    """A command of the chapter, with the paths of the folder that stands for the machine."""
    update = shlex.join([sys.executable, "-S", "-B", f"{machine.share}/update", *machine.update_words("--all")])
    test = f"nginx -t -c {machine.path('etc/nginx/nginx.conf')} -p {machine.folder} -e {machine.path('test.log')}"
    places = {
        " /var/backups/": f" {safe}/",
        " /etc/": f" {machine.path('etc')}/",
        " /var/": f" {machine.path('var')}/",
        " -C / ": f" -C {machine.folder} ",
    }
    line = re.sub("|".join(places), lambda found: places[found[0]], line)
    if line.startswith("chown ") and os.getuid() != 0:
        return "true"
    return {"openlink-update --all": update, "nginx -t": test}.get(line, line)


def ran(machine, safe, lines):
    """Runs the lines in one shell, and returns the status of each."""
    script = "".join(f"{here(machine, safe, line)}\necho status $?\n" for line in lines)
    done = subprocess.run(
        ["bash", "-c", script],
        env={**machine.environment, "LC_ALL": "C"},
        capture_output=True,
        text=True,
        timeout=patience(120),
    )
    found = [int(it.split()[1]) for it in done.stdout.splitlines() if it.startswith("status ")]
    return found, done.stdout + done.stderr


def enable(machine, ports):
    """The links that `systemctl enable` makes."""
    folder = machine.path("etc/systemd/system/multi-user.target.wants")
    os.makedirs(folder)
    for port in ports:
        os.symlink("../openlink@.service", os.path.join(folder, f"openlink@{port}.service"))


def lose_all(machine):
    """All but what the first block of "First start" installs."""
    machine.stop()
    for name in ("etc/openlink", "etc/nginx", "etc/systemd/system", "var/log/nginx", "run"):
        shutil.rmtree(machine.path(name))
        os.makedirs(machine.path(name))
    os.mkdir(machine.path("etc/nginx/sites-enabled"))
    write(machine.path("etc/nginx/sites-enabled/default"), "the site of the package\n")


def pages(machine):
    return {(host, path): machine.get(host, path) for host in HOSTS for path in PATHS}


@needs.nginx()
@needs.program()
class Backup(Case):
    def test_restore(self) -> None:
        """A library that is alone and another; one has a bad file, so that its old table is in the versions alone."""
        with Machine() as machine, tempfile.TemporaryDirectory() as safe:
            alone, ports = machine.add_alone()
            east = machine.add("east", FEW)
            self.expect("the first versions", machine.update("--all")[0], 0)
            machine.start_nginx()
            alone.deliver("B")
            alone.write("secrets.tsv", SECRET.encode())
            os.chmod(alone.path("secrets.tsv"), 0o600)
            east.input.write("tidal-press.txt", HTML)
            self.expect("an old table is kept", machine.update("--all")[0], 1)
            enable(machine, [*ports, *east.ports()[1]])
            before = pages(machine)
            self.expect("pages", {it[0] for it in before.values()}, {200})
            self.expect("links of the old table", "press.example.com" in before[HOSTS[1], PATHS[1]][1])
            saving, restoring = blocks(self)
            statuses, printed = ran(machine, safe, saving)
            self.expect(f"the backup: {printed}", statuses, [0] * len(saving))
            modes = {stat.S_IMODE(os.stat(path).st_mode) for path in glob.glob(f"{safe}/*")}
            self.expect("only its owner reads it", modes, {0o600})
            lose_all(machine)
            statuses, printed = ran(machine, safe, restoring)
            # The last command is the update, which meets the bad file again.
            self.expect(f"the restoring: {printed}", statuses, [0] * (len(restoring) - 1) + [1])
            machine.start_nginx()
            self.expect("the same pages", [it for it, page in pages(machine).items() if page != before[it]], [])
            self.expect(
                "the same secrets, for their owner alone",
                (read(alone.path("secrets.tsv")), stat.S_IMODE(os.stat(alone.path("secrets.tsv")).st_mode)),
                (SECRET, 0o600),
            )
            self.expect(
                "the site of the package", os.path.exists(machine.path("etc/nginx/sites-enabled/default")), False
            )
            self.expect(
                "timers",
                sorted(os.path.basename(it) for it in glob.glob(machine.path("run", "*.started"))),
                [f"openlink-{name}.timer.started" for name in ("desk", "update", "walls")],
            )
            logs = glob.glob(machine.path("var/log/nginx/openlink*.log"))
            self.expect(
                "logs", (len(logs) > 3, {stat.S_IMODE(os.stat(path).st_mode) for path in logs}), (True, {0o640})
            )
