"""The commands of INSTALLING.md that move a process from a port that any user can take to one below 1024."""
from __future__ import annotations

import subprocess

from fixtures import needs
from fixtures.cases import Case
from fixtures.machine_of_libraries import SITE
from fixtures.machine_of_libraries import Machine
from fixtures.machine_of_libraries import read
from fixtures.machine_of_libraries import write
from fixtures.patience import patience
from fixtures.patience import wait_until
from fixtures.weeks import QUERY
from openlink_update import children

FIND = f"/find.json?{QUERY}"


def commands() -> list[str]:
    """The lines of the block in the chapter about ports."""
    section = read("docs/INSTALLING.md").split("\n### Ports of the processes\n")[1].split("\n## ")[0]
    return section.split("```\n")[1].splitlines()


def ran(machine: Machine, lines: list[str], port: int, free: int) -> str:
    """What lines print and how they end, with the ports and the paths of the folder that stands for the machine."""
    nginx = f"nginx -t -c {machine.path('etc/nginx/nginx.conf')} -p {machine.folder} -e {machine.path('test.log')}"
    script = "\n".join(lines).replace("8081", str(port)).replace("291", str(free)).replace("8079", str(machine.local))
    script = script.replace(" /etc/", f" {machine.path('etc')}/").replace("nginx -t", nginx)
    script = script.replace("systemctl reload nginx", "systemctl reload-or-restart nginx")
    done = subprocess.run(
        ["bash", "-c", f"set -e\n{script}"],
        env=machine.environment,
        stdout=subprocess.PIPE,
        stderr=subprocess.DEVNULL,
        text=True,
        timeout=patience(60),
    )
    return f"{done.stdout}status {done.returncode}"


@needs.root()
@needs.nginx()
@needs.program()
@needs.command("curl")
class MovedPorts(Case):
    def test_readers_are_served_before_and_after(self) -> None:
        lines = commands()
        self.expect("the commands", [len(lines), lines[-1]], [5, "systemctl disable --now openlink@8081"])
        with Machine() as machine:
            _, (port, other) = machine.add_alone()
            for each in (port, other):
                write(machine.path(f"run/openlink@{each}.enabled"), "")
            machine.start_nginx()
            status, printed = machine.update()
            self.expect(f"the first version: {printed}", status, 0)
            host = "links.library.example.org"
            before = machine.get(host, FIND)
            self.expect("a page before", before[0], 200)
            free = next(it for it in range(318, 214, -1) if not children.is_open(it))
            lines[0] = lines[0].replace(" --now ", " ") + "; systemctl start openlink@291"
            said = ran(machine, lines[:3], port, free)
            self.expect("it is started, and nginx has it", said, "status 0")
            self.expect("it listens", wait_until(lambda: children.is_open(free)))
            said = ran(machine, lines[3:4], port, free)
            self.expect("health", said.splitlines()[:2], ["ok", f"port {free} answers"])
            self.expect("it is ended", ran(machine, lines[4:], port, free), "status 0")
            self.expect("the old port is closed", (children.is_open(port), children.is_open(free)), (False, True))
            self.expect("the site", [read(machine.path(SITE)).count(f":{it} max_fails") for it in (port, free)], [0, 1])
            self.expect("a page after", machine.get(host, FIND), before)
            status, printed = machine.update()
            self.expect(f"the next update: {printed}", (status, children.is_open(free)), (0, True))
