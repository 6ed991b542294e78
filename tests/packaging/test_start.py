"""packaging/container/start: it starts nginx and the processes, restarts them one at a time, and ends with nginx. It
runs as the first process of a namespace, as in a container, with stand-ins for nginx and the program."""
from __future__ import annotations

import contextlib
import os
import shutil
import signal
import subprocess
from collections.abc import Callable

from fixtures import needs
from fixtures.cases import Case
from fixtures.patience import patience
from fixtures.patience import wait_until
from openlink_update import children
from packaging.standins import Machine

SCRIPT = os.path.abspath("packaging/container/start")
# It ends with the process of the tests, however that ends.
NAMESPACE = [shutil.which("setpriv") or "setpriv", "--pdeathsig", "KILL", "unshare", "--pid", "--fork", "--kill-child"]
NAMESPACE += ["--mount-proc"]
TRIAL = "openlink resolve registry.tsv rft.issn=0000-0000 in first"
_SERVE = (
    "env GLIBC_TUNABLES=glibc.malloc.trim_threshold=4194304:glibc.malloc.top_pad=1048576 openlink serve registry.tsv"
)
# Each notes what it does as one line of $STANDINS/calls.
_COMMON = """import os, signal, socket, sys, time
top = os.environ["STANDINS"]
def note(line):
    with open(f"{top}/calls", "a") as file:
        file.write(line + "\\n")
words, folder = " ".join(sys.argv[1:]), os.path.basename(os.path.realpath("."))
def ends(what, status):
    note(what)
    os._exit(status)
"""
# `serve` listens once the file closed.PORT does not exist.
_PROGRAM = (
    f"#!/usr/bin/python3\n{_COMMON}"
    + """
note(f"openlink {words} in {folder}")
if sys.argv[1] == "resolve":
    sys.exit(int(open(f"{top}/resolve.status").read()))
port = sys.argv[3]
signal.signal(signal.SIGTERM, lambda *_: ends(f"{port} ends", 0))
while os.path.exists(f"{top}/closed.{port}"):
    time.sleep(0.01)
listener = socket.create_server(("127.0.0.1", int(port)))
note(f"{port} listens")
while True:
    signal.pause()
"""
)
_NGINX = (
    f"#!/usr/bin/python3\n{_COMMON}"
    + """
for name in ("SIGQUIT", "SIGTERM"):
    signal.signal(getattr(signal, name), lambda *_, name=name: ends(f"nginx {name}", 0))
note(f"nginx {words} pid {os.getpid()}")
while True:
    signal.pause()
"""
)
# The user of the container: it has no rights that it could use in this folder, so its number is another one.
_ID = """#!/bin/sh
cat "$STANDINS/user"
"""
_SETPRIV = """#!/bin/sh
echo "setpriv $*" >>"$STANDINS/calls"
while [ "$1" != env ]; do shift; done
exec "$@"
"""
_SLEEP = """#!/bin/sh
echo "sleep $*" >>"$STANDINS/calls"
exec /bin/sleep "$1"
"""


@needs.command("setpriv", "unshare", "nsenter")
@needs.namespaces_of_processes()
class Container(Case):
    """A folder that stands for a container of two processes, with a version in use."""

    def setUp(self) -> None:
        self.machine = Machine(self)
        self.ports = [str(children.free_port()) for _ in range(2)]
        for name, text in (("openlink", _PROGRAM), ("nginx", _NGINX), ("setpriv", _SETPRIV), ("sleep", _SLEEP)):
            self.machine.make(f"bin/{name}", text, 0o755)
        self.machine.make("bin/id", _ID, 0o755)
        self.machine.make("user", "10001\n")
        first, second = self.ports
        self.machine.make(
            "etc/nginx/conf.d/openlink.conf",
            f"    server 127.0.0.1:{first} max_fails=0;\n"
            f"\tserver 127.0.0.1:{second};\n    #server 127.0.0.1:1;\n    listen 127.0.0.1:2;\n",
        )
        self.machine.make("etc/nginx/nginx.conf", "user www-data;\nworker_processes auto;\n")
        for name in ("first", "second"):
            self.machine.make(f"etc/openlink/{name}/registry.tsv", "")
        self.machine.link("etc/openlink/current", "first")
        self.machine.make("run/made", "")
        self.machine.make("resolve.status", "1")

    def begin(self, **more: str) -> subprocess.Popen[bytes]:
        """Starts the container."""
        path = f"{self.machine.folder}/bin:/usr/sbin:/usr/bin:/sbin:/bin"
        self.environment = {**self.machine.environment(), "PATH": path, **more}
        process = subprocess.Popen(
            [*NAMESPACE, SCRIPT], env=self.environment, stdin=subprocess.DEVNULL, stderr=subprocess.PIPE
        )
        self.addCleanup(self.end, process)
        return process

    def end(self, process: subprocess.Popen[bytes]) -> None:
        process.kill()
        process.wait()
        if process.stderr:
            process.stderr.close()  # not read to its end: what runs in the container may have it open

    def begun(self) -> subprocess.Popen[bytes]:
        """A container that serves."""
        process = self.begin()
        self.wait_for(
            "it does not serve",
            lambda: all(f"{port} listens" in self.calls() for port in self.ports)
            and any(it.startswith("nginx ") for it in self.calls()),
        )
        self.first_process = int(self.read(f"/proc/{process.pid}/task/{process.pid}/children").split()[0])
        return process

    def restart(self) -> subprocess.Popen[bytes]:
        """Runs `start restart` in the container, as an engine does."""
        words = ["nsenter", "--target", str(self.first_process), "--pid", "--mount", SCRIPT, "restart"]
        process = subprocess.Popen(words, env=self.environment, stdin=subprocess.DEVNULL, stderr=subprocess.PIPE)
        self.addCleanup(self.end, process)
        return process

    def wait_for(self, what: str, holds: Callable[[], object], seconds: float = 20) -> None:
        if not wait_until(holds, seconds):
            self.fail(f"{what}: {self.calls()}")

    def read(self, path: str) -> str:
        with open(path, encoding="utf-8") as file:
            return file.read()

    def calls(self, *lines: str) -> list[str]:
        """What was noted, without sleeps; of these lines alone, if there are any."""
        found = [it for it in self.read(f"{self.machine.folder}/calls").splitlines() if not it.startswith("sleep")]
        return [it for it in found if it in lines] if lines else found

    def sleeps(self) -> int:
        return self.read(f"{self.machine.folder}/calls").splitlines().count("sleep 0.1")

    def pid(self, port: str) -> int:
        return int(self.read(f"{self.machine.folder}/run/openlink.{port}"))

    def left(self) -> list[str]:
        """The processes of the container's folder."""
        found = []
        for name in os.listdir("/proc"):
            with contextlib.suppress(OSError):
                if name.isdigit() and self.machine.folder in self.read(f"/proc/{name}/cmdline"):
                    found.append(self.read(f"/proc/{name}/cmdline").replace("\0", " "))
        return found


class Starts(Container):
    """What runs in a container that has been started."""

    def test_nginx_is_the_first_process_and_each_port_has_one(self) -> None:
        self.begun()
        calls = self.calls()
        self.expect("the registry is tried first", calls[0], TRIAL)
        self.expect(
            "nginx takes the place of the script",
            [it for it in calls if it.startswith("nginx")],
            [f"nginx -c {self.machine.folder}/etc/nginx/nginx.conf -g daemon off; pid 1"],
        )
        self.expect(
            "the processes",
            sorted(it for it in calls if "openlink serve" in it and "setpriv" not in it),
            sorted(f"openlink serve registry.tsv {port} 1000000 in first" for port in self.ports),
        )
        self.expect(
            "their rights",
            sorted(it for it in calls if it.startswith("setpriv")),
            sorted(f"setpriv --no-new-privs {_SERVE} {port} 1000000" for port in self.ports),
        )
        self.expect(
            "nginx's workers", "worker_processes auto;" in self.read(f"{self.machine.folder}/etc/nginx/nginx.conf")
        )

    def test_it_does_not_run_as_root(self) -> None:
        self.machine.make("user", "0\n")
        process = self.begin()
        said = process.communicate(timeout=patience(20))[1].decode()
        self.expect(
            "the status", (process.returncode, said), (1, "start: it runs as the user of the image, not as root\n")
        )
        self.expect("nothing is started", self.calls(), [])

    def test_the_number_of_workers_is_that_of_the_environment(self) -> None:
        self.machine.make("run/openlink-wanted.log", "before\n", 0o640)
        self.begin(OPENLINK_WORKERS="3")
        self.wait_for("nginx is not started", lambda: any(it.startswith("nginx") for it in self.calls()))
        self.expect(
            "nginx.conf of the container",
            self.read(f"{self.machine.folder}/run/nginx.conf"),
            "user www-data;\nworker_processes 3;\n",
        )
        self.expect(
            "that of the image, whose root is for reading alone",
            self.read(f"{self.machine.folder}/etc/nginx/nginx.conf"),
            "user www-data;\nworker_processes auto;\n",
        )
        self.expect(
            "nginx reads it",
            [it for it in self.calls() if f"nginx -c {self.machine.folder}/run/nginx.conf " in it] != [],
        )
        for name in ("wanted", "followed"):
            log = os.stat(f"{self.machine.folder}/run/openlink-{name}.log")
            self.expect(f"nobody else reads the log {name}", log.st_mode & 0o777, 0o640)
        text = self.read(f"{self.machine.folder}/run/openlink-wanted.log")
        self.expect("what was in it before a restart of the container", text, "before\n")

    def test_a_registry_that_cannot_be_loaded_is_refused(self) -> None:
        for status in (2, 3):
            self.machine.make("calls", "")
            self.machine.make("resolve.status", f"{status}")
            process = self.begin()
            self.expect(f"status {status}", process.wait(timeout=patience(20)), status)
            self.expect(f"status {status}: nothing is started", self.calls(), [TRIAL])
        self.machine.make("resolve.status", "0")
        self.begun()

    def test_a_site_without_ports_is_refused(self) -> None:
        self.machine.make("etc/nginx/conf.d/openlink.conf", "server { listen 80; }\n")
        process = self.begin()
        said = process.communicate(timeout=patience(20))[1].decode()
        self.expect("the status", (process.returncode, said), (1, "start: openlink.conf names no port of 127.0.0.1\n"))
        self.expect("nothing is started", self.calls(), [])

    def test_a_container_without_a_version_is_refused(self) -> None:
        """The registry of another folder is neither tried nor served."""
        os.remove(f"{self.machine.folder}/etc/openlink/current")
        process = self.begin()
        said = process.communicate(timeout=patience(20))[1].decode()
        self.expect("the status", process.returncode, 1)
        self.expect("what it says", f"{self.machine.folder}/etc/openlink/current: No such file" in said)
        self.expect("nothing is started", self.calls(), [])


class Ends(Container):
    """Signals, and processes that die."""

    def test_nginx_gets_the_signals_and_nothing_is_left(self) -> None:
        for name in ("SIGQUIT", "SIGTERM"):
            self.machine.make("calls", "")
            process = self.begun()
            os.kill(self.first_process, getattr(signal, name))
            self.expect(f"{name}: the status", process.wait(timeout=patience(20)), 0)
            self.expect(f"{name}: nginx", self.calls(f"nginx {name}"), [f"nginx {name}"])
            self.wait_for(f"{name}: {self.left()} is left", lambda: not self.left())

    def test_a_process_that_dies_is_started_again_alone(self) -> None:
        self.begun()
        first, second = self.ports
        others = self.pid(second)
        for times in (2, 3):
            before = self.pid(first)
            self.kill(before)
            self.wait_for("it is not started again", lambda: self.calls().count(f"{first} listens") == times)
            self.expect("its number is noted", self.pid(first) != before)
        self.expect(
            "the other one", (self.pid(second), self.calls(f"{second} listens")), (others, [f"{second} listens"])
        )
        self.expect("the registry is not tried again", self.calls(TRIAL), [TRIAL])
        self.expect("the pauses before it", self.sleeps(), 2)

    def test_a_process_that_dies_without_a_version_stays_in_its_folder(self) -> None:
        self.begun()
        first = self.ports[0]
        os.remove(f"{self.machine.folder}/etc/openlink/current")
        self.kill(self.pid(first))
        again = f"openlink serve registry.tsv {first} 1000000 in first"
        self.wait_for("it is not started again", lambda: self.calls().count(f"{first} listens") == 2)
        self.expect("the folder", self.calls(again), [again] * 2)

    def kill(self, number: int) -> None:
        """Kills a process by its number in the container."""
        words = ["nsenter", "--target", str(self.first_process), "--pid", "--mount", "kill", "-KILL", str(number)]
        subprocess.run(words, check=True)


class Restarts(Container):
    """`start restart`, after a change of rules or tables."""

    def test_processes_are_restarted_one_at_a_time(self) -> None:
        self.begun()
        first, second = self.ports
        os.remove(f"{self.machine.folder}/etc/openlink/current")
        self.machine.link("etc/openlink/current", "second")
        self.machine.make(f"closed.{first}", "")
        self.machine.make("calls", "")
        process = self.restart()
        again = f"openlink serve registry.tsv {first} 1000000 in second"
        self.wait_for("it is not restarted", lambda: again in self.calls())
        since = self.sleeps()
        self.wait_for("it does not wait", lambda: self.sleeps() > since + 10 or process.poll() is not None)
        os.remove(f"{self.machine.folder}/closed.{first}")
        self.expect("the status", process.wait(timeout=patience(20)), 0)
        steps = [
            f"{first} ends",
            again,
            f"{first} listens",
            f"{second} ends",
            again.replace(first, second),
            f"{second} listens",
        ]
        self.expect("the order", self.calls(*steps), steps)
        self.expect("the version in use was tried", self.calls()[0], TRIAL.replace("first", "second"))

    def test_a_registry_that_cannot_be_loaded_ends_no_process(self) -> None:
        self.begun()
        self.machine.make("resolve.status", "3")
        self.machine.make("calls", "")
        process = self.restart()
        self.expect("the status", process.wait(timeout=patience(20)), 3)
        self.expect("no process has ended", self.calls(), [TRIAL])

    def test_a_process_that_has_ended_by_itself_is_waited_for(self) -> None:
        """The number in its file is of no process while the next one is being started."""
        self.begun()
        first, second = self.ports
        self.machine.make(f"run/openlink.{first}", "999999\n")
        self.machine.make("calls", "")
        process = self.restart()
        self.wait_for("it does not wait", lambda: self.sleeps() > 3 or process.poll() is not None)
        self.machine.make(f"run/openlink.{first}", "999998\n")
        self.expect("the status", process.wait(timeout=patience(20)), 0)
        self.expect(
            "the next one was restarted",
            self.calls(f"{second} ends", f"{second} listens"),
            [f"{second} ends", f"{second} listens"],
        )
