"""The runs that most tests of the update fork, compared with those of a command: a script finds the same in both, and
its end is told alike."""
from __future__ import annotations

import json
import os
import signal
import subprocess
import tempfile
from pathlib import Path

from fixtures import PYTHON
from fixtures import forked_runs
from fixtures.cases import Case
from fixtures.patience import patience
from fixtures.patience import wait_until

# What a script finds: all but its number and what counts its time.
FINDS = """import json, os, resource, signal, sys
numbers = [it for it in range(1, 65) if it not in (32, 33)]
limits = [it for it in dir(resource) if it.startswith("RLIMIT_")]
outputs = sys.stdout, sys.stderr
streams = [(it.fileno(), it.encoding, it.errors, it.line_buffering, it.write_through) for it in outputs]
found = {
    "arguments": sys.argv, "path": sys.path[0], "folder": os.getcwd(), "environment": dict(os.environ),
    "umask": os.umask(0), "files": sorted(os.listdir("/proc/self/fd")), "name": __name__,
    "signals": {it: str(signal.getsignal(it)) for it in numbers}, "blocked": sorted(signal.pthread_sigmask(0, [])),
    "limits": {it: resource.getrlimit(getattr(resource, it)) for it in limits}, "flags": str(sys.flags),
    "group": os.getpgrp(), "session": os.getsid(0), "users": [os.getresuid(), os.getresgid(), os.getgroups()],
    "priority": os.getpriority(os.PRIO_PROCESS, 0), "streams": streams, "executable": sys.executable,
}
print(json.dumps(found))
"""
ENDS = {
    "a status": "import sys\nprint('said')\nsys.exit(3)\n",
    "a text": "import sys\nsys.exit('a reason')\n",
    "its end": "print('said', end='')\n",
    "a signal": "import os, signal\nprint('said', flush=True)\nos.kill(os.getpid(), signal.SIGTERM)\n",
    "no mercy": "import os, signal\nprint('lost')\nos.kill(os.getpid(), signal.SIGKILL)\n",
    "at once": "import os\nprint('lost')\nos._exit(7)\n",
    "both outputs": "import sys\nprint('one')\nprint('two', file=sys.stderr)\n",
    "much": "print('x' * 300_000)\n",
}


def ended(child: subprocess.Popen[str] | forked_runs.Forked) -> tuple[int | None, str, str]:
    output, errors = child.communicate(timeout=patience(60))
    return child.returncode, output, errors


class ForkedRuns(Case):
    def setUp(self) -> None:
        super().setUp()
        folder = tempfile.TemporaryDirectory()
        self.addCleanup(folder.cleanup)
        self.script = Path(folder.name, "script")

    def both(self, text: str, *words: str, **more: str) -> list[tuple[int | None, str, str]]:
        """How a script ends that is forked, and as a command."""
        self.script.write_text(text, encoding="utf-8")
        environment = {**{name: it for name, it in os.environ.items() if name != "PYTHONUNBUFFERED"}, **more}
        command, pipe = [str(self.script), *words], subprocess.PIPE
        child = subprocess.Popen([*PYTHON, *command], stdout=pipe, stderr=pipe, text=True, env=environment)
        return [ended(forked_runs.begin(command, environment)), ended(child)]

    def test_what_a_script_finds(self) -> None:
        forked_runs.begin([str(self.script)]).communicate(patience(60))  # what comes later is of another moment
        before, handler = os.umask(0o027), signal.signal(signal.SIGUSR1, lambda *_: None)
        try:
            for more in ({}, {"PYTHONUNBUFFERED": "1", "OF_A_TEST": "ä\n"}):
                forked, run = self.both(FINDS, "a", "--b", "c d", **more)
                found, wanted = json.loads(forked[1]), json.loads(run[1])
                for name, value in wanted.items():
                    self.expect(f"{name} with {len(more)} more", found.get(name), value)
                self.expect("the umask", found["umask"], 0o027)
                self.expect("its end", (forked[0], forked[2]), (run[0], run[2]))
        finally:
            os.umask(before)
            signal.signal(signal.SIGUSR1, handler)

    def test_ends(self) -> None:
        for more in ({}, {"PYTHONUNBUFFERED": "1"}):
            for name, text in ENDS.items():
                forked, run = self.both(text, **more)
                self.expect(f"{name}, {more}", forked, run)
        forked, run = self.both("1 / 0\n")
        self.expect(
            "an error", (forked[0], forked[2].splitlines()[-1]), (run[0], "ZeroDivisionError: division by zero")
        )

    def test_signals_from_a_test(self) -> None:
        text = "import sys, time\nprint('begun', flush=True)\nopen(sys.argv[1], 'w')\ntime.sleep(1000)\n"
        self.script.write_text(text, encoding="utf-8")
        for send, number in (
            (forked_runs.Forked.terminate, signal.SIGTERM),
            (forked_runs.Forked.kill, signal.SIGKILL),
            (lambda it: it.send_signal(signal.SIGUSR2), signal.SIGUSR2),
        ):
            begun = [self.script.with_name(f"{number} {it}") for it in "12"]
            child, other = (forked_runs.begin([str(self.script), str(it)]) for it in begun)
            self.expect("they run", wait_until(lambda: all(it.exists() for it in begun)), True)
            self.expect("it runs", child.poll(), None)
            with self.assertRaises(subprocess.TimeoutExpired):
                child.communicate(timeout=0.2)
            send(child)
            self.expect("what it said", child.communicate(timeout=patience(60)), ("begun\n", ""))
            self.expect("its status", (child.returncode, child.wait()), (-number, -number))
            send(child)  # to nobody
            self.expect("the other one", other.poll(), None)
            other.kill()
            self.expect("and then", other.wait(patience(60)), -signal.SIGKILL)

    def test_package(self) -> None:
        """It is loaded before a script begins."""
        forked, run = self.both("import sys\nprint('openlink_update.library_run' in sys.modules)\n")
        self.expect("loaded", (forked[1], run[1]), ("True\n", "False\n"))
