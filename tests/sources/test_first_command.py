"""The script openlink in copies of this repository that have a small stand-in for the toolchain, which sleeps and
proves nothing: which crates it proves, in which order and with how many jobs, and what it does after an interrupt,
after an error, and when it runs twice at once."""
from __future__ import annotations

import os
import resource
import shutil
import signal
import subprocess
import sys
import tempfile

from fixtures import TOP
from fixtures.cases import Case
from fixtures.patience import wait_until

sys.path.insert(0, f"{TOP}/tools/prove")
from crates import Crates, read
from schedule import Schedule

JOBS = 4
# It notes each call, and the start and the end of each proof. A proof is a process in a group of its own. That of the
# crate KEPT does not end before there is a file NOTES.open.
STAND_IN = r"""#!/usr/bin/env -S python3 -SE
import os, subprocess, sys
def given(flag):
    return sys.argv[sys.argv.index(flag) + 1]
def note(*words):
    with open(os.environ["NOTES"], "a") as file:
        file.write(" ".join(words) + "\n")
kit, called = os.path.dirname(os.path.dirname(sys.argv[0])), os.path.basename(sys.argv[0])
note("call", called, "0")
if called == "rt":
    sys.exit(print({"version": "stand-in", "doc": kit + "/START-HERE.md"}[sys.argv[1]]))
to = given("-o")
if called == "rattle-link":
    with open(to, "w") as file:
        file.write("#!/bin/sh\necho ran \"$@\"\n")
    os.chmod(to, 0o755)
    sys.exit(0)
name, jobs = given("--crate-name"), given("--jobs")
lacking = [it for it in sys.argv if it.endswith(".rlib") and "/out/" in it and it != to]
lacking = [it for it in lacking if not os.path.isdir(it.split("=")[1])]
if lacking:
    sys.exit("no library: " + " ".join(lacking))
note("start", name, jobs)
size = sum(os.path.getsize(f"src/{it}") for it in os.listdir("src") if os.path.isfile(f"src/{it}"))
words = ["sleep", str(size / 1e6)]
if name == os.environ.get("KEPT"):
    words = ["sh", "-c", f"until [ -e {os.environ['NOTES']}.open ]; do sleep 0.05; done"]
proof = subprocess.Popen(words, preexec_fn=os.setpgrp)
proof.wait()
if name == os.environ.get("FAILS"):
    print("first line\n" + "line\n" * 20 + "the last line")
    sys.exit(1)
if to.endswith(".rlib"):
    os.makedirs(to, exist_ok=True)
else:
    open(to, "w").close()
note("end", name, jobs)
"""
# The seconds in which all proofs but one end.
LIMIT = 60


def heed_interrupts():
    """A shell that starts this check in the background has it ignore them."""
    signal.signal(signal.SIGINT, signal.SIG_DFL)


def processor_time():
    """What all processes that were started and have ended took of a processor, in seconds."""
    used = resource.getrusage(resource.RUSAGE_CHILDREN)
    return used.ru_utime + used.ru_stime


class Copy:
    """A copy of what the script reads, in a folder of its own: crates.txt, and of each crate the src/ folder."""

    def __init__(self, top, name):
        self.root, self.notes = f"{top}/{name}", f"{top}/{name}.notes"
        for crate in read(TOP)[0]:
            shutil.copytree(f"{TOP}/crates/{crate}/src", f"{self.root}/crates/{crate}/src")
        for file in ("openlink", "crates.txt"):
            shutil.copy2(f"{TOP}/{file}", self.root)
        shutil.copytree(f"{TOP}/tools", f"{self.root}/tools")
        os.makedirs(f"{self.root}/bin")
        for command in ("rt", "rattle", "rattle-link"):
            with open(f"{self.root}/bin/{command}", "w", encoding="utf-8") as file:
                file.write(STAND_IN)
            os.chmod(f"{self.root}/bin/{command}", 0o755)
        self.crates = Crates(self.root, "openlink", "")

    def start(self, **given):
        path = f"{self.root}/bin:{os.environ['PATH']}"
        where = {**os.environ, "PATH": path, "NOTES": self.notes, "OPENLINK_JOBS": str(JOBS), **given}
        how = {"stdin": subprocess.DEVNULL, "stdout": subprocess.PIPE, "stderr": subprocess.PIPE, "text": True}
        words = [f"{self.root}/openlink", "expand", "a b", ""]
        return subprocess.Popen(words, env=where, preexec_fn=heed_interrupts, **how)

    def noted(self):
        if not os.path.exists(self.notes):
            return []
        with open(self.notes, encoding="utf-8") as file:
            return [tuple(line.split()) for line in file]

    def names(self, event):
        return [name for kind, name, _ in self.noted() if kind == event]

    def is_kept(self, name):
        """Whether the proof of a crate that is kept from its end has begun, after an earlier one if there was one."""
        return self.names("start").count(name) > self.names("end").count(name)

    def let_go(self):
        """Lets the proof that is kept end."""
        with open(f"{self.notes}.open", "w", encoding="utf-8"):
            pass

    def marked(self):
        """Returns the crates that the next run does not prove again."""
        return {it for it in self.crates.names if os.path.exists(f"{self.crates.proofs}/{it}.sum")}

    def processes(self):
        """Returns the processes that work in this copy."""
        found = []
        for process in filter(str.isdigit, os.listdir("/proc")):
            try:
                found += [process] * os.readlink(f"/proc/{process}/cwd").startswith(self.root)
            except OSError:
                pass
        return found


class Order(Case):
    """Of the crates that can start, the one with the longest chain above it starts first."""

    copy: Copy

    @classmethod
    def setUpClass(cls) -> None:
        room = tempfile.TemporaryDirectory()
        cls.addClassCleanup(room.cleanup)
        cls.copy = Copy(room.name, "order")

    def test_schedule(self) -> None:
        """The order alone, without processes."""
        crates = self.copy.crates
        chain, weight = crates.chain, crates.weight
        for name in crates.names:
            for dep in crates.deps[name]:
                self.expect(f"the chain from {dep} has {name}", chain[dep] >= weight[dep] + chain[name])
        schedule = Schedule(crates, JOBS)
        while not schedule.is_done():
            while found := schedule.next():
                name, jobs = found
                ready = [it for it in schedule.left if crates.below[it] <= schedule.done]
                self.expect(f"the choice among {' '.join(ready)}", name, max(ready, key=chain.get))
                schedule.start(name, jobs)
                used = sum(jobs for jobs, _ in schedule.running.values())
                self.expect(f"{used} jobs run at once with {name}", used <= JOBS)
            schedule.end(min(schedule.running, key=weight.get))
        self.expect("the crates at the end", schedule.done, {*crates.names})

    def follow(self, copy: Copy) -> None:
        """Goes through the notes of a whole run: what was started when, beside what, with how many jobs."""
        crates, running = copy.crates, {}
        ended: set[str] = set()
        for kind, name, jobs in copy.noted():
            if kind == "start":
                self.expect(f"what {name} depends on is proved", crates.below[name] <= ended)
                running[name] = int(jobs)
                self.expect(f"jobs with {name}: {sum(running.values())}", sum(running.values()) <= JOBS)
            elif kind == "end":
                ended.add(name)
                del running[name]

    def test_whole_run(self) -> None:
        """The needed crates and no other, each once, and nothing in a second call."""
        copy = self.copy
        run = copy.start()
        out, err = run.communicate()
        crates = copy.crates
        self.expect(f"the run, which says {err!r}", (run.returncode, out), (0, "ran expand a b \n"))
        started = copy.names("start")
        self.expect("the crates that were proved", sorted(started), sorted(crates.names))
        self.expect("crates of tests", [it for it in started if it.endswith("_tests")], [])
        self.expect("the last crate", started[-1], "openlink")
        self.follow(copy)
        # At the start no crate depends on another that is not proved: the first ones have the longest chains.
        first = sorted((it for it in crates.names if not crates.below[it]), key=lambda it: -crates.chain[it])
        self.expect("the first crates", {*started[: len(first)]}, {*first})
        self.expect("the idle jobs", max(int(jobs) for _, _, jobs in copy.noted()), JOBS)
        calls, used = len(copy.noted()), processor_time()
        out = copy.start().communicate()
        again = processor_time() - used
        self.expect("the second call", out, ("ran expand a b \n", ""))
        self.expect("the calls of the toolchain", len(copy.noted()), calls)
        self.expect(f"a second call took {again:.2f} s of a processor, and the first one {used:.2f}", again < used / 50)


class Interrupts(Case):
    """An interrupt ends all that was started; the next run proves only what is left; of two runs at once one waits."""

    copy: Copy

    def setUp(self) -> None:
        room = tempfile.TemporaryDirectory()
        self.addCleanup(room.cleanup)
        self.copy = Copy(room.name, self.id().rpartition(".")[2])

    def interrupt(self, number: int, stuck: str) -> None:
        """Runs until all is proved but the crate stuck, whose proof does not end, and those above it; sends the
        signal."""
        copy = self.copy
        rest = {it for it in copy.crates.names if it == stuck or stuck in copy.crates.below[it]}
        run = copy.start(KEPT=stuck)
        is_left = wait_until(lambda: copy.is_kept(stuck) and copy.marked() == {*copy.crates.names} - rest, LIMIT)
        self.expect(f"all is proved but {stuck} and what depends on it", is_left)
        run.send_signal(number)
        _, err = run.communicate()
        self.expect(f"signal {number}", (run.returncode, "interrupted" in err), (-number, True))
        self.expect(f"processes after signal {number}", copy.processes(), [])

    def two_runs(self) -> None:
        """A run that begins before another one has ended waits for it."""
        copy = self.copy
        first = copy.start(KEPT="openlink")
        self.expect("the first run reaches openlink", wait_until(lambda: copy.is_kept("openlink"), LIMIT))
        second = copy.start()
        said = second.stderr.readline()
        copy.let_go()
        errors = [run.communicate()[1] for run in (first, second)]
        self.expect(f"two runs, which say {errors}", [first.returncode, second.returncode], [0, 0])
        told = ("waiting" in errors[0], "waiting for another run" in said)
        self.expect(f"which of them waits, of {errors[0]!r} and {said!r}", told, (False, True))

    def test_interrupts(self) -> None:
        first = self.copy.crates.names[10]
        self.interrupt(signal.SIGINT, first)
        # A crate that depends on the first one is still left.
        self.interrupt(signal.SIGTERM, next(it for it in self.copy.crates.names if first in self.copy.crates.below[it]))
        self.two_runs()
        self.expect("what was proved", sorted(self.copy.names("end")), sorted(self.copy.crates.names))

    def test_failure(self) -> None:
        """An error shows the crate, the end of its log and where it is."""
        name = self.copy.crates.names[0]
        run = self.copy.start(FAILS=name)
        out, err = run.communicate()
        self.expect("a failed proof", (run.returncode, out), (70, ""))
        log = self.copy.crates.log(name)
        for expected in (f"crate {name}", "status 1", log, "the last line"):
            self.expect(f"{expected!r} in {err}", expected in err)
        self.expect("the error shows the whole log", "first line" in err, False)
        self.expect("the log", os.path.exists(log))
        self.expect("processes after a failed proof", self.copy.processes(), [])
