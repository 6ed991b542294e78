"""Proves the crates that the program depends on, builds it, and runs it: python3 tools/prove [ARGUMENT ..]

Proofs run side by side (schedule.py), each as a command of the toolchain (toolchain.py). What they prove stays in
crates/openlink/out/proofs/, so after an interrupt the next run continues from there. What each took stays there too
(costs.py)."""

import os
import signal
import subprocess
import sys
import time

sys.dont_write_bytecode = True

import machine
from costs import Record
from crates import Crates
from schedule import Schedule
from toolchain import Toolchain

PROGRAM = "openlink"
FAILED = 70
SHOWN = 15


class Stopped(Exception):
    """A signal asks this process to end."""


class Failed(Exception):
    """The program cannot be built."""


def say(text):
    print(f"{PROGRAM}: {text}", file=sys.stderr, flush=True)


# The signals that arrived.
signals = []


def pause(seconds=0.05):
    """Waits, and stops where a signal has arrived. Only here, so no proof is started and then forgotten."""
    time.sleep(seconds)
    if signals:
        raise Stopped


class Proofs:
    """The proofs that run now."""

    def __init__(self, crates, toolchain, schedule):
        self.crates, self.toolchain, self.schedule = crates, toolchain, schedule
        self.record, self.running = Record(crates), {}

    def start_ready(self):
        while found := self.schedule.next():
            name, jobs = found
            self.crates.unmark(name)
            words = self.toolchain.proof(self.crates, name, jobs)
            self.running[name] = machine.start(words, self.crates.folder(name), self.crates.log(name))
            self.schedule.start(name, jobs)

    def end_finished(self):
        for name, process in [*self.running.items()]:
            seconds = machine.seconds_of(process)
            if seconds is None:
                continue
            del self.running[name]
            if process.returncode:
                raise Failed(self.failure(name, process.returncode))
            self.crates.mark_proved(name)
            self.record.add(name, seconds, machine.is_busy(self.schedule.slots))
            self.schedule.end(name)

    def failure(self, name, status):
        log = self.crates.log(name)
        with open(log, encoding="utf-8", errors="replace") as file:
            lines = file.read().splitlines()[-SHOWN:]
        how = f"was ended by signal {-status}" if status < 0 else f"ended with status {status}"
        return "\n".join([f"the proof of the crate {name} {how}; the end of {log}:", *lines])

    def end(self):
        machine.end([*self.running.values()])


def program_of(crates):
    return f"{crates.folder(PROGRAM)}/out/{PROGRAM}"


def prove_all(crates, toolchain):
    done = [name for name in crates.names if crates.is_proved(name)]
    schedule = Schedule(crates, machine.slots(), done)
    proofs = Proofs(crates, toolchain, schedule)
    say(f"{len(done)} of {len(crates.names)} crates proved; proving the others and building takes minutes")
    # On a terminal a line often enough to see that it works, and elsewhere seldom, since it may be a log.
    interval = 20 if sys.stderr.isatty() else 120
    reported_at = time.monotonic()
    try:
        while not schedule.is_done():
            proofs.start_ready()
            pause()
            proofs.end_finished()
            if time.monotonic() - reported_at >= interval and not schedule.is_done():
                say(schedule)
                reported_at = time.monotonic()
    finally:
        proofs.end()


class Wait:
    """Waits for another run, and says so once."""

    def __init__(self):
        self.has_waited = False

    def __call__(self):
        if not self.has_waited:
            say("waiting for another run that proves these crates")
        self.has_waited = True
        pause()


def become(program, arguments):
    """Goes on as this program, in this process. Python ignores the signals that are reset here."""
    for it in (signal.SIGPIPE, signal.SIGXFSZ):
        signal.signal(it, signal.SIG_DFL)
    os.execv(program, [program, *arguments])


def link(crates, toolchain, started):
    """Links the program. A source that was edited since the start is newer than it."""
    program, new = program_of(crates), f"{crates.proofs}/{PROGRAM}"
    subprocess.run(toolchain.link(crates.built(PROGRAM), new), stdout=sys.stderr, check=True)
    os.utime(new, (started, started))
    os.replace(new, program)


def build(root, arguments):
    """Returns the program, once it is built."""
    started = time.time()
    toolchain, wait = Toolchain(), Wait()
    crates = Crates(root, PROGRAM, toolchain.version)
    os.makedirs(crates.proofs, exist_ok=True)
    # rt takes the same lock before it touches the program's out/. It ends with this process.
    machine.lock(crates.folder(PROGRAM), wait)
    if wait.has_waited:
        # The other run may have built the program.
        become(f"{root}/openlink", arguments)
    prove_all(crates, toolchain)
    link(crates, toolchain, started)
    return program_of(crates)


def main(arguments):
    root = os.path.dirname(os.path.dirname(os.path.dirname(os.path.realpath(__file__))))
    for it in (signal.SIGINT, signal.SIGTERM, signal.SIGHUP):
        if signal.getsignal(it) != signal.SIG_IGN:
            signal.signal(it, lambda number, _: signals.append(number))
    try:
        become(build(root, arguments), arguments)
    except (Stopped, Failed, OSError, subprocess.CalledProcessError) as error:
        if not signals:
            say(error)
            return FAILED
    say("interrupted; the next run continues with what is left")
    signal.signal(signals[0], signal.SIG_DFL)
    os.kill(os.getpid(), signals[0])


if __name__ == "__main__":
    sys.exit(main(sys.argv[1:]))
