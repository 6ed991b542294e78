"""Runs that are ended at any moment, and two at once."""
from __future__ import annotations

import os
import signal
import subprocess
import time

from fixtures import needs
from fixtures.cases import Case
from fixtures.library import HERE
from fixtures.library import Library
from fixtures.library import Reader
from fixtures.library import ended
from fixtures.patience import patience
from fixtures.patience import wait_until

OTHER = {"A": "B", "B": "A"}
# The stages of a run, each of which begins as soon as there is something new in the library. In the last one a kill
# leaves most to do, so it is tried more often.
STAGES = ("beginning", "making", "trying", "restarting")
MOMENTS = [(name, number / 10) for number in range(10) for name in STAGES]
MOMENTS += [(STAGES[-1], (number + 0.5) / 10) for number in range(10)]
FEW_MOMENTS = [(name, number / 3) for number in range(3) for name in STAGES]


def setUpModule() -> None:
    # What a shell starts in the background ignores SIGINT, and so would the updates that these tests start.
    signal.signal(signal.SIGINT, signal.default_int_handler)


def served(case, name, library):
    """After a run was killed, a complete version is in use, and each process serves week A or B. Returns the week in
    use."""
    text = os.readlink(library.path("current"))
    case.expect(f"{name}: the link", os.path.dirname(text) == "versions" and len(library.names()) == 5)
    weeks = library.weeks_served()
    case.expect(f"{name}: weeks served", weeks <= set(OTHER), True)
    with open(library.path("current", "received", "coastal-law.rules")) as file:
        return "B" if "/titles/" in file.read() else "A"


def marks(library):
    """The names that only an unfinished run leaves, each with the number of its inode, in which a new one differs."""
    found = {}
    for name in ("before", "trial", *(f"versions/{name}" for name in library.versions() if name.endswith(".new"))):
        try:
            found[name] = os.lstat(library.path(name)).st_ino
        except FileNotFoundError:
            pass
    return found


class Run:
    """A run that was begun, while the library may have what an older one left."""

    def __init__(self, library, **how):
        self.library, self.left = library, marks(library)
        self.child = library.begin(**how)

    def stage(self):
        """The number of the stage to which it has come."""
        new = [name for name, mark in marks(self.library).items() if self.left.get(name) != mark]
        name = "restarting" if "before" in new else "trying" if "trial" in new else "making" if new else "beginning"
        return STAGES.index(name)

    def wait_for(self, stage):
        """Waits until it reaches a stage, or ends."""
        wait_until(lambda: self.child.poll() is not None or self.stage() >= stage, 60)

    def end_after(self, seconds, number):
        """Sends it a signal after some seconds. Returns its status and what it said."""
        try:
            self.child.wait(seconds)
        except subprocess.TimeoutExpired:
            self.child.send_signal(number)
        end = ended(self.child)
        # What a killed run had begun to start keeps its lock for a moment.
        wait_until(self.library.is_unlocked)
        return end


def lengths_of_stages(case, library):
    """The seconds that each stage takes, from the second of two whole runs. Week A is in use then, as before."""
    for week in "BA":
        library.input.deliver(week)
        run, times = Run(library, is_command=True), [time.monotonic()]
        for stage in range(1, len(STAGES)):
            run.wait_for(stage)
            times.append(time.monotonic())
        case.expect("a run", ended(run.child)[0], 0)
        times.append(time.monotonic())
    return {name: end - start for name, start, end in zip(STAGES, times, times[1:])}


def end_at(library, moment, lengths, number):
    """A run that gets a signal at a moment: the stage to which it came, its status, and what it said. Where it ends
    before, with status 0, the stage is taken to be shorter from now on."""
    name, part = moment
    run = Run(library, is_command=name == STAGES[0])  # what Python does before the script is part of its beginning
    run.wait_for(STAGES.index(name))
    status, printed = run.end_after(lengths[name] * part, number)
    if status == 0:
        lengths[name] /= 2
    return STAGES[run.stage()], status, printed


class Gate:
    """Keeps a run in its restarts. Each restart says that it has begun, and waits until the gate is open."""

    def __init__(self, library, name):
        self.begun, self.opened = library.aside(f"{name}.begun"), library.aside(f"{name}.open")
        self.restart = (
            f"sh -c 'echo PORT >>{self.begun}; until [ -e {self.opened} ]; do sleep 0.02; done; "
            f"exec {library.restart}'"
        )

    def wait_for(self, number):
        """Waits for the begin of the first, second and so on restart, and returns whether there is one."""

        def are_begun():
            if not os.path.exists(self.begun):
                return False
            with open(self.begun) as file:
                return len(file.readlines()) >= number

        return wait_until(are_begun, 60)

    def open(self):
        with open(self.opened, "w"):
            pass


@needs.nginx()
@needs.program()
class Ends(Case):
    def test_killed(self) -> None:
        """SIGKILL at 50 moments in all stages of a run. Each run has something new, and the one before to clean up."""
        with Library(probes=10) as library, Reader(library, pause=0.05) as reader:
            lengths, week, stages, whole = lengths_of_stages(self, library), "A", [], 0
            while len(stages) < len(MOMENTS) and whole < len(MOMENTS):
                library.input.deliver(OTHER[week])
                moment = MOMENTS[len(stages)]
                stage, status, printed = end_at(library, moment, lengths, signal.SIGKILL)
                if status == -signal.SIGKILL:
                    stages.append(stage)
                else:  # it ended before: the same moment again
                    whole += 1
                    self.expect(f"a run that ends before {moment}: {printed}", status, 0)
                week = served(self, f"killed at {moment}", library)
            self.expect("runs that were killed", len(stages), len(MOMENTS))
            self.expect(f"kills in each stage: {stages}", {"making", "trying", "restarting"} <= set(stages))
            library.input.deliver(OTHER[week])
            status, printed = library.run()
            self.expect(
                f"the run after all: {printed}",
                (status, library.weeks_served(), library.left_behind()),
                (0, {OTHER[week]}, []),
            )
        # Where a kill leaves no process for a moment, the page says so with status 503. It never says that there are no
        # links.
        wrong = [fault for fault in reader.faults if fault[1] != 503]
        self.expect("meanwhile each request has a good reply, or 503", (wrong[:3], reader.requests > 100), ([], True))
        self.expect(
            f"{len(reader.faults)} of {reader.requests} requests have 503", len(reader.faults) * 20 < reader.requests
        )

    def test_signals(self) -> None:
        """SIGINT and SIGTERM at 12 moments in all stages of a run: the run cleans up and goes back itself."""
        with Library() as library:
            lengths, week, done, whole = lengths_of_stages(self, library), "A", 0, 0
            while done < len(FEW_MOMENTS) and whole < len(FEW_MOMENTS):
                library.input.deliver(OTHER[week])
                first, number, moment = library.current(), (signal.SIGINT, signal.SIGTERM)[done % 2], FEW_MOMENTS[done]
                _, status, printed = end_at(library, moment, lengths, number)
                if status == 0:  # it ended before
                    week, whole = OTHER[week], whole + 1
                    continue
                # Before it has begun, it ends without a word, or with one of Python that is still starting.
                expected = 3 if "openlink-update: " in printed else status
                found = status, library.current(), library.weeks_served(), library.left_behind()
                self.expect(f"a signal at {moment}: {printed}", found, (expected, first, {week}, []))
                done += 1
            self.expect("runs that were ended", done, len(FEW_MOMENTS))
            library.input.deliver(OTHER[week])
            self.expect("the run after", (library.run()[0], library.weeks_served()), (0, {OTHER[week]}))

    def test_signals_at_restarts(self) -> None:
        """A signal after the link was moved: the run goes back, and a second signal, while it does so, does not stop
        it."""
        with Library() as library:
            first = library.current()
            library.input.deliver("B")
            for number in (signal.SIGINT, signal.SIGTERM, signal.SIGHUP):
                gate = Gate(library, number.name)
                child = library.begin(restart=gate.restart)
                self.expect("the link is moved", (gate.wait_for(1), library.current() != first), (True, True))
                child.send_signal(number)
                self.expect("it goes back", gate.wait_for(2))
                child.send_signal(number)
                gate.open()
                status, printed = ended(child)
                self.expect(
                    f"{number.name} at a restart: {printed}",
                    (status, library.current(), library.weeks_served(), library.left_behind()),
                    (3, first, {"A"}, []),
                )
                self.expect("its name is said", f"ended by {number.name}" in printed)

    def test_process_that_ends_meanwhile(self) -> None:
        """A process that ends before its turn is started again with the new version. A run that goes back later
        restarts it too; one whose restarts fail leaves it as it is."""
        cases = (("goes back", "[ -e {1} ] || ", {"A"}), ("fails again", "[ PORT != {0} ] || ", {"A", "B"}))
        for name, fails, weeks in cases:
            with Library() as library:
                first, mark, (port, other) = library.current(), library.aside("mark"), library.site.ports
                library.input.deliver("B")
                restart = (
                    f"[ -e {mark} ] || {HERE}/restart {library.room} {other}; {fails.format(port, mark)}"
                    f"{{ touch {mark}; exit 9; }}; exec {library.restart}"
                )
                status, printed = library.run(restart=f"sh -c '{restart}'")
                self.expect(
                    f"a run that {name}: {printed}",
                    (status, library.current(), library.weeks_served()),
                    (3, first, weeks),
                )

    def test_two_runs(self) -> None:
        """While a run is kept in its restarts, no other one begins, nor waits for it."""
        with Library() as library:
            library.input.deliver("B")
            gate = Gate(library, "first")
            child = library.begin(restart=gate.restart)
            self.expect("the first run is in its restarts", gate.wait_for(1))
            refusal = (4, f"openlink-update: {library.path('lock')}: another run has not ended\n")
            for name, options in (
                ("a second run", ()),
                ("a trial too", ("--dry-run",)),
                ("going back too", ("--back",)),
            ):
                self.expect(name, ended(library.begin(*options), 20), refusal)
            self.expect("they end before the first run", child.poll(), None)
            gate.open()
            status, printed = ended(child)
            self.expect(
                f"the first run: {printed}", (status, library.weeks_served(), library.left_behind()), (0, {"B"}, [])
            )

    def test_closed_output(self) -> None:
        """Nobody reads what a run says."""
        with Library() as library:
            library.input.deliver("B")
            reader, writer = os.pipe()
            os.close(reader)
            status = subprocess.run(library.words(), stdout=writer, stderr=writer, timeout=patience(120)).returncode
            os.close(writer)
            self.expect("a closed output", (status, library.weeks_served(), library.left_behind()), (0, {"B"}, []))
