"""What tools/prove says of how long it still takes, in runs of made times and a clock of their own; and which crates
count as dearer than tools/prove/shares.tsv says."""
from __future__ import annotations

import itertools
import os
import subprocess
import sys
import tempfile

from fixtures import TOP
from fixtures.cases import Case

sys.path.insert(0, f"{TOP}/tools/prove")
import costs
import machine
from crates import Crates
from schedule import Schedule

# Seconds of a processor; by how much the time of a crate differs from its share; the part of it that more jobs do not
# shorten.
WHOLE = 3_000
# From the program on, the last one that is proved, so that a further crate changes nothing for those after it.
FACTORS = (0.9, 1.1, 1.2, 0.9, 1.0, 1.15, 0.8)
ALONE = (0.3, 0.25, 0.35, 0.2)
# What is printed is a number of minutes.
HALF_A_MINUTE = 30
INTERVAL = 10


class Run:
    """A run with made times: those of the record, each times a factor, at the pace of some machine."""

    def __init__(self, crates: Crates, slots: int, pace: float, seconds: dict[str, float]) -> None:
        self.now = 0.0
        self.schedule = Schedule(crates, slots, clock=lambda: self.now)
        self.alone = dict(zip(reversed(crates.names), itertools.cycle(ALONE)))
        self.seconds = {name: pace * it for name, it in seconds.items()}
        self.alone[crates.program] = 0.8
        self.said: list[tuple[float, float]] = []

    def whole(self) -> float:
        """Runs to the end, and notes every few seconds what is said of the rest."""
        ends: dict[str, float] = {}
        while not self.schedule.is_done():
            while found := self.schedule.next():
                name, jobs = found
                self.schedule.start(name, jobs)
                ends[name] = self.now + self.seconds[name] * (self.alone[name] + (1 - self.alone[name]) / jobs)
            first = min(ends, key=lambda name: ends[name])
            while self.now + INTERVAL < ends[first]:
                self.now += INTERVAL
                self.note()
            self.now = ends.pop(first)
            self.schedule.end(first)
            self.note()
        return self.now

    def note(self) -> None:
        left = self.schedule.seconds_left()
        if left is not None:
            self.said.append((self.now, left))


def faults_of(run: Run) -> list[str]:
    """What is said after the first tenth and is wrong by more than a third."""
    end = run.whole()
    return [
        f"at {now:.0f} of {end:.0f} s: {left:.0f}"
        for now, left in run.said
        if now > end / 10 and abs(left - (end - now)) > max((end - now) / 3, HALF_A_MINUTE)
    ]


class TimeLeft(Case):
    def setUp(self) -> None:
        self.crates = Crates(TOP, "openlink", "")
        unit = WHOLE / sum(self.crates.weight.values())
        self.record = {name: unit * weight for name, weight in self.crates.weight.items()}

    def runs(self, slots: int) -> list[Run]:
        names = self.crates.names
        uneven = {name: self.record[name] * it for name, it in zip(reversed(names), itertools.cycle(FACTORS))}
        return [Run(self.crates, slots, pace, seconds) for pace in (0.5, 1, 3) for seconds in (self.record, uneven)]

    def test_within_a_third(self) -> None:
        for slots in 1, 2, 3, 4, 8:
            for number, run in enumerate(self.runs(slots)):
                self.expect(f"run {number} with {slots} jobs", faults_of(run), [])
                self.expect(f"notes of run {number} with {slots} jobs", len(run.said) > 20)

    def test_a_wrong_estimate_is_seen(self) -> None:
        for factor in 0.5, 1.5:
            run = Run(self.crates, 4, 1, self.record)
            left = run.schedule.seconds_left
            run.schedule.seconds_left = lambda: factor * (left() or 0)  # type: ignore[method-assign]
            self.expect(f"{factor} of it", faults_of(run) != [])


class Dearer(Case):
    seconds = {"large": 400.0, "middle": 80.0, "small": 4.0}

    def setUp(self) -> None:
        rows = costs.text_of(self.seconds).splitlines()[1:]
        self.shares = {name: float(share) for name, share in (row.split("\t") for row in rows)}

    def named(self, busy: tuple[str, ...] = (), **changed: float) -> list[str]:
        return [it.partition(":")[0] for it in costs.dearer({**self.seconds, **changed}, self.shares, busy)]

    def test_crates(self) -> None:
        self.expect("as before", self.named(), [])
        self.expect("all of it slower", self.named(large=800.0, middle=160.0, small=8.0), [])
        self.expect("a seventh more", self.named(middle=92.0), [])
        self.expect("a third more", self.named(middle=107.0), ["middle"])
        self.expect("a third more, on a busy machine", self.named(("middle",), middle=107.0), [])
        self.expect("twice as much, on a busy machine", self.named(("middle",), middle=160.0), ["middle"])
        self.expect("a small crate within the floor", self.named(small=11.0), [])
        self.expect("a small crate above it", self.named(small=13.0), ["small"])
        self.expect("a new crate", self.named(new=1.0), ["new"])
        self.shares["old"] = 1.0
        self.expect("a line without a crate", self.named(), ["old"])

    def test_table(self) -> None:
        """The table of the repository has the crates that the program depends on."""
        shares, crates = costs.read_shares(TOP), Crates(TOP, "openlink", "")
        self.expect("crates", sorted(shares), sorted(crates.names))
        self.expect("their sum", abs(sum(shares.values()) - 100) < 1)


class Records(Case):
    def setUp(self) -> None:
        room = tempfile.TemporaryDirectory()
        self.addCleanup(room.cleanup)
        self.crates = Crates(TOP, "openlink", "")
        self.crates.proofs = room.name

    def test_rows(self) -> None:
        record, names = costs.Record(self.crates), self.crates.names
        self.expect("nothing is measured", record.lacking(), names)
        for number, name in enumerate(names[1:], 1):
            record.add(name, float(number), number == 2)
        again = costs.Record(self.crates)
        self.expect("one lacks", again.lacking(), names[:1])
        self.expect("the busy one", again.busy(), {names[2]})
        self.crates.sums[names[3]] = "another"
        self.expect("one has changed", again.lacking(), [names[0], names[3]])
        self.expect("the seconds of the last", again.current()[names[-1]], float(len(names) - 1))

    def test_seconds_of_a_process(self) -> None:
        """Those of its children count, and only those of a processor."""
        work = "import time\nwhile time.process_time() < 0.3: pass"
        for words, least, most in ([sys.executable, "-c", work], 0.3, 3.0), (["sleep", "0.5"], 0.0, 0.3):
            process = subprocess.Popen(["sh", "-c", '"$@"; exit 3', "sh", *words])
            while (seconds := machine.seconds_of(process)) is None:
                os.sched_yield()
            self.expect(f"{words[0]}: {seconds} s", least <= seconds < most)
            self.expect(f"the status of {words[0]}", process.returncode, 3)
