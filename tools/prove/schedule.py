"""Which crate to prove next, with how many jobs, and how long the rest is likely to take."""

import time

# rt's own limit for the jobs of one proof.
MOST_JOBS = 8
# The part of a proof that does not get shorter with more jobs: loading what is below, and of the program compiling it.
ALONE, ALONE_OF_PROGRAM = 0.3, 0.75
# What is left at least of a proof that takes longer than it should.
LEAST_LEFT = 0.05


class Schedule:
    """The crates that are left, running and done; `slots` is how many jobs can run at once."""

    def __init__(self, crates, slots, done=(), clock=time.monotonic):
        self.crates, self.slots, self._clock = crates, slots, clock
        self.done = set(done)
        self.left = [name for name in crates.names if name not in self.done]
        self.running = {}
        self._paces = []

    def next(self):
        """Returns a crate that can start and its jobs, or None. First comes the crate with the longest chain of crates
        up to the program. It gets the slots that no other crate can use now, since its jobs cannot grow later, and two
        where its chain decides how long the rest takes."""
        idle = self.slots - sum(jobs for jobs, _ in self.running.values())
        ready = [name for name in self.left if self.crates.below[name] <= self.done]
        if not ready or idle < 1:
            return None
        first = max(ready, key=lambda name: self.crates.chain[name])
        jobs = max(2 if self._decides(first) else 1, idle - len(ready) + 1)
        return first, min(jobs, idle, MOST_JOBS)

    def _decides(self, name):
        """Returns whether no chain is longer than that of this crate, and it takes longer, at one job a crate, than all
        that is left takes on all slots."""
        open_names = [*self.left, *self.running]
        chain, weight = self.crates.chain, self.crates.weight
        longest = max(chain[it] for it in open_names)
        return chain[name] >= longest and chain[name] * self.slots > sum(weight[it] for it in open_names)

    def start(self, name, jobs):
        self.left.remove(name)
        self.running[name] = jobs, self._clock()

    def end(self, name):
        jobs, since = self.running.pop(name)
        self._paces.append((self._clock() - since, self.clock_time(name, jobs)))
        self.done.add(name)

    def is_done(self):
        return not self.left and not self.running

    def clock_time(self, name, jobs):
        """Returns how long the proof of a crate takes by the clock, in the unit of the weights."""
        alone = ALONE_OF_PROGRAM if name == self.crates.program else ALONE
        return self.crates.weight[name] * (alone + (1 - alone) / jobs)

    def seconds_left(self):
        """Returns an estimate from the crates that this run has proved, or None: it goes through the rest in the order
        in which the crates will start, at the pace so far."""
        if not self._paces:
            return None
        pace = sum(it for it, _ in self._paces) / sum(it for _, it in self._paces)
        now, rest, at = self._clock(), Schedule(self.crates, self.slots, self.done), 0
        rest.left, rest.running = [*self.left], {**self.running}
        ends = {}
        for name, (jobs, since) in self.running.items():
            whole = pace * self.clock_time(name, jobs)
            ends[name] = max(whole - (now - since), LEAST_LEFT * whole)
        while not rest.is_done():
            while found := rest.next():
                rest.start(*found)
                ends[found[0]] = at + pace * self.clock_time(*found)
            name = min(ends, key=ends.get)
            at = ends.pop(name)
            rest.end(name)
        return at

    def __str__(self):
        proving = [f"{name} ({jobs} jobs)" if jobs > 1 else name for name, (jobs, _) in self.running.items()]
        left = self.seconds_left()
        remaining = "" if left is None else f"; about {max(1, round(left / 60))} min left"
        return f"{len(self.done)} of {len(self.crates.names)} crates proved, proving {', '.join(proving)}{remaining}"
