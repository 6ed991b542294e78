"""What befalls the runs of a week: signals, kills, full disks, a file that is written while it is read, a way back."""
import contextlib, datetime, os, random, signal, subprocess, threading, time
from openlink_update.children import is_open
from links import State
from fixtures.patience import wait_until
from slips import KEPT, USED, Slip


def waits(year, name):
    """A random moment of a run, in seconds after its start."""
    return year.source.random() * year.seconds[name]


def end_with(year, name, child, number):
    """Sends a run a signal at a random moment, and waits for its end. Returns its status."""
    with contextlib.suppress(subprocess.TimeoutExpired):
        child.wait(waits(year, name))
    if child.poll() is None:
        child.send_signal(number)
    year.explain_kill()
    return year.run(f"{name} with {number.name}", child, (0, 1, 3, 4, -number))


def ended_fetch(year, number):
    """After it each file is the old one or the new one."""
    before = {it.name: year.machine.input.read(it.file) for it in year.collection.providers}
    end_with(year, "fetch", year.begin_fetch(), number)
    for provider in year.collection.providers:
        if year.machine.input.read(provider.file) not in (before[provider.name], year.delivered[provider.name]):
            year.fault(f"after the fetch was ended: {provider.file} is neither the old nor the new file")


def ended_update(year, number):
    """The version before or the new one serves until the next run ends, which goes back first."""
    state = year.next_state()
    year.allowed.add(state)
    end_with(year, "update", year.machine.begin(), number)
    if not year.is_unsettled():
        is_new = year.machine.current() not in year.states
        year.settle(state if is_new else year.state)


class Saboteur(threading.Thread):
    """Kills a process of the program or a worker of nginx every second or so."""

    def __init__(self, year, seed):
        super().__init__(daemon=True)
        self.machine, self.source, self.is_told = year.machine, random.Random(seed), False
        self.kills = self.workers = 0  # processes that were killed, and workers of nginx among them

    def run(self):
        while not self.is_told:
            program, workers = self.machine.pids()
            victims = workers if self.source.random() < 0.4 else program
            with contextlib.suppress(OSError, IndexError):
                os.kill(self.source.choice(victims), signal.SIGKILL)
                self.kills += 1
                self.workers += victims is workers
            time.sleep(0.3 + 1.2 * self.source.random())

    def __enter__(self):
        self.start()
        return self

    def __exit__(self, *_):
        self.is_told = True
        self.join()


def sabotaged_update(year):
    """A run beside kills: it ends well, or the version before is in use, and the next run ends well."""
    state = year.next_state()
    year.explain_kill()
    with Saboteur(year, year.source.random()) as saboteur:
        year.allowed.add(state)
        status = year.run("update beside kills", year.machine.begin(), (0, 1, 3, 4))
        year.counts["processes killed"] += saboteur.kills
        year.kills += saboteur.workers
    wait_until(lambda: all(map(is_open, year.machine.site.ports)))
    if not year.is_unsettled():
        year.settle(state if status in (0, 1) else year.state)
        year.ask_after()
    if status in (3, 4):
        year.update()


MOST_ROOM = {"input": 8_000, "library": 400_000}  # less than the files of a week need


def full_disk(year, name):
    """A disk with little room: nothing new is used. Then there is room, and all is."""
    empty = year.machine.fill(name, year.source.randrange(MOST_ROOM[name]))
    year.explain_kill()
    year.expect(
        r".*(No space left on device|the disk is full or cannot be written).*",
        r"press-\d\d\.txt: .*(No space|disk is full).*",
    )
    try:
        if name == "input":
            year.fetch(status=4)
        else:
            year.refused_update(4)
    finally:
        empty()


class Writer(threading.Thread):
    """Copies a file over another, line by line, and slowly until it is told to end."""

    def __init__(self, path, data):
        super().__init__(daemon=True)
        self.path, self.data, self.is_told = path, data, False

    def run(self):
        with open(self.path, "wb", buffering=0) as file:
            for line in self.data.splitlines(keepends=True):
                file.write(line)
                if not self.is_told:
                    time.sleep(0.005)
            while not self.is_told:
                file.write(b"\n")
                time.sleep(0.005)

    def __enter__(self):
        self.start()
        return self

    def __exit__(self, *_):
        self.is_told = True
        self.join()


NO_TABLE_IN_PART = ("gzip", "zip", "UTF-16")  # forms


def update_beside_a_writer(year):
    """A file that is being written is not used. Once it is written, a later run of the week uses it. A part of some
    forms is no table, which the mail says instead if no line is written between the reading and that."""
    names = set(year.mail.slips) | year.busy
    provider = year.source.choice([it for it in year.collection.providers if it.name not in names])
    year.busy.add(provider.name)
    path = year.path(provider.file)
    says = () if provider.form in NO_TABLE_IN_PART else (f"  {path}: it changed while it was read",)
    year.mail.slips[provider.name] = Slip(KEPT, says)
    data = year.machine.input.read(provider.file)
    with Writer(path, data):
        year.update()
    year.machine.input.write(provider.file, data)
    year.mail.slips[provider.name] = Slip(USED, says)
    year.mail.kept_once.add(provider.name)


def unusable(year, slip):
    """A slip of the staff after which no file of the week is used; then it is mended."""
    mend = slip(year, year.source.choice(year.collection.providers))
    year.explain_kill()
    year.counts["slips"] += 1
    year.refused_update(3)
    mend()


def back_and_forward(year):
    """The version before, and the one of this week again."""
    older = [it for it in year.machine.versions() if it < year.machine.current()]
    if not older:  # the update before it has failed, which has been said
        return
    state, new = year.states[older[-1]], year.state
    year.allowed.add(state)
    year.run("back", year.machine.begin("--back"), (0,))
    if year.machine.current() != older[-1]:
        year.fault(f"--back leads to {year.machine.current()}, and {older[-1]} was the version before")
    year.settle(state)
    year.ask_after()
    year.state = new
    year.explain_kill()
    year.update()


def move_walls(year):
    """Three days later."""
    year.machine.day += datetime.timedelta(3)
    name = f"{year.state.name} with the walls of {year.machine.day}"
    state = State(name, year.machine.day, year.state.providers, year.state.unnamed)
    year.allowed.add(state)
    year.run("walls", year.machine.begin("--walls"), (0,))
    year.settle(state)
    year.ask_after()
