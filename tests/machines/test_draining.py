"""What the balancer is told of a machine that gets a version, and what a delivery removes there."""
from __future__ import annotations

import datetime
import os
import types

from fixtures import needs
from fixtures.balanced_machine import Machine
from fixtures.balanced_machine import two_machines
from fixtures.cases import Case
from fixtures.library import ended
from fixtures.patience import wait_until
from openlink_update.versions.library import STAMP

OTHER = {"A": "B", "B": "A"}


def read(machine: Machine, name: str) -> str:
    with open(machine.path(name), encoding="utf-8") as file:
        return file.read()


def minutes_until(stamp: str) -> float:
    """The minutes from now to the time that a stamp names."""
    moment = datetime.datetime.strptime(stamp.strip(), STAMP).replace(tzinfo=datetime.timezone.utc)
    return (moment - datetime.datetime.now(datetime.timezone.utc)).total_seconds() / 60


def forget_statuses(machine: Machine) -> None:
    if os.path.exists(machine.aside("statuses")):
        os.unlink(machine.aside("statuses"))


@needs.nginx()
@needs.program()
@needs.command("rsync", "curl")
class Draining(Case):
    one: Machine
    two: Machine
    week = "A"

    @classmethod
    def setUpClass(cls) -> None:
        cls.one, cls.two = two_machines(types.SimpleNamespace(addCleanup=cls.addClassCleanup))

    def next_week(self) -> str:
        """Gives the first machine something new to send. Returns the week."""
        type(self).week = OTHER[self.week]
        self.one.input.deliver(self.week)
        return self.week

    def test_empty_file(self) -> None:
        """An empty `drain` is the operator's: a delivery neither fills nor removes it, so the machine stays without
        readers."""
        one, two, week = self.one, self.two, self.next_week()
        two.write("drain", "")
        self.expect("before", two.health()[0], 404)
        status, printed = one.run_to(two)
        self.expect(f"a delivery: {printed}", (status, two.weeks_served()), (0, {week}))
        self.expect("the file", os.path.exists(two.path("drain")) and read(two, "drain"), "")
        self.expect("after", (two.health()[0], two.health()[1][0]), (404, "drained"))
        two.remove("drain")
        self.expect("the operator ends it", two.health(one.delivery())[0], 200)

    def test_file_of_a_delivery(self) -> None:
        """That of a delivery names an end, at most twenty minutes ahead, and goes with the delivery."""
        one, two, week = self.one, self.two, self.next_week()
        forget_statuses(two)
        open(two.aside("stuck"), "w").close()
        child = one.begin(*one.words_to(two))
        self.expect("its processes are to be restarted", wait_until(lambda: os.path.exists(two.aside("statuses")), 60))
        left = minutes_until(read(two, "drain"))
        self.expect(f"minutes left: {left}", 5 < left <= 20)
        os.unlink(two.aside("stuck"))
        status, printed = ended(child)
        self.expect(f"the delivery: {printed}", (status, two.weeks_served()), (0, {week}))
        self.expect("no file is left", os.path.exists(two.path("drain")), False)
        self.expect("it has readers", two.health(one.delivery())[0], 200)

    def test_older_file_of_a_delivery(self) -> None:
        """One that a killed delivery has left is replaced, and is removed at the end."""
        one, two, week = self.one, self.two, self.next_week()
        two.write("drain", "20200101T000000Z\n")
        forget_statuses(two)
        status, printed = one.run_to(two)
        self.expect(f"the delivery: {printed}", (status, two.weeks_served()), (0, {week}))
        self.expect("no file is left", os.path.exists(two.path("drain")), False)
        with open(two.aside("statuses")) as file:
            self.expect("no readers while its processes restart", set(file.read().split()), {"404"})

    def test_removed_files(self) -> None:
        """A file that was removed from the input, or from what libraries share, is removed on the other machine too, or
        it would come back once that machine makes a version. Its own state of fetching stays."""
        one, two = self.one, self.two
        paths = ("input/old.txt", "shared/old.txt", "shared/sub/new.txt")
        one.input.write("old.txt", b"old\n")
        os.makedirs(one.path("shared", "sub"))
        for path in paths[1:]:
            one.write(path, "text\n")
        self.next_week()
        self.expect("a delivery", one.run_to(two)[0], 0)
        self.expect("the files came", [os.path.exists(two.path(path)) for path in paths], [True] * 3)
        states = [f"{folder}.fetch/state.json" for folder in ("input", "shared")]
        for path in states:
            os.makedirs(os.path.dirname(two.path(path)))
            two.write(path, "{}")
        os.unlink(one.input.path("old.txt"))
        one.remove("shared/old.txt")
        week = self.next_week()
        status, printed = one.run_to(two)
        self.expect(f"the next one: {printed}", (status, two.weeks_served()), (0, {week}))
        self.expect("they are gone", [os.path.exists(two.path(path)) for path in paths], [False, False, True])
        self.expect("the state of fetching", [os.path.exists(two.path(path)) for path in states], [True, True])
