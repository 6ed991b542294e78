"""Versions that go from one machine to another, with a stand-in for ssh."""
from __future__ import annotations

import datetime
import os
import shutil
import signal
import tempfile

from fixtures import needs
from fixtures.cases import Case
from fixtures.balanced_machine import two_machines
from fixtures.library import ended
from fixtures.patience import wait_until
from openlink_update.machines import machines
from openlink_update.versions import library
from openlink_update.versions.library import STAMP

HIDDEN = ('{"name": "Full text", ', '{"name": "Full text", "onlyWithout": "In the library", ')


def weeks(machine):
    return machine.weeks_served()


def read(machine, name):
    with open(machine.path(name), encoding="utf-8") as file:
        return file.read()


def runs_of(machine):
    """The numbers of the processes that carry out a request on a machine."""
    found = []
    for number in filter(str.isdigit, os.listdir("/proc")):
        try:
            with open(f"/proc/{number}/cmdline", "rb") as file:
                words = file.read().decode("utf-8", "replace").split("\0")
        except OSError:
            continue
        if "--take" in words and machine.folder in words and words[0].endswith("python3"):
            found.append(int(number))
    return found


def hence(**time):
    """The name of a version or delivery that far ahead."""
    return (datetime.datetime.now(datetime.timezone.utc) + datetime.timedelta(**time)).strftime(STAMP)


class Other(machines.Machine):
    """Another machine that carries out a command, whatever it is sent."""

    def __init__(self, command):
        self.host, self.sent = "other", command

    def request(self, *words):
        if isinstance(self.sent, Exception):
            raise self.sent
        return machines.run(["sh", "-c", self.sent], machines.SECONDS_TO_ASK)


def said_by(case, command):
    """What is printed of a machine that carries out a command, with small limits."""
    lines, kept = [], (machines.report, machines.SECONDS_TO_ASK, machines.MOST_BYTES)
    seconds = 1 if "sleep" in str(command) else 60
    machines.report, machines.SECONDS_TO_ASK, machines.MOST_BYTES = lines.append, seconds, 2**16
    try:
        machine = Other(command)
        case.expect("it fails", machines.does(machine, lambda each: machines.Delivery.complete(each, [])), False)
    finally:
        machines.report, machines.SECONDS_TO_ASK, machines.MOST_BYTES = kept
    return lines


@needs.nginx()
@needs.program()
@needs.command("rsync", "curl")
class Deliveries(Case):
    def setUp(self) -> None:
        super().setUp()
        self.one, self.two = two_machines(self)

    def both_serve(self, week):
        """The machines, once deliveries have brought both the versions up to this week."""
        for it in "AB"[: "AB".index(week) + 1]:
            self.one.input.deliver(it)
            status, printed = self.one.run_to(self.two, *["--send"] * (it == "A"))
            if status != 0:
                raise RuntimeError(f"no delivery of week {it}: {printed}")
        return self.one, self.two

    def test_deliveries(self) -> None:
        """From the first delivery on both machines serve the same version, which the other tries before its readers get
        it."""
        one, two = self.one, self.two
        first = one.current()
        self.expect("two machines, each with a version of its own", two.current() != first)
        status, printed = one.run_to(two, "--send")
        self.expect(
            f"the first delivery: {printed}", (status, two.current(), two.health()[2]), (0, first, one.delivery())
        )
        self.expect_lines(
            "the first delivery",
            printed,
            f"other: {first} is in use",
            f"delivery {one.delivery()}: this machine, other",
        )
        statuses = two.aside("statuses")
        os.unlink(statuses)
        one.input.deliver("B")
        status, printed = one.run_to(two)
        self.expect(f"a week: {printed}", (status, weeks(one), weeks(two)), (0, {"B"}, {"B"}))
        with open(statuses) as file:
            self.expect("the other has no readers while its processes restart", file.read().split(), ["404"] * 2)
        self.expect("and then it has", (two.health(one.delivery())[0], two.current()), (200, one.current()))
        self.expect("its probes", read(two, "probes.tsv"), read(one, "probes.tsv"))
        self.expect("the probes of the input", len(read(one, "probes.tsv").splitlines()), len(one.probes()) + 1)
        self.expect("the input", sorted(os.listdir(two.path("input"))), sorted(os.listdir(one.input.folder)))
        self.expect("nothing is left", [two.left_over(), one.left_over()], [[], []])
        named = one.delivery()
        status, printed = one.run_to(two, "--send")
        self.expect(f"nothing new: {printed}", (status, printed, one.delivery()), (0, "", named))

    def test_free_key(self) -> None:
        """A key that may run any command delivers too, and each week the mail names it. Secrets stay here, and what
        another machine has of them goes."""
        one, two = self.both_serve("A")
        one.input.write("secrets.tsv", b"token\tmine\n")
        two.write("input/secrets.tsv", "token\tmine\n")
        two.free_key()
        one.input.deliver("B")
        status, printed = one.run_to(two)
        self.expect(f"a week: {printed}", (status, weeks(two)), (0, {"B"}))
        told = 'other: the key may run any command there: write restrict,command="openlink-update --take" before it'
        self.expect("it is named", [line for line in printed.splitlines() if line.startswith(told)] != [])
        self.expect("secrets here", os.path.exists(os.path.join(one.input.folder, "secrets.tsv")))
        self.expect("secrets there", os.path.exists(two.path("input", "secrets.tsv")), False)
        self.expect("nothing new", one.run_to(two, "--send"), (0, ""))

    def test_back(self) -> None:
        """Going back reaches the other machine too."""
        one, two = self.both_serve("B")
        older = sorted(one.versions())[-2]
        status, printed = one.run_to(two, "--back")
        self.expect(f"back: {printed}", (status, one.current(), two.current()), (0, older, older))
        self.expect("both serve it", (weeks(one), weeks(two)), ({"A"}, {"A"}))
        # A probe for files that are not yet in use is not sent.
        self.expect("forward", one.run()[0], 0)
        before = one.input.read("probes.tsv")
        one.input.write("probes.tsv", before + b"issn=2901-0012&volume=12\tnobody\n")
        status, printed = one.run_to(two, "--send")
        self.expect(f"and sent: {printed}", (status, two.current(), weeks(two)), (0, one.current(), {"B"}))
        self.expect("the probe", "nobody" in read(two, "probes.tsv"), False)
        one.input.write("probes.tsv", before)

    def test_cut(self) -> None:
        """A machine that cannot be reached misses the version, says so, and gets it later."""
        one, two = self.both_serve("B")
        old, named = two.current(), one.delivery()
        open(two.aside("cut"), "w").close()
        one.input.deliver("A")
        status, printed = one.run_to(two)
        self.expect(f"cut: {printed}", (status, weeks(one), weeks(two), two.current()), (1, {"A"}, {"B"}, old))
        self.expect_lines(
            "cut",
            printed,
            "other: ssh: connect to host: No route to host",
            "missed by other, which get no readers until they have it",
        )
        self.expect("another delivery", one.delivery() > named)
        status, lines, header = two.health(one.delivery())
        self.expect(
            "it says so",
            (status, lines[0], header),
            (503, f"the delivery {one.delivery()} is missing: openlink-update --send brings it", named),
        )
        self.expect("the other one is well", one.health(one.delivery())[0], 200)
        self.expect("still cut", one.run_to(two, "--send")[0], 1)
        os.unlink(two.aside("cut"))
        named = one.delivery()
        status, printed = one.run_to(two, "--send")
        self.expect(f"it gets it: {printed}", (status, weeks(two), two.health(named)[0]), (0, {"A"}, 200))
        self.expect("the name stays", (one.delivery(), two.delivery()), (named, named))

    def test_probes(self) -> None:
        """A version with which the probes do not hold there is not used there."""
        one, two = self.both_serve("A")
        old = two.current()
        two.edit_names(*HIDDEN)
        os.unlink(two.aside("statuses"))
        one.input.deliver("B")
        status, printed = one.run_to(two)
        self.expect(f"probes: {printed}", (status, weeks(one), weeks(two), two.current()), (1, {"B"}, {"A"}, old))
        self.expect("why", "probes differ with the new version" in printed, True)
        self.expect("none of its processes was restarted", os.path.exists(two.aside("statuses")), False)
        self.expect("it says so", (two.health(one.delivery())[0], two.left_over()), (503, []))
        two.edit_names(*reversed(HIDDEN))
        status, printed = one.run_to(two, "--send")
        self.expect(f"they hold again: {printed}", (status, weeks(two), two.health(one.delivery())[0]), (0, {"B"}, 200))

    def test_killed(self) -> None:
        """A run that is killed on the other machine while it has no readers: the next one goes back first."""
        one, two = self.both_serve("B")
        open(two.aside("stuck"), "w").close()
        os.unlink(two.aside("statuses"))
        one.input.deliver("A")
        child = one.begin(*one.words_to(two))
        wait_until(lambda: os.path.exists(two.aside("statuses")), 60)
        self.expect("it is drained", two.health()[0], 404)
        for pid in runs_of(two):
            os.kill(pid, signal.SIGKILL)
        os.unlink(two.aside("stuck"))
        status, printed = ended(child)
        self.expect(f"killed: {printed}", (status, two.health(one.delivery())[0]), (1, 503))
        status, printed = one.run_to(two, "--send")
        self.expect(f"the next run: {printed}", (status, weeks(two), two.health(one.delivery())[0]), (0, {"A"}, 200))
        self.expect("nothing is left", two.left_over(), [])

    def test_sent(self) -> None:
        """A version that was sent in part, or not at all, is not used."""
        one, two = self.both_serve("A")
        old, stamp = two.current(), hence(hours=1)
        status, printed = two.run("--receive", stamp)
        self.expect(
            f"nothing was sent: {printed}", (status, two.current(), "nothing was sent" in printed), (3, old, True)
        )
        shutil.copytree(two.path("versions", old), two.path("versions", f"{stamp}.sent"))
        os.unlink(two.path("versions", f"{stamp}.sent", "tables", "tidal-press.txt"))
        status, printed = two.run("--receive", stamp)
        self.expect(f"a table is missing: {printed}", (status, two.current(), weeks(two)), (3, old, {"A"}))

    def test_lies(self) -> None:
        """Whatever another machine says to the maker, its run ends, and the next delivery has a name of today."""
        one, two = self.both_serve("A")
        self.expect("both are well", one.run_to(two, "--send")[0], 0)
        limit, named = hence(days=1), one.delivery()
        for text in ("٢٠٢٧0101T000000Z", "99999999T999999Z", "99991231T235958Z", "\x1b]0;mine\x07", hence(hours=20)):
            with open(two.path("delivery"), "w") as file:
                file.write(f"{text}\n")
            one.remove("delivery")
            status, printed = one.run_to(two, "--send")
            self.expect(
                f"a machine that names {text!a}: {printed!a}",
                (status, one.delivery() < limit, two.delivery()),
                (0, True, one.delivery()),
            )
            self.expect("it is told", printed, f"delivery {one.delivery()}: this machine, other\n")
        one.write("delivery", read(one, "delivery").replace(one.delivery(), "99991231T235959Z"))
        status, printed = one.run_to(two, "--send")
        self.expect("a name that this machine took before", (status, named < one.delivery() < limit), (0, True))


class OtherMachines(Case):
    def test_names(self) -> None:
        """Names are times of the calendar in digits of ASCII, at most a day ahead."""
        bad = (
            "٢٠٢٧0101T000000Z",
            "99999999T999999Z",
            "20260230T000000Z",
            "99991231T235958Z",
            hence(days=1, minutes=1),
            "",
            "20260101T000000Z\n",
            "20260101T000000Z.new",
        )
        good = ("20240229T235959Z", hence(hours=23))
        self.expect("names", [it for it in (*bad, *good) if library.is_stamp(it)], [*good])
        self.expect(
            "after a name ahead", library.stamp_after([hence(hours=1)[:-3] + "58Z"]), hence(hours=1)[:-3] + "59Z"
        )
        with tempfile.TemporaryDirectory() as folder:
            own = library.Library(folder)
            for name in (*bad[:5], *good):
                os.makedirs(own.version(name))
            self.expect("versions", own.versions(), [*good])
            self.expect("a new version", own.begin() > good[1])
            os.symlink(f"versions/{good[0]}", own.path("current"))
            own.remove_newer()
            left = sorted(it for it in os.listdir(own.path("versions")) if not it.endswith(".new"))
            self.expect("newer versions are removed, whatever their time", left, sorted([*bad[:3], good[0]]))

    def test_answers(self) -> None:
        """A machine whose answers have no end, never come, or have control characters is named, and the others are sent
        what they lack."""
        cases = {
            "while :; do echo endless; done": "sh: it prints more than 65,536 bytes",
            "exec sleep 1000": "sh: no end after 1 seconds",
            "printf 'mine\\033]0;mine\\007\\n\\033[2J' >&2; exit 3": "mine?]0;mine?\n  ?[2J",
            "exit 7": "sh: status 7",
            "head -c 100000 /dev/zero | tr '\\0' x; exit 1": "sh: it prints more than 65,536 bytes",
            "head -c 1000 /dev/zero | tr '\\0' x; exit 1": f"{'x' * 500}..",
        }
        for command, reason in cases.items():
            self.expect(command, said_by(self, command), [f"other: {reason}"])
        self.expect(
            "a mistake of these scripts", said_by(self, ArithmeticError("a\x1bb")), ["other: ArithmeticError: a?b"]
        )
        silent = Other("true")
        silent.ask()
        self.expect("a machine that answers nothing has nothing", (silent.delivery, silent.stamps), ("", {}))
