"""What a maker asks of another machine, in which order, and what it makes of the replies; nothing is sent here."""
from __future__ import annotations

import contextlib
import fcntl
import io
import tempfile
from collections.abc import Callable
from pathlib import Path
from unittest import mock

from fixtures.cases import Case
from openlink_update import update_options
from openlink_update.machines import machines
from openlink_update.machines.machines import Delivery
from openlink_update.machines.machines import Machine
from openlink_update.outcome import Failure
from openlink_update.rights.limits import Limits
from openlink_update.rights.sandbox import Sandbox
from openlink_update.versions.library import Library

OLD, NEW = "20261122T000000Z", "20261129T000000Z"
RSYNC = "rsync -rt --delete --mkpath --timeout=60 --rsync-path=openlink-update --take rsync -e ssh -q"


class MachinesCase(Case):
    """Another machine, whose commands are noted in place of being run."""

    def setUp(self) -> None:
        room = tempfile.TemporaryDirectory()
        self.addCleanup(room.cleanup)
        self.folder = Path(room.name)
        self.asked: list[tuple[str, float]] = []
        self.replies: dict[str, str | Exception] = {}
        patch = mock.patch.object(machines, "run", self.run_command)
        patch.start()
        self.addCleanup(patch.stop)
        self.machine = Machine("b", "ssh -q", "openlink-update", self.folder, 3)

    def run_command(self, words: list[object], seconds: float) -> str:
        text = " ".join(map(str, words)).replace(str(self.folder), "FOLDER")
        self.asked.append((text, seconds))
        reply = next((it for part, it in self.replies.items() if part in text), "")
        if isinstance(reply, Exception):
            raise reply
        return reply

    def said(self, call: Callable[[], object]) -> tuple[object, str]:
        """What a call returns and prints, or the failure in which it ends."""
        printed = io.StringIO()
        with contextlib.redirect_stdout(printed), contextlib.redirect_stderr(printed):
            try:
                found = call()
            except Failure as failure:
                found = f"Failure: {failure}"
        return found, printed.getvalue().replace(str(self.folder), "FOLDER")

    def sendable(self, name: str = "east", stamp: str = NEW) -> machines._Sendable:
        folder = self.folder if name == machines.ALONE else self.folder / name
        (folder / "versions" / stamp).mkdir(parents=True, exist_ok=True)
        return machines._Sendable(name, Library(folder), stamp, mock.Mock(ports=[]), folder / "input")


class Asking(MachinesCase):
    def test_state(self) -> None:
        """What is no name of a version or a delivery counts as none."""
        self.replies["state"] = (
            f"key free\ndelivery {OLD}\n. versions/{OLD}\neast versions/{NEW}\nwest {NEW}\ndelivery versions/{NEW}\n"
            "north versions/soon\n\x1b[31m\n"
        )
        self.machine.ask()
        self.expect("what is asked", self.asked, [("ssh -q b openlink-update --take state", 60)])
        found = self.machine.delivery, self.machine.has_free_key, self.machine.stamps
        self.expect("what it has", found, (OLD, True, {".": OLD, "east": NEW, "delivery": NEW}))
        self.replies["state"] = "key forced\n"
        self.machine.ask()
        self.expect("nothing", (self.machine.delivery, self.machine.has_free_key, self.machine.stamps), ("", False, {}))

    def test_what_it_lacks(self) -> None:
        """Only that is brought; that the key may do too much is told once."""
        self.replies["state"] = f"key free\neast versions/{OLD}\nwest versions/{NEW}\n"
        every = [self.sendable("east"), self.sendable("west")]
        with mock.patch.object(Machine, "bring") as bring:
            text = 'b: the key may run any command there: write restrict,command="openlink-update --take" before it in '
            told = self.said(lambda: Delivery.complete(self.machine, every, True))
            self.expect("what is told", told, (None, f"{text}authorized_keys\n"))
            self.expect("what is brought", bring.call_args.args, (every[:1],))
            self.expect("not told", self.said(lambda: Delivery.complete(self.machine, every)), (None, ""))
            self.replies["state"] = f"key forced\neast versions/{NEW}\nwest versions/{NEW}\n"
            bring.reset_mock()
            self.expect("nothing", self.said(lambda: Delivery.complete(self.machine, every, True)), (None, ""))
            self.expect("nothing is brought", bring.called, False)

    def test_faults(self) -> None:
        """Whatever goes wrong is the fault of this machine alone."""
        for error, line in (
            (Failure("no end after 60 seconds"), "b: no end after 60 seconds\n"),
            (ValueError("a\x1b[31mb"), "b: ValueError: a?[31mb\n"),
        ):
            self.replies["state"] = error
            self.expect(line, self.said(lambda: machines.does(self.machine, Machine.ask)), (False, line))
        self.replies.clear()
        self.expect("none", self.said(lambda: machines.does(self.machine, Machine.ask)), (True, ""))


class Bringing(MachinesCase):
    def brought(self, lacking: list[machines._Sendable]) -> tuple[object, str]:
        with mock.patch("time.sleep") as sleep:
            found = self.said(lambda: self.machine.bring(lacking))
        self.expect("the balancer's time", [it.args for it in sleep.call_args_list], [(3,)])
        return found

    def commands(self) -> list[str]:
        """What was asked, without what is always the same."""
        texts = [text.replace(RSYNC, "rsync").replace("ssh -q b openlink-update --take ", "") for text, _ in self.asked]
        return [text.replace("b:", "", 1) for text in texts]

    def test_order(self) -> None:
        """All is sent before the readers leave, and each version is put in use while they are away."""
        east, alone = self.sendable("east"), self.sendable(machines.ALONE)
        self.machine.stamps = {"east": OLD}
        (self.folder / "east/input").mkdir()
        (self.folder / "shared").mkdir()
        found = self.brought([east, alone])
        self.expect("what is said", found, (None, f"b: east: {NEW} is in use\nb: {NEW} is in use\n"))
        link = f"--link-dest=../{NEW}"
        hidden = "--filter=hide secrets.tsv"
        wanted = [
            f"rsync {link} --link-dest=../{OLD} FOLDER/east/versions/{NEW}/ east/versions/{NEW}.sent/",
            f"rsync FOLDER/east/probes.tsv east/versions/{NEW}.probes",
            f"rsync {link} FOLDER/versions/{NEW}/ ./versions/{NEW}.sent/",
            f"rsync FOLDER/probes.tsv ./versions/{NEW}.probes",
            "drain",
            "drain",
            f"receive east {NEW}",
            f"rsync {hidden} FOLDER/east/input/ east/input/",
            "drain",
            f"receive . {NEW}",
            "end-drain",
            f"rsync {hidden} FOLDER/shared/ shared/",
        ]
        self.expect("what is asked", self.commands(), wanted)
        self.expect(
            "the seconds of each",
            [int(it) for _, it in self.asked],
            [3600] * 4 + [60] * 2 + [3600, 3600, 60] + [3600, 60, 3600],
        )

    def test_a_version_that_is_not_put_in_use(self) -> None:
        """The others are, the readers come back, and the failure has what the machine says."""
        self.replies[f"receive east {NEW}"] = Failure("1 of 2 probes differ\n  with the new version")
        found = self.brought([self.sendable("east"), self.sendable("west")])
        said = "Failure: 1 of 2 probes differ\n  with the new version"
        self.expect("what is said", found, (said, f"b: west: {NEW} is in use\n"))
        self.expect("the readers", self.commands()[-1], "end-drain")


class Deliveries(MachinesCase):
    def delivery(self, *words: str) -> Delivery:
        return Delivery(update_options.parse(["--library", str(self.folder), "--to", "b", *words]))

    def test_names(self) -> None:
        """A new one if the versions are new, after those that any machine has; then this machine has it too."""
        path, versions = self.folder / "delivery", f"east {NEW}\n"
        other = Machine("c", "ssh -q", "openlink-update", self.folder, 3, delivery="20301231T000000Z")
        with mock.patch.object(machines, "is_stamp", lambda text: text[:2] == "20"):
            found, said = self.said(lambda: self.delivery()._name([self.machine, other], versions))
        self.expect("who has it", found, [self.machine, other])
        stamp = path.read_text(encoding="utf-8").splitlines()[0]
        self.expect("its name", (stamp, said), ("20301231T000001Z", f"delivery {stamp}: this machine, b, c\n"))
        self.expect("what is written", path.read_text(encoding="utf-8"), f"{stamp}\n{versions}")
        self.expect("what is asked", [text.split("--take ")[1] for text, _ in self.asked], [f"name {stamp}"] * 2)
        self.asked.clear()
        other.delivery = stamp
        self.replies["ssh -q b"] = Failure("no end after 60 seconds")
        with mock.patch.object(machines, "is_stamp", lambda text: text[:2] == "20"):
            found, said = self.said(lambda: self.delivery()._name([self.machine, other], versions))
        self.expect("the same versions", (found, said), ([other], "b: no end after 60 seconds\n"))
        self.expect("it keeps its name", path.read_text(encoding="utf-8"), f"{stamp}\n{versions}")
        self.expect("who is told", [text.split(" openlink-update")[0] for text, _ in self.asked], ["ssh -q b"])
        self.replies.clear()
        with mock.patch.object(machines, "is_stamp", lambda text: text[:2] == "20"):
            self.said(lambda: self.delivery()._name([self.machine, other], f"east {OLD}\n"))
        wanted = f"20301231T000002Z\neast {OLD}\n"
        self.expect("other versions have another name", path.read_text(encoding="utf-8"), wanted)

    def test_run(self) -> None:
        with mock.patch.object(machines, "_sendable", return_value=[]):
            self.replies["state"] = "key forced\n"
            status, said = self.said(self.delivery().run)
            self.expect("all have it", (status, said.partition(":")[2]), (0, " this machine, b\n"))
            self.replies["state"] = "key free\n"
            for words, is_told in (([], True), (["--send"], False)):
                said = self.said(self.delivery(*words).run)[1]
                self.expect(f"what is told of the key with {words}", "any command there" in said, is_told)
            self.replies["state"] = Failure("no connection")
            status, said = self.said(self.delivery().run)
            text = "b: no connection\nmissed by b, which get no readers until they have it\n"
            self.expect("one misses it", (status, said), (1, text))

    def test_one_at_a_time(self) -> None:
        """A delivery waits until the one before has ended."""
        tried = list[str]()

        def sendable(_: object) -> list[object]:
            with open(self.folder / "delivery.lock", "a", encoding="ascii") as lock:
                try:
                    fcntl.flock(lock, fcntl.LOCK_EX | fcntl.LOCK_NB)
                except BlockingIOError:
                    tried.append("it would wait")
            return []

        with mock.patch.object(machines, "_sendable", side_effect=sendable):
            self.said(self.delivery().run)
        self.expect("another one", tried, ["it would wait"])

    def test_deliver(self) -> None:
        """The worst status counts, however the updates have ended; without machines nothing is done."""
        alone = update_options.parse(["--library", str(self.folder)])
        self.expect("no machine", self.said(lambda: machines.deliver(alone, 3)), (3, ""))
        options = update_options.parse(["--library", str(self.folder), "--to", "b"])
        ends = ((0, 1, (1, "")), (1, 0, (1, "")), (1, 4, (4, "")), (FULL, 1, (3, LINE)), (FULL, 4, (4, LINE)))
        for end, status, wanted in ends:
            with mock.patch.object(machines, "reset_signals") as reset:
                with mock.patch.object(Delivery, "run", side_effect=[end]):
                    self.expect(f"{end} and {status}", self.said(lambda: machines.deliver(options, status)), wanted)
            self.expect("signals end it from then on", reset.call_count, 1)


FULL, LINE = Failure("no room"), "nothing was sent: no room\n"


class Probes(MachinesCase):
    def test_kept_probes(self) -> None:
        """Those of an input without probes are none, after a line with the version; they are made once for it."""
        sendable = self.sendable("east")
        path = self.folder / "east/probes.tsv"
        (self.folder / "east/input").mkdir()
        (self.folder / "east/sending").mkdir()  # of a run that was killed
        options = update_options.parse(["--library", str(self.folder), "--to", "b"])
        with mock.patch.object(machines, "sandbox_of", return_value=Sandbox(None, Limits())) as box:
            sendable.keep_probes(options)
            self.expect("the file", path.read_text(encoding="utf-8"), f"# hold in {NEW}\n")
            self.expect("what is left", (self.folder / "east/sending").exists(), False)
            sendable.keep_probes(options)
            self.expect("how often", box.call_count, 1)
            self.sendable("east", OLD).keep_probes(options)
            self.expect("those of another version", path.read_text(encoding="utf-8"), f"# hold in {OLD}\n")

    def test_which_libraries(self) -> None:
        """Those with a version in use that no run is about to leave, and the one alone."""
        for name in ("east", "north", "west"):
            self.sendable(name)
            (self.folder / name / "site.conf").write_text("", encoding="utf-8")
        for name in ("east", "west"):
            (self.folder / name / "current").symlink_to(f"versions/{NEW}")
        (self.folder / "west/before").symlink_to("none")
        options = update_options.parse(["--library", str(self.folder), "--to", "b"])
        self.expect("libraries", [it.name for it in machines._sendable(options)], ["east"])
        self.sendable(machines.ALONE)
        (self.folder / "current").symlink_to(f"versions/{NEW}")
        (self.folder / "input").mkdir()
        found = [(it.name, it.stamp, it.input) for it in machines._sendable(options)]
        self.expect(
            "with one alone", found, [(".", NEW, self.folder / "input"), ("east", NEW, self.folder / "east/input")]
        )
        (self.folder / "input").rmdir()
        self.expect("without its input", [it.name for it in machines._sendable(options)], ["east"])
        other = update_options.parse(["--library", str(self.folder), "--to", "b", "--input", "/other"])
        found = [(it.name, it.input) for it in machines._sendable(other)]
        self.expect("with an input elsewhere", found, [(".", Path("/other")), ("east", self.folder / "east/input")])
