"""A machine that is told to put a version in use which it has already, or which was not sent."""
from __future__ import annotations

import contextlib
import io
import os
import tempfile
from pathlib import Path
from unittest import mock

from bounds.refusals import reason
from fixtures.cases import Case
from openlink_update.machines import receiving
from openlink_update.machines.receiving import Receiver
from openlink_update.versions.library import Library
from openlink_update.weekly_run import Attempt

OLD, NEW = "20261122T000000Z", "20261129T000000Z"
OLDER, BETWEEN = ("20261108T000000Z", "20261115T000000Z"), "20261125T000000Z"


class Receiving(Case):
    def setUp(self) -> None:
        room = tempfile.TemporaryDirectory()
        self.addCleanup(room.cleanup)
        self.folder = Path(room.name)
        (self.folder / "versions" / OLD).mkdir(parents=True)
        (self.folder / "current").symlink_to(f"versions/{OLD}")
        (self.folder / "updated").write_text(f"{OLD}\n", encoding="utf-8")
        self.receiver = Receiver.__new__(Receiver)
        self.receiver.library, self.receiver.others = Library(self.folder), None

    def test_a_version_in_use(self) -> None:
        """What was sent of it again is removed. Another machine makes the versions of this one from then on."""
        (self.folder / "versions" / f"{OLD}.sent").mkdir()
        (self.folder / "versions" / f"{OLD}.probes").write_text("", encoding="utf-8")
        printed = io.StringIO()
        with contextlib.redirect_stdout(printed):
            status = self.receiver.receive(OLD, 4)
        self.expect("what is said", (status, printed.getvalue()), (0, f"{OLD} is in use already\n"))
        self.expect("what is left", sorted(os.listdir(self.folder)), ["current", "versions"])
        self.expect("the versions", os.listdir(self.folder / "versions"), [OLD])

    def received(self, probes: str) -> tuple[Attempt, int]:
        """How a version that was sent with these probes is tried, and how often signals are told to wait."""
        library, tried = self.receiver.library, list[Attempt]()

        def use(attempt: Attempt) -> None:
            tried.append(attempt)
            self.has_probes = (attempt.folder.path / attempt.probes).exists()
            self.expect("while it is tried", (library.current(), attempt.version.is_dir()), (OLD, True))
            attempt.put_in_use()

        def move(new: str, old: str | None) -> None:
            library.remember(old)
            library.move(new)

        versions = self.folder / "versions"
        for name in (*OLDER, BETWEEN, f"{NEW}.sent", f"{BETWEEN}.sent"):
            (versions / name).mkdir(exist_ok=True)
        (versions / f"{NEW}.probes").write_text(probes, encoding="utf-8")
        (versions / f"{BETWEEN}.probes").touch()
        with mock.patch.object(receiving, "ignore_signals") as signals, mock.patch.object(receiving, "sync") as sync:
            with mock.patch.multiple(self.receiver, create=True, try_and_use=use, put_in_use=move):
                with contextlib.redirect_stdout(io.StringIO()) as printed:
                    status = self.receiver.receive(NEW, 3)
        self.expect("what is said", (status, printed.getvalue()), (0, f"{NEW} is in use\n"))
        waited = [it.args[0] for it in sync.call_args_list]
        self.expect("what has to be on the disk", waited, [versions / f"{NEW}.probes", self.folder])
        return tried[0], signals.call_count

    def test_a_version_that_was_sent(self) -> None:
        """It is put in use, its probes are kept for the next delivery, and what was sent besides is removed; so is a
        version after the one in use, from which a run went back, and the oldest ones."""
        probes = f"# hold in {NEW}\nissn=2901-0012\tpress\n"
        attempt, signals = self.received(probes)
        found = attempt.probes, attempt.old, attempt.tries_all, attempt.is_trial
        self.expect("how it is tried", found, (f"{NEW}.probes", OLD, True, False))
        self.expect("signals wait at its end", signals, 1)
        self.expect("the version in use", self.receiver.library.current(), NEW)
        self.expect("what is left", sorted(os.listdir(self.folder)), ["current", "probes.tsv", "versions"])
        self.expect("the versions", sorted(os.listdir(self.folder / "versions")), [OLDER[1], OLD, NEW])
        self.expect("its probes", (self.folder / "probes.tsv").read_text(encoding="utf-8"), probes)

    def test_files_of_another_library(self) -> None:
        """A table that another library of the machine has too is on the disk once."""
        table, other = Path("tables/press.txt"), self.folder / "other"
        for folder in (other, self.folder / "versions" / f"{NEW}.sent"):
            (folder / "tables").mkdir(parents=True)
            (folder / table).write_text("rows\n", encoding="utf-8")
        self.receiver.others = [other]
        self.received("")
        self.expect("one file", (self.folder / "versions" / NEW / table).samefile(other / table))

    def test_a_version_of_before(self) -> None:
        """It is there, so nothing is completed."""
        (self.folder / "versions" / NEW).mkdir()
        attempt, _ = self.received("")
        self.expect("its folder", attempt.version, self.folder / "versions" / NEW)
        self.expect("the version in use", self.receiver.library.current(), NEW)

    def test_a_version_without_probes(self) -> None:
        for number, (text, wanted) in enumerate(((f"# hold in {NEW}\n", False), ("issn=2901-0012\tpress\n", True))):
            if number:
                self.setUp()
            self.received(text)
            self.expect(f"{text!r} is a file of probes", self.has_probes, wanted)

    def test_a_version_that_was_not_sent(self) -> None:
        said = reason(self.receiver.receive, NEW, 4)
        self.expect("what is said", said, f"{self.folder}/versions/{NEW}.sent: nothing was sent")
        self.expect("the version in use", self.receiver.library.current(), OLD)
