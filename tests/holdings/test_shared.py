"""Tables that several libraries serve: which are shared, that each is prepared once, and that a library prepares itself
what it cannot get."""
from __future__ import annotations

import json
import os
import tempfile
from collections.abc import Callable
from pathlib import Path
from unittest import mock

from fixtures.cases import Case
from openlink_update.outcome import DEVICE
from openlink_update.outcome import Failure
from openlink_update.rights.limits import Limits
from openlink_update.rights.sandbox import Job
from openlink_update.rights.sandbox import Sandbox
from openlink_update.tables import preparation
from openlink_update.tables.preparation import Prepared
from openlink_update.target_options import Options
from openlink_update.versions import shared_tables

HEAD = "publication_title\tprint_identifier\tdate_first_issue_online\tdate_last_issue_online\n"
ROWS = "Piers\t\t1995\t\nTides\t2901-0012\t3/31/1995\t1990\n"
TABLE, OTHER = (f"{HEAD}{rows}".encode() for rows in (ROWS, "Quays\t2922-0408\t1996\t\n"))


class Failing(Sandbox):
    """A user who can start no process."""

    def run(self, job: Job) -> str:
        raise Failure("no process", DEVICE)


class SharedCase(Case):
    def setUp(self) -> None:
        room = tempfile.TemporaryDirectory()
        self.addCleanup(room.cleanup)
        self.top, self.prepared = Path(room.name), 0
        for name in ("run", "shared", "versions/a/received", "versions/b/received"):
            (self.top / name).mkdir(parents=True)
        (self.top / "shared/press.txt").write_bytes(TABLE)
        shared_tables.folder, shared_tables.asked = self.top / "run", None
        self.addCleanup(setattr, shared_tables, "folder", None)
        self.addCleanup(setattr, shared_tables, "asked", None)
        prepare = preparation.prepare

        def counted(*words: object) -> Prepared:
            self.prepared += 1
            return prepare(*words)  # type: ignore[arg-type]

        patch = mock.patch.object(preparation, "prepare", counted)
        patch.start()
        self.addCleanup(patch.stop)

    def mark(self) -> list[str]:
        """The sums of what is shared."""
        versions = [self.top / "versions" / name for name in ("a", "b", "none")]
        shared_tables.mark(self.top / "run", self.top / "shared", versions)
        return (self.top / "run/marks").read_text(encoding="utf-8").splitlines()

    def times(self, call: Callable[[], object]) -> int:
        """How often a table was prepared by a call."""
        before = self.prepared
        call()
        return self.prepared - before


def made(*files: bytes, options: Options = Options()) -> Prepared:
    return shared_tables.prepare([(f"file {number}", data) for number, data in enumerate(files)], options)


class Marks(SharedCase):
    def test_what_is_shared(self) -> None:
        """The files of the folder, and those that two versions have as one; a link in it leads nowhere."""
        received = self.top / "versions/a/received"
        (received / "one.txt").write_bytes(OTHER)
        (received / "own.txt").write_bytes(b"own")
        os.link(received / "one.txt", self.top / "versions/b/received/two.txt")
        (self.top / "shared/below").mkdir()
        (self.top / "shared/below/it.txt").write_bytes(b"more")
        (self.top / "shared/link.txt").symlink_to(received / "own.txt")
        sums = {shared_tables._sum_of(data) for data in (TABLE, OTHER, b"more")}
        self.expect("sums", set(self.mark()), sums)


class Prepares(SharedCase):
    def test_once(self) -> None:
        self.mark()
        first = preparation.prepare([("file 0", TABLE)])
        self.expect("the first time", self.times(lambda: made(TABLE)), 1)
        self.expect("then", self.times(lambda: made(TABLE)), 0)
        self.expect("it is the same", made(TABLE), first)
        self.expect("what was done is said", (bool(first.lines), len(first.dropped), first.reversed), (True, 1, FIRST))

    def test_others(self) -> None:
        """A file that is not marked, or beside one that is not, and one that options read in another way."""
        self.mark()
        made(TABLE)
        for what, call in (
            ("another file", lambda: made(OTHER)),
            ("two of them", lambda: made(TABLE, OTHER)),
            ("options", lambda: made(TABLE, options=Options(sheet="Titles"))),
        ):
            self.expect(what, [self.times(call) for _ in range(2)], [1, 1])
        shared_tables.folder = None
        self.expect("a library alone", self.times(lambda: made(TABLE)), 1)

    def test_names_of_several_files(self) -> None:
        """The messages about several files have their names, so these are part of what is stored."""
        (self.top / "shared/more.txt").write_bytes(OTHER)
        self.mark()
        files = [("one.txt", TABLE), ("two.txt", OTHER)]
        for names, count in ((files, 1), (files, 0), ([("x.txt", TABLE), files[1]], 1), ([files[1], files[0]], 1)):
            self.expect(f"{[name for name, _ in names]}", self.times(lambda: shared_tables.prepare(names)), count)

    def test_no_room(self) -> None:
        """Then the next library prepares it again."""
        self.mark()
        with mock.patch.object(shared_tables, "_write", side_effect=OSError(28, "No space left on device")):
            self.expect("it is prepared", made(TABLE).table.rows[0][0], "Tides")
        self.expect("what is stored", os.listdir(self.top / "run"), ["marks"])

    def test_asking_root(self) -> None:
        stored = json.dumps(shared_tables._stored(preparation.prepare([("file 0", TABLE)]))).encode()
        replies = {TABLE: stored, OTHER: None}
        shared_tables.asked = lambda files: replies[files[0][1]]
        self.expect("a table that is shared", self.times(lambda: made(TABLE)), 0)
        self.expect("its rows", made(TABLE).table.rows[0][:2], ["Tides", "2901-0012"])
        self.expect("another", self.times(lambda: made(OTHER)), 1)


FIRST = [("1995-03-31", "1990")]


class Roots(SharedCase):
    """Root has a table prepared by a user for all libraries."""

    def given(self, data: bytes, user: Sandbox) -> object:
        """What is lent of a table."""
        descriptor = shared_tables.for_library([("file 0", data)], user)
        if descriptor is None:
            return None
        with open(descriptor, "rb") as file:
            return json.loads(file.read())

    def test_for_a_library(self) -> None:
        self.mark()
        user = Sandbox(None, Limits())
        wanted = json.loads(json.dumps(shared_tables._stored(preparation.prepare([("file 0", TABLE)]))))
        found: list[object] = []
        self.expect("the first time", self.times(lambda: found.append(self.given(TABLE, user))), 1)
        self.expect("then", self.times(lambda: found.append(self.given(TABLE, user))), 0)
        self.expect("what is lent", found, [wanted] * 2)
        self.expect("one that is not shared", self.given(OTHER, user), None)
        self.expect("what is left", "work" in os.listdir(self.top / "run"), False)

    def test_what_fails(self) -> None:
        """The library then prepares the table itself, and says what is wrong with it."""
        (self.top / "shared/press.txt").write_bytes(b"<?xml version='1.0'?><a/>")
        (self.top / "shared/good.txt").write_bytes(TABLE)
        self.mark()
        self.expect("no table", self.given(b"<?xml version='1.0'?><a/>", Sandbox(None, Limits())), None)
        self.expect("no user", self.given(TABLE, Failing(None, Limits())), None)
        self.expect("what is left", os.listdir(self.top / "run"), ["marks"])
