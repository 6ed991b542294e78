"""What a fetch remembers of each file, and its folder beside the input."""
from __future__ import annotations

import datetime
import hashlib
import json
import os
import stat
import tempfile
from pathlib import Path

from fixtures.cases import Case
from openlink_update.fetch import sources
from openlink_update.fetch.fetch_folder import FetchFolder
from openlink_update.fetch.fetch_folder import State
from openlink_update.input_files import InputFolder
from openlink_update.outcome import Failure

TODAY = datetime.date(2027, 1, 1)
SOURCE = sources.Source("a.txt", "https://press.example.com/a")
SECRET = sources.Source("a.txt", "https://press.example.com/a?key={KEY}")
NAMED = {"etag": '"1"', "modified": "Fri, 01 Jan 2027 00:00:00 GMT"}
HEADERS = ['If-None-Match: "1"', "If-Modified-Since: Fri, 01 Jan 2027 00:00:00 GMT"]


def day(before: int) -> str:
    return (TODAY - datetime.timedelta(before)).isoformat()


def mode(path: Path) -> int:
    return stat.S_IMODE(path.stat().st_mode)


class StateCase(Case):
    def setUp(self) -> None:
        room = tempfile.TemporaryDirectory()
        self.addCleanup(room.cleanup)
        self.top = Path(room.name)
        self.input = self.top / "input"
        self.input.mkdir()
        (self.input / "a.txt").write_bytes(b"table\n")

    def remembered(self, entry: dict[str, object] | bytes, version: int | None = 7) -> State:
        """The state of a run that finds these members of the file, or these bytes."""
        folder = InputFolder(self.input)
        own = FetchFolder(folder)
        own.write_state(entry if isinstance(entry, bytes) else json.dumps({"a.txt": entry}).encode())
        return State(folder, own, version, TODAY)

    def known(self, source: sources.Source, **members: object) -> dict[str, object]:
        total = hashlib.sha256(b"table\n").hexdigest()
        return {"source": source.text(), "sum": total, "secrets": 7, **NAMED, **members}


class Days(StateCase):
    def test_what_is_due(self) -> None:
        """Once its days are over, and at once if it is unknown, is gone, has another source, or if the clock was wrong
        and the day is yet to come."""
        for every, checked, wanted in (
            (0, day(0), True),
            (1, day(0), False),
            (7, day(6), False),
            (7, day(7), True),
            (31, day(31), True),
            (7, day(-1), True),
            (0, day(-900), True),
            (7, "", True),
            (7, "soon", True),
            (7, None, True),
        ):
            source = sources.Source("a.txt", SOURCE.address, every=every)
            state = self.remembered(self.known(source, checked=checked))
            self.expect(f"every {every} days, {checked}", state.is_due(source), wanted)
        state = self.remembered(self.known(SOURCE, checked=day(0)))
        other = sources.Source("a.txt", SOURCE.address, member="x", every=7)
        self.expect("another member", state.is_due(other), True)
        (self.input / "a.txt").unlink()
        gone = sources.Source("a.txt", SOURCE.address, every=7)
        self.expect("a file that is gone", state.is_due(gone), True)

    def test_days_of_a_change(self) -> None:
        """Of a file that was there before the first run, the day on which it was written; later ones are noted."""
        moment = datetime.datetime(2026, 12, 31, 12).timestamp()
        os.utime(self.input / "a.txt", (moment, moment))
        for changed, wanted in ((None, 1), (day(9), 9), (day(365), 365)):
            state = self.remembered(self.known(SOURCE, changed=changed))
            state.remember(SOURCE, {})
            self.expect(
                f"changed {changed}", (state.days_since_change(SOURCE), state.days_since_check(SOURCE)), (wanted, 0)
            )
            state.note_change(SOURCE)
            self.expect("changed now", state.days_since_change(SOURCE), 0)


class Conditions(StateCase):
    def test_whose_file_it_is(self) -> None:
        """The server is asked for a change alone if the file is the one that came from this source, by these
        secrets."""
        for name, source, entry, version, wanted in (
            ("the same", SOURCE, self.known(SOURCE), 7, HEADERS),
            ("no date", SOURCE, self.known(SOURCE, modified=None), 7, HEADERS[:1]),
            ("no name", SOURCE, self.known(SOURCE, etag=None), 7, HEADERS[1:]),
            ("secrets that it does not need", SOURCE, self.known(SOURCE), 8, HEADERS),
            ("the same secrets", SECRET, self.known(SECRET), 7, HEADERS),
            ("other secrets", SECRET, self.known(SECRET), 8, []),
            ("no secrets any more", SECRET, self.known(SECRET), None, []),
            ("another source", SECRET, self.known(SOURCE), 7, []),
            ("another file", SOURCE, self.known(SOURCE, sum="0"), 7, []),
        ):
            self.expect(name, self.remembered(entry, version).conditions(source), wanted)
        state = self.remembered(self.known(SOURCE))
        (self.input / "a.txt").write_bytes(b"another\n")
        self.expect("a file that was edited", state.conditions(SOURCE), [])

    def test_names_of_servers(self) -> None:
        """Only what can be sent back as a header is remembered."""
        for text, is_kept in (
            ('"1"', True),
            ("x", True),
            ("", False),
            ("caf\xe9", False),
            ("a\tb", False),
            ("a\x7f", False),
        ):
            state = self.remembered({})
            state.remember(SOURCE, {"etag": text, "last-modified": text})
            wanted = [f"If-None-Match: {text}", f"If-Modified-Since: {text}"] if is_kept else []
            self.expect(f"{text!r}", state.conditions(SOURCE), wanted)

    def test_damaged_state(self) -> None:
        for data in (
            b"",
            b"{",
            b"[]",
            b"7",
            b"[" * 100_000,
            b'{"a.txt": 7}',
            b'{"a.txt": {"source": 7, "secrets": "7"}}',
        ):
            state = self.remembered(data)
            self.expect(f"{data[:40]!r}", (state.conditions(SOURCE), state.is_due(SOURCE)), ([], True))


class Folder(StateCase):
    def test_modes(self) -> None:
        """Others may go through the folder, to bodies that are theirs, and read nothing."""
        folder = FetchFolder(InputFolder(self.input))
        path = self.top / "input.fetch"
        folder.write_state(b"{}")
        (path / "state.json").chmod(0o644)
        path.chmod(0o700)
        folder = FetchFolder(InputFolder(self.input))
        self.expect("the folder, the state", (mode(path), mode(path / "state.json")), (0o711, 0o600))
        folder.write_state(b"{}")
        self.expect("a new state", mode(path / "state.json"), 0o600)
        with folder.locked():
            self.expect("bodies", mode(path / "bodies"), 0o700)

    def test_what_is_left(self) -> None:
        """However a run ends, the next one finds the lock and the state alone; no link is followed."""
        other = self.top / "other"
        other.mkdir()
        (other / "kept").touch()
        folder = FetchFolder(InputFolder(self.input))
        path = self.top / "input.fetch"
        folder.write_state(b"{}")
        (path / "bodies").symlink_to(other)
        (path / "7").touch()
        with self.assertRaises(ZeroDivisionError), folder.locked():
            self.expect("during a run", sorted(os.listdir(path)), ["bodies", "lock", "state.json"])
            folder.body(7).write_bytes(b"half")
            raise ZeroDivisionError
        self.expect("after it", sorted(os.listdir(path)), ["lock", "state.json"])
        self.expect("what a link led to", os.listdir(other), ["kept"])

    def test_two_runs(self) -> None:
        folder = FetchFolder(InputFolder(self.input))
        with folder.locked(), self.assertRaises(Failure) as caught, FetchFolder(InputFolder(self.input)).locked():
            pass
        self.expect("the second one", str(caught.exception), f"{self.top}/input.fetch/lock: another run has not ended")
        with folder.locked():
            self.expect("then it is free", folder.bodies.is_dir(), True)

    def test_what_an_earlier_release_has_left(self) -> None:
        """Its state is taken, and what it made is removed; what else is there stays."""
        before = self.input / ".fetch"
        for more in ([], ["notes.txt"]):
            before.mkdir()
            for name in ("state.json", "lock", "12", *more):
                (before / name).write_bytes(b'{"a.txt": {"changed": "2026-12-30"}}')
            folder = FetchFolder(InputFolder(self.input))
            state = State(InputFolder(self.input), folder, None, TODAY)
            self.expect(f"the state with {more}", state.days_since_change(SOURCE), 2)
            self.expect(f"what is left of {more}", os.listdir(before) if before.exists() else [], more)
            for name in os.listdir(self.top / "input.fetch"):
                (self.top / "input.fetch" / name).unlink()
            (self.top / "input.fetch").rmdir()
