"""The folder of a fetch, which is beside its input: whoever writes the input could replace what is in it. It has what
the fetch remembers of each file: where it came from, its sum, what the server called it, and the dates on which it was
last asked for and last changed. For /etc/openlink/input it is

    /etc/openlink/input.fetch/state.json   what is remembered, in JSON
    /etc/openlink/input.fetch/bodies/N     the body of a reply; the next run removes it
    /etc/openlink/input.fetch/lock         locked by a run as long as it lives
"""
import contextlib
import dataclasses
import datetime
import fcntl
import hashlib
import json
import os
import shutil
import stat
from collections.abc import Iterator, Mapping
from pathlib import Path

from openlink_update.fetch.sources import Source
from openlink_update.input_files import InputFolder
from openlink_update.outcome import DEVICE, Failure
from openlink_update.root_folder import RootFolder

FETCH = ".fetch"
_LOCK, STATE, _BODIES = "lock", "state.json", "bodies"
_BEFORE = ".fetch"  # where it was, below the input
_MOST_CHARACTERS = 1000  # of what a server calls a file


class FetchFolder:
    def __init__(self, folder: InputFolder) -> None:
        """That of an input, which is made unless it exists."""
        self._path, self._input = folder.beside(FETCH), folder
        self.root, self.bodies = RootFolder(self._path), self._path / _BODIES
        try:
            os.mkdir(self._path, 0o700)
        except FileExistsError as fault:
            if not stat.S_ISDIR(os.lstat(self._path).st_mode):
                raise Failure(f"{self._path}: not a folder: remove it", DEVICE) from fault
        else:
            self._take_over()
        with contextlib.suppress(FileNotFoundError):
            os.chmod(self._path / STATE, 0o600)  # an earlier release left it to the folder to be closed
        os.chmod(self._path, 0o711)  # the user who fetches finds the bodies

    def body(self, number: int) -> Path:
        """Where the body of a reply comes."""
        return self.bodies / str(number)

    def _take_over(self) -> None:
        """Takes what an earlier release has remembered below the input."""
        with contextlib.suppress(OSError):
            self.write_state(self._input.read(f"{_BEFORE}/{STATE}"))
        with contextlib.suppress(OSError):
            for path in map(Path, self._input.matches(f"{_BEFORE}/*")):
                if path.name in (STATE, _LOCK) or path.name.isdigit():
                    self._input.remove(path)
            self._input.remove(_BEFORE)

    @contextlib.contextmanager
    def locked(self) -> Iterator[None]:
        """Locks it, and removes what a run that was ended or killed has left. A Failure if another run has it."""
        path = self._path / _LOCK
        with open(path, "a") as lock:
            try:
                fcntl.flock(lock, fcntl.LOCK_EX | fcntl.LOCK_NB)
            except BlockingIOError as fault:
                raise Failure(f"{path}: another run has not ended", DEVICE) from fault
            self._remove_others()
            self.bodies.mkdir(0o700)
            try:
                yield
            finally:
                self._remove_others()

    def _remove_others(self) -> None:
        """Removes all that is not for the next run."""
        for path in self._path.iterdir():
            if path.is_dir() and not path.is_symlink():
                shutil.rmtree(path)
            elif path.name not in (_LOCK, STATE):
                path.unlink()

    def state(self) -> bytes:
        """What is remembered; nothing if it cannot be read."""
        try:
            with self.root.open((STATE,)) as file:
                return file.read()
        except OSError:
            return b""

    def write_state(self, data: bytes) -> None:
        self.root.replace((STATE,), data, 0o600)


@dataclasses.dataclass
class _Entry:
    """What is remembered of one file; None is unknown."""

    source: str | None = None
    sum: str | None = None
    secrets: int | None = None
    checked: str | None = None  # a date
    changed: str | None = None
    etag: str | None = None  # what the server calls it
    modified: str | None = None

    @classmethod
    def parse(cls, value: object) -> "_Entry":
        """That of a value of JSON. What has another type is unknown."""
        members = value if isinstance(value, dict) else {}
        secrets = members.get("secrets")
        texts = {name: _text_of(members.get(name)) for name in _TEXTS}
        return cls(secrets=secrets if isinstance(secrets, int) else None, **texts)

    def conditions(self) -> list[str]:
        """The headers by which the server says that it has this file."""
        names = {"If-None-Match": self.etag, "If-Modified-Since": self.modified}
        return [f"{header}: {name}" for header, name in names.items() if name]


_TEXTS = tuple(field.name for field in dataclasses.fields(_Entry) if field.name != "secrets")


def _text_of(value: object) -> str | None:
    return value if isinstance(value, str) else None


def _name_in(reply: Mapping[str, str], header: str) -> str | None:
    """What a server calls a file, or None if it has no name that can be sent back."""
    text = reply.get(header, "")
    return text if text and text.isascii() and text.isprintable() and len(text) <= _MOST_CHARACTERS else None


class State:
    """What is remembered of the files of a folder. `version` is a number that changes with the secrets."""

    def __init__(self, folder: InputFolder, own: FetchFolder, version: int | None, today: datetime.date) -> None:
        self._folder, self._own, self._version, self._today = folder, own, version, today
        self._entries = self._read()

    def _read(self) -> dict[str, _Entry]:
        """What earlier runs knew; nothing if the file is missing or damaged."""
        try:
            entries = json.loads(self._own.state())
        except (ValueError, RecursionError):
            return {}
        return {name: _Entry.parse(entry) for name, entry in entries.items()} if isinstance(entries, dict) else {}

    def write(self) -> None:
        entries = {name: dataclasses.asdict(entry) for name, entry in self._entries.items()}
        self._own.write_state(json.dumps(entries, indent=1, sort_keys=True).encode())

    def _entry(self, source: Source) -> _Entry:
        return self._entries.setdefault(source.file, _Entry())

    def sum_of(self, source: Source) -> str | None:
        """The SHA-256 sum of the file of a source, or None if there is none, or none that can be read."""
        total = hashlib.sha256()
        try:
            with self._folder.open(source.file) as file:
                while part := file.read(1 << 20):
                    total.update(part)
        except OSError:
            return None
        return total.hexdigest()

    def days_since_check(self, source: Source) -> int | None:
        """The days since a file was last asked for; None if that is unknown."""
        return self._days_since(self._entry(source).checked)

    def days_since_change(self, source: Source) -> int | None:
        """The days since a file last changed; None if that is unknown."""
        return self._days_since(self._entry(source).changed)

    def _days_since(self, date: str | None) -> int | None:
        try:
            return (self._today - datetime.date.fromisoformat(date or "")).days
        except ValueError:
            return None

    def is_due(self, source: Source) -> bool:
        """Whether its days are over, or it is not known when they began; a day that is yet to come says nothing."""
        days = self.days_since_check(source)
        is_known = self._entry(source).source == source.text() and self._folder.exists(source.file)
        return days is None or not is_known or not 0 <= days < source.every

    def conditions(self, source: Source) -> list[str]:
        """The headers by which the server says that nothing has changed: none if the file did not come from this
        source, or if secrets have changed."""
        entry = self._entry(source)
        is_known = entry.source == source.text() and entry.sum == self.sum_of(source)
        if not is_known or source.names() and entry.secrets != self._version:
            return []
        return entry.conditions()

    def note_check(self, source: Source) -> None:
        self._entry(source).checked = self._today.isoformat()

    def note_change(self, source: Source) -> None:
        self._entry(source).changed = self._today.isoformat()

    def remember(self, source: Source, reply: Mapping[str, str]) -> None:
        """Remembers a file that came with the headers of a reply."""
        entry = self._entry(source)
        if entry.changed is None:  # it existed before the first run
            entry.changed = datetime.date.fromtimestamp(self._folder.status(source.file).st_mtime).isoformat()
        entry.source, entry.sum, entry.secrets = source.text(), self.sum_of(source), self._version
        entry.etag, entry.modified = _name_in(reply, "etag"), _name_in(reply, "last-modified")
        self.note_check(source)
