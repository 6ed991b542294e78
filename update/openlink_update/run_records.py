"""The records of a library's last runs, which the desk shows: a file of JSON for each in the folder `runs` beside the
versions. Texts in them are those of strangers, and a record that is damaged is as if it were missing."""
import contextlib
import dataclasses
import datetime
import json
import os
import re
import time
from pathlib import Path

from openlink_update import run_notes
from openlink_update.disk import sync
from openlink_update.run_notes import ProbeResult, TargetState
from openlink_update.outcome import Failure
from openlink_update.shown_text import line_of, report
from openlink_update.versions.library import STAMP, Library, is_stamp

_FOLDER = "runs"
_KEPT = 12  # of each kind of work
_NAME = re.compile(r"(\d{8}T\d{6}Z)\.([a-z]{1,10})\.json", re.A)
_MOST_NOTES, _MOST_CHARACTERS = 5000, 2_000_000  # of a run
_MOST_BYTES = 16 * 2**20  # of a record that is read
_MOST_RECORDS = 100  # that are read
_KINDS = (run_notes.TARGET, run_notes.FETCH, run_notes.PROBE)


@dataclasses.dataclass(frozen=True)
class RunRecord:
    work: str  # update, walls, back or receive
    begun: str  # stamps
    ended: str
    seconds: float
    status: int
    version: str  # that is in use at the end; '' if there is none
    lines: tuple[str, ...] = ()
    targets: tuple[TargetState, ...] = ()
    fetches: tuple[tuple[str, str], ...] = ()  # a file, and what became of it
    probes: tuple[ProbeResult, ...] = ()


class Recorder:
    """Takes the notes of a run, up to a number of them and of their characters, and writes its record."""

    def __init__(self, work: str) -> None:
        self._work, self._begun, self._clock = work, _now(), time.monotonic()
        self._notes: list[tuple[str, str]] = []
        self._characters = 0

    def add(self, kind: str, text: str) -> None:
        self._characters += len(text)
        if len(self._notes) < _MOST_NOTES and self._characters <= _MOST_CHARACTERS:
            self._notes.append((kind, text))

    def write(self, library: Library, status: int) -> None:
        """Writes the record, and removes old ones. That it cannot be written changes nothing else."""
        folder = library.path(_FOLDER)
        try:
            folder.mkdir(exist_ok=True)
            data = json.dumps(dataclasses.asdict(self._record(library, status))).encode()
            _place(_free_path(folder, self._begun, self._work), data)
            _remove_old(folder, self._work)
        except OSError as fault:
            report(f"no record of this run: {fault.filename or folder}: {fault.strerror}")

    def _record(self, library: Library, status: int) -> RunRecord:
        members: dict[str, object] = {kind: self._values(kind) for kind in _KINDS}
        members[run_notes.LINE] = [text for kind, text in self._notes if kind == run_notes.LINE]
        members.update(work=self._work, begun=self._begun, ended=_now(), version=_in_use(library), status=status)
        members["seconds"] = round(time.monotonic() - self._clock, 1)
        return _record_of(members)

    def _values(self, kind: str) -> list[object]:
        return [_value(text) for of_kind, text in self._notes if of_kind == kind]


def records_in(folder: Path) -> list[RunRecord]:
    """The records of a library's folder that can be read, the newest first."""
    found = []
    with contextlib.suppress(OSError):
        for name in sorted(filter(_NAME.fullmatch, os.listdir(folder / _FOLDER)), reverse=True)[:_MOST_RECORDS]:
            with contextlib.suppress(OSError):
                found.append(_read(folder / _FOLDER / name))
    return [record for record in found if record.begun]


def _read(path: Path) -> RunRecord:
    with open(path, "rb") as file:
        data = file.read(_MOST_BYTES + 1)
    return _record_of(_value(data.decode("utf-8", "replace")) if len(data) <= _MOST_BYTES else None)


def _value(text: str) -> object:
    """A value of JSON; None if it is damaged."""
    try:
        value: object = json.loads(text)
    except (ValueError, RecursionError):
        return None
    return value


def _record_of(value: object) -> RunRecord:
    """That of a value of JSON. What has another type is left out."""
    members = value if isinstance(value, dict) else {}
    stamps = [it if is_stamp(it) else "" for it in map(_text, map(members.get, ("begun", "ended", "version")))]
    targets = map(_target_of, _list(members.get("targets", members.get(run_notes.TARGET))))
    probes = map(_probe_of, _list(members.get("probes", members.get(run_notes.PROBE))))
    seconds = members.get("seconds")
    return RunRecord(
        line_of(_text(members.get("work"))),
        stamps[0],
        stamps[1],
        float(seconds) if isinstance(seconds, (int, float)) else 0,
        _number(members.get("status")),
        stamps[2],
        _lines(members.get("lines", members.get(run_notes.LINE))),
        tuple(it for it in targets if it.name),
        tuple(_pair_of(it) for it in _list(members.get("fetches", members.get(run_notes.FETCH)))),
        tuple(it for it in probes if it.query),
    )


def _target_of(value: object) -> TargetState:
    members = value if isinstance(value, dict) else {}
    rows, added, gone = map(_number, map(members.get, ("rows", "added", "gone")))
    name, state = line_of(_text(members.get("name"))), _text(members.get("state"))
    known = state if state in run_notes.STATES else ""
    return TargetState(name if known else "", known, rows, added, gone, _lines(members.get("lines")))


def _probe_of(value: object) -> ProbeResult:
    members = value if isinstance(value, dict) else {}
    query, targets = (line_of(_text(members.get(name))) for name in ("query", "targets"))
    return ProbeResult(_number(members.get("number")), query, targets, members.get("holds") is True)


def _pair_of(value: object) -> tuple[str, str]:
    file, line, *_ = (*_lines(value), "", "")
    return file, line


def _list(value: object) -> list[object]:
    return value if isinstance(value, list) else []


def _lines(value: object) -> tuple[str, ...]:
    return tuple(line_of(it) for it in _list(value) if isinstance(it, str))


def _text(value: object) -> str:
    return value if isinstance(value, str) else ""


def _number(value: object) -> int:
    return value if isinstance(value, int) else 0


def _now() -> str:
    return datetime.datetime.now(datetime.timezone.utc).strftime(STAMP)


def _in_use(library: Library) -> str:
    """The version in use at the end of a run; '' if there is none."""
    try:
        return library.current() or ""
    except (Failure, OSError):  # the run has said so
        return ""


def _free_path(folder: Path, begun: str, work: str) -> Path:
    """The path of a record. Of two runs that begin in one second the later has the name of the next one."""
    second = datetime.datetime.strptime(begun, STAMP)
    while (path := folder / f"{second.strftime(STAMP)}.{work}.json").exists():
        second += datetime.timedelta(seconds=1)
    return path


def _place(path: Path, data: bytes) -> None:
    """Writes a file whole, and gives it its name once it is on the disk."""
    new = path.with_name(f"{path.name}.new")
    new.write_bytes(data)
    os.chmod(new, 0o644)
    sync(new)
    os.rename(new, path)
    sync(path.parent)


def _remove_old(folder: Path, work: str) -> None:
    """Removes all but the last records of a kind of work, and what a killed run left."""
    names = sorted(os.listdir(folder))
    of_kind = [name for name in names if (found := _NAME.fullmatch(name)) and found[2] == work]
    for name in (*of_kind[:-_KEPT], *(name for name in names if name.endswith(".new"))):
        (folder / name).unlink(missing_ok=True)
