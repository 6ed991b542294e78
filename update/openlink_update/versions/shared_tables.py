"""Tables that several libraries serve: they are prepared by the first update of a run that needs them, and the others
take what it has made. Only the bytes of a table count, so no update can tell the difference, except by the time.

The run for several libraries makes a folder for this, and marks what is shared: the files of the folder `shared`, and
what more than one library has received as one file. Without such a folder each table is prepared when it is needed.

If each library has a user of its own, none of them may write what another takes. Then root is asked for a table, and
has it prepared by a user of its own for all that is shared, and only if its bytes are marked."""
import collections
import contextlib
import hashlib
import json
import os
import shutil
from collections.abc import Callable, Iterable, Iterator, Sequence
from pathlib import Path
from typing import TypedDict

from openlink_update.input_files import InputFolder
from openlink_update.outcome import Failure, Refused
from openlink_update.rights import handover
from openlink_update.rights.sandbox import Job, Sandbox
from openlink_update.tables import preparation
from openlink_update.tables.preparation import Prepared
from openlink_update.tables.table import Table
from openlink_update.target_options import NONE, Options

Files = Sequence[tuple[str, bytes]]  # of a target: a path, and bytes
_MARKS = "marks"
_WORK = "work"
folder: str | Path | None = None  # that of this run
asked: Callable[[Files], bytes | None] | None = None  # asks root for the stored form of a table


class _Stored(TypedDict):
    """A prepared table in JSON."""

    columns: list[str]
    rows: list[list[str]]
    lines: list[str]
    dropped: list[list[str]]
    count: int
    reversed: list[tuple[str, str]]
    missing: list[str]


def _sum_of(data: bytes) -> str:
    return hashlib.sha256(data).hexdigest()


def mark(place: str | Path, shared: str | Path, versions: Iterable[str | Path]) -> None:
    """Writes the sums of the files that are shared: those below a folder, and those that several versions have."""
    sums = set(_sums_below(InputFolder(shared)))
    owners: dict[int, list[Path]] = collections.defaultdict(list)
    for received in (Path(version, "received") for version in versions):
        for path in received.iterdir() if received.is_dir() else ():
            owners[path.lstat().st_ino].append(path)
    for path in (names[0] for names in owners.values() if len(names) > 1):
        with contextlib.suppress(OSError):
            sums.add(_sum_of(path.read_bytes()))
    Path(place, _MARKS).write_text("".join(f"{total}\n" for total in sorted(sums)), encoding="utf-8")


def _sums_below(folder: InputFolder) -> Iterator[str]:
    for below, _, names in os.walk(folder.path):
        for name in names:
            with contextlib.suppress(OSError):  # the update that needs the file says so
                yield _sum_of(folder.read(os.path.join(below, name)))


def prepare(files: Files, options: Options = NONE) -> Prepared:
    """Prepares the files of a target, pairs of a path and bytes, as preparation does. What options of the target make
    of them is its own."""
    if options.changes_reading():
        return preparation.prepare(files, options)
    if asked is not None:
        data = asked(files)
        return preparation.prepare(files) if data is None else _of_stored(json.loads(data))
    path = _path_of(files)
    if path is None:
        return preparation.prepare(files)
    try:
        return _of_stored(json.loads(path.read_text(encoding="utf-8")))
    except FileNotFoundError:
        pass
    prepared = preparation.prepare(files)
    with contextlib.suppress(OSError):  # no room: the next update prepares it again
        new = path.with_suffix(".new")
        _write(new, prepared)
        new.replace(path)
    return prepared


def _write(path: Path, prepared: Prepared) -> None:
    with path.open("w", encoding="utf-8") as file:
        json.dump(_stored(prepared), file)


def for_library(files: Files, user: Sandbox) -> int | None:
    """For root: a descriptor of the stored form of a table that this user prepares, unless it is there already. None
    if it is not shared, or cannot be prepared."""
    path = _path_of(files)
    if path is None:
        return None
    if not path.exists():
        work = path.with_name(_WORK)
        shutil.rmtree(work, ignore_errors=True)
        work.mkdir()
        user.own(work)
        try:
            new = work / path.name
            user.run(Job(lambda _: _written(new, files), (work,), has_network=False))
            if user.number is not None:
                handover.take(work, user.number)
            new.replace(path)
        except (Failure, OSError):
            return None  # the library prepares it itself, and says what is wrong
        finally:
            shutil.rmtree(work, ignore_errors=True)
    return os.open(path, os.O_RDONLY | os.O_NOFOLLOW)


def _written(path: Path, files: Files) -> str:
    with contextlib.suppress(Refused):
        _write(path, preparation.prepare(files))
    return ""


def _stored(prepared: Prepared) -> _Stored:
    return {
        "columns": list(prepared.table.columns),
        "rows": prepared.table.rows,
        "lines": prepared.lines,
        "dropped": prepared.dropped,
        "count": prepared.count,
        "reversed": prepared.reversed,
        "missing": prepared.missing,
    }


def _of_stored(stored: _Stored) -> Prepared:
    table = Table(tuple(stored["columns"]), stored["rows"])
    pairs = [(first, last) for first, last in stored["reversed"]]
    return Prepared(table, stored["lines"], stored["dropped"], stored["count"], pairs, stored["missing"])


def _path_of(files: Files) -> Path | None:
    """Where the run keeps what is made of these files; None if they are not shared."""
    if folder is None:
        return None
    sums = [_sum_of(data) for _, data in files]
    if not {*sums} <= {*Path(folder, _MARKS).read_text(encoding="utf-8").splitlines()}:
        return None
    # The messages about several files have their names.
    names = [path for path, _ in files] if len(files) > 1 else []
    return Path(folder, _sum_of("\n".join([*sums, *names]).encode()))
