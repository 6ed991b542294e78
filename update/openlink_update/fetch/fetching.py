"""Fetches the files of sources.tsv. A file is replaced by a rename, and only by a whole reply that can be a table. The
work of openlink-fetch."""
import argparse
import contextlib
import datetime
import hashlib
import os
import shutil
from collections.abc import Callable, Sequence
from pathlib import Path

from openlink_update import COMMANDS, run_notes
from openlink_update.fetch import downloads, sources
from openlink_update.fetch.downloads import Download
from openlink_update.fetch.fetch_folder import STATE, FetchFolder, State
from openlink_update.fetch.sources import Source
from openlink_update.input_files import InputFolder
from openlink_update.outcome import ALL_NEW, DEVICE, KEPT, USAGE, Failure, Interrupted, Unreadable, raise_signals
from openlink_update.rights import sandbox
from openlink_update.rights.lent_files import Lent
from openlink_update.rights.limits import Limits
from openlink_update.rights.sandbox import Job, Parent, Sandbox, input_by
from openlink_update.root_folder import RootFolder, Unusable
from openlink_update.shown_text import amount, prepare_streams, report

_INPUT = "/etc/openlink/input"
_TIMES = 2  # the time of another step, since a slow server is no fault of the library
_MOST_LIST = 2**20  # bytes of the list, which root reads too
_MOST_DAYS = 90  # that a file may go without a change
SECONDS, PAUSE = 600, 10  # for a file, all tries together, and before the second try


def main(words: list[str] | None = None) -> int:
    parser = argparse.ArgumentParser(prog="openlink-fetch", description="fetches the tables of providers")
    parser.add_argument("files", nargs="*", metavar="FILE", help="a file of sources.tsv (all that are due)")
    parser.add_argument("--input", default=_INPUT, metavar="FOLDER", help=f"the folder with sources.tsv ({_INPUT})")
    parser.add_argument(
        "--seconds", type=float, default=SECONDS, metavar="N", help=f"for a file, all tries together ({SECONDS})"
    )
    parser.add_argument(
        "--pause",
        type=float,
        default=PAUSE,
        metavar="N",
        help=f"seconds before the second try, and twice as many before the third ({PAUSE})",
    )
    options = parser.parse_args(words)
    if not options.seconds > 0 or not options.pause >= 0:
        parser.error("--seconds is above 0, and --pause at least 0")
    os.umask(0o022)
    prepare_streams()
    raise_signals()
    try:
        return fetch(options.input, report, options.seconds, options.pause, options.files)
    except Interrupted as ending:
        fault, status = f"ended by {ending}", DEVICE
    except Failure as failure:
        fault, status = str(failure), failure.status
    except OSError as error:
        fault, status = f"{error.filename or options.input}: {error.strerror}", DEVICE
    report(f"openlink-fetch: {fault}", "stderr")
    return status


def fetch(
    path: str | Path,
    report: Callable[[str], None],
    seconds: float,
    pause: float,
    files: Sequence[str] = (),
    user: Sandbox | None = None,
) -> int:
    """Fetches the files of a folder's list, as the user of a library. Returns the exit status; a Failure or OSError
    ends it early."""
    if shutil.which("curl") is None:
        raise Failure("no curl on this machine", DEVICE)
    folder = InputFolder(os.path.abspath(path))
    if folder.status(sources.LIST).st_size > _MOST_LIST:
        raise Failure(f"{folder.place(sources.LIST)}: more than {_MOST_LIST:,} bytes", DEVICE)
    listed = sources.read(folder)[0]
    unknown = [file for file in files if file not in [source.file for source in listed]]
    if unknown:
        raise Failure(f"{folder.place(sources.LIST)} has no {', '.join(unknown)}", USAGE)
    own, box = FetchFolder(folder), (user or _sandbox_of(folder)).longer(_TIMES)
    with own.locked():
        box.own(own.bodies)

        def work(parent: Parent) -> str:
            own.root = parent.lent(own.root)
            return str(_Fetch(input_by(parent, folder), own, report, seconds, pause).fetch(files))

        replaced = frozenset(tuple(source.file.split("/")) for source in listed)
        lent = (Lent(RootFolder(folder.path), replaced=replaced), Lent(own.root, replaced=frozenset({(STATE,)})))
        status = box.run(Job(work, (own.bodies,), lent))
    return next((number for number in (ALL_NEW, KEPT) if status == str(number)), DEVICE)


def _sandbox_of(folder: InputFolder) -> Sandbox:
    """That of the user who fetches into a folder."""
    library = folder.path.parent
    return sandbox.of(library, library, Limits(), [library, COMMANDS])


def table_in(data: bytes, source: Source) -> bytes:
    """What a reply brings to the file of a source: its bytes, or those of a member. Unreadable if it is no table."""
    # Loaded here, since a run that gets no file needs no reader of tables.
    from openlink_update.received import archives, reading

    form = reading.Form(is_html=source.is_html)
    inner = archives.opened(data, source.member or "*", form.begins_table)[0]
    rows = reading.rows_in(inner, form)
    if rows < source.least:
        raise Unreadable(f"{amount(rows, 'row')}, and at least {source.least} must be there")
    return inner if source.member else data


class _Fetch:
    """One run, in the folder of the list. `report` prints a line."""

    def __init__(
        self, folder: InputFolder, own: FetchFolder, report: Callable[[str], None], seconds: float, pause: float
    ) -> None:
        self._folder, self._own, self._report, self._seconds, self._pause = folder, own, report, seconds, pause
        self._faults: list[tuple[str | None, str]] = []  # pairs of a file and a line
        self._changes: list[tuple[str | None, str]] = []
        self._has_failed = False  # whether a file could not be written

    def fetch(self, files: Sequence[str]) -> int:
        """Fetches the files that are due, or those that are named. Returns the exit status."""
        listed, wrong = sources.read(self._folder)
        self._faults = [(None, line) for line in wrong]
        self._state = State(self._folder, self._own, self._time_of_secrets(), datetime.date.today())
        chosen = [source for source in listed if source.file in files or not files and self._state.is_due(source)]
        self._run(chosen)
        self._say(listed, len(chosen))
        return DEVICE if self._has_failed else KEPT if self._faults else ALL_NEW

    def _run(self, chosen: list[Source]) -> None:
        """Downloads files side by side. A file whose secrets are missing is not fetched."""
        secrets, fault = dict[str, str](), None
        try:
            secrets = sources.read_secrets(self._folder)
        except sources.Wrong as wrong:
            fault = str(wrong)
        except OSError as error:
            fault = downloads.fault_of(error)
        of_download = {}
        for number, source in enumerate(chosen):
            missing = sorted(source.names() - secrets.keys())
            if missing:
                self._keep(source, fault or f"secrets.tsv has no {', '.join(missing)}")
            else:
                of_download[self._download(source, secrets, number)] = source
        with contextlib.closing(downloads.run(of_download)) as ready:
            for download in ready:
                try:
                    self._take(of_download[download], download)
                except Interrupted:
                    raise
                except Exception as error:
                    self._has_failed |= isinstance(error, OSError) and not isinstance(error, Unusable)
                    self._keep(of_download[download], downloads.fault_of(error))
                self._write_state()

    def _write_state(self) -> None:
        try:
            self._state.write()
        except OSError as error:
            self._has_failed = True
            self._faults.append((None, downloads.fault_of(error)))

    def _download(self, source: Source, secrets: dict[str, str], number: int) -> Download:
        return Download(
            source.address_with(secrets),
            source.headers_with(secrets),
            self._state.conditions(source),
            self._own.body(number),
            self._seconds,
            self._pause,
        )

    def _time_of_secrets(self) -> int | None:
        try:
            return self._folder.status(sources.SECRETS).st_mtime_ns
        except OSError:
            return None

    def _take(self, source: Source, download: Download) -> None:
        """Takes a download that is done, and remembers it."""
        if download.is_unchanged:
            self._state.note_check(source)
        elif download.is_whole and download.transfer:
            try:
                data = table_in(download.body.read_bytes(), source)
            except Unreadable as fault:
                self._keep(source, str(fault))
            else:
                download.body.unlink()  # the disk may have no room for both
                self._replace(source, data)
                self._state.remember(source, download.transfer.reply.headers)
        else:
            self._has_failed |= download.has_failed
            self._keep(source, download.fault or "")
        download.body.unlink(missing_ok=True)

    def _replace(self, source: Source, data: bytes) -> None:
        """Gives the file of a source these bytes, unless it has them."""
        is_new = not self._folder.exists(source.file)
        if self._state.sum_of(source) == hashlib.sha256(data).hexdigest():
            return
        self._folder.replace(source.file, data)
        self._state.note_change(source)
        self._changes.append((source.file, f"{'new' if is_new else 'changed'}, {len(data):,} bytes"))

    def _keep(self, source: Source, reason: str) -> None:
        exists = self._folder.exists(source.file)
        what = "kept the old file" if exists else "not fetched, and there is no old file"
        self._faults.append((source.file, f"{what}: {reason}"))

    def _say(self, listed: list[Source], count: int) -> None:
        """What could not be fetched comes first."""
        old: list[tuple[str | None, str]] = []
        for source in listed:
            days = self._state.days_since_change(source)
            if days and days > max(_MOST_DAYS, source.every):
                old.append((source.file, f"not changed for {days} days"))
        order = [None, *(source.file for source in listed)]
        groups = [self._faults, old, self._changes]
        for lines in groups:
            for file, line in sorted(lines, key=lambda pair: order.index(pair[0])):
                self._report(line if file is None else f"{file}: {line}")
                run_notes.note_fetch(file or "", line)
        failures = sum(file is not None for file, _ in self._faults)
        number = f"{amount(count, 'file')} asked for"
        end = f"{number}, {len(self._changes)} new or changed, {failures} not fetched"
        run_notes.note_fetch("", end)
        self._report(end)
