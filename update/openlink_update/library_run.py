"""The run of one library: what ends it early, what it goes back from, its record, and the desk that is written then."""
import dataclasses
import os
from pathlib import Path

from openlink_update import allowed_folders, run_notes
from openlink_update.desk import writing
from openlink_update.fetch import sources
from openlink_update.input_files import ALLOWED, InputFolder
from openlink_update.library_sandbox import sandbox_of
from openlink_update.machines.libraries import SHARED, Libraries
from openlink_update.machines.receiving import Receiver
from openlink_update.outcome import (
    ALL_NEW,
    DEVICE,
    KEPT,
    WENT_BACK,
    Failure,
    Interrupted,
    ignore_signals,
    raise_signals,
)
from openlink_update.rights.limits import Exceeded
from openlink_update.rights.sandbox import Sandbox
from openlink_update.run_records import Recorder
from openlink_update.shown_text import report
from openlink_update.site.front_door import Site
from openlink_update.update_options import LIBRARY, Options
from openlink_update.versions import shared_tables
from openlink_update.versions.library import Library
from openlink_update.weekly_run import Run


@dataclasses.dataclass(frozen=True)
class _End:
    """How the work ended: its exit status, and what ended it early. After a signal nothing more is begun."""

    status: int
    fault: str = ""
    is_by_signal: bool = False


def update(options: Options) -> int:
    """Updates the library of the options. Returns the exit status."""
    library = Library(options.library)
    site = Site(options.site, options.machine)
    others = (
        Libraries(options.among, options.machine or options.site).versions(library.folder.name)
        if options.among
        else None
    )
    shared_tables.folder = options.prepared
    lock = library.lock()
    recorder = Recorder(options.work())
    run_notes.hear(recorder.add)
    user = sandbox_of(options, library, site, options.input or library.path("input"))
    run = (Receiver if options.receive else Run)(library, site, options, user, others)
    end = _end_of(run, options)
    status = end.status
    if end.fault:
        status = _settle(run, options, status, end.fault)
    elif not options.dry_run and library.current() and run.processes.is_down():
        report(f"openlink-update: no process answers: ports {', '.join(map(str, site.ports))}", "stderr")
        status = DEVICE
    library.clear()
    if not options.dry_run:
        recorder.write(library, status)
    run_notes.hear(None)
    lock.close()
    if not options.dry_run and not end.is_by_signal:
        writing.write(library, site, user, options.program)
    return status


def _settle(run: Run, options: Options, status: int, fault: str) -> int:
    """Says what ended the work, and goes back if processes were restarted. Returns the exit status."""
    library = run.library
    report(f"openlink-update: {fault}", "stderr")
    if library.is_unsettled() and not options.dry_run:
        run.go_back(list(run.processes.restarted))
        status = WENT_BACK
        if not library.is_unsettled():
            library.remove_newer()
    elif library.current():
        report(f"{library.current()} stays in use")
    return status


def _end_of(run: Run, options: Options) -> _End:
    try:
        try:
            return _End(_work(run, options))
        finally:
            ignore_signals()
    except Interrupted as ending:
        return _End(WENT_BACK, f"ended by {ending}", is_by_signal=True)
    except Failure as failure:
        return _End(failure.status, str(failure))
    except OSError as fault:
        return _End(DEVICE, f"{fault.filename or options.library}: {fault.strerror}")
    except Exception as fault:  # a bug in the package: the version before is to be served then too
        return _End(DEVICE, f"{type(fault).__name__}: {fault}")


def _work(run: Run, options: Options) -> int:
    """Does what the arguments say. Returns the exit status."""
    library = run.library
    if library.is_unsettled() and not options.dry_run:
        report("the last run was killed while it restarted processes: going back first")
        run.processes.wait_for_all()
        run.go_back(run.processes.ports)
    raise_signals()
    library.versions()
    library.clear()
    if options.receive and isinstance(run, Receiver):
        return run.receive(options.receive, options.keep)
    if options.back:
        ignore_signals()
        library.remember(_version_before(library))
        run.go_back(run.processes.ports)
        return WENT_BACK if library.is_unsettled() else ALL_NEW
    if not options.dry_run:
        library.remove_newer()
    folder = _input_of(options, library)
    if options.walls:
        return run.move_walls(folder)
    are_fetched = not options.fetch or _fetch(folder, run.sandbox)
    status = run.update(folder, options.keep, options.dry_run)
    if not options.dry_run:
        library.note_update()
    return status or (ALL_NEW if are_fetched else KEPT)


def _input_of(options: Options, library: Library) -> InputFolder:
    """The input of a library. Beside it, its lists may name what libraries share, and folders that root allows it."""
    path = options.input or library.path("input")
    allowed, faults = allowed_folders.read(InputFolder(path).beside(ALLOWED))
    for fault in faults:
        report(fault)
    shared = [Path(os.path.abspath(machine), SHARED) for machine in (options.among or library.folder, LIBRARY)]
    return InputFolder(path, [*shared, *allowed])


def _version_before(library: Library) -> str:
    older = [stamp for stamp in library.versions() if stamp < (library.current() or "")]
    if not older:
        raise Failure("there is no version before the one in use")
    return older[-1]


def _fetch(folder: InputFolder, user: Sandbox) -> bool:
    """Whether all files of sources.tsv were fetched, if there is one. The update is made in any case."""
    if not folder.exists(sources.LIST):
        return True
    from openlink_update.fetch import fetching

    try:
        return fetching.fetch(folder.path, report, fetching.SECONDS, fetching.PAUSE, (), user) == ALL_NEW
    except Exceeded as failure:
        report(f"the fetch was ended: {failure}")
    except Failure as failure:
        report(f"nothing was fetched: {failure}")
    except OSError as fault:
        report(f"nothing was fetched: {fault.filename or folder.path}: {fault.strerror}")
    return False
