"""Writes the desk of a library into its folder, where nginx reads it:

    desk/STAMP/      all files of a desk, and in state/ the counts of months
    desk/current     a link to the one that is shown, which is moved by a rename
    desk/lock        locked while one is written
    desk/missing     as long as python3-jinja2 is missing, since that is said once

The library's user writes the files, without network. Of the logs it reads those of its library, which root lends it."""
import contextlib
import datetime
import fcntl
import os
import shutil
from collections.abc import Iterator
from pathlib import Path

from openlink_update import run_records
from openlink_update.desk import templates_in
from openlink_update.disk import sync, sync_disk
from openlink_update.machines.libraries import SITE
from openlink_update.outcome import Failure
from openlink_update.rights import handover
from openlink_update.rights.lent_files import Lent
from openlink_update.rights.sandbox import Job, Parent, Sandbox
from openlink_update.shown_text import report
from openlink_update.site.front_door import Site
from openlink_update.site.names_file import NAME
from openlink_update.versions.library import Library, is_stamp, stamp_after

_FOLDER, _CURRENT, _LOCK, _MISSING = "desk", "current", "lock", "missing"
_KEPT = 2  # the one that is shown, and the one before


def write(library: Library, site: Site, sandbox: Sandbox, program: str) -> bool:
    """Whether the desk was written, or need not be. What fails is said, and the one before is shown."""
    try:
        folder = library.path(_FOLDER)
        if (folder / SITE).exists():
            raise Failure(f"{folder} is a library: give it another name")
        folder.mkdir(exist_ok=True)
        if not templates_in.are_there():
            _say_missing(folder / _MISSING)
            return False
        with _locked(folder) as is_free:
            if is_free:
                (folder / _MISSING).unlink(missing_ok=True)
                _write(folder, library, site, sandbox, program)
        return True
    except Failure as failure:
        report(f"the desk was not written: {failure}")
    except OSError as fault:
        report(f"the desk was not written: {fault.filename or library.path(_FOLDER)}: {fault.strerror}")
    except Exception as fault:  # a bug in the desk: what the update has done stays
        report(f"the desk was not written: {type(fault).__name__}: {fault}")
    return False


def _say_missing(mark: Path) -> None:
    if not mark.exists():
        report(f"the desk was not written: it needs {templates_in.PACKAGE}")
        mark.touch()


@contextlib.contextmanager
def _locked(folder: Path) -> Iterator[bool]:
    """Whether no other process writes the desk in a folder; none does until the block ends."""
    with open(folder / _LOCK, "a", encoding="ascii") as file:
        try:
            fcntl.flock(file, fcntl.LOCK_EX | fcntl.LOCK_NB)
        except BlockingIOError:
            yield False
        else:
            yield True


def _write(folder: Path, library: Library, site: Site, sandbox: Sandbox, program: str) -> None:
    for name in os.listdir(folder):
        if name.endswith(".new"):
            _remove(folder / name)
    stamps = sorted(filter(is_stamp, os.listdir(folder)))
    stamp = stamp_after(stamps)
    new = folder / f"{stamp}.new"
    new.mkdir()
    try:
        _fill(new, folder / _CURRENT, library, site, sandbox, program)
        sync_disk(new)
        os.rename(new, folder / stamp)
    except BaseException:
        shutil.rmtree(new, ignore_errors=True)
        raise
    os.symlink(stamp, folder / f"{_CURRENT}.new")
    os.rename(folder / f"{_CURRENT}.new", folder / _CURRENT)
    sync(folder)
    for old in [*stamps, stamp][:-_KEPT]:
        shutil.rmtree(folder / old)


def _remove(path: Path) -> None:
    """Removes what a killed run has left."""
    if path.is_symlink() or not path.is_dir():
        path.unlink()
    else:
        shutil.rmtree(path)


def _fill(new: Path, before: Path, library: Library, site: Site, sandbox: Sandbox, program: str) -> None:
    """Has the library's user write the files, with the state of the desk before, and takes them over."""
    from openlink_update.desk import logs, site_files  # where no desk is written, nothing loads them

    folders = logs.folders_of(site.logs)
    sandbox.own(new)
    stamp = library.current()
    version = Path(os.path.realpath(library.version(stamp))) if stamp else None
    own = version / NAME if version and (version / NAME).is_file() else None
    names = own or (Path(site.targets_path()) if site.targets_path() else None)

    def work(parent: Parent) -> str:
        lent = [(parent.lent(root), logs_in) for root, logs_in in folders]
        now = datetime.datetime.now(datetime.timezone.utc)
        records = run_records.records_in(library.folder)
        state = before / site_files.STATE
        site_files.write(new, site_files.Source(version, state, records, lent, names, program, now))
        return ""

    sandbox.run(Job(work, (new,), tuple(Lent(root) for root, _ in folders), has_network=False))
    if sandbox.number is not None:
        handover.take(new, sandbox.number)
