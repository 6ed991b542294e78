"""The work of openlink-update: one library, several, or other machines. Each part is loaded where it is needed: a
delivery carries out many requests on another machine, of which most need little."""
import os

from openlink_update import update_options
from openlink_update.machines.libraries import Libraries
from openlink_update.outcome import ALL_NEW, DEVICE, USAGE, Failure
from openlink_update.shown_text import prepare_streams, report
from openlink_update.update_options import Options


def main(words: list[str] | None = None) -> int:
    options = update_options.parse(words)
    os.umask(0o022)
    prepare_streams()
    try:
        return _run(options)
    except Failure as failure:
        report(f"openlink-update: {failure}", "stderr")
        return failure.status
    except OSError as fault:
        report(f"openlink-update: {fault.filename}: {fault.strerror}", "stderr")
        return DEVICE


def _run(options: Options) -> int:
    if options.take is not None:
        from openlink_update.machines.taking import take

        run = take(options)
        return _run(run) if run else ALL_NEW
    if options.among is not None:
        return _update_one(options)
    status = None if options.send else _update_several(options, Libraries(options.library, options.site))
    if status is None:
        status = ALL_NEW if options.send else _update_one(options)
    return _deliver(options, status) if options.to else status


def _deliver(options: Options, status: int) -> int:
    """Sends what is in use to other machines. Returns the exit status of the whole run."""
    from openlink_update.machines.machines import deliver

    return deliver(options, status)


def _update_several(options: Options, libraries: Libraries) -> int | None:
    """Updates the libraries that the arguments name. Returns the exit status; None if there is only one alone."""
    libraries.check(options.names)
    names = list(dict.fromkeys(options.names)) or (libraries.names() if options.all else [])
    if not names:
        if not options.all and not libraries.has_one_alone() and libraries.names():
            raise Failure("this machine has several libraries: name some, or --all", USAGE)
        return None
    from openlink_update.machines.library_updates import ALONE, Updates

    if options.all and libraries.has_one_alone():
        names.insert(0, ALONE)
    return Updates(libraries, options.words()).run(names, options.fetch)


def _update_one(options: Options) -> int:
    from openlink_update import library_run

    return library_run.update(options)
