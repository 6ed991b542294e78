"""The work of openlink-desk: the pages of one library, or of each of several."""
import argparse
import os
from pathlib import Path

from openlink_update import update_options
from openlink_update.desk import writing
from openlink_update.library_sandbox import sandbox_of
from openlink_update.machines.libraries import SITE, Libraries
from openlink_update.outcome import ALL_NEW, DEVICE, Failure
from openlink_update.shown_text import prepare_streams, report
from openlink_update.site.front_door import Site
from openlink_update.update_options import Options
from openlink_update.versions.library import Library


def main(words: list[str] | None = None) -> int:
    parser = argparse.ArgumentParser(prog="openlink-desk", description="writes the pages of the librarian's desk")
    parser.add_argument("--library", default=str(update_options.LIBRARY), metavar="FOLDER")
    parser.add_argument("--site", default=str(update_options.SITE), metavar="FILE")
    parser.add_argument("--program", default="openlink", metavar="PATH")
    several = parser.add_mutually_exclusive_group()
    several.add_argument("--all", action="store_true", help="the desks of all libraries of this machine")
    several.add_argument("names", nargs="*", default=[], metavar="NAME", help="the desks of these libraries")
    found = parser.parse_args(words)
    os.umask(0o022)
    prepare_streams()
    shared = ["--library", found.library, "--site", found.site, "--program", found.program]
    libraries = Libraries(found.library, found.site)
    try:
        libraries.check(found.names)
    except Failure as failure:
        report(f"openlink-desk: {failure}", "stderr")
        return failure.status
    names = libraries.names() if found.all else list(dict.fromkeys(found.names))
    results = [_write_one(shared, libraries, name) for name in names]
    if not found.names and (not found.all or libraries.has_one_alone()):
        results.append(_write(update_options.parse(shared)))
    return ALL_NEW if all(results) else DEVICE


def _write_one(shared: list[str], libraries: Libraries, name: str) -> bool:
    """Writes the desk of one of several libraries."""
    folder = libraries.path(name)
    words = ["--library", str(folder), "--site", str(folder / SITE)]
    among = ["--machine", str(libraries.machine), "--among", str(libraries.folder)]
    return _write(update_options.parse([*shared, *words, *among]))


def _write(options: Options) -> bool:
    try:
        library, site = Library(options.library), Site(options.site, options.machine)
        user = sandbox_of(options, library, site, options.input or Path(library.path("input")))
        return writing.write(library, site, user, options.program)
    except OSError as fault:
        report(f"openlink-desk: {fault.filename or options.library}: {fault.strerror}", "stderr")
    except Failure as failure:
        report(f"openlink-desk: {failure}", "stderr")
    return False
