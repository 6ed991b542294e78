"""The work of openlink-holdings."""
import argparse
import os
from pathlib import Path

from openlink_update.exports import export_files
from openlink_update.exports.site_names import SiteNames
from openlink_update.outcome import ALL_NEW, DEVICE, Failure
from openlink_update.shown_text import report
from openlink_update.site.front_door import Site
from openlink_update.update_options import LIBRARY, SITE
from openlink_update.versions.tables_again import tables_of

_NO_VERSION = 3


def main(words: list[str] | None = None) -> int:
    parser = argparse.ArgumentParser(prog="openlink-holdings", description="writes the holdings in use for others")
    parser.add_argument("format", choices=tuple(export_files.WRITERS))
    parser.add_argument("folder", metavar="FOLDER")
    parser.add_argument(
        "--library", type=Path, default=LIBRARY, metavar="FOLDER", help=f"the folder of the versions ({LIBRARY})"
    )
    parser.add_argument(
        "--site",
        type=Path,
        default=SITE,
        metavar="FILE",
        help=f"the front door's site, which names the base URL and targets.json ({SITE})",
    )
    options = parser.parse_args(words)
    try:
        return _write(options.format, options.folder, options.library / "current", Site(options.site))
    except Failure as failure:
        report(f"openlink-holdings: {failure}", "stderr")
        return failure.status
    except OSError as fault:
        report(f"openlink-holdings: {fault.filename}: {fault.strerror}", "stderr")
        return DEVICE


def _write(kind: str, folder: str, version: Path, site: Site) -> int:
    if not os.path.isdir(version):
        report(f"openlink-holdings: {version}: no version is in use", "stderr")
        return _NO_VERSION
    names = SiteNames(site.targets_path(), export_files.rules_in(version))
    if names.fault:
        report(f"openlink-holdings: {names.fault}", "stderr")
        return DEVICE
    tables = tables_of(version, export_files.day_of(version))
    export_files.WRITERS[kind](version, tables, site, names, Path(folder))
    return ALL_NEW
