"""The work of openlink-library."""
import argparse
import dataclasses
import os
import re
import shutil
import socket
import subprocess

from openlink_update.disk import sync
from openlink_update.machines import library_files as files
from openlink_update.machines.libraries import LOCAL, MAIL, REPORT, SITE, Libraries, is_any_name, is_name
from openlink_update.outcome import ALL_NEW, DEVICE, Failure
from openlink_update.shown_text import report, report_cells
from openlink_update.site.front_door import Site
from openlink_update.site.processes import run
from openlink_update.versions.library import Library

_ADDRESS = re.compile(r"[\w.+][\w.+-]*(@[\w.-]+)?", re.A)  # `mail` takes what begins with a hyphen for an option


@dataclasses.dataclass(frozen=True)
class _Options:
    command: str
    root: str = ""
    name: str = ""
    host: str = ""
    processes: int = 0
    ports: int | None = None
    mail: str | None = None
    failed: bool = False


def main(words: list[str] | None = None) -> int:
    options = _parse(words)
    os.umask(0o022)
    places = files.Places(options.root)
    libraries = Libraries(places.libraries, places.machine)
    try:
        _COMMANDS[options.command](options, places, libraries)
        return ALL_NEW
    except Failure as failure:
        report(f"openlink-library: {failure}", "stderr")
        return failure.status
    except OSError as fault:
        report(f"openlink-library: {fault.filename}: {fault.strerror}", "stderr")
        return DEVICE


def _parse(words: list[str] | None) -> _Options:
    parser = argparse.ArgumentParser(prog="openlink-library", description="the libraries of a machine with several")
    parser.add_argument("--root", default="", help=argparse.SUPPRESS)
    commands = parser.add_subparsers(dest="command", required=True, metavar="COMMAND")
    add = commands.add_parser("add", help="make a library that nothing serves yet")
    add.add_argument("name", metavar="NAME")
    add.add_argument("host", metavar="HOST", help="the host name of its site")
    add.add_argument("--processes", type=int, default=2, metavar="N", help="processes of the program (2)")
    add.add_argument("--ports", type=int, metavar="N", help="the first of its ports (the lowest that are free)")
    add.add_argument("--mail", metavar="ADDRESS", help="who gets the reports of its updates, beside root")
    away = commands.add_parser("remove", help="end its processes, and remove its versions")
    away.add_argument("name", metavar="NAME")
    commands.add_parser("list", help="print all libraries")
    mail = commands.add_parser("mail", help="send the reports of the last updates")
    mail.add_argument("--failed", action="store_true", help="only those of updates that failed")
    options = _Options(**vars(parser.parse_args(words)))
    is_possible = {"add": is_name, "remove": is_any_name}.get(options.command)
    if is_possible and not is_possible(options.name):
        parser.error(f"no library can have the name {options.name}")
    if options.command == "add" and not 1 <= options.processes <= files.MOST_PROCESSES:
        parser.error(f"--processes is at least 1 and at most {files.MOST_PROCESSES}")
    if options.mail is not None and not _ADDRESS.fullmatch(options.mail):
        parser.error("--mail is an address")
    return options


def _units(ports: list[int]) -> list[str]:
    return [f"openlink@{port}" for port in ports]


def _add(options: _Options, places: files.Places, libraries: Libraries) -> None:
    folder, unfinished = libraries.path(options.name), libraries.path(f"{options.name}.new")
    if os.path.lexists(folder):
        raise Failure(f"{folder} exists")
    files.check_host(places, options.host)
    port, ports = files.ports_of(places, options.ports, options.processes)
    shutil.rmtree(unfinished, ignore_errors=True)
    files.write_library(places, unfinished, options.name, options.host, port, ports)
    if options.mail:
        files.write(unfinished / MAIL, f"{options.mail}\n")
    files.write_logs(places, options.name)
    files.write_machine(places)
    os.rename(unfinished, folder)
    sync(libraries.folder)
    try:
        files.write_units(places, options.name, folder, ports)
        run(["systemctl", "daemon-reload"])
        run(["systemctl", "enable", *_units(ports)])
    except (Failure, OSError):
        files.remove_units(places, files.unit_ports(places, folder))
        shutil.rmtree(folder)
        raise
    report(f"{folder}: {options.host}, local port {port}, processes {' '.join(_units(ports))}")
    if max(ports) not in files.PROTECTED:
        report("any user of this machine can take a port from 1024 on while its process restarts")
    report(f"next: fill {folder}/input, then openlink-update {options.name}")


def _remove(options: _Options, places: files.Places, libraries: Libraries) -> None:
    folder, remains = libraries.path(options.name), libraries.path(f"{options.name}.removed")
    libraries.check([options.name])
    if os.path.lexists(remains):
        raise Failure(f"{remains} exists, of a library that was removed before: move it away")
    lock = Library(folder).lock()
    for link in ("current", "before"):
        (folder / link).unlink(missing_ok=True)
    run(["systemctl", "reload-or-restart", "nginx"])
    ports = files.unit_ports(places, folder)
    if ports:
        run(["systemctl", "disable", "--now", *_units(ports)])
    files.remove_units(places, ports)
    run(["systemctl", "daemon-reload"])
    for name in ("versions", "trial"):
        shutil.rmtree(folder / name, ignore_errors=True)
    os.unlink(folder / "lock")
    os.rename(folder, remains)
    sync(libraries.folder)
    lock.close()
    report(f"{options.name} is removed; its input and its site are in {remains}")


def _list(_: _Options, places: files.Places, libraries: Libraries) -> None:
    for name in libraries.names():
        site, library = Site(libraries.path(name, SITE)), Library(libraries.path(name))
        local = files.ADDRESS.search(files.read(libraries.path(name, LOCAL)))
        host, ports = site.base.partition("://")[2], " ".join(map(str, site.ports))
        report_cells(name, host, local[1] if local else "", ports, library.current() or "no version")


def _mail(options: _Options, places: files.Places, libraries: Libraries) -> None:
    """Sends each report once. A Failure names the libraries whose report could not be sent; they keep it."""
    unsent = []
    for name in libraries.names():
        path, address = libraries.path(name, REPORT), libraries.path(name, MAIL)
        if not os.path.exists(path):
            continue
        status, _, text = files.read(path).partition("\n")
        if os.path.exists(address) and not (options.failed and status == str(ALL_NEW)):
            subject = f"openlink-update of {name} on {socket.gethostname()}: {status}"
            try:
                words = ["mail", "-s", subject, files.read(address).strip()]
                subprocess.run(words, input=text, text=True, check=True, timeout=60)
            except (OSError, subprocess.SubprocessError):
                unsent.append(name)
                continue
        os.unlink(path)
    if unsent:
        raise Failure(f"mail failed for {', '.join(unsent)}", DEVICE)


_COMMANDS = {"add": _add, "remove": _remove, "list": _list, "mail": _mail}
