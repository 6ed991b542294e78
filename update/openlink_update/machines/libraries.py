"""The libraries of a machine that has several. /etc/openlink has a folder for each, by its name:

    NAME/            what library.py describes: input/, versions/, current
    NAME/site.conf   its site for nginx: the host name, the ports of its processes, its logs
    NAME/local.conf  its port in the server for the machine itself
    NAME/mail        the address that gets its reports, if there is one
    NAME/report      the exit status of its last update, a line end, and what the update said
    NAME.removed/    what was in the folder of a library that was removed, without its versions
    shared/          files that several libraries use, with their sources.tsv

The library of one machine alone is /etc/openlink itself, and its site is openlink.conf. It may stay beside others."""
import os
import re
from collections.abc import Iterable
from pathlib import Path

from openlink_update.outcome import USAGE, Failure

_MOST = 32  # bytes of a name, which is part of names of nginx, files and folders
_NAME = re.compile(r"[a-z](?:-?[a-z0-9])*")
_RESERVED = (
    "before",
    "current",
    "delivery",
    "drain",
    "input",
    "lock",
    "sending",
    "shared",
    "ssh",
    "trial",
    "updated",
    "versions",
)
_LATER = ("desk", "runs")  # folders of a library, which a library of an earlier release may have as its name
SITE, LOCAL, MAIL, REPORT, SHARED = "site.conf", "local.conf", "mail", "report", "shared"
PROBES = "probes.tsv"  # of a version that goes from one machine to another
ALONE = "."  # the library of a machine with one alone, by its place in the folder


def is_name(text: str) -> bool:
    """Whether a new library may have this name."""
    return len(text) <= _MOST and _NAME.fullmatch(text) is not None and text not in (*_RESERVED, *_LATER)


def is_any_name(text: str) -> bool:
    """Whether a library may have this name, also one of an earlier release."""
    return is_name(text) or text in _LATER


class Libraries:
    def __init__(self, folder: str | Path, machine: str | Path) -> None:
        """Those in a folder. `machine` is the site that has what all of them have once, openlink.conf."""
        self.folder, self.machine = Path(os.path.abspath(folder)), Path(os.path.abspath(machine))

    def path(self, *names: str) -> Path:
        return self.folder.joinpath(*names)

    def names(self) -> list[str]:
        """The names of all libraries in their order."""
        names = sorted(os.listdir(self.folder)) if self.folder.is_dir() else []
        return [name for name in names if is_any_name(name) and self.path(name, SITE).is_file()]

    def check(self, names: Iterable[str]) -> None:
        """A Failure says which of these is no library."""
        known = self.names()
        for name in names:
            if name not in known:
                raise Failure(f"{self.path(name)}: no such library: openlink-library list", USAGE)

    def versions(self, but: str | None = None) -> list[Path]:
        """The folders of the versions in use of all libraries but one."""
        links = [self.path(name, "current") for name in self.names() if name != but]
        return [Path(os.path.realpath(link)) for link in links if link.is_dir()]

    def has_one_alone(self) -> bool:
        """Whether the folder itself is a library."""
        return self.path("input").is_dir()
