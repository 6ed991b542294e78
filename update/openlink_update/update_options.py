"""The options of openlink-update."""
import argparse
import dataclasses
from pathlib import Path

from openlink_update.rights import limits
from openlink_update.versions.library import is_stamp

LIBRARY = Path("/etc/openlink")
_LEAST_MB = 256  # in which a small library is prepared
SITE = Path("/etc/nginx/conf.d/openlink.conf")
# The key is named, since the units may not read the home of root.
_SHELL = (
    "ssh -i /etc/openlink/ssh/key -o UserKnownHostsFile=/etc/openlink/ssh/known_hosts -o BatchMode=yes"
    " -o ConnectTimeout=10 -o ServerAliveInterval=10"
)


@dataclasses.dataclass(frozen=True)
class Options:
    dry_run: bool
    walls: bool
    back: bool
    send: bool
    receive: str | None  # a stamp
    take: list[str] | None  # a request of another machine, or nothing if sshd has it
    fetch: bool
    library: Path
    input: Path | None
    program: str
    site: Path
    restart: str
    reload: str
    seconds: float
    keep: int
    minutes: float
    memory: int
    to: list[str]
    shell: str
    there: str
    drained: float
    all: bool
    names: list[str]
    # Of a run for several libraries, to that of each: the site that all share, the folder of all, and that of the
    # tables that are prepared once.
    machine: Path | None
    among: Path | None
    prepared: Path | None

    def fault(self) -> str | None:
        """What is wrong with them, or None."""
        if self.keep < 2 or not self.seconds > 0:
            return "--keep is at least 2, and --seconds above 0"
        if not self.minutes > 0 or self.memory < _LEAST_MB:
            return f"--minutes is above 0, and --memory at least {_LEAST_MB}"
        if (self.back or self.walls) and self.fetch:
            return "--back and --walls fetch nothing"
        if self.input and (self.names or self.all):
            return "--input is for one library alone"
        if self.send and (not self.to or self.names or self.all or self.fetch):
            return "--send needs --to, and sends what all libraries have"
        if self.to and (self.dry_run or self.receive or self.take is not None):
            return "--to is not for --dry-run, --receive or --take"
        if self.receive and not is_stamp(self.receive):
            return "--receive needs the name of a version, a time of at most a day ahead"
        return None

    def work(self) -> str:
        """What a run with them does, in a word."""
        is_asked = {"walls": self.walls, "back": self.back, "receive": self.receive is not None}
        return next((word for word, is_it in is_asked.items() if is_it), "update")

    def words(self) -> list[str]:
        """The arguments of the run for each of several libraries."""
        flags = [f"--{name.replace('_', '-')}" for name in ("dry_run", "walls", "back", "fetch") if getattr(self, name)]
        names = ("program", "restart", "reload", "seconds", "keep", "minutes", "memory", "receive")
        values = [(f"--{name}", str(getattr(self, name))) for name in names if getattr(self, name) is not None]
        return [*flags, *(word for pair in values for word in pair)]


def parse(words: list[str] | None = None) -> Options:
    """The options in the arguments of the command. Wrong ones end the process with a message."""
    parser = argparse.ArgumentParser(prog="openlink-update", description="puts new rules and tables in use")
    mode = parser.add_mutually_exclusive_group()
    _add_modes(mode)
    parser.add_argument("--fetch", action="store_true", help="fetch the files of sources.tsv first")
    _add_places(parser)
    _add_processes(parser)
    _add_limits(parser)
    _add_machines(parser, mode)
    several = parser.add_mutually_exclusive_group()
    several.add_argument("--all", action="store_true", help="update all libraries of a machine that has several")
    several.add_argument("names", nargs="*", default=[], metavar="NAME", help="update these libraries of several")
    for option in ("--machine", "--among", "--prepared"):
        parser.add_argument(option, type=Path, help=argparse.SUPPRESS)
    options = Options(**vars(parser.parse_args(words)))
    fault = options.fault()
    if fault:
        parser.error(fault)
    return options


def _add_modes(mode: argparse._MutuallyExclusiveGroup) -> None:
    mode.add_argument("--dry-run", action="store_true", help="show what would be done, and put nothing in use")
    mode.add_argument(
        "--walls", action="store_true", help="take no files, but move the walls of the version in use to today"
    )
    mode.add_argument("--back", action="store_true", help="put the version before the one in use in use")


def _add_places(parser: argparse.ArgumentParser) -> None:
    parser.add_argument(
        "--library", type=Path, default=LIBRARY, metavar="FOLDER", help=f"the folder of the versions ({LIBRARY})"
    )
    parser.add_argument(
        "--input", type=_folder, metavar="FOLDER", help="the folder with targets.tsv (input in that folder)"
    )
    parser.add_argument("--program", default="openlink", metavar="PATH", help="the program (openlink on the PATH)")
    parser.add_argument(
        "--site",
        type=Path,
        default=SITE,
        metavar="FILE",
        help=f"the front door's site, which names the ports and the module ({SITE})",
    )


def _folder(text: str) -> Path | None:
    return Path(text) if text else None


def _add_processes(parser: argparse.ArgumentParser) -> None:
    parser.add_argument(
        "--restart",
        default="systemctl restart openlink@PORT",
        metavar="COMMAND",
        help="restarts a process; PORT is its port (systemctl restart openlink@PORT)",
    )
    parser.add_argument(
        "--reload",
        default="systemctl reload-or-restart nginx",
        metavar="COMMAND",
        help="has nginx read targets.json again, if it goes with the version (systemctl reload-or-restart nginx)",
    )
    parser.add_argument("--seconds", type=float, default=60, metavar="N", help="for a process to listen again (60)")
    parser.add_argument(
        "--keep", type=int, default=4, metavar="N", help="versions that are kept, the one in use counted (4)"
    )


def _add_limits(parser: argparse.ArgumentParser) -> None:
    parser.add_argument(
        "--minutes",
        type=float,
        default=limits.MINUTES,
        metavar="N",
        help=f"for making the version of a library, and for trying it; its fetch has twice as many ({limits.MINUTES})",
    )
    parser.add_argument(
        "--memory",
        type=int,
        default=limits.MEMORY_MB,
        metavar="MB",
        help=f"that a process may have which reads files of providers ({limits.MEMORY_MB})",
    )


def _add_machines(parser: argparse.ArgumentParser, mode: argparse._MutuallyExclusiveGroup) -> None:
    mode.add_argument("--send", action="store_true", help="make nothing, but send the versions in use to the others")
    mode.add_argument("--receive", metavar="STAMP", help="put in use the version that another machine has sent")
    mode.add_argument(
        "--take",
        nargs=argparse.REMAINDER,
        metavar="REQUEST",
        help="carry out what another machine needs for a delivery, and nothing else; without arguments, what sshd got",
    )
    parser.add_argument("--to", nargs="+", default=[], metavar="HOST", help="then send the versions to these machines")
    parser.add_argument("--shell", default=_SHELL, metavar="COMMAND", help=f"reaches another machine ({_SHELL})")
    parser.add_argument(
        "--there",
        default="openlink-update",
        metavar="COMMAND",
        help="this script on the other machines (openlink-update)",
    )
    parser.add_argument(
        "--drained",
        type=float,
        default=3,
        metavar="N",
        help="seconds in which the balancer takes the readers from a machine that receives (3)",
    )
