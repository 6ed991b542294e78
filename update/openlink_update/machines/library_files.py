"""What a library of several has beside its input and versions: its site, its logs, and the units of its processes."""
import glob
import itertools
import os
import re
import shutil
from pathlib import Path

from openlink_update import children
from openlink_update.disk import sync
from openlink_update.machines.libraries import LOCAL, SITE, is_any_name
from openlink_update.outcome import Failure
from openlink_update.places import FRONT_DOOR

HOST = re.compile(r"(?=.{1,253}$)[a-z0-9](?:[a-z0-9-]{0,61}[a-z0-9])?(?:\.[a-z0-9](?:[a-z0-9-]{0,61}[a-z0-9])?)*")
ADDRESS = re.compile(r"\b127\.0\.0\.1:(\d+)")
_SERVER_NAME = re.compile(r"^[^#\n]*\bserver_name\s+([^;]+);", re.M)
PROTECTED = range(1024)  # only root may listen there, and the processes, by their unit
_PORTS = range(214, 319)  # of these, those of a library: its local server's, and those of its processes
_FIRST_PORT, _LAST_PORT, _STEP = 8100, 32000, 10  # ten for each library, once the others are taken
MOST_PROCESSES = _STEP - 1
_UNIT = """# Made by openlink-library: the process at this port serves the library {name}.
[Unit]
Description=Link resolver of {name} on port %i

[Service]
WorkingDirectory={folder}/current
"""
# The unit for all has it too, but may be a copy of an operator's from before.
_RIGHT = """# A port below 1024 is one that no other user of the machine can take while the process restarts.
AmbientCapabilities=CAP_NET_BIND_SERVICE
CapabilityBoundingSet=CAP_NET_BIND_SERVICE
"""
_TARGETS = """{{
  "languages": ["en", "de"],
  "words": {{"library": "{host}"}},
  "groups": [
    {{"name": "Full text", "label": {{"de": "Volltext"}}}},
    {{"name": "In the library", "label": {{"de": "In der Bibliothek"}}}}
  ],
  "targets": {{}}
}}
"""
_LIST = (
    "# a name, a rule file, a table and allowed warnings, with tabs between them; of a shared table: {shared}/FILE\n"
)
# nginx finds a site only below `current`: a library without a version may lack targets.json, which nginx would refuse.
_SITES = """# The sites of the libraries of this machine, each once it has a version in use. Made by openlink-library.
include {folder}/*/current/../../site.conf;
"""


class Places:
    """Where a machine has its files. The root is empty but for tests."""

    def __init__(self, root: str = "") -> None:
        self.libraries, self.units = Path(f"{root}/etc/openlink"), Path(f"{root}/etc/systemd/system")
        self.nginx, self.logs = Path(f"{root}/etc/nginx/conf.d"), Path(f"{root}/var/log/nginx")
        self.machine, self.sites = self.nginx / "openlink.conf", self.nginx / "openlink.libraries.conf"


def write(path: Path, text: str, mode: int = 0o644) -> None:
    """Writes a file, and waits until it is on the disk."""
    with open(os.open(path, os.O_WRONLY | os.O_CREAT | os.O_TRUNC, mode), "w", encoding="utf-8") as file:
        file.write(text)
    sync(path)
    sync(path.parent)


def read(path: Path) -> str:
    return path.read_text(encoding="utf-8", errors="replace")


def _filled(template: str, **values: str) -> str:
    """The text of a template of front_door with these values in the places of their names."""
    text = read(FRONT_DOOR / template)
    for name, value in values.items():
        text = text.replace(f"@{name}@", value)
    return text


def _all_sites(places: Places) -> list[str]:
    """The texts of all files of nginx that name ports or hosts of libraries."""
    paths = map(Path, glob.glob(f"{places.libraries}/*/*.conf"))
    of_libraries = [path for path in paths if is_any_name(path.parent.name)]
    return [read(path) for path in (*map(Path, glob.glob(f"{places.nginx}/*.conf")), *of_libraries)]


def check_host(places: Places, host: str) -> None:
    """A Failure if a host cannot be a library's, or is one's already."""
    if not HOST.fullmatch(host):
        raise Failure(f"{host}: not the name of a host in small letters")
    if any(host in names.split() for text in _all_sites(places) for names in _SERVER_NAME.findall(text)):
        raise Failure(f"{host}: another site of this machine has this name")


def ports_of(places: Places, first: int | None, count: int) -> tuple[int, list[int]]:
    """The port of a library's local server and those of its processes: from `first` on, or the lowest in a row that no
    site names and at which nothing listens. A Failure if they are not free."""
    named = {int(port) for text in _all_sites(places) for port in ADDRESS.findall(text)}
    named.update(unit_ports(places))

    def are_free(start: int) -> bool:
        return not any(port in named or children.is_open(port) for port in range(start, start + 1 + count))

    starts = itertools.chain(_PORTS[:-count], range(_FIRST_PORT, _LAST_PORT, _STEP))
    start = first or next((port for port in starts if are_free(port)), None)
    if start is None or not are_free(start):
        raise Failure(f"the ports from {start or _PORTS[0]} on are not free")
    return start, list(range(start + 1, start + 1 + count))


def _unit_path(places: Places, port: int | str) -> Path:
    return places.units / f"openlink@{port}.service.d/library.conf"


def unit_ports(places: Places, folder: Path | None = None) -> list[int]:
    """The ports whose processes serve the library in a folder (None: any)."""
    ports = []
    for path in map(Path, glob.glob(str(_unit_path(places, "*")))):
        if folder is None or f"WorkingDirectory={folder}/current" in read(path).splitlines():
            ports.append(int(str(path).split("openlink@")[-1].split(".")[0]))
    return sorted(ports)


def write_units(places: Places, name: str, folder: Path, ports: list[int]) -> None:
    for port in ports:
        path = _unit_path(places, port)
        os.makedirs(path.parent, exist_ok=True)
        write(path, _UNIT.format(name=name, folder=folder) + (_RIGHT if port in PROTECTED else ""))
    sync(places.units)


def remove_units(places: Places, ports: list[int]) -> None:
    for port in ports:
        path = _unit_path(places, port)
        path.unlink()
        if not os.listdir(path.parent):
            path.parent.rmdir()
    if ports:
        sync(places.units)


def write_library(places: Places, folder: Path, name: str, host: str, port: int, ports: list[int]) -> None:
    """Writes the folder of a new library: its site, and the lists of its input."""
    servers = "\n".join(f"    server 127.0.0.1:{each} max_fails=0;" for each in ports)
    values = {"NAME": name, "ID": name.replace("-", "_"), "HOST": host, "PORT": str(port), "SERVERS": servers}
    site = _filled("library.conf", **values)
    if os.path.exists("/proc/net/if_inet6"):
        site = site.replace("#listen [::]:80;", "listen [::]:80;")
    os.makedirs(folder / "input")
    write(folder / SITE, site)
    write(folder / LOCAL, _filled("local.conf", **values))
    write(folder / "input/targets.tsv", _LIST.format(shared=places.libraries / "shared"))
    write(folder / "input/targets.json", _TARGETS.format(host=host))


def write_machine(places: Places) -> None:
    """Writes what all sites have once, unless it exists."""
    os.makedirs(places.nginx, exist_ok=True)
    if not places.machine.exists():
        text = _filled("machine.conf")
        if os.path.exists("/proc/net/if_inet6"):
            text = text.replace("#listen [::]:80 ", "listen [::]:80 ")
        write(places.machine, text)
    if not places.sites.exists():
        write(places.sites, _SITES.format(folder=places.libraries))


def write_logs(places: Places, name: str) -> None:
    """Makes a library's logs, which only nginx and the group `adm` may read."""
    for end in "log", "wanted.log", "followed.log":
        path = places.logs / f"openlink.{name}.{end}"
        if path.exists():
            continue
        os.makedirs(places.logs, exist_ok=True)
        write(path, "", 0o640)
        try:
            shutil.chown(path, "www-data", "adm")
        except (LookupError, PermissionError):
            pass  # nginx makes its logs itself on other systems
