"""A front door of its own for probes: nginx with the module and the texts that the site has, which asks the processes
as that of readers does, on free ports of this machine. It has a door for each list of processes."""
import dataclasses
import json
import os
import re
import shutil
import subprocess
import time
import types
from collections.abc import Iterable, Mapping
from pathlib import Path

from openlink_update import children
from openlink_update.outcome import DEVICE, Failure

_SECONDS = 30  # until nginx listens
_TARGETS = r"js_preload_object\s+targets(?:__\w+)?\s"  # each door has its own
# The most that a library may have on the disk, as 500m, 20g or 1t.
_DISK = re.compile(r"^\s*(?:js_var|set)\s+\$openlink_disk\s+[\"']?(\d{1,9})([mgt])b?[\"']?\s*;", re.M | re.I)
# The logs of requests, of titles that were asked for in vain, and of links that were followed.
_ACCESS_LOG = re.compile(r"^\s*access_log\s+[\"']?(/[^\s;\"']+)[\"']?\s+openlink\w*[\s;]", re.M)
_UNITS = {"m": 2**20, "g": 2**30, "t": 2**40}
_CONFIGURATION = """load_module {module};
pid {folder}/nginx.pid;
daemon off;
worker_processes 1;
error_log {folder}/error.log error;
events {{}}
http {{
    access_log off;
    client_body_temp_path {folder}/temp;
    proxy_temp_path {folder}/temp;
    fastcgi_temp_path {folder}/temp;
    uwsgi_temp_path {folder}/temp;
    scgi_temp_path {folder}/temp;
    large_client_header_buffers 4 8k;
    {variables}
    map $server_port $openlink_upstream {{
{upstreams}    }}
    map $server_port $openlink_folder {{
{versions}    }}
{doors}{servers}}}
"""
_DOOR = """    upstream door{port} {{
{servers}    }}
"""
# Of doors with the same targets.json: nginx compiles the module for each server that has lines about it.
_SERVER = """    server {{
{listen}        {module_lines}
        include "{processes}";
        location = /find.json {{ js_content door.json; }}
        location = /report.txt {{ js_content door.report; }}
    }}
"""


def _text_with_includes(path: str | Path) -> str:
    """The text of a site, and after it that of the files that it includes; nothing if there is no such file."""
    try:
        text = Path(path).read_text(encoding="utf-8")
    except FileNotFoundError:
        return ""
    for included in re.findall(r"^\s*include\s+([^\s;*?]+)\s*;", text, re.M):
        if os.path.isfile(included):
            text += "\n" + _text_with_includes(included)
    return text


def _bytes_of(match: "re.Match[str] | None") -> int | None:
    """The bytes that a line about the disk allows, or None if there is no line."""
    return int(match[1]) * _UNITS[match[2].lower()] if match else None


class Site:
    """What the site of the front door (openlink.conf) and the files that it includes say: the module, its texts and its
    languages, how nginx asks the processes, targets.json, the ports of the processes, the base URL, the logs, and
    whether there is a list of titles. For a library of several, `machine` is the openlink.conf that has the module and
    the languages of all."""

    def __init__(self, path: str | Path, machine: str | Path | None = None) -> None:
        self.path, text = path, _text_with_includes(path)
        self.ports = [int(port) for port in re.findall(r"^\s*server\s+127\.0\.0\.1:(\d+)", text, re.M)]
        every = text if machine is None else _text_with_includes(machine) + "\n" + text
        self.module_lines = re.findall(r"^\s*(js_(?:path|import|preload_object|var)\s[^;]*;)", every, re.M)
        module = re.search(r"^\s*js_path\s+[\"']?([^;\s\"']+)", every, re.M)
        self.processes = os.path.join(module[1], "processes.conf") if module else ""
        self.targets = re.findall(rf"^\s*{_TARGETS}\s*from\s+([^;\s]+)\s*;", text, re.M)
        words = re.findall(r"^\s*js_preload_object\s+words_(\w+)\s", every, re.M)
        self.languages = [word.partition("__")[0].replace("_", "-") for word in words]
        self.logs = [Path(path) for path in dict.fromkeys(_ACCESS_LOG.findall(text))]
        self.has_list = not re.search(r"^\s*(?:js_var|set)\s+\$openlink_list\s+off\s*;", text, re.M)
        self.most_disk = _bytes_of(_DISK.search(text) or _DISK.search(every))
        name = re.search(r"^\s*server_name\s+([^\s;]+)", text, re.M)
        has_tls = re.search(r"^\s*listen\s[^;#]*\bssl\b", text, re.M)
        self.base = f"{'https' if has_tls else 'http'}://{name[1] if name else 'localhost'}"

    def files(self) -> list[Path]:
        """The files and folders that nginx reads for a door."""
        names = [match for line in self.module_lines for match in re.findall(r"[\s\"'](/[^\s\"';]+)", line)]
        return [Path(name) for name in (*names, *filter(None, [self.processes])) if os.path.exists(name)]

    def targets_path(self) -> str:
        """The targets.json that readers see; '' if the site names none."""
        return str(self.targets[0]).strip("\"'") if self.targets else ""

    @staticmethod
    def differences(
        names: list[str], path: Path, data: bytes, groups: Mapping[str, str] = types.MappingProxyType({})
    ) -> list[str]:
        """Lines about the targets of a version that the targets.json with these bytes does not name, and the other way
        round. `groups` are those that the heads of their rules say, by target."""
        try:
            site = json.loads(data.decode("utf-8"))
            known = site["targets"].keys()
            has_group = {group["name"] for group in site["groups"]} if "groups" in site else set()
        except (ValueError, LookupError, TypeError, AttributeError, RecursionError):
            return []  # nginx says what is wrong with it
        unnamed = [name for name in names if name not in known and groups.get(name) not in has_group]
        unused = [name for name in known if name not in names]
        lines = {"not named, so they are shown last and not as full text": unnamed, "named, and no target": unused}
        return [f"{path}: {text}: {', '.join(members)}" for text, members in lines.items() if members]


def _module_of(nginx: str) -> Path | None:
    """The path of nginx's JavaScript module, or None if there is none."""
    options = subprocess.run([nginx, "-V"], capture_output=True, text=True).stderr
    folder = re.search(r"--modules-path=(\S+)", options)
    path = Path(folder[1] if folder else "/usr/lib/nginx/modules", "ngx_http_js_module.so")
    return path if path.exists() else None


@dataclasses.dataclass(frozen=True)
class _Door:
    port: int
    servers: str
    version: Path
    targets_line: str


class FrontDoor:
    def __init__(self, site: Site, folder: Path) -> None:
        """With the module of a site, in a folder that does not exist."""
        self._site, self._folder = site, folder
        self._doors: list[_Door] = []
        self._child: "subprocess.Popen[bytes] | None" = None
        nginx = shutil.which("nginx", path=os.environ.get("PATH", os.defpath) + ":/usr/sbin")
        module = _module_of(nginx) if nginx else None
        if not nginx or not module:
            raise Failure("probes need nginx with its JavaScript module", DEVICE)
        if not site.processes:
            raise Failure(f"{site.path}: no front door, and probes need one", DEVICE)
        self._nginx, self._module = nginx, module

    def __enter__(self) -> "FrontDoor":
        return self

    def __exit__(self, *_: object) -> None:
        if self._child:
            children.kill(self._child)  # nginx that is told to end takes as long as to start
        shutil.rmtree(self._folder, ignore_errors=True)

    def add_door(self, ports: Iterable[int], version: Path, targets: str) -> str:
        """The address of a door to the processes at these ports, which serve the version in a folder; its targets.json
        is at a path, or '' if there is none."""
        port = children.free_port()
        servers = "".join(f"        server 127.0.0.1:{each} max_fails=0;\n" for each in ports)
        line = f'js_preload_object targets from "{targets}";' if targets else ""
        self._doors.append(_Door(port, servers, version, line))
        return f"http://127.0.0.1:{port}"

    def start(self) -> None:
        self._folder.mkdir(0o755, exist_ok=True)  # root makes it for a user who may make none beside it
        os.chmod(self._folder, 0o755)
        path, log = self._folder / "nginx.conf", self._folder / "start.log"
        path.write_text(self._configuration(), encoding="utf-8")
        self._child = children.start(
            [self._nginx, "-e", log, "-p", self._folder, "-c", path],
            self._folder,
            stdout=subprocess.DEVNULL,
            stderr=subprocess.DEVNULL,
        )
        if not self._has_begun(self._child):
            reasons = " ".join(text for text in map(_read, (log, self._folder / "error.log")) if text)
            raise Failure(f"the front door for probes does not start: {reasons or 'nginx gives no reason'}", DEVICE)

    def _configuration(self) -> str:
        lines = [line for line in self._site.module_lines if not re.match(_TARGETS, line)]
        variables = [line for line in lines if line.startswith("js_var")]
        shared = [line for line in lines if line not in variables]
        servers = ""
        for targets_line in dict.fromkeys(door.targets_line for door in self._doors):
            ports = [door.port for door in self._doors if door.targets_line == targets_line]
            listen = "".join(f"        listen 127.0.0.1:{port};\n" for port in ports)
            module_lines = "\n        ".join([*shared, targets_line])
            servers += _SERVER.format(listen=listen, module_lines=module_lines, processes=self._site.processes)
        return _CONFIGURATION.format(
            module=self._module,
            folder=self._folder,
            variables="\n    ".join(variables),
            upstreams="".join(f"        {door.port} door{door.port};\n" for door in self._doors),
            versions="".join(f'        {door.port} "{door.version}";\n' for door in self._doors),
            doors="".join(_DOOR.format(**vars(door)) for door in self._doors),
            servers=servers,
        )

    def _has_begun(self, child: "subprocess.Popen[bytes]") -> bool:
        """Whether nginx serves: it listens before it writes its number, and ends if it cannot write it."""
        if not all(children.wait_for(door.port, child, _SECONDS) for door in self._doors):
            return False
        end = time.monotonic() + _SECONDS
        while time.monotonic() < end and child.poll() is None:
            if _read(self._folder / "nginx.pid"):
                return True
            time.sleep(0.02)
        return False


def _read(path: Path) -> str:
    """The text of a log, or nothing."""
    try:
        return path.read_text(encoding="utf-8", errors="replace").strip()
    except OSError:
        return ""
