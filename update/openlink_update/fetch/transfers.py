"""The processes that a download starts: a lookup of the addresses of a host, and a transfer by curl, which then takes
one of them, so that no second answer of the name server leads elsewhere. curl gets the address and all else by its
standard input, so that no secret is in the arguments of a process. It follows no redirect and tries once."""
import dataclasses
import os
import re
import subprocess
import sys
import tempfile
import time
from collections.abc import Iterable, Sequence
from pathlib import Path
from typing import NamedTuple
from urllib.parse import urlsplit

from openlink_update import children

_PORTS = {"https": 443, "http": 80}
_PROXIES = ("http_proxy", "https_proxy", "HTTPS_PROXY", "all_proxy", "ALL_PROXY")  # that curl reads
_SECONDS_TO_LOOK_UP = 10
_MOST_ADDRESSES = 65536  # bytes of the addresses of a name that are read
# A process of its own: a name server may take long, and other downloads go on. It reads the name from its input.
LOOK_UP = """import socket, sys
found = socket.getaddrinfo(sys.stdin.read(), None, type=socket.SOCK_STREAM)
print(*dict.fromkeys(it[4][0] for it in found), sep="\\n")"""
_SECONDS_TO_CONNECT = 10
_SECONDS_TO_END = 10  # for curl, after its own limit
WRITE_FAILED, _TIMED_OUT, _NOT_TRUSTED, _TOO_LARGE = 23, 28, 60, 63
# By what curl writes out of its verification: OpenSSL's number, or 1, as before it, if only the host is another.
_CERTIFICATES = {1: "the certificate is that of another host", 10: "the certificate has expired"}
_CUT_SHORT = (18, 55, 56, 92, 95, 96)
_REASONS = {
    5: "the name of the proxy is unknown",
    6: "the name of the host is unknown",
    7: "no connection",
    35: "TLS failed",
    52: "no reply",
    77: "no certificates of authorities on this machine",
    97: "the proxy refused the connection",
}
PASSING = {5, 6, 7, 16, 35, 52, 97, _TIMED_OUT, *_CUT_SHORT}  # another try may end well
_OPTIONS = (
    "silent",
    "globoff",
    "compressed",
    "disallow-username-in-url",
    "suppress-connect-headers",
    "fail",
    "user-agent = openlink-fetch",
    "dump-header = -",
    f"connect-timeout = {_SECONDS_TO_CONNECT}",
    'write-out = "\\nend %{http_code} %{size_download} %{time_connect} %{ssl_verify_result} %{remote_ip}'
    '\\n%{redirect_url}"',
)
# What curl prints: the headers of the replies, then what write-out says, which is missing if curl was killed. Its JSON
# (%{json}, %{header_json}) would be shorter, but version 7.88 writes other characters for those that are not ASCII.
_OUTPUT = re.compile(r"(.*)\nend (\d+) (\d+) ([\d.]+) (\d+) (\S*)\n([^\n]*)", re.S)
_MOST_OUTPUT = 2**20  # bytes of it; headers after a reply's body have no end for curl
_LENGTH = re.compile(r"[0-9]{1,15}")


class _Place(NamedTuple):
    host: str
    port: int


def host_of(address: str) -> str:
    """The host of an address, or '' if a server sent an address that has none."""
    return place_of(address).host


def place_of(address: str) -> _Place:
    """The host and the port of an address; '' and 0 if a server sent an address that has none."""
    try:
        parts = urlsplit(address)
        return _Place(parts.hostname or "", _PORTS.get(parts.scheme, 0) if parts.port is None else parts.port)
    except ValueError:
        return _Place("", 0)


def is_proxied() -> bool:
    """Whether curl may reach hosts by a proxy, which looks up their names."""
    return any(os.environ.get(name) for name in _PROXIES)


class Lookup:
    """The addresses of a host, as they are being looked up."""

    def __init__(self, host: str) -> None:
        self._started, self._output = time.monotonic(), tempfile.TemporaryFile()
        self._child = children.start(
            [sys.executable, "-I", "-S", "-c", LOOK_UP],
            "/",
            _MOST_ADDRESSES,
            stdin=subprocess.PIPE,
            stdout=self._output,
            stderr=subprocess.DEVNULL,
        )
        children.write(self._child, host.encode())

    def took(self) -> float:
        return time.monotonic() - self._started

    def has_ended(self) -> bool:
        if self._child.poll() is None and self.took() > _SECONDS_TO_LOOK_UP:
            self.stop()
        return self._child.poll() is not None

    def stop(self) -> None:
        children.stop(self._child)

    def addresses(self) -> list[str]:
        """The addresses, once it has ended; none if the name is unknown."""
        self._output.seek(0)
        text = self._output.read().decode("ascii", "replace") if self._child.returncode == 0 else ""
        self._output.close()
        return text.split()


def _quoted(text: str) -> str:
    return '"' + text.replace("\\", "\\\\").replace('"', '\\"') + '"'


def _pinned(address: str, addresses: Sequence[str]) -> list[str]:
    """The lines by which curl takes these addresses for the host of an address; none if it has none, or is one."""
    host, port = place_of(address)
    if not addresses or ":" in host:
        return []
    return ["resolve = " + _quoted(f"{host}:{port}:" + ",".join(f"[{ip}]" if ":" in ip else ip for ip in addresses))]


@dataclasses.dataclass(frozen=True)
class _Reply:
    """What curl writes out of a reply. Without one the status is 0."""

    status: int = 0
    headers: dict[str, str] = dataclasses.field(default_factory=dict)  # by their names in lower case
    size: int = 0
    is_connected: bool = False
    verified: int = 0
    remote: str = ""  # the address that it came from
    redirect: str = ""

    @classmethod
    def parse(cls, text: str) -> "_Reply | None":
        """None if curl was killed before it wrote all of it."""
        match = _OUTPUT.fullmatch(text)
        if not match:
            return None
        head, status, size, connected, verified, remote, redirect = match.groups()
        return cls(int(status), _headers_in(head), int(size), float(connected) > 0, int(verified), remote, redirect)


def _headers_in(text: str) -> dict[str, str]:
    """The headers of the last reply in a text, by their names in lower case."""
    headers: dict[str, str] = {}
    for line in text.split("\n"):
        name, colon, value = line.partition(":")
        if line.startswith("HTTP/"):
            headers = {}
        elif colon:
            headers[name.strip().lower()] = value.strip()
    return headers


class Transfer:
    def __init__(
        self,
        address: str,
        headers: Iterable[str],
        body: str | Path,
        seconds: float,
        most_bytes: int,
        addresses: Sequence[str] = (),
    ) -> None:
        """Starts it, with the seconds that it may take. The path `body` gets the body of a reply, up to these bytes.
        The host has these `addresses`; if there are none, curl looks them up."""
        self._body, self._seconds, self._most_bytes, self._started = Path(body), seconds, most_bytes, time.monotonic()
        self.exit, self.reply, self._has_endless_headers = 0, _Reply(), False
        lines = [
            *_OPTIONS,
            f"url = {_quoted(address)}",
            f"proto = ={address.split(':')[0].lower()}",
            f"output = {_quoted(str(body))}",
            f"max-time = {max(seconds, 0.001):.3f}",
            f"max-filesize = {most_bytes}",
            *_pinned(address, addresses),
            *(f"header = {_quoted(header)}" for header in headers),
        ]
        self._output = tempfile.TemporaryFile()
        self._child = children.start(
            ["curl", "-q", "--config", "-"],
            "/",
            most_bytes,
            stdin=subprocess.PIPE,
            stdout=self._output,
            stderr=subprocess.DEVNULL,
            restore_signals=False,  # SIGXFSZ stays ignored, so that curl sees a failed write and is not killed
        )
        children.write(self._child, "\n".join(lines).encode() + b"\n")

    def has_ended(self) -> bool:
        is_late = self.took() > self._seconds + _SECONDS_TO_END
        if self._child.poll() is None and (is_late or os.fstat(self._output.fileno()).st_size > _MOST_OUTPUT):
            self.stop()
        return self._child.poll() is not None

    def took(self) -> float:
        return time.monotonic() - self._started

    def stop(self) -> None:
        children.stop(self._child)

    def end(self) -> None:
        """Reads what curl wrote out."""
        length = self._output.seek(0, os.SEEK_END)
        self._output.seek(max(length - _MOST_OUTPUT, 0))
        reply = _Reply.parse(self._output.read().decode("latin-1"))
        self._output.close()
        self.exit = self._child.returncode if reply else self._child.returncode or _TIMED_OUT
        self._has_endless_headers = length > _MOST_OUTPUT
        if self._has_endless_headers:
            self.exit = _TOO_LARGE
        self.reply = reply or _Reply()

    def written(self) -> int:
        return self._body.stat().st_size if self._body.exists() else 0

    def fault(self) -> str | None:
        """Why there is no whole reply, or None."""
        if self._has_endless_headers:
            return "headers of more than 1 MB"
        if self.exit in (0, 22):  # 22: a status from 400 on
            return None
        if self.exit == _TOO_LARGE or self.exit == WRITE_FAILED and self.written() >= self._most_bytes:
            return "more than 256 MB"
        if self.exit == WRITE_FAILED:
            return "the disk is full or cannot be written"
        if self.exit == _TIMED_OUT or self.exit < 0:
            return f"no end, after {self.reply.size:,} bytes" if self.reply.is_connected else "no connection"
        if self.exit in _CUT_SHORT and self.reply.status:
            return self._fault_of_length()
        if self.exit == _NOT_TRUSTED:
            return _CERTIFICATES.get(self.reply.verified, "the certificate is not trusted")
        broke = "the connection broke" if self.exit in _CUT_SHORT else f"curl: status {self.exit}"
        return _REASONS.get(self.exit, broke)

    def _fault_of_length(self) -> str:
        length = self.reply.headers.get("content-length", "")
        total = f"of {int(length):,} bytes" if _LENGTH.fullmatch(length) else "bytes, too early"
        return f"ended after {self.reply.size:,} {total}"
