"""The download of a file: several transfers, since redirects are followed here and a failed try is repeated: curl would
send a header such as X-Key to every host that it is led to. A redirect is judged by the addresses of its host, which
curl then has to take. Several downloads are made side by side, with one connection to a host at a time."""
import http.client
import ipaddress
import os
import re
import time
import traceback
from collections.abc import Callable, Generator, Iterable
from pathlib import Path

from openlink_update.fetch.transfers import PASSING, WRITE_FAILED, Lookup, Transfer, host_of, is_proxied, place_of
from openlink_update.outcome import Interrupted

_MOST_HOSTS = 4  # at once
_MOST_BYTES = 256 * 2**20  # of a file, in all tries
_MOST_REDIRECTS = 5
_MOST_TRIES = 3
# An address whose host no two programs read in different ways.
_ADDRESS = re.compile(r"https://[A-Za-z0-9.:\[\]-]+(?:[/?#][!-~]*)?", re.I)
_REDIRECTS = (301, 302, 303, 307, 308)
_PASSING_STATUSES = (408, 425, 429, 500, 502, 503, 504)  # another try may end well
_UNCHANGED = 304
_GLOBAL = ipaddress.ip_network("2000::/3")
_TRANSLATED = ipaddress.ip_network("64:ff9b::/96")  # an IPv4 address, in a network that has IPv6 alone


def fault_of(error: Exception) -> str:
    """A line for an error that the package did not expect. Its text is not printed: it may repeat a secret."""
    if isinstance(error, OSError):
        return f"{error.filename or 'curl'}: {error.strerror}"
    place = traceback.extract_tb(error.__traceback__)[-1]
    return f"{type(error).__name__} at {os.path.basename(place.filename)}:{place.lineno}"


def is_inner(text: str) -> bool:
    """Whether a text is an address that is private, loopback, link-local or of no use outside."""
    try:
        address = ipaddress.ip_address(text.partition("%")[0])
    except ValueError:
        return False
    if isinstance(address, ipaddress.IPv6Address):
        if address.ipv4_mapped or address in _TRANSLATED:
            return is_inner(str(ipaddress.IPv4Address(int(address) & 0xFFFFFFFF)))
        if address.sixtofour:
            return is_inner(str(address.sixtofour))
        return not address.is_global or address not in _GLOBAL
    return not address.is_global or address.is_multicast


class Download:
    """Ends with `is_whole` (the file `body` has all of a reply of status 200), `is_unchanged`, or a `fault`;
    `has_failed` says that the error is this machine's."""

    def __init__(
        self,
        address: str,
        headers: list[str],
        conditions: list[str],
        body: str | Path,
        seconds: float,
        pause: float,
    ) -> None:
        """`headers` go to the host and port of the address alone, `conditions` (ETag and date of the file that
        exists) to any."""
        self.first, self.headers, self.conditions, self.body = address, headers, conditions, Path(body)
        self.limit, self.pause = seconds, pause
        self.seconds, self.bytes = seconds, _MOST_BYTES  # that are left
        self.address, self.redirects, self.tries, self.ready_at = address, 0, 1, 0.0
        self.transfer: Transfer | None = None
        self.fault: str | None = None
        self.lookup: Lookup | None = None
        self.addresses: list[str] = []  # those of the host, if a redirect named it
        self.may_lead_inside = False
        self.is_whole = self.is_unchanged = self.has_failed = False

    def host(self) -> str:
        return host_of(self.address)

    def start(self) -> None:
        self.body.unlink(missing_ok=True)
        headers = self.headers if place_of(self.address) == place_of(self.first) else []
        self.transfer = Transfer(
            self.address, headers + self.conditions, self.body, self.seconds, self.bytes, self.addresses
        )

    def is_done(self) -> bool:
        return self.is_whole or self.is_unchanged or self.fault is not None

    def is_ready(self) -> bool:
        """Whether it can start, or has ended with a fault. Takes the addresses of a host, once they are looked up."""
        if self.lookup and self.lookup.has_ended():
            lookup, self.lookup = self.lookup, None
            self.seconds -= lookup.took()
            self.addresses = lookup.addresses()
            if any(map(is_inner, self.addresses)):
                self.fault = "a redirect that leads into a private network"
            elif not self.addresses and not is_proxied():
                self.fault = "a redirect that leads to a host whose name is unknown"
        return self.lookup is None and (self.is_done() or time.monotonic() >= self.ready_at)

    def stop(self) -> None:
        for step in (self.lookup, self.transfer):
            if step:
                step.stop()

    def has_ended(self) -> bool:
        """Whether the transfer has ended. Then it takes its result: it is the last one, or there will be another."""
        if self.is_done() or not self.transfer or not self.transfer.has_ended():
            return self.is_done()
        self.end()
        return True

    def end(self) -> None:
        transfer = self.transfer
        assert transfer, "it has begun"
        transfer.end()
        self.seconds -= transfer.took()
        self.bytes -= transfer.written()
        fault, reply = transfer.fault(), transfer.reply
        if fault:
            self.has_failed = transfer.exit == WRITE_FAILED and self.bytes > 0
            self._try_again(fault, transfer.exit in PASSING or transfer.exit < 0)
        elif reply.status == 200:
            self.is_whole = True
        elif reply.status == _UNCHANGED and self.conditions:
            self.is_unchanged = True
        elif reply.status in _REDIRECTS and reply.redirect:
            if self.address == self.first:  # with a proxy, nobody here knows to what it was connected
                self.may_lead_inside = is_inner(host_of(self.first) if is_proxied() else reply.remote)
            self.follow(reply.redirect)
        else:
            words = http.client.responses.get(reply.status, "")
            self._try_again(f"{reply.status} {words}".strip(), reply.status in _PASSING_STATUSES)

    def follow(self, address: str) -> None:
        """Goes to the address of a redirect, which curl has completed. Nothing of it is printed: it may repeat a
        secret."""
        self.redirects += 1
        if not address.lower().startswith("https:"):
            self.fault = "a redirect that leads to no https: address"
        elif not _ADDRESS.fullmatch(address) or not host_of(address):
            self.fault = "a redirect that leads nowhere"
        elif self.redirects > _MOST_REDIRECTS:
            self.fault = f"more than {_MOST_REDIRECTS} redirects"
        elif self.seconds < 1:
            self.fault = f"no end, within {self.limit:g} seconds"
        else:
            self.address, self.addresses = address, []
            self.lookup = None if self.may_lead_inside else Lookup(host_of(address))

    def _try_again(self, fault: str, may_end_well: bool) -> None:
        """Begins again at the first address after a pause that grows, if there is time for it."""
        self.ready_at = time.monotonic() + self.pause * 2 ** (self.tries - 1)
        if self.seconds < 1:
            self.fault = f"{fault}, within {self.limit:g} seconds"
        elif not may_end_well or self.tries == _MOST_TRIES or self.bytes < 1:
            self.fault = fault
        if self.fault:
            return
        self.tries += 1
        self.address, self.redirects, self.addresses = self.first, 0, []


def _attempt(download: Download, step: Callable[[], bool | None]) -> bool | None:
    """What a step of a download returns. What goes wrong in it is the fault of this download alone, which is then done;
    so True is returned."""
    try:
        return step()
    except Interrupted:
        raise
    except Exception as error:
        download.fault, download.has_failed = fault_of(error), isinstance(error, OSError)
        return True


def run(downloads: Iterable[Download]) -> Generator[Download, None, None]:
    """Yields each of these downloads when it is done."""
    waiting = list(downloads)
    running: dict[str, Download] = {}  # by host
    try:
        while waiting or running:
            for host in [host for host, download in running.items() if _attempt(download, download.has_ended)]:
                waiting.append(running.pop(host))
            for download in [each for each in waiting if _attempt(each, each.is_ready)]:
                if download.is_done():
                    waiting.remove(download)
                    yield download
                elif len(running) < _MOST_HOSTS and download.host() not in running:
                    waiting.remove(download)
                    running[download.host()] = download
                    _attempt(download, download.start)
            time.sleep(0.02)
    finally:
        for download in (*running.values(), *waiting):
            download.stop()
