"""Requests whose targets are known, as the file probes.tsv lists them, each with what the front door must show. The
work of openlink-probe."""
import dataclasses
import http.client
import json
import re
import sys
import time
from collections.abc import Iterator
from pathlib import Path
from urllib.parse import unquote, urlsplit

from openlink_update.input_files import lines_in
from openlink_update.shown_text import report

_SECONDS = 10  # for a reply
_REFUSED = (400, 413, 414)
_TOO_MANY = 429  # more than one address may send at a time
_PAUSE, _TRIES = 0.5, 60  # seconds before it is sent again, and how often
_MARK = "rfr_id=info:sid/openlink:probe"
_SOURCES = ("sid", "rfr_id")
_NAME = re.compile(r"[A-Za-z0-9_.-]{1,64}")
_PART = re.compile(r"(?<=.)\.(?:[2-9]|[1-9]\d{1,2})$", re.A)  # after the name of a target: a part of its table
_FRONT_DOOR, _REPORTS = "http://127.0.0.1", "http://127.0.0.1:8079"
_USAGE = "usage: openlink-probe PROBES [FRONT_DOOR [REPORTS]], addresses as http://HOST:PORT"


class Unreachable(Exception):
    """The front door gives no reply, or one that is not of its pages."""


@dataclasses.dataclass(frozen=True)
class Probe:
    number: int  # of its line
    query: str
    targets: tuple[str, ...]  # that the page must show


def read(data: bytes) -> list[Probe]:
    """The probes in a file with these bytes. A ValueError says which line is wrong."""
    probes = []
    for line in lines_in(data, "latin-1"):  # queries have any bytes
        query, *cells = line.cells
        names = " ".join(cells).split()
        if not names or not all(_NAME.fullmatch(name) for name in names):
            raise ValueError(f"line {line.number} is not a query, a tab, and names of targets or none")
        if "none" in names and len(names) > 1:
            raise ValueError(f"line {line.number} has none together with names of targets")
        probes.append(Probe(line.number, _escaped(query), () if names == ["none"] else tuple(names)))
    if not probes:
        raise ValueError("no probe")
    return probes


def _escaped(query: str) -> str:
    """The query as a browser sends it: bytes that no address may have are escaped."""
    return "".join(char if "!" <= char <= "~" and char != "#" else f"%{ord(char):02X}" for char in query)


def marked(query: str) -> str:
    """The query with the source of probes, unless it names one."""
    keys = [unquote(pair.partition("=")[0]).strip().lower() for pair in re.split("[&;?]", query)]
    return query if any(key in _SOURCES for key in keys) else f"{query}&{_MARK}"


def _get(address: str, target: str) -> tuple[int, str]:
    """The status and the text that an address gives for a path with a query; it waits while too many came."""
    for _ in range(_TRIES):
        status, text = _get_now(address, target)
        if status != _TOO_MANY:
            break
        time.sleep(_PAUSE)
    return status, text


def _get_now(address: str, target: str) -> tuple[int, str]:
    parts = urlsplit(address)
    kind = http.client.HTTPSConnection if parts.scheme == "https" else http.client.HTTPConnection
    peer = kind(parts.hostname or "", parts.port, timeout=_SECONDS)
    try:
        peer.request("GET", target, headers={"Accept-Language": "*"})
        reply = peer.getresponse()
        return reply.status, reply.read().decode("utf-8", "replace")
    except (OSError, http.client.HTTPException) as fault:
        raise Unreachable(f"{address}: {fault or type(fault).__name__}") from fault
    finally:
        peer.close()


def links(front_door: str, query: str) -> dict[str, str] | None:
    """The address of each link of the page by its target, in their order, or None if the front door refuses the
    query."""
    status, text = _get(front_door, f"/find.json?{marked(query)}")
    if status in _REFUSED:
        return None
    if status != 200:
        raise Unreachable(f"{front_door}: status {status} for /find.json?{query}")
    try:
        return {link["target"]: link["url"] for group in json.loads(text)["groups"] for link in group["links"]}
    except (ValueError, KeyError, TypeError) as fault:
        raise Unreachable(f"{front_door}: /find.json gives no JSON of the front door") from fault


def _reasons(reports: str, query: str) -> tuple[dict[str, str], str]:
    """The reason of each target's link or lack of one, and what stands in its place for a target without."""
    try:
        status, text = _get(reports, f"/report.txt?{marked(query)}")
    except Unreachable as fault:
        return {}, f"no report: {fault}"
    if status != 200:
        return {}, f"no report: {reports}: status {status}"
    of_parts: dict[str, list[str]] = {}
    for part, reason in (line.split("\t", 1) for line in text.split("\n") if "\t" in line):
        of_parts.setdefault(_PART.sub("", part), []).append(reason)
    return {name: min(reasons, key=_rank_of) for name, reasons in of_parts.items()}, "not in the registry"


def _rank_of(reason: str) -> int:
    """Which reason of the parts of a table counts: the link, or else one of a row."""
    return 0 if reason.startswith("link ") else 2 if reason == "no row" else 1


def differences(front_door: str, reports: str, probe: Probe) -> list[str]:
    """Lines that say which targets are missing or too many, and why."""
    return differences_of(links(front_door, probe.query), reports, probe)


def differences_of(menu: dict[str, str] | None, reports: str, probe: Probe) -> list[str]:
    """The same, of the links that a probe has; None if the front door refuses it."""
    if menu is None:
        return ["  the front door refuses the query"]
    missing = [name for name in probe.targets if name not in menu]
    more = [name for name in menu if name not in probe.targets]
    if not missing and not more:
        return []
    reasons, otherwise = _reasons(reports, probe.query)
    lines = []
    for name in missing:
        reason = reasons.get(name, otherwise)
        hidden = " but not shown: onlyWithout in targets.json hides its group" if reason.startswith("link ") else ""
        lines.append(f"  missing {name}: {reason}{hidden}")
    return lines + [f"  too many {name}: {reasons.get(name, otherwise)}" for name in more]


def _is_address(text: str) -> bool:
    try:
        parts = urlsplit(text)
        has_host = parts.scheme in ("http", "https") and bool(parts.hostname)
        return has_host and parts.path in ("", "/") and parts.port != 0
    except ValueError:
        return False


def main(words: list[str] | None = None) -> int:
    words = sys.argv[1:] if words is None else words
    if not 1 <= len(words) <= 3 or words[0].startswith("-") or not all(map(_is_address, words[1:])):
        report(_USAGE, "stderr")
        return 2
    path, front_door, reports = words + [_FRONT_DOOR, _REPORTS][len(words) - 1 :]
    try:
        probes = read(Path(path).read_bytes())
    except (OSError, ValueError) as fault:
        report(f"openlink-probe: {path}: {getattr(fault, 'strerror', None) or fault}", "stderr")
        return 3
    count = 0
    try:
        for probe, lines in _differing(front_door, reports, probes):
            count += 1
            report("\n".join([f"{path}:{probe.number}: {probe.query}", *lines]))
    except Unreachable as fault:
        report(f"openlink-probe: {fault}", "stderr")
        return 4
    if count > 0:
        report(f"{count} of {len(probes)} probes differ")
    return 1 if count > 0 else 0


def _differing(front_door: str, reports: str, probes: list[Probe]) -> Iterator[tuple[Probe, list[str]]]:
    """Yields each probe that does not hold, with lines that say why."""
    for probe in probes:
        lines = differences(front_door, reports, probe)
        if lines:
            yield probe, lines
