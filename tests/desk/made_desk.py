"""A library with a version, records of runs and logs, all made by hand, and its desk."""
from __future__ import annotations

import dataclasses
import datetime
import gzip
import html.parser
import json
import os
import shutil
import tempfile
from pathlib import Path

from fixtures.fetch_input import MEMORY
from openlink_update.desk import logs
from openlink_update.desk import site_files
from openlink_update.run_notes import ProbeResult
from openlink_update.run_notes import TargetState
from openlink_update.run_records import RunRecord

NOW = datetime.datetime(2026, 11, 29, 5, 30, tzinfo=datetime.timezone.utc)
RULES = "rule\nwhen given rft.isssn\nwhen given rft.issn\nlink https://press.example.com/{rft.issn}\n"
TABLE = "publication_title\tprint_identifier\n"
LINE = "{month}-03T10:00:00+01:00 200 GET /find 0.01 found={found} targets={targets} from={source}\n"
# A program in place of openlink: its `lint` prints a line, and is noted.
PROGRAM = """#!/bin/sh
echo "$@" >>"$OPENLINK_NOTES"
echo 'rule 1, guard 1: unknown name rft.isssn, did you mean rft.issn'
echo 'rules 1'
exit 1
"""
# What a stranger would write into a page, a cell, a shell or a terminal.
HOSTILE = (
    "<script>alert(1)</script>", "\"><img src=x onerror=alert(1)>", "' onmouseover='x", "</pre></td></table><h1>x",
    "{{ 7 * 7 }}{% include 'base.html' %}", "\x1b[31m\x07\x00\x85", "\u202eevil\u2066\u200f", "=1+1", "&lt;&amp;",
    "a\tb\rc", "x" * 10_000, "\U0001f600" * 3000,
)  # fmt: skip
_BAD = [
    chr(it)
    for it in (
        *range(9),
        *range(11, 32),
        *range(0x7F, 0xA0),
        0x61C,
        0x200E,
        0x200F,
        *range(0x2028, 0x202F),
        *range(0x2066, 0x206A),
    )
]


def record(status: int = 0, begun: str = "20261128T040000Z", **members: object) -> RunRecord:
    return dataclasses.replace(RunRecord("update", begun, begun, 61.4, status, "20261128T040000Z"), **members)


class MadeDesk:
    """The folders, as long as the block lasts."""

    def __init__(self) -> None:
        self.top = Path(tempfile.mkdtemp(prefix="desk.", dir=MEMORY))
        self.top.chmod(0o755)
        self.version, self.logs, self.out = self.top / "version", self.top / "logs", self.top / "out"
        self.records: list[RunRecord] = []
        self.program, self.notes = self.top / "openlink", self.top / "notes"
        self.program.write_text(PROGRAM)
        self.program.chmod(0o755)
        self.notes.touch()
        os.environ["OPENLINK_NOTES"] = str(self.notes)
        for folder in (self.logs, *(self.version / it for it in ("tables", "received", "changes", "dropped", "code"))):
            folder.mkdir(parents=True)
        (self.version / "registry.tsv").touch()
        self.before = self.top / "none"

    def __enter__(self) -> MadeDesk:
        return self

    def __exit__(self, *_: object) -> None:
        shutil.rmtree(self.top)

    def add_target(self, name: str, rows: int = 3, rules: str | None = RULES) -> None:
        with open(self.version / "registry.tsv", "a", encoding="utf-8") as file:
            file.write(f"{name}\tcode/{name}.olk\ttables/{name}.txt\n")
        (self.version / f"tables/{name}.txt").write_text(TABLE + "Annals\t2901-0012\n" * rows)
        (self.version / f"code/{name}.olk").touch()
        if rules is not None:
            (self.version / f"received/{name}.rules").write_text(rules, encoding="utf-8")

    def write(self, name: str, text: str) -> None:
        """A file of the version."""
        (self.version / name).write_text(text, encoding="utf-8", errors="surrogateescape")

    def log(self, name: str, lines: list[str], day: int = 0) -> None:
        """A log, which was last written on this day."""
        path, data = self.logs / name, "".join(lines).encode()
        path.write_bytes(gzip.compress(data) if name.endswith(".gz") else data)
        os.utime(path, (1_700_000_000 + day * 86_400,) * 2)

    def make(
        self, languages: list[str] | None = None, library: str = "Library", has_version: bool = True
    ) -> dict[str, str]:
        """The files of a desk, by their names; the next one goes on from it."""
        shutil.rmtree(self.out, ignore_errors=True)
        self.out.mkdir()
        targets = self.top / "targets.json"
        targets.write_text(json.dumps({"languages": languages or ["en"], "words": {"library": library}}))
        paths = [self.logs / it for it in ("openlink.log", "openlink-wanted.log")]
        folders = [(folder, names) for folder, names in logs.folders_of(paths)]
        version = self.version if has_version else None
        source = site_files.Source(version, self.before, self.records, folders, targets, str(self.program), NOW)
        site_files.write(self.out, source)
        found = {it.name: it.read_text("utf-8") for it in self.out.iterdir() if it.is_file()}
        self.before = self.top / "before"
        shutil.rmtree(self.before, ignore_errors=True)
        shutil.copytree(self.out / "state", self.before)
        return found


class Page(html.parser.HTMLParser):
    """What a browser reads of a page: its elements, their attributes, its links and its text."""

    VOID = ("meta", "link", "br", "img", "input")

    def __init__(self, text: str) -> None:
        super().__init__(convert_charrefs=True)
        self.elements: list[str] = []
        self.attributes: set[str] = set()
        self.links: list[str] = []
        self.ids: list[str] = []
        self.texts: list[str] = []
        self.faults: list[str] = []
        self._open: list[str] = []
        self.feed(text)
        self.close()
        self.faults += [f"{it} stays open" for it in self._open]
        self.faults += [f"the character {it!r}" for it in _BAD if it in text]

    @property
    def text(self) -> str:
        return "".join(self.texts)

    def handle_starttag(self, tag: str, attrs: list[tuple[str, str | None]]) -> None:
        self.elements.append(tag)
        self.attributes.update(name for name, _ in attrs)
        values = dict(attrs)
        self.links += [values[name] or "" for name in ("href", "src", "action") if name in values]
        self.ids += [values["id"] or ""] if "id" in values else []
        if tag not in self.VOID:
            self._open.append(tag)

    def handle_startendtag(self, tag: str, attrs: list[tuple[str, str | None]]) -> None:
        self.handle_starttag(tag, attrs)
        if tag not in self.VOID:
            self._open.pop()

    def handle_endtag(self, tag: str) -> None:
        if not self._open or self._open.pop() != tag:
            self.faults.append(f"</{tag}> closes another element")

    def handle_data(self, data: str) -> None:
        self.texts.append(data)


def hostile_state(name: str, state: str = "kept") -> TargetState:
    return TargetState(name, state, 1, 2, 3, HOSTILE)


def hostile_probe(target: str) -> ProbeResult:
    return ProbeResult(7, HOSTILE[0] + HOSTILE[1], f"{target} {HOSTILE[2]}", False)
