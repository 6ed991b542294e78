"""The folder of a desk: which pages are shown, what stays of earlier ones, and what is said if none can be written. The
pages are those of a stand-in."""
from __future__ import annotations

import contextlib
import datetime
import fcntl
import io
import os
import tempfile
import time
from collections.abc import Callable
from pathlib import Path
from unittest import mock

from fixtures.cases import Case
from openlink_update.commands import desk as command
from openlink_update.desk import site_files
from openlink_update.desk import templates_in
from openlink_update.desk import writing
from openlink_update.desk.site_files import Source
from openlink_update.outcome import Failure
from openlink_update.rights.limits import Limits
from openlink_update.rights.sandbox import Sandbox
from openlink_update.site.front_door import Site
from openlink_update.versions.library import Library

STAMP = "20261122T000000Z"
NOT_WRITTEN = "the desk was not written: "


class FolderCase(Case):
    def setUp(self) -> None:
        room = tempfile.TemporaryDirectory()
        self.addCleanup(room.cleanup)
        self.top = Path(room.name)
        self.folder, self.site = self.top / "desk", self.top / "openlink.conf"
        self.site.write_text(f"access_log {self.top}/logs/openlink.log openlink;\n", encoding="utf-8")
        self.sources: list[Source] = []
        self.has_templates, self.fault = True, list[Exception]()
        for module, name, by in (
            (templates_in, "are_there", lambda: self.has_templates),
            (site_files, "write", self.made),
            (command, "sandbox_of", lambda *_: Sandbox(None, Limits())),
        ):
            patch = mock.patch.object(module, name, by)
            patch.start()
            self.addCleanup(patch.stop)

    def made(self, folder: Path, source: Source) -> None:
        self.sources.append(source)
        (folder / "index.html").write_text(str(len(self.sources)), encoding="utf-8")
        if self.fault:
            raise self.fault.pop()

    def said(self, call: Callable[[], object]) -> tuple[object, str]:
        printed = io.StringIO()
        with contextlib.redirect_stdout(printed), contextlib.redirect_stderr(printed):
            found = call()
        return found, printed.getvalue().replace(str(self.top), "TOP")

    def write(self) -> tuple[object, str]:
        library, user = Library(self.top), Sandbox(None, Limits())
        return self.said(lambda: writing.write(library, Site(self.site), user, "openlink"))

    def shown(self) -> str:
        return (self.folder / "current/index.html").read_text(encoding="utf-8")


class Folder(FolderCase):
    def test_what_is_shown(self) -> None:
        """The newest, and the one before stays. What a killed run has left is removed."""
        for number in range(1, 4):
            (self.folder / "20261101T000000Z.new").mkdir(parents=True)
            (self.folder / "current.new").symlink_to("nowhere")
            (self.folder / "file.new").write_text("", encoding="utf-8")
            self.expect(f"desk {number}", (self.write(), self.shown()), ((True, ""), str(number)))
        names = sorted(os.listdir(self.folder))
        stamps = [name for name in names if name not in ("current", "lock")]
        self.expect("what is left", (len(stamps), len(names)), (2, 4))
        self.expect("the link", os.readlink(self.folder / "current"), stamps[-1])
        self.expect("what the next is made of", self.sources[-1].before, self.folder / "current/state")

    def test_what_it_is_made_of(self) -> None:
        """The version in use with its own targets.json, or that of the site; the logs of the site."""
        wanted = self.top / "wanted/openlink.log"
        with open(self.site, "a", encoding="utf-8") as site:
            site.write(f"access_log {wanted} openlink_wanted if=$openlink_wanted;\n")
        self.write()
        self.expect("no version", (self.sources[-1].version, self.sources[-1].targets), (None, None))
        self.expect(
            "logs",
            [(it.path, names) for it, names in self.sources[-1].folders],
            [(self.top / "logs", ["openlink.log"]), (wanted.parent, ["openlink.log"])],
        )
        version = self.top / "versions" / STAMP
        version.mkdir(parents=True)
        (self.top / "current").symlink_to(f"versions/{STAMP}")
        self.site.write_text("js_preload_object targets from /srv/targets.json;\n", encoding="utf-8")
        self.write()
        self.expect(
            "a version", (self.sources[-1].version, self.sources[-1].targets), (version, Path("/srv/targets.json"))
        )
        (version / "targets.json").write_text("{}", encoding="utf-8")
        self.write()
        self.expect("with its own labels", self.sources[-1].targets, version / "targets.json")

    def test_time(self) -> None:
        """That of the clock, whatever the time zone is."""
        self.addCleanup(time.tzset)
        with mock.patch.dict(os.environ, TZ="XXX-9"):
            time.tzset()
            first = datetime.datetime.now(datetime.timezone.utc)
            self.write()
            last = datetime.datetime.now(datetime.timezone.utc)
        self.expect("between both", first <= self.sources[-1].now <= last)

    def test_what_fails(self) -> None:
        """The desk before is shown, and nothing of the new one is left."""
        self.write()
        names = sorted(os.listdir(self.folder))
        for fault, line in (
            (Failure("no end within 45 minutes, so it was ended"), "no end within 45 minutes, so it was ended"),
            (OSError(28, "No space left on device", "/x/week.html"), "/x/week.html: No space left on device"),
            (OSError(28, "No space left on device"), "TOP/desk: No space left on device"),
            (KeyError("week"), "KeyError: 'week'"),
        ):
            self.fault = [fault]
            self.expect(line, self.write(), (False, f"{NOT_WRITTEN}{line}\n"))
            self.expect("what is left", (self.shown(), sorted(os.listdir(self.folder))), ("1", names))

    def test_without_templates(self) -> None:
        """It is said once, and again if they were there meanwhile."""
        line = f"{NOT_WRITTEN}it needs python3-jinja2\n"
        for has_them, wanted in (
            (False, (False, line)),
            (False, (False, "")),
            (True, (True, "")),
            (False, (False, line)),
        ):
            self.has_templates = has_them
            self.expect(f"{has_them}", self.write(), wanted)

    def test_another_process(self) -> None:
        """It writes the desk, so this one need not."""
        self.folder.mkdir()
        with open(self.folder / "lock", "a", encoding="ascii") as lock:
            fcntl.flock(lock, fcntl.LOCK_EX)
            self.expect("meanwhile", (self.write(), self.sources), ((True, ""), []))


class Command(FolderCase):
    """openlink-desk."""

    def written(self, *words: str) -> tuple[tuple[object, str], list[str]]:
        """The status and what is said; and the libraries whose desks were written."""
        before = {path: path.stat().st_mtime_ns for path in self.top.rglob("desk/*/index.html")}
        found = self.said(lambda: command.main(["--library", str(self.top), "--site", str(self.site), *words]))
        new = [it for it in self.top.rglob("desk/*/index.html") if it not in before and not it.parent.is_symlink()]
        return found, sorted(str(path.relative_to(self.top).parent.parent.parent) for path in new)

    def setUp(self) -> None:
        super().setUp()
        for name in ("north", "west"):
            (self.top / name).mkdir()
            (self.top / name / "site.conf").write_text("", encoding="utf-8")

    def test_libraries(self) -> None:
        self.expect("one alone", self.written(), ((0, ""), ["."]))
        self.expect("one of several", self.written("west"), ((0, ""), ["west"]))
        self.expect("once, however often it is named", self.written("west", "west"), ((0, ""), ["west"]))
        self.expect("all of several", self.written("--all"), ((0, ""), ["north", "west"]))
        (self.top / "input").mkdir()
        self.expect("with one alone", self.written("--all"), ((0, ""), [".", "north", "west"]))
        text = "openlink-desk: TOP/east: no such library: openlink-library list\n"
        self.expect("an unknown one", self.written("west", "east"), ((2, text), []))

    def test_faults(self) -> None:
        """The desks of the others are written."""
        self.fault = [KeyError("week")]
        found = self.written("north", "west")
        self.expect("one fails", found, ((4, f"{NOT_WRITTEN}KeyError: 'week'\n"), ["west"]))
        for fault, line in (
            (OSError(13, "Permission denied", "/x"), "openlink-desk: /x: Permission denied\n"),
            (Failure("no user is free"), "openlink-desk: no user is free\n"),
        ):
            with mock.patch.object(command, "sandbox_of", side_effect=fault):
                self.expect(line, self.written("north"), ((4, line), []))
