"""How a desk gets into its place: all of it at once, by a user without rights; and what fails leaves the one before."""
from __future__ import annotations

import contextlib
import fcntl
import io
import os
import shutil
import signal
import stat
import subprocess
import threading
from pathlib import Path
from unittest import mock

from desk.made_desk import LINE
from fixtures import INTERPRETER
from fixtures import TOP
from fixtures import forked_runs
from fixtures import needs
from fixtures.cases import Case
from fixtures.fetch_input import TABLE
from fixtures.fetch_input import ended
from fixtures.modes import modes_below
from fixtures.program import PATH
from fixtures.updates import Library
from openlink_update.desk import site_files
from openlink_update.desk import templates_in
from openlink_update.desk import writing
from openlink_update.machines.libraries import Libraries
from openlink_update.machines.libraries import is_name
from openlink_update.rights.limits import Limits
from openlink_update.rights.sandbox import Sandbox
from openlink_update.site.front_door import Site
from openlink_update.versions import library as libraries

KILLED = f"{TOP}/tests/fixtures/killed.py"
WITH_PACKAGES = (INTERPRETER, "-B")


class Desk(Library):
    """A library with a site that names a log."""

    def __init__(self) -> None:
        super().__init__()
        self.logs = Path(self.top, "logs")
        self.logs.mkdir()
        self.logs.chmod(0o700)
        self.site = Path(self.top, "site.conf")
        self.site.write_text(f"access_log {self.logs}/openlink.log openlink;\n")
        log = self.logs / "openlink.log"
        log.write_text(LINE.format(month="2026-11", found="1/2", targets="press", source="WOS") * 3)
        log.chmod(0o600)
        self.write("press.txt", TABLE)
        self.targets = {"press": ("press.txt", "")}
        self.write_targets()

    def desk(self, *words: str, before: tuple[str, ...] = (), is_command: bool = False) -> tuple[int | None, str]:
        """The status of openlink-desk, and what it prints: of a forked run, by a script that comes before its own, or
        of the command."""
        options = ["--library", self.library, "--site", str(self.site), "--program", PATH]
        command = [*before, "update/desk", *options, *words]
        if not is_command:
            return ended(forked_runs.begin(command, python=WITH_PACKAGES))
        done = subprocess.run([*WITH_PACKAGES, *command], capture_output=True, text=True, check=False)
        return done.returncode, done.stdout + done.stderr

    def shown(self, name: str) -> str | None:
        """A file of the desk that is shown."""
        try:
            return Path(self.library, "desk/current", name).read_text("utf-8")
        except FileNotFoundError:
            return None

    def names(self) -> list[str]:
        """What is in the folder of the desk, beside the desks."""
        return sorted(it for it in os.listdir(f"{self.library}/desk") if not it[:4].isdigit())


@needs.program()
@needs.module_of_interpreter("jinja2", "python3-jinja2")
class Writing(Case):
    def test_desk_of_an_update(self) -> None:
        with Desk() as desk:
            self.expect(
                "before the first update",
                (desk.desk(is_command=True)[0], "No version is in use" in (desk.shown("index.html") or "")),
                (0, True),
            )
            self.expect("the update", desk.update()[0], 0)
            self.expect("the desk", desk.desk(), (0, ""))
            week = desk.shown("week.en.html") or ""
            self.expect("its target", ('id="t-press"' in week, ">new<" in week), (True, True))
            self.expect("its counts", "2026-11\trequests\t\t3" in (desk.shown("year.tsv") or ""), True)
            for _ in range(3):
                desk.desk()
            self.expect(
                "two are kept", (desk.names(), len(os.listdir(f"{desk.library}/desk"))), (["current", "lock"], 4)
            )
            modes = {
                path.stat().st_mode & 0o777 for path in Path(desk.library, "desk/current").iterdir() if path.is_file()
            }
            self.expect("modes", modes, {0o644})

    def test_modes(self) -> None:
        """nginx reads the pages as another user, whatever the umask."""
        with Desk() as desk:
            umask = os.umask(0o077)
            try:
                self.expect("the desk", desk.desk(), (0, ""))
            finally:
                os.umask(umask)
            self.expect("folders, and files", modes_below(f"{desk.library}/desk"), ({0o755}, {0o644}))

    @needs.root()
    def test_rights(self) -> None:
        """Root lends the log, which nobody else may read, and takes over files that another user has written."""
        with Desk() as desk:
            desk.update()
            self.expect("the desk", desk.desk(), (0, ""))
            owners = {path.stat().st_uid for path in Path(desk.library, "desk/current/").rglob("*")}
            self.expect("owners", owners, {0})
            program = Path(desk.top, "program")
            program.write_text(
                '#!/bin/sh\nid -u >"${0%/*}/desk/who"\n/usr/bin/python3 -c "import socket; socket.socket()" '
                '2>/dev/null && echo network >>"${0%/*}/desk/who"\nexit 3\n'
            )
            program.chmod(0o755)
            Path(desk.library, "desk/who").touch(0o666)
            Path(desk.library, "desk/who").chmod(0o666)
            for path in Path(desk.library, "desk/current/state").iterdir():
                path.write_text("") if path.name == "lint.tsv" else None
            desk.desk("--program", str(program))
            who = Path(desk.library, "desk/who").read_text()
            user = int(who.split()[0] if who else 0)
            self.expect("no network", "network" in who, False)
            self.expect("who runs lint", 61184 <= user < 65520, True)
            Path(desk.library, "desk/who").unlink()

    def test_readers_see_one_desk(self) -> None:
        """While desks are written, each file of the one that is shown is whole."""
        with Desk() as desk:
            desk.update()
            desk.desk()
            faults: list[str] = []
            reads = [0]
            is_over = threading.Event()

            def look() -> None:
                while not is_over.is_set():
                    for name in ("index.html", "week.en.html", "year.tsv", "desk.css", "state/months.tsv"):
                        text = desk.shown(name)
                        reads[0] += 1
                        if text is None or name.endswith(".html") and not text.endswith("</html>\n"):
                            faults.append(name)

            thread = threading.Thread(target=look)
            thread.start()
            for _ in range(3):
                desk.desk()
            is_over.set()
            thread.join()
            self.expect("reads", reads[0] > 10, True)
            self.expect("faults", faults, [])

    def test_what_fails_leaves_the_one_before(self) -> None:
        with Desk() as desk:
            desk.update()
            desk.desk()
            before = os.readlink(f"{desk.library}/desk/current")
            current = os.readlink(f"{desk.library}/current")
            os.rename(f"{desk.library}/{current}/registry.tsv", f"{desk.library}/{current}/registry")
            status, printed = desk.desk()
            self.expect("a damaged version", (status, "the desk was not written: " in printed), (4, True))
            self.expect(
                "it shows", (os.readlink(f"{desk.library}/desk/current"), desk.names()), (before, ["current", "lock"])
            )
            status, printed = desk.update("--walls")
            self.expect("an update says so, and ends as it did", "Traceback" in printed, False)
            os.rename(f"{desk.library}/{current}/registry", f"{desk.library}/{current}/registry.tsv")
            os.mkdir(f"{desk.library}/desk/20260101T000000Z.new")
            os.symlink("x", f"{desk.library}/desk/current.new")
            self.expect("after a run that was killed", (desk.desk()[0], desk.names()), (0, ["current", "lock"]))
            os.unlink(f"{desk.library}/desk/lock")
            os.mkdir(f"{desk.library}/desk/lock")
            self.expect("no lock", (desk.desk()[0], "Is a directory" in desk.desk()[1]), (4, True))

    def test_killed_at_renames(self) -> None:
        """SIGKILL directly before and after each rename and link of a desk: one that is whole is shown, and the next
        run puts the rest right."""
        with Desk() as desk:
            self.expect("the update", desk.update()[0], 0)
            self.expect("the first desk", desk.desk(), (0, ""))
            first, number = os.readlink(f"{desk.library}/desk/current"), 0
            moments = Path(desk.top, "moments")
            while not moments.exists():
                status = desk.desk(before=(KILLED, str(number), str(moments)))[0]
                text, stamp = desk.shown("index.html") or "", os.readlink(f"{desk.library}/desk/current")
                expected = (0 if moments.exists() else -signal.SIGKILL, True, number < 5)
                found = (status, text.endswith("</html>\n"), stamp == first)
                self.expect(f"killed at moment {number}: {stamp}", found, expected)
                self.expect(f"then {number}", (desk.desk(), desk.names()), ((0, ""), ["current", "lock"]))
                first, number = os.readlink(f"{desk.library}/desk/current"), number + 1
            self.expect("moments", (moments.read_text("ascii"), number), ("6", 7))

    def test_bug(self) -> None:
        """An error that nobody expects is said, and ends neither the desk's command nor an update."""
        with Desk() as desk, mock.patch.object(site_files, "write", side_effect=ZeroDivisionError("by hand")):
            library, output = libraries.Library(desk.library), io.StringIO()
            with mock.patch.object(templates_in, "are_there", return_value=True), contextlib.redirect_stdout(output):
                is_written = writing.write(library, Site(desk.site), Sandbox(None, Limits()), PATH)
            self.expect(
                "the desk",
                (is_written, output.getvalue()),
                (False, "the desk was not written: ZeroDivisionError: by hand\n"),
            )
            self.expect("nothing is left", desk.names(), ["lock"])

    def test_one_at_a_time(self) -> None:
        with Desk() as desk:
            desk.update()
            desk.desk()
            before = os.readlink(f"{desk.library}/desk/current")
            with open(f"{desk.library}/desk/lock", "a") as lock:
                fcntl.flock(lock, fcntl.LOCK_EX)
                self.expect("while another writes", desk.desk(), (0, ""))
                self.expect("it shows", os.readlink(f"{desk.library}/desk/current"), before)

    def test_without_jinja(self) -> None:
        """It is said once, and the update does everything else."""
        with Desk() as desk:
            line = "the desk was not written: it needs python3-jinja2"
            runs = [desk.update("--site", str(desk.site)) for _ in range(2)]
            self.expect("the updates", [(status, line in printed) for status, printed in runs], [(0, True), (0, False)])
            self.expect("the version", desk.served("registry.tsv") is not None, True)
            self.expect("with it", (desk.desk()[0], desk.names()), (0, ["current", "lock"]))
            self.expect("and without it again", line in desk.update()[1], True)

    def test_arguments(self) -> None:
        with Desk() as desk:
            self.expect("an unknown library", desk.desk("none")[0], 2)
            self.expect("an unknown option", desk.desk("--none")[0], 2)
            self.expect(
                "all, of a machine with one", (desk.desk("--all"), desk.names()), ((0, ""), ["current", "lock"])
            )

    def test_library_of_this_name(self) -> None:
        """One that an earlier release has made beside the library of openlink.conf keeps all that it has."""
        with Desk() as desk:
            desk.update()
            for name in ("desk", "runs"):
                shutil.rmtree(Path(desk.library, name))
                Path(desk.library, name).mkdir()
                Path(desk.library, name, "site.conf").touch()
                os.symlink("versions/20260101T000000Z", Path(desk.library, name, "current"))
            status, printed = desk.desk()
            self.expect("the desk", (status, f"{desk.library}/desk is a library" in printed), (4, True))
            self.expect("what it has", sorted(os.listdir(f"{desk.library}/desk")), ["current", "site.conf"])
            self.expect("its version", os.readlink(f"{desk.library}/desk/current"), "versions/20260101T000000Z")
            self.expect("it is known", Libraries(desk.library, desk.site).names(), ["desk", "runs"])
        self.expect(
            "no new library has such a name", [is_name(it) for it in ("desk", "runs", "desks")], [False, False, True]
        )

    def test_several_libraries(self) -> None:
        """Each reads its own log and its own version alone."""
        with Desk() as desk:
            for name, count in (("law", 5), ("music", 7)):
                folder = Path(desk.library, name)
                folder.mkdir()
                (folder / "site.conf").write_text(f"access_log {desk.logs}/openlink.{name}.log openlink;\n")
                text = LINE.format(month="2026-10", found="1/2", targets=name, source=name)
                (desk.logs / f"openlink.{name}.log").write_text(text * count)
            self.expect("all", desk.desk("--all")[0], 0)
            for name, other, count in (("law", "music", 5), ("music", "law", 7)):
                text = Path(desk.library, name, "desk/current/year.tsv").read_text("utf-8")
                self.expect(f"{name}: its own", f"2026-10\trequests\t\t{count}" in text, True)
                self.expect(f"{name}: no other", [it for it in (other, "WOS") if it in text], [])
            self.expect("that of openlink.conf", "law" in (desk.shown("year.tsv") or ""), False)
            self.expect("its own too", "2026-11\trequests\t\t3" in (desk.shown("year.tsv") or ""), True)
            mode = stat.S_IMODE(os.stat(f"{desk.library}/law/desk").st_mode)
            self.expect("nginx may read it", mode & 0o005, 0o005)
