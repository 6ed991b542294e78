"""An input whose lists and files are hostile, as those that staff of one library of several may write: it reaches
nothing beyond itself, and the other library of the machine is updated. What it names is a line in its own report."""
from __future__ import annotations

import http.server
import os
import shutil
import stat
import subprocess
import tempfile
import threading
from pathlib import Path

from fixtures import PYTHON
from fixtures import needs
from fixtures.cases import Case
from fixtures.patience import patience
from fixtures.program import PATH as PROGRAM
from fixtures.weeks import SAMPLE
from fixtures.weeks import tables

SECRET = "BOOKHOUSE\tc0ffee-of-west\n"
RULES, TABLE = Path(SAMPLE, "coastal-law.rules"), Path(tables()["coastal-law"])
FETCHED = TABLE.read_bytes()


class Provider(http.server.BaseHTTPRequestHandler):
    """Replies with a table to each request."""

    def do_GET(self) -> None:
        self.send_response(200)
        self.send_header("Content-Length", str(len(FETCHED)))
        self.end_headers()
        self.wfile.write(FETCHED)

    def log_message(self, *_: object) -> None:
        pass


class Machine(Case):
    """One with the libraries east and west, without processes and nginx."""

    def setUp(self) -> None:
        place = tempfile.TemporaryDirectory()
        self.addCleanup(place.cleanup)
        os.chmod(place.name, 0o755)
        self.top = Path(place.name, "openlink")
        self.east, self.west = (self.library(name) for name in ("east", "west"))
        self.secrets = self.write(self.west / "secrets.tsv", SECRET, 0o600)

    def library(self, name: str) -> Path:
        """The input of a library with one target."""
        folder = self.top / name / "input"
        folder.mkdir(parents=True)
        self.write(folder.parent / "site.conf")
        shutil.copy(RULES, folder / "law.rules")
        shutil.copy(TABLE, folder / "law.txt")
        self.write(folder / "targets.tsv", "law\tlaw.rules\tlaw.txt\n")
        return folder

    def write(self, path: Path, text: str = "", mode: int = 0o644) -> Path:
        path.parent.mkdir(parents=True, exist_ok=True)
        path.write_text(text)
        path.chmod(mode)
        return path

    def run_of(self, command: str, *words: str | Path) -> tuple[int, list[str]]:
        """The status of a command, and the lines that it prints. It has to end."""
        words = (*PYTHON, f"update/{command}", *words)
        done = subprocess.run(words, capture_output=True, text=True, timeout=patience(60))
        return done.returncode, (done.stdout + done.stderr).splitlines()

    def update(self, name: str = "--all") -> tuple[int, list[str]]:
        """That of all libraries, or of one."""
        words = ("--library", self.top, "--site", self.top / "openlink.conf", "--program", PROGRAM)
        return self.run_of("update", *words, "--reload", "true", name)

    def lines_after(self, lines: list[str], first: str) -> set[str]:
        """The lines that belong to this one."""
        rest = lines[lines.index(first) + 1 :] if first in lines else []
        end = next((number for number, line in enumerate(rest) if not line.startswith("  ")), len(rest))
        return {line.strip() for line in rest[:end]}

    def below(self, folder: Path) -> bytes:
        """All bytes below a folder."""
        paths = [path for path in folder.rglob("*") if stat.S_ISREG(path.lstat().st_mode)]
        return b"".join(path.read_bytes() for path in paths)

    def is_served(self, library: Path) -> bool:
        return (library.parent / "current/tables/law.txt").is_file()


@needs.program()
class Updates(Machine):
    def test_files_that_no_target_may_have(self) -> None:
        """Each target of east names what it may not: it is left out with a line, and nothing else is."""
        outside = f"outside of the input: copy it into {self.east}, or as root name its folder in {self.east}.folders"
        (self.east / "link.txt").symlink_to(self.secrets)
        (self.east / "zero.txt").symlink_to("/dev/zero")
        (self.east / "tables").symlink_to(self.west)
        (self.east / "folder.txt").mkdir()
        for pipe in (self.east / "pipe.txt", self.write(self.top / "shared/file").parent / "pipe.txt"):
            os.mkfifo(pipe)
        (self.top / "shared/zero.txt").symlink_to("/dev/zero")
        with (self.east / "large.txt").open("wb") as file:
            file.truncate(256 * 2**20 + 1)
        self.write(self.east / "private.txt", "private", 0o000)
        link = "is a link, and none is followed: put what it leads to in its place"
        wrong = {
            "whole-path": (f"{self.secrets}", f"{self.secrets}: {outside}"),
            "above": ("../../west/input/secrets.tsv", f"{self.secrets}: {outside}"),
            "pattern": ("../../west/input/*.tsv", f"{self.west}/*.tsv: {outside}"),
            "device": ("/dev/zero", f"/dev/zero: {outside}"),
            "link": ("link.txt", f"{self.east}/link.txt: link.txt {link}"),
            "link-to-device": ("zero.txt", f"{self.east}/zero.txt: zero.txt {link}"),
            "linked-folder": ("tables/secrets.tsv", f"{self.east}/tables: tables {link}"),
            "linked-pattern": ("tables/*.tsv", f"{self.east}/tables: tables {link}"),
            "folder": ("folder.txt", f"{self.east}/folder.txt: Is a directory"),
            "pipe": ("pipe.txt", f"{self.east}/pipe.txt: not a regular file"),
            "large": ("large.txt", f"{self.east}/large.txt: more than 256 MB"),
            "shared-pipe": (f"{self.top}/shared/pipe.txt", f"{self.top}/shared/pipe.txt: not a regular file"),
            "shared-link": (f"{self.top}/shared/zero.txt", f"{self.top}/shared/zero.txt: zero.txt {link}"),
            "no-name": ("a\0b.txt", f"{self.east}/a?b.txt: not a name of a file"),
        }
        if os.geteuid() != 0:
            wrong["private"] = ("private.txt", f"{self.east}/private.txt: Permission denied")
        lines = [f"{name}\tlaw.rules\tlaw.txt; {path}\tdropped up to 999\n" for name, (path, _) in wrong.items()]
        rules = f"rules\t{self.secrets}\tlaw.txt\n"
        self.write(self.east / "targets.tsv", "".join(["law\tlaw.rules\tlaw.txt\n", *lines, rules]))
        status, printed = self.update()
        self.expect(f"status, {printed}", status, 1)
        for name, reason in [
            *((name, reason) for name, (_, reason) in wrong.items()),
            ("rules", f"{self.secrets}: {outside}"),
        ]:
            got = self.lines_after(printed, f"{name}: left out, since it has no old files")
            self.expect(f"the reason of {name}", got, {reason})
        self.expect("the others are served", [self.is_served(it) for it in (self.east, self.west)], [True, True])
        self.expect("east has no secret", b"c0ffee" in self.below(self.east.parent), False)
        self.expect("nor does it print one", "c0ffee" in "\n".join(printed), False)

    def test_lists_that_are_pipes(self) -> None:
        """Nothing waits for a pipe, whichever list it is: the library after them is updated."""
        libraries = {name: self.library(name.replace(".", "-")) for name in ("targets.tsv", "probes.tsv")}
        os.mkfifo(self.east / "targets.json")
        os.mkfifo(self.east / "sources.tsv")
        for name, folder in libraries.items():
            (folder / name).unlink(missing_ok=True)
            os.mkfifo(folder / name)
        status, printed = self.update()
        self.expect(f"status: {printed}", status, 4)
        pipes = [*(folder / name for name, folder in libraries.items()), self.east / "sources.tsv"]
        for pipe in pipes:
            told = [line for line in printed if f"{pipe}: not a regular file" in line]
            self.expect(f"{pipe.name} is named", len(told), 1)
        got = self.lines_after(printed, "targets.json: the old one is kept")
        self.expect("the names of targets", got, {f"{self.east}/targets.json: not a regular file"})
        served = [self.is_served(it) for it in (*libraries.values(), self.east, self.west)]
        self.expect("versions", served, [False, False, True, True])

    def test_names_of_a_library(self) -> None:
        """A targets.json of 20 MB, which each page would need: it is not used."""
        self.write(self.east / "targets.json", '{"words": {"library": "%s"}}' % ("x" * 20_000_000))
        status, printed = self.update()
        got = self.lines_after(printed, "targets.json: the old one is kept")
        self.expect(f"its reason, {printed}", got, {f"{self.east}/targets.json: more than 1,048,576 bytes"})
        self.expect("no version has it", (self.east.parent / "current/targets.json").exists(), False)

    def test_what_is_received(self) -> None:
        """Tables as they came are for the user of the update alone, also those that an earlier release has put; nginx
        and the processes read what they need."""
        names = ("received/law.txt", "received/law.rules", "tables/law.txt", "code/law.olk", "registry.tsv", "received")
        wanted = {**dict.fromkeys(names, 0o644), "received": 0o755, "received/law.txt": 0o600}
        for day in (1, 2):
            self.expect("the update", self.update()[0], 0)
            for library in (self.east, self.west):
                current = library.parent / "current"
                modes = {name: stat.S_IMODE((current / name).stat().st_mode) for name in names}
                self.expect(f"modes of {library.parent.name}, day {day}", modes, wanted)
            for library in (self.east, self.west):
                (library.parent / "current/received/law.txt").chmod(0o644)
                self.write(library / "targets.tsv", "law\tlaw.rules\tlaw.txt\nother\tlaw.rules\tlaw.txt\n")


@needs.program()
class HonestInputs(Machine):
    def test_shared_and_allowed_folders(self) -> None:
        """Whole paths of what libraries share stay valid, and root can allow other folders, so that a list of today
        goes on to work."""
        shared, tables_of_staff = self.top / "shared", self.top.parent / "tables"
        for folder in (shared, tables_of_staff):
            folder.mkdir()
            shutil.copy(TABLE, folder / "law_2026-11.txt")
            shutil.copy(RULES, folder / "law.rules")
        whole, staff = f"{shared}/law.rules\t{shared}/law_*.txt", f"law.rules\t{tables_of_staff}/law_2026-11.txt"
        self.write(self.east / "targets.tsv", f"law\tlaw.rules\tlaw.txt\nwhole\t{whole}\nstaff\t{staff}\n")
        allowed = self.write(Path(f"{self.east}.folders"), f"{tables_of_staff}\n", 0o666)
        status, printed = self.update("east")
        self.expect(f"the shared one, {printed}", (status, "whole: new, 2 rows" in printed), (1, True))
        line = f"{allowed}: not used, since others may have written it: chown root, chmod 644"
        self.expect("a list that all may write", line in printed, True)
        self.expect("the other", "staff: left out, since it has no old files" in printed, True)
        allowed.chmod(0o644)
        status, printed = self.update("east")
        self.expect(f"with the list, {printed}", (status, "staff: new, 2 rows" in printed), (0, True))


@needs.command("curl")
class Fetches(Machine):
    def setUp(self) -> None:
        super().setUp()
        server = http.server.ThreadingHTTPServer(("127.0.0.1", 0), Provider)
        threading.Thread(target=server.serve_forever, daemon=True).start()
        self.addCleanup(server.server_close)
        self.addCleanup(server.shutdown)
        self.address = f"http://127.0.0.1:{server.server_port}/table"

    def fetch(self, *files: str) -> tuple[int, list[str]]:
        """Fetches these files by the list of east, which has to name them."""
        self.write(self.east / "sources.tsv", "".join(f"{file}\t{self.address}\tplain http\n" for file in files))
        return self.run_of("fetch", "--input", self.east, "--pause", "0.1", "--seconds", "30")

    def test_links_to_folders(self) -> None:
        """No file beyond the input is replaced, and the others are fetched."""
        site = self.top / "west/site.conf"
        (self.east / "archive").symlink_to(site.parent)
        (self.east / "below").mkdir()
        (self.east / "below/link.txt").symlink_to(site)
        status, printed = self.fetch("archive/site.conf", "archive/new/site.conf", "below/link.txt", "law.txt")
        link = f"{self.east}/archive: archive is a link, and none is followed: put what it leads to in its place"
        self.expect("status", status, 1)
        self.expect_lines(
            "a link",
            "\n".join(printed),
            *(
                f"archive/{name}: not fetched, and there is no old file: {link}"
                for name in ("site.conf", "new/site.conf")
            ),
        )
        self.expect("what it led to", (site.read_text(), sorted(os.listdir(site.parent))), ("", ["input", "site.conf"]))
        got = [(self.east / name).read_bytes() == FETCHED for name in ("below/link.txt", "law.txt")]
        self.expect("files in the places of a link and of an old file", got, [True, True])
        self.expect("the link is none now", (self.east / "below/link.txt").is_symlink(), False)

    def test_state_that_is_a_link(self) -> None:
        """Nothing in the folder that it leads to is removed, read or written."""
        victim = self.write(self.top / "victim/mail").parent
        self.write(victim / "site.conf")
        self.write(victim / "state.json", "{}")
        (self.east / ".fetch").symlink_to(victim)
        self.expect("it is fetched", self.fetch("law.txt")[0], 0)
        self.expect("the folder", sorted(os.listdir(victim)), ["mail", "site.conf", "state.json"])
        self.expect("the state", (victim / "state.json").read_text(), "{}")

    def test_state_of_an_earlier_release(self) -> None:
        """It is moved once."""
        self.fetch("law.txt")
        own = Path(f"{self.east}.fetch")
        state = (own / "state.json").read_text()
        shutil.rmtree(own)
        self.write(self.east / ".fetch/state.json", state.replace('"checked": "', '"checked": "1999-01-01", "x": "'))
        for name in ("lock", "7"):
            self.write(self.east / ".fetch" / name)
        self.write(self.east / "sources.tsv", f"law.txt\t{self.address}\tplain http; every 30 days\n")
        self.expect("it is due", self.fetch("law.txt")[1][-1], "1 file asked for, 0 new or changed, 0 not fetched")
        self.expect("where it was", (self.east / ".fetch").exists(), False)
        self.expect("where it is", sorted(os.listdir(own)), ["lock", "state.json"])
        modes = [stat.S_IMODE(path.stat().st_mode) for path in (own, own / "state.json")]
        self.expect("nobody else reads what is remembered", modes, [0o711, 0o600])
        self.write(self.east / ".fetch/state.json", "{}")
        self.fetch("law.txt")
        self.expect("once", "law.txt" in (own / "state.json").read_text(), True)

    def test_what_is_no_file(self) -> None:
        """A pipe in the place of a table, of the secrets or of the old state is not waited for."""
        (self.east / "law.txt").unlink()
        (self.east / ".fetch").mkdir()
        for name in ("law.txt", "secrets.tsv", ".fetch/state.json"):
            os.mkfifo(self.east / name)
        status, printed = self.fetch("law.txt", "other.txt")
        self.expect(f"status, {printed}", status, 0)
        got = [(self.east / name).read_bytes() == FETCHED for name in ("law.txt", "other.txt")]
        self.expect("the files", got, [True, True])
        self.write(self.east / "sources.tsv", f"keyed.txt\t{self.address}?key={{KEY}}\tplain http\n")
        status, printed = self.run_of("fetch", "--input", self.east)
        reason = f"keyed.txt: not fetched, and there is no old file: {self.east}/secrets.tsv: not a regular file"
        self.expect(f"secrets, {printed}", (status, reason in printed), (1, True))
