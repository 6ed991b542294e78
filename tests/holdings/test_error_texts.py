"""What users read when arguments, files or a site are wrong: the whole text of each."""
from __future__ import annotations

import contextlib
import datetime
import io
import json
import subprocess
import sys
import tempfile
import zipfile
from collections.abc import Callable
from pathlib import Path
from unittest import mock

from bounds.refusals import reason
from fixtures.cases import Case
from openlink_update import update_options
from openlink_update.commands import counts
from openlink_update.commands import holdings
from openlink_update.commands import library as library_command
from openlink_update.fetch import fetching
from openlink_update.fetch.fetch_folder import FetchFolder
from openlink_update.input_files import InputFolder
from openlink_update.machines import library_files
from openlink_update.received import spreadsheets
from openlink_update.root_folder import Unusable
from openlink_update.rules import proxies
from openlink_update.site import front_door
from openlink_update.site import probes
from openlink_update.site import targets_file
from openlink_update.tables.table import Table
from openlink_update.versions import tables_again
from openlink_update.versions import target_list
from openlink_update.versions.library import Library


def said(call: Callable[[list[str]], object], *words: str) -> tuple[object, str]:
    """The exit status of a command, and the last line that it prints as an error."""
    errors = io.StringIO()
    with contextlib.redirect_stderr(errors):
        try:
            status = call([*words])
        except SystemExit as ending:
            status = ending.code
    return status, errors.getvalue().rstrip("\n").rpartition("\n")[2]


# The arguments of openlink-update, and what is wrong with them.
UPDATES: tuple[tuple[tuple[str, ...], str], ...] = (
    (("--keep", "1"), "--keep is at least 2, and --seconds above 0"),
    (("--seconds", "0"), "--keep is at least 2, and --seconds above 0"),
    (("--minutes", "0"), "--minutes is above 0, and --memory at least 256"),
    (("--memory", "1"), "--minutes is above 0, and --memory at least 256"),
    (("--back", "--fetch"), "--back and --walls fetch nothing"),
    (("--walls", "--fetch"), "--back and --walls fetch nothing"),
    (("--input", "x", "north"), "--input is for one library alone"),
    (("--input", "x", "--all"), "--input is for one library alone"),
    (("--send",), "--send needs --to, and sends what all libraries have"),
    (("north", "--send", "--to", "b"), "--send needs --to, and sends what all libraries have"),
    (("--send", "--to", "b", "--all"), "--send needs --to, and sends what all libraries have"),
    (("--send", "--to", "b", "--fetch"), "--send needs --to, and sends what all libraries have"),
    (("--to", "b", "--take"), "--to is not for --dry-run, --receive or --take"),
    (("--dry-run", "--to", "b"), "--to is not for --dry-run, --receive or --take"),
    (("--receive", "20260101T000000Z", "--to", "b"), "--to is not for --dry-run, --receive or --take"),
    (("--receive", "today"), "--receive needs the name of a version, a time of at most a day ahead"),
    (("--receive", "29990101T000000Z"), "--receive needs the name of a version, a time of at most a day ahead"),
)
OTHERS: tuple[tuple[Callable[[list[str]], object], tuple[str, ...], str], ...] = (
    (fetching.main, ("--seconds", "0"), "openlink-fetch: error: --seconds is above 0, and --pause at least 0"),
    (fetching.main, ("--pause", "-1"), "openlink-fetch: error: --seconds is above 0, and --pause at least 0"),
    (
        library_command.main,
        ("add", "versions", "a.example.org"),
        "openlink-library: error: no library can have the name versions",
    ),
    (library_command.main, ("remove", "A b"), "openlink-library: error: no library can have the name A b"),
    (
        library_command.main,
        ("add", "north", "a.example.org", "--processes", "0"),
        "openlink-library: error: --processes is at least 1 and at most 9",
    ),
    (
        library_command.main,
        ("add", "north", "a.example.org", "--processes", "10"),
        "openlink-library: error: --processes is at least 1 and at most 9",
    ),
    (
        library_command.main,
        ("add", "north", "a.example.org", "--mail", "staff\nx"),
        "openlink-library: error: --mail is an address",
    ),
)


class Arguments(Case):
    def test_update(self) -> None:
        for words, text in UPDATES:
            self.expect(f"{words}", said(update_options.parse, *words), (2, f"openlink-update: error: {text}"))
        self.expect("good ones", update_options.parse(["--keep", "2", "--seconds", "1"]).keep, 2)

    def test_others(self) -> None:
        for call, words, text in OTHERS:
            self.expect(f"{words}", said(call, *words), (2, text))

    def test_a_terminal(self) -> None:
        with mock.patch("sys.stdout") as out:
            out.isatty.return_value = True
            found = said(counts.main, "--format", "xlsx")
        self.expect("a spreadsheet", found, (2, "openlink-counts: a spreadsheet is not written to a terminal"))

    def test_no_version(self) -> None:
        with tempfile.TemporaryDirectory() as folder:
            found = said(holdings.main, "kbart", folder, "--library", folder)
        self.expect("holdings", found, (3, f"openlink-holdings: {folder}/current: no version is in use"))


# Parts of targets.json, and the error.
SITES: tuple[tuple[dict[str, object], str], ...] = (
    ({"words": []}, "words is not an object"),
    ({"words": {"links": {}}}, "words: links is not a list of links"),
    ({"words": {"links": [3]}}, "link 1 is not an object"),
    ({"words": {"links": [{"label": "a"}]}}, "link 1 has no url"),
    ({"words": {"links": [{"label": "a", "url": "ftp://e.org/"}]}}, "link 1: url is no address of http or https"),
    (
        {"words": {"logo": "a.exe"}},
        "words: logo is no file name that ends with .svg, .png, .jpg, .gif or .webp",
    ),
    (
        {"words": {"problemLink": "https://e.org/"}},
        "words: problemLink is no address of http, https or mailto with {} for the request",
    ),
    ({"targets": []}, "targets is not an object"),
    ({"targets": {"a": 3}}, 'target "a" is not an object'),
)


class Sites(Case):
    def test_targets_file(self) -> None:
        for site, text in SITES:
            data = json.dumps({"groups": [{"name": "A"}], **site}).encode()
            self.expect(f"{site}", targets_file.faults_of(data), [text])

    def test_probes(self) -> None:
        self.expect(
            "none and a name", self.of_probes(b"a=b\tnone x\n"), "line 1 has none together with names of targets"
        )
        self.expect("no probe", self.of_probes(b"# a=b\tnone\n"), "no probe")
        with mock.patch.object(probes, "links", return_value=None):
            found = probes.differences("http://a", "http://b", probes.Probe(1, "a=b", ()))
        self.expect("a query that is refused", found, ["  the front door refuses the query"])

    @staticmethod
    def of_probes(data: bytes) -> str:
        try:
            probes.read(data)
        except ValueError as fault:
            return str(fault)
        return ""

    def test_front_door(self) -> None:
        with tempfile.TemporaryDirectory() as folder:
            site = front_door.Site(f"{folder}/site.conf")
            with mock.patch("shutil.which", return_value=None):
                text = reason(front_door.FrontDoor, site, Path(folder, "trial"))
        self.expect("no nginx", text, "probes need nginx with its JavaScript module")

    def test_hosts(self) -> None:
        with tempfile.TemporaryDirectory() as folder:
            places = library_files.Places(folder)
            places.nginx.mkdir(parents=True)
            (places.nginx / "a.conf").write_text("server_name a.example.org b.example.org;\n", encoding="utf-8")
            for host, text in (
                ("b.example.org", ": another site of this machine has this name"),
                ("B.example.org", ": not the name of a host in small letters"),
                ("b_example", ": not the name of a host in small letters"),
                ("c.example.org", None),
            ):
                wanted = host + text if text else ""
                self.expect(host, reason(library_files.check_host, places, host), wanted)


class Commands(Case):
    def setUp(self) -> None:
        room = tempfile.TemporaryDirectory()
        self.addCleanup(room.cleanup)
        self.folder = Path(room.name)

    def run_as_root(self, *words: str) -> tuple[int, list[str]]:
        """The exit status of a command of update/, and what it says."""
        done = subprocess.run(
            [sys.executable, "-B", f"update/{words[0]}", *words[1:]],
            stdout=subprocess.PIPE,
            stderr=subprocess.STDOUT,
            encoding="utf-8",
            check=False,
        )
        return done.returncode, done.stdout.splitlines()

    def test_remains_of_a_library(self) -> None:
        libraries = self.folder / "etc/openlink"
        for name in ("north", "north.removed"):
            (libraries / name).mkdir(parents=True)
        (libraries / "north/site.conf").write_text("", encoding="utf-8")
        text = f"{libraries}/north.removed exists, of a library that was removed before: move it away"
        found = self.run_as_root("library", "--root", str(self.folder), "remove", "north")
        self.expect("what it says", found, (3, [f"openlink-library: {text}"]))
        self.expect("the library is there", (libraries / "north/site.conf").exists())

    def test_no_version(self) -> None:
        site = str(self.folder / "site.conf")
        for words in (("--walls",), ("--back",)):
            _, lines = self.run_as_root("update", *words, "--library", str(self.folder), "--site", site)
            wanted = {"--walls": "there is no version in use", "--back": "there is no version before the one in use"}[
                words[0]
            ]
            self.expect(f"{words}: {lines}", f"openlink-update: {wanted}" in lines)

    def test_a_library_named_desk(self) -> None:
        (self.folder / "desk").mkdir()
        for place in (self.folder / "desk/site.conf", self.folder / "site.conf"):
            place.write_text("", encoding="utf-8")
        words = ("--library", str(self.folder), "--site", str(self.folder / "site.conf"))
        _, lines = self.run_as_root("desk", *words)
        wanted = f"the desk was not written: {self.folder}/desk is a library: give it another name"
        self.expect(f"{lines}", wanted in lines)


class Files(Case):
    def setUp(self) -> None:
        room = tempfile.TemporaryDirectory()
        self.addCleanup(room.cleanup)
        self.folder = Path(room.name)

    def test_target_list(self) -> None:
        for line, text in (
            ("a.2\tr\tt\n", "no target can have the name a.2, which is that of a part of a"),
            ("a b\tr\tt\n", "no target can have the name a b"),
            ("a\tr\n", "not a name, a rule file, a table and allowed warnings, with tabs between them"),
        ):
            (self.folder / "targets.tsv").write_text(line, encoding="utf-8")
            found = reason(target_list.read, InputFolder(str(self.folder)))
            self.expect(f"{line!r}", found, f"{self.folder}/targets.tsv: line 1: {text}")

    def test_versions(self) -> None:
        (self.folder / "current").symlink_to("elsewhere")
        text = f"{self.folder}/current is a link to elsewhere, which is no folder versions/STAMP"
        self.expect("a link", reason(Library(self.folder).current), text)

    def test_fetch_folder(self) -> None:
        (self.folder / "input").mkdir()
        (self.folder / "input.fetch").write_text("", encoding="utf-8")
        text = f"{self.folder}/input.fetch: not a folder: remove it"
        self.expect("a file", reason(FetchFolder, InputFolder(str(self.folder / "input"))), text)

    def test_input(self) -> None:
        (self.folder / "input").mkdir()
        folder = InputFolder(str(self.folder / "input"))
        found = ""
        try:
            folder.remove(".")
        except Unusable as fault:
            found = str(fault.strerror)
        self.expect("the folder itself", found, "not below the input")

    def test_spreadsheets(self) -> None:
        damaged = "a spreadsheet that is cut short or damaged"
        written = io.BytesIO()
        with zipfile.ZipFile(written, "w") as archive:
            archive.writestr("[Content_Types].xml", "x" * 1000)
            archive.writestr("xl/workbook.xml", "x" * 1000)
        data = written.getvalue()
        self.expect("no archive", reason(spreadsheets.sheet_of, b"PK\x03\x04" + b"x" * 100, ""), damaged)
        self.expect("cut short", reason(spreadsheets.sheet_of, data[:-30], ""), damaged)

    def test_proxy(self) -> None:
        rules, table = b"link https://e.org/\n", Table(("title_url",), [])
        text = "proxy: only letters, digits, %HH and -._~:/?@!$&()*+,;= are possible"
        for prefix in ("https://proxy.example.org/login?url=#", 'https://proxy/"', "https://proxy/ "):
            found = reason(proxies.with_proxy, rules, prefix, table)
            self.expect(prefix, text in found, True)

    def test_tables_again(self) -> None:
        (self.folder / "registry.tsv").write_text("a\tcode/a.olk\ttables/a.txt\n", encoding="utf-8")
        (self.folder / "received").mkdir()
        day = datetime.date(2026, 1, 1)
        found = reason(lambda: [*tables_again.tables_of(self.folder, day)])
        self.expect("no files", found, f"{self.folder}: no files of a")
