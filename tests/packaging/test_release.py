"""The releases that packaging/release makes. Two runs make the same bytes. The files of the tar file have their
checksums and their links, and are enough to build and to resolve the sample library, and to run the commands of "First
start". Each check of the files fails for a spoilt copy of them."""
from __future__ import annotations

import json
import os
import re
import shutil
import subprocess
import tempfile
from pathlib import Path
from unittest import mock

from fixtures import TOP
from fixtures import needs
from fixtures.cases import Case
from packaging import releases
from packaging.test_package import LINKS

PROGRAM = Path(needs.PROGRAM)
PAGE = "docs/INSTALLING.md"
TARGETS = 14  # of the sample library
LOGS = ("openlink", "openlink-error", "openlink-wanted", "openlink-followed")


@needs.program()
class Arguments(Case):
    def test_statuses(self) -> None:
        usage = "usage: packaging/release FOLDER\n"
        wrong: list[list[str]] = [[], ["--help"], [""], ["a", "b"]]
        for arguments in wrong:
            self.expect(f"{arguments}", releases.made(*arguments), (2, usage))
        with tempfile.TemporaryDirectory() as folder:
            self.expect("a folder that exists", releases.made(folder), (1, f"packaging/release: {folder} exists\n"))


# Each is not the last command of a pipe of packaging/release, whose other commands do not miss what it prints.
PIPED = ("grep", "sort", "tar")
# dpkg-deb would find the faults of some.
STANDINS = {"dpkg-deb": 'for it; do :; done; : >"$it"', **dict.fromkeys(PIPED, "exit 3")}


@needs.program()
class FailingSteps(Case):
    def test_commands_of_pipes(self) -> None:
        """A command that fails ends the release, which then has no sums."""
        for name in (None, *PIPED):
            with tempfile.TemporaryDirectory() as folder:
                for it in filter(None, ("dpkg-deb", name)):
                    command = Path(folder, it)
                    command.write_text(f"#!/bin/sh\n{STANDINS[it]}\n", encoding="utf-8")
                    command.chmod(0o755)
                with mock.patch.dict(os.environ, PATH=f"{folder}:{os.environ['PATH']}"):
                    status, said = releases.made(f"{folder}/release")
                found = status == 0, Path(folder, "release/SHA256SUMS").exists()
                self.expect(f"{name} fails: {said}", found, (name is None,) * 2)


class ReleaseCase(Case):
    """Tests of a release that is unpacked."""

    names: tuple[str, ...] = ("one",)  # of the releases that are made
    folder: Path
    tree: Path

    @classmethod
    def setUpClass(cls) -> None:
        cls.folder = Path(tempfile.mkdtemp(prefix="release."))
        cls.addClassCleanup(shutil.rmtree, cls.folder)
        for name in cls.names:
            status, said = releases.made(str(cls.folder / name))
            if status:
                raise AssertionError(f"packaging/release ended with status {status}: {said}")
        name = f"openlink-{releases.version_of(PROGRAM)}-x86_64"
        subprocess.run(["tar", "-C", cls.folder, "-xzf", cls.folder / f"one/{name}.tar.gz"], check=True)
        cls.tree = cls.folder / name

    def copy(self) -> Path:
        """A copy of the unpacked release."""
        room = tempfile.TemporaryDirectory()
        self.addCleanup(room.cleanup)
        return Path(shutil.copytree(self.tree, Path(room.name) / "copy", symlinks=True))


@needs.program()
@needs.command("ssh-keygen")
class Release(ReleaseCase):
    names = ("one", "two")
    keys: Path

    @classmethod
    def setUpClass(cls) -> None:
        cls.keys = Path(tempfile.mkdtemp(prefix="keys."))
        cls.addClassCleanup(shutil.rmtree, cls.keys)
        words = ["ssh-keygen", "-q", "-t", "ed25519", "-N", "", "-f", f"{cls.keys}/key"]
        subprocess.run(words, check=True)
        with mock.patch.dict(os.environ, {"OPENLINK_KEY": f"{cls.keys}/key"}):
            super().setUpClass()

    def test_two_runs_make_the_same_bytes(self) -> None:
        one, two = ({it.name: it for it in (self.folder / name).iterdir() if it.is_file()} for name in ("one", "two"))
        version = releases.version_of(PROGRAM)
        name = f"openlink-{version}-x86_64"
        summed = [f"{name}.tar.gz", f"{name}.spdx.json"]
        summed += [f"openlink_{version}_amd64.deb"] if shutil.which("dpkg-deb") else []
        wanted = sorted([*summed, "SHA256SUMS", "SHA256SUMS.sig"])
        self.expect("the files", (sorted(one), sorted(two)), (wanted, wanted))
        for name, path in one.items():
            self.expect(f"{name}: the same bytes", path.read_bytes() == two[name].read_bytes())
        sums = "".join(f"{releases.sum_of(one[name])}  {name}\n" for name in summed)
        self.expect("SHA256SUMS", one["SHA256SUMS"].read_text(encoding="utf-8"), sums)

    def verified(self, text: bytes) -> int:
        """The status of the command in the head of packaging/release for a text in place of SHA256SUMS."""
        key = (self.keys / "key.pub").read_text(encoding="utf-8")
        (self.keys / "signers").write_text(f"jane@library.example.org {key}", encoding="utf-8")
        head = (TOP / Path("packaging/release")).read_text(encoding="utf-8")
        command = next(it[2:] for it in head.splitlines() if "ssh-keygen -Y verify" in it).split()[:-1]
        paths = {"signers": str(self.keys / "signers"), "SHA256SUMS.sig": str(self.folder / "one/SHA256SUMS.sig")}
        words = [paths.get(word, word) for word in command]
        return subprocess.run(words, input=text, capture_output=True).returncode

    def test_signature(self) -> None:
        text = (self.folder / "one/SHA256SUMS").read_bytes()
        self.expect("as it is", self.verified(text), 0)
        self.expect("another text", self.verified(text.replace(b"0", b"1", 1)) != 0)

    def test_parts(self) -> None:
        path = self.folder / f"one/openlink-{releases.version_of(PROGRAM)}-x86_64.spdx.json"
        found = json.loads(path.read_text(encoding="utf-8"))
        parts = {it["SPDXID"]: it for it in found["packages"]}
        self.expect("the form", (found["spdxVersion"], found["dataLicense"]), ("SPDX-2.3", "CC0-1.0"))
        names = {"openlink", "Rattle", "libc6", "python3", "nginx", "libnginx-mod-http-js", "curl"}
        self.expect("parts", {it["name"] for it in parts.values()}, names)
        sums = [{"algorithm": "SHA256", "checksumValue": releases.sum_of(PROGRAM)}]
        self.expect("the program", parts["SPDXRef-openlink"]["checksums"], sums)
        ends = {it[side] for it in found["relationships"] for side in ("spdxElementId", "relatedSpdxElement")}
        self.expect("each is related", ends, {*parts, "SPDXRef-DOCUMENT"})

    def test_files(self) -> None:
        self.expect("what is wrong", releases.faults_of_folder(self.tree, PROGRAM, TOP), [])
        self.expect("the sample library", releases.faults_of_menu(self.tree, self.folder / "built"), [])
        check = ["sha256sum", "--quiet", "-c", "SHA256SUMS"]
        self.expect("sha256sum", subprocess.run(check, cwd=self.tree, capture_output=True).returncode, 0)

    def test_spoilt_files(self) -> None:
        tree = self.copy()
        for name, old, new, wanted in (
            ("README.md", "](docs/RULES.md)", "](docs/NONE.md)", "README.md: there is no docs/NONE.md"),
            ("README.md", "Dezgoulom", f"Dezgoulom in {TOP}", f"README.md: it names {TOP}"),
            ("README.md", "Dezgoulom", "Openlink", "SHA256SUMS: README.md has another sum"),
            ("VERSION", "commit ", "commit a", "VERSION: it has no commit"),
            ("VERSION", "program ", "program 0", "VERSION: it has another sum of the program"),
            ("VERSION", "version ", "version 9", f"VERSION: the version 9{releases.version_of(PROGRAM)}"),
        ):
            path = tree / name
            text = path.read_text(encoding="utf-8")
            path.write_text(text.replace(old, new, 1), encoding="utf-8")
            found = releases.faults_of_folder(tree, PROGRAM, TOP)
            self.expect(f"{name} with {new}: {found[:5]}", wanted in found)
            path.write_text(text, encoding="utf-8")
        self.expect("as it was", releases.faults_of_folder(tree, PROGRAM, TOP), [])
        (tree / "more").touch()
        (tree / "SECURITY.md").unlink()
        found = [it for it in releases.faults_of_folder(tree, PROGRAM, TOP) if it.startswith("SHA256SUMS")]
        self.expect("a file more, and one fewer", [it.split()[1] for it in found], ["SECURITY.md", "more"])

    def test_a_program_that_does_nothing(self) -> None:
        tree = self.copy()
        shutil.copy("/bin/true", tree / "bin/openlink")
        found = releases.faults_of_folder(tree, PROGRAM, TOP)
        self.expect(f"its sum: {found}", "SHA256SUMS: bin/openlink has another sum" in found)
        self.expect("the program", "bin/openlink is not the program" in found)
        self.expect("its version", re.fullmatch(r"\d+\.\d+\.\d+", releases.version_of(Path("/bin/true"))), None)
        self.expect("its library", len(releases.faults_of_menu(tree, tree / "built")), 1)

    def test_an_empty_folder(self) -> None:
        with tempfile.TemporaryDirectory() as room:
            empty = Path(room)
            for name in "SHA256SUMS", "VERSION":
                (empty / name).touch()
            self.expect("links", len([*releases.faults_of_links(empty)]), 1)
            self.expect("sums", len([*releases.faults_of_sums(empty)]), 2)
            self.expect("named files", len([*releases.faults_of_named(empty)]), 1)
            self.expect("installed files", len(releases.faults_of_installed(empty, PROGRAM)), len(releases.FILES) + 1)


def commands_of_first_start(page: str, first: str, last: str) -> str:
    """The lines of "First start" from one that begins with these words to one that does with those."""
    section = page.partition("\n## First start\n")[2].partition("\n## ")[0].split("\n")
    start = next(at for at, line in enumerate(section) if line.startswith(first))
    end = next(at for at, line in enumerate(section) if at >= start and line.startswith(last))
    return "\n".join(section[start : end + 1]) + "\n"


@needs.program()
@needs.command("bash")
class FirstStart(ReleaseCase):
    """Commands of the page, in the unpacked release, with the folders /etc and /var in one of their own."""

    def setUp(self) -> None:
        self.machine = Path(tempfile.mkdtemp(prefix="machine."))
        self.addCleanup(shutil.rmtree, self.machine)

    def runs(self, what: str, first: str, last: str) -> None:
        commands = commands_of_first_start((self.tree / PAGE).read_text(encoding="utf-8"), first, last)
        for name in "etc", "var", "usr":
            commands = commands.replace(f" /{name}/", f" {self.machine}/{name}/")
        environment = {**os.environ, "PATH": f"{self.tree}/bin:{os.environ['PATH']}"}
        done = subprocess.run(
            ["bash", "-e"], input=commands, cwd=self.tree, env=environment, capture_output=True, encoding="utf-8"
        )
        self.expect(f"{what}: {done.stderr}", done.returncode, 0)

    def test_commands_of_units(self) -> None:
        """Without the package, what each unit starts is there, and so is each command that has a link in it."""
        local = self.machine / "usr/local"
        for folder in (local / "bin", local / "sbin", self.machine / "etc/systemd/system"):
            folder.mkdir(parents=True)
        shutil.copy(self.tree / "bin/openlink", local / "bin")
        self.runs("the program", "mkdir -p /usr/local/share/openlink", "cp packaging/systemd/")
        units = sorted((self.machine / "etc/systemd/system").iterdir())
        texts = [it.read_text(encoding="utf-8") for it in units]
        commands = [it for text in texts for it in re.findall(r"^ExecStart=/usr/local/(\S+)", text, re.M)]
        self.expect(f"{len(units)} units, {commands}", len(units) >= 6 and len(commands) >= 4)
        linked = [it.removeprefix("usr/") for it in LINKS]
        wanted = sorted({*commands, *linked})
        self.expect("commands that are missing", [it for it in wanted if not os.access(local / it, os.X_OK)], [])

    def test_labels(self) -> None:
        for name in ("targets.json", *(f"words/{it}" for it in releases.WORDS)):
            self.expect(name, (self.tree / f"front_door/{name}").is_file())
        check = ["update/update.d/targets_file.py", "front_door/targets.json"]
        done = subprocess.run(check, cwd=self.tree, env=releases.PLAIN, capture_output=True, encoding="utf-8")
        self.expect("targets.json", (done.returncode, done.stdout), (0, "ok\n"))

    def test_first_version(self) -> None:
        self.runs("the sample library as input", "mkdir -p /etc/openlink", "cp built/input")
        folder = self.machine / "etc/openlink/input"
        rows = [it.split("\t") for it in (folder / "targets.tsv").read_text(encoding="utf-8").splitlines()]
        self.expect("targets", len(rows), TARGETS)
        for name, _, table, *_ in rows:
            self.expect(f"the table of {name}", table, f"{name}.txt")
            self.expect(f"the rows of {name}", os.path.getsize(folder / f"{name}.txt") > 0)
        (folder / "probes.tsv").unlink()  # they need a front door
        words = ["update/update", "--library", f"{self.machine}/etc/openlink"]
        words += ["--program", f"{self.tree}/bin/openlink"]
        words += ["--site", "front_door/openlink.conf", "--restart", "true", "--seconds", "1", "--dry-run"]
        done = subprocess.run(words, cwd=self.tree, env=releases.PLAIN, capture_output=True, encoding="utf-8")
        self.expect(f"the first version: {done.stderr}", done.returncode, 0)

    @needs.root()
    def test_logs(self) -> None:
        folder = self.machine / "var/log/nginx"
        folder.mkdir(parents=True)
        self.runs("the logs", "for it in openlink ", "done")
        modes = {it.name: oct(it.stat().st_mode & 0o777) for it in folder.iterdir()}
        self.expect("their modes", modes, {f"{it}.log": "0o640" for it in LOGS})
