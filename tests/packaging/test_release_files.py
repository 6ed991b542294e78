"""What packaging/release makes of a copy of its sources with a program of two lines: each file with its mode and its
time, and who made it, with git and without."""
from __future__ import annotations

import gzip
import json
import os
import shutil
import stat
import subprocess
import tarfile
import tempfile
from pathlib import Path

import fixtures
from fixtures import needs
from fixtures.cases import Case
from packaging import releases
from packaging.test_package import LINKS

TOP = Path(fixtures.TOP)
FOLDERS = ("docs", "examples", "front_door", "packaging", "update")
SOURCES = (*FOLDERS, "README.md", "SECURITY.md", "CHANGELOG.md", "benches/README.md", ".containerignore")
PROGRAM = "crates/openlink/out/openlink"
TEXT = "#!/bin/sh\necho openlink 1.2.3  # GLIBC_2.9 GLIBC_2.34 GLIBC_2.4\n"
NAME = "openlink-1.2.3-x86_64"
PACKAGE = "openlink_1.2.3_amd64.deb"
TIME, DATE = 1_700_000_000, "Tue, 14 Nov 2023 22:13:20 +0000"
PAGES = "OPERATING INSTALLING LIBRARIANS SEVERAL CONSORTIUM RULES TARGETS ERRORS MACHINE".split()
MADE = ("VERSION", "README", "SHA256SUMS")
# What the sources may have beside themselves, and modes of files that somebody has chosen.
BESIDE = ("update/__pycache__/a.pyc", "update/openlink_update/__pycache__/a.pyc", "update/update.d/.mypy_cache/a")
MODES = {"front_door/find.js": 0o600, "update/fetch": 0o700, "front_door/words": 0o700, "docs/RULES.md": 0o666}
# Links that stay in a page though no file has their names.
WEB = ("[a](http://example.org/)", "[b](https://example.org/#c)", "[d](mailto:e@example.org)", "[f](#g)")
# What the README of the folder says, across the ends of its lines.
SAID = (
    "openlink 1.2.3, a link resolver for OpenURL 1.0.",
    "(x86-64-v2) with the C library of GNU, 2.34 or newer. docs/INSTALLING.md describes how",
    "where they name crates/openlink/out/openlink, take bin/openlink. VERSION says which",
    "and `sha256sum -c SHA256SUMS` checks the files.",
    "what it names without a link is only there.",
)
# Commands before those of the machine: one notes the language of the sums' order, the other is the toolchain.
STANDINS = {"sort": '#!/bin/sh\necho "$LC_ALL" >>"$NOTES"\nexec /usr/bin/sort "$@"\n', "rt": "#!/bin/sh\necho one 1\n"}


def names_below(folder: Path) -> set[str]:
    """The files and links below a folder."""
    return {str(it.relative_to(folder)) for it in folder.rglob("*") if it.is_symlink() or not it.is_dir()}


def moved(names: set[str], **folders: str) -> set[str]:
    """The files of some folders, in other ones."""
    parts = [name.partition("/") for name in names]
    return {f"{folders[it[0]]}/{it[2]}".lstrip("/") for it in parts if it[0] in folders}


class Sources(Case):
    """A copy of the sources, in which releases are made: their links take most of the time."""

    has_pages = False
    folder: Path
    top: Path

    @classmethod
    def setUpClass(cls) -> None:
        cls.folder = Path(tempfile.mkdtemp(prefix="release."))
        cls.addClassCleanup(shutil.rmtree, cls.folder)
        cls.top = cls.folder / "above/sources"
        for name in SOURCES:
            (cls.top / name).parent.mkdir(parents=True, exist_ok=True)
            if (TOP / name).is_dir():
                without = shutil.ignore_patterns("__pycache__", ".mypy_cache")
                shutil.copytree(TOP / name, cls.top / name, symlinks=True, ignore=without)
            else:
                shutil.copy(TOP / name, cls.top / name)
        for page in [] if cls.has_pages else cls.top.rglob("*.md"):
            cls.write(page, "# A page\n")
        cls.write(cls.top / PROGRAM, TEXT, 0o755)
        os.utime(cls.top / PROGRAM, (TIME, TIME))
        for name, text in STANDINS.items():
            cls.write(cls.folder / "bin" / name, text, 0o755)
        (cls.folder / "temporary").mkdir()

    @staticmethod
    def write(path: Path, text: str, mode: int = 0o644) -> None:
        path.parent.mkdir(parents=True, exist_ok=True)
        path.write_text(text, encoding="utf-8")
        path.chmod(mode)

    @classmethod
    def made(cls, name: str, path: str = "", **more: str) -> subprocess.CompletedProcess[str]:
        """Makes a release in a folder of this name, from another folder than that of the sources."""
        environment = {
            "PATH": path or f"{cls.folder}/bin:/usr/bin:/bin",
            "HOME": str(cls.folder),
            "GIT_CEILING_DIRECTORIES": str(cls.folder),
            "LANG": "en_US.UTF-8",
            "NOTES": str(cls.folder / "notes"),
            "TMPDIR": str(cls.folder / "temporary"),
        }
        words = [str(cls.top / "packaging/release"), name]
        return subprocess.run(
            words, cwd=cls.folder, env={**environment, **more}, umask=0o077, capture_output=True, text=True, check=False
        )

    @classmethod
    def unpacked(cls, name: str) -> tuple[Path, Path]:
        """The files of the package in a release, and those that control it."""
        place = cls.folder / f"{name}.package"
        place.mkdir()
        for option, part in ("-x", "files"), ("-e", "control"):
            subprocess.run(["dpkg-deb", option, cls.folder / name / PACKAGE, place / part], check=True)
        return place / "files", place / "control"


@needs.command("dpkg-deb")
class Files(Sources):
    """One release of sources without git, which have files beside them, with modes of their own."""

    has_pages = True

    @classmethod
    def setUpClass(cls) -> None:
        super().setUpClass()
        cls.sources = {it for it in names_below(cls.top) if it.split("/")[0] in FOLDERS}
        for name in BESIDE:
            cls.write(cls.top / name, "")
        with (cls.top / "docs/RULES.md").open("a", encoding="utf-8") as page:
            page.writelines(f"{it}\n" for it in ("", *WEB))
        for name, mode in MODES.items():
            (cls.top / name).chmod(mode)
        cls.done = cls.made("one")
        if cls.done.returncode:
            raise AssertionError(f"packaging/release ended with status {cls.done.returncode}: {cls.done.stderr}")
        cls.tree = cls.folder / "one" / NAME
        cls.files, cls.control = cls.unpacked("one")

    def test_what_it_says(self) -> None:
        names = ["SHA256SUMS", NAME, f"{NAME}.spdx.json", f"{NAME}.tar.gz", PACKAGE]
        self.expect("the output", (self.done.stdout.split(), self.done.stderr), (names, ""))
        self.expect("the files", sorted(os.listdir(self.folder / "one")), names)
        self.expect("temporary files", os.listdir(self.folder / "temporary"), [])
        notes = (self.folder / "notes").read_text(encoding="utf-8").split("\n")
        self.expect("the language of the order", {*notes}, {"C", ""})

    def test_files_of_the_folder(self) -> None:
        wanted = {it for it in self.sources if not it.startswith("docs/")} | {*SOURCES[len(FOLDERS) :], *MADE}
        wanted |= {f"docs/{it}" for it in (*(f"{it}.md" for it in PAGES), "reader-page.png", "desk-page.png")}
        wanted |= {f"share/man/man{it[-1]}/{it}" for it in os.listdir(TOP / "docs/man")}
        wanted |= {"bin/openlink", "share/bash-completion/completions/openlink"}
        self.expect("differences", sorted(names_below(self.tree) ^ wanted), [])
        packed = self.folder / "packed"
        packed.mkdir()
        subprocess.run(["tar", "-C", packed, "-xzf", self.folder / f"one/{NAME}.tar.gz"], check=True)
        with tarfile.open(self.folder / f"one/{NAME}.tar.gz") as archive:
            members = archive.getmembers()
        names = [it.name.split("/") for it in members]
        self.expect("its order", names, sorted(names))
        self.expect("its owners", {(it.uid, it.gid, it.uname, it.gname) for it in members}, {(0, 0, "", "")})
        self.expect("the tar file", sorted(names_below(packed / NAME) ^ wanted), [])
        self.expect("the program", (self.tree / "bin/openlink").read_text(encoding="utf-8"), TEXT)
        self.expect("links", [*releases.faults_of_links(self.tree)], [])
        self.expect_lines("a link to the web", (self.tree / "docs/RULES.md").read_text("utf-8"), *WEB)

    def test_files_of_the_package(self) -> None:
        pages = "VERSION SECURITY.md CHANGELOG.md.gz copyright changelog.gz".split() + [f"{it}.md" for it in PAGES]
        wanted = {f"usr/share/doc/openlink/{it}" for it in pages} | {*LINKS, "usr/bin/openlink"}
        wanted |= {f"usr/share/man/man{it[-1]}/{it}.gz" for it in os.listdir(TOP / "docs/man")}
        wanted |= {"usr/share/bash-completion/completions/openlink", "usr/share/lintian/overrides/openlink"}
        wanted |= moved(self.sources, update="usr/share/openlink", front_door="usr/share/openlink/nginx")
        inner = moved(self.sources, packaging="", examples="")
        wanted |= moved(inner, systemd="lib/systemd/system", library="usr/share/doc/openlink/examples")
        both = ("haproxy", "nftables", "kubernetes", "prometheus", "providers")
        wanted |= moved(inner, **{it: f"usr/share/openlink/{it}" for it in both})
        self.expect("differences", sorted(names_below(self.files) ^ wanted), [])
        self.expect("the folder of the library", (self.files / "etc/openlink").is_dir())
        self.expect("links", [*releases.faults_of_links(self.files / "usr/share/doc/openlink")], [])
        page = gzip.decompress((self.files / "usr/share/man/man1/openlink.1.gz").read_bytes())
        self.expect("a page", page, (TOP / "docs/man/openlink.1").read_bytes())
        sums = (self.control / "md5sums").read_text(encoding="utf-8").splitlines()
        self.expect("its sums", [it.partition("  ")[2] for it in sums], sorted(wanted - {*LINKS}))
        words = ["md5sum", "--quiet", "-c", self.control / "md5sums"]
        self.expect("they are right", subprocess.run(words, cwd=self.files, capture_output=True).returncode, 0)

    def test_modes_and_times(self) -> None:
        for folder in self.tree, self.files:
            found = {it: it.lstat() for it in folder.rglob("*")}
            times = {(folder / it).lstat().st_mtime for it in names_below(folder)}
            self.expect(f"times of {folder.name}", times, {TIME})
            modes = {it: stat.S_IMODE(found[it].st_mode) for it in found if not it.is_symlink()}
            wanted = {it: 0o755 if it.is_dir() or mode & 0o100 else 0o644 for it, mode in modes.items()}
            self.expect(f"modes of {folder.name}", {it for it in modes if modes[it] != wanted[it]}, set())
        modes = {it.name: oct(stat.S_IMODE(it.stat().st_mode)) for it in (self.folder / "one").iterdir()}
        self.expect("modes of the files", modes, {it: "0o755" if it == NAME else "0o644" for it in modes})
        self.expect("a command", oct(stat.S_IMODE((self.tree / "update/fetch").stat().st_mode)), "0o755")

    def test_texts(self) -> None:
        lines = ["version 1.2.3", "commit unknown", "toolchain one 1"]
        lines += ["needs x86-64-v2 and the C library of GNU, 2.34 or newer"]
        lines += [f"program {releases.sum_of(self.top / PROGRAM)}"]
        self.expect("VERSION", (self.tree / "VERSION").read_text(encoding="utf-8").splitlines(), lines)
        sums = (self.tree / "SHA256SUMS").read_text(encoding="utf-8").splitlines()
        named = [it.partition("  ")[2] for it in sums]
        self.expect("the order of the sums", named, sorted(named))
        readme = " ".join((self.tree / "README").read_text(encoding="utf-8").split())
        self.expect("README", [it for it in SAID if it not in readme], [])
        changes = gzip.decompress((self.files / "usr/share/doc/openlink/changelog.gz").read_bytes()).decode()
        text = "openlink (1.2.3) stable; urgency=medium\n\n  * CHANGELOG.md.gz describes the changes.\n\n"
        self.expect("changelog", changes, f"{text} -- unknown <root@localhost>  {DATE}\n")

    def test_parts(self) -> None:
        found = json.loads((self.folder / f"one/{NAME}.spdx.json").read_text(encoding="utf-8"))
        parts, total = {it["name"]: it for it in found["packages"]}, releases.sum_of(self.top / PROGRAM)
        plain = {"downloadLocation": "NOASSERTION", "filesAnalyzed": False}
        library = {"SPDXID": "SPDXRef-libc6", "name": "libc6", "versionInfo": ">= 2.34", **plain}
        self.expect("a part", parts["libc6"], library)
        self.expect("the toolchain", parts["Rattle"]["versionInfo"], "one 1")
        self.expect("the program", parts["openlink"]["versionInfo"], "1.2.3")
        self.expect("any version", parts["curl"]["versionInfo"], "NOASSERTION")
        head = {name: it for name, it in found.items() if name not in ("packages", "relationships")}
        created = {"created": "2023-11-14T22:13:20Z", "creators": ["Tool: packaging/release"]}
        wanted = {"spdxVersion": "SPDX-2.3", "dataLicense": "CC0-1.0", "SPDXID": "SPDXRef-DOCUMENT", "name": NAME}
        self.expect("its head", head, {**wanted, "documentNamespace": f"urn:sha256:{total}", "creationInfo": created})
        kinds = {(it["relatedSpdxElement"], it["relationshipType"]) for it in found["relationships"]}
        self.expect("a relation", ("SPDXRef-python3", "DEPENDS_ON") in kinds)


@needs.command("dpkg-deb", "git")
class Commits(Sources):
    """Releases of a commit: its time and its author count."""

    def git(self, *words: str, folder: Path | None = None) -> str:
        environment = {"PATH": "/usr/bin:/bin", "HOME": str(self.folder), "GIT_COMMITTER_DATE": f"{TIME + 60} +0000"}
        options = ("-c", "user.name=Jane Smith", "-c", "user.email=jane@library.example.org")
        command, place = ["git", *options, *words], folder or self.top
        done = subprocess.run(command, cwd=place, env=environment, check=True, capture_output=True, text=True)
        return done.stdout.strip()

    def commit(self, folder: Path) -> None:
        self.git("init", "-q", folder=folder)
        self.addCleanup(shutil.rmtree, folder / ".git")
        self.write(self.top / ".gitignore", "out/\n")
        self.git("add", ".", folder=folder)
        self.git("commit", "-q", "-m", "One", folder=folder)

    def expect_maker(self, name: str, commit: str, maker: str, time: int, **more: str) -> None:
        """Makes a release, and expects that it says so."""
        self.expect(f"{name}: the status", self.made(name, **more).returncode, 0)
        tree = self.folder / name / NAME
        self.expect(f"{name}: the commit", (tree / "VERSION").read_text("utf-8").splitlines()[1], f"commit {commit}")
        self.expect(f"{name}: the time", (tree / "VERSION").stat().st_mtime, time)
        files, control = self.unpacked(name)
        self.expect_lines(name, (control / "control").read_text("utf-8"), f"Maintainer: {maker}")
        copyright_file = (files / "usr/share/doc/openlink/copyright").read_text("utf-8")
        self.expect(f"{name}: the copyright file", f"Upstream-Contact: {maker}" in copyright_file)

    def test_a_commit(self) -> None:
        self.commit(self.top)
        commit, maker = self.git("rev-parse", "HEAD"), "Jane Smith <jane@library.example.org>"
        self.expect_maker("clean", commit, maker, TIME + 60)
        self.write(self.top / "update/more", "")
        self.addCleanup((self.top / "update/more").unlink)
        mail = "li@example.org"
        self.expect_maker("changed", f"{commit} with changes", f"{mail} <{mail}>", TIME + 60, DEBEMAIL=mail)

    def test_sources_in_another_repository(self) -> None:
        self.commit(self.top.parent)
        mail = "li@example.org"
        self.expect_maker("inner", "unknown", f"Li & Søn <{mail}>", TIME, DEBFULLNAME="Li & Søn", DEBEMAIL=mail)


class Failures(Sources):
    """Releases that are not made, or not whole."""

    def test_no_program(self) -> None:
        program = self.top / PROGRAM
        program.chmod(0o644)
        self.addCleanup(program.chmod, 0o755)
        done = self.made("none")
        said = "packaging/release: no built program: run ./openlink first\n"
        self.expect("the end", (done.returncode, done.stdout, done.stderr), (1, "", said))
        self.expect("a folder", (self.folder / "none").exists(), False)

    def test_a_step_that_fails(self) -> None:
        self.write(self.folder / "broken/gzip", "#!/bin/sh\nexit 7\n", 0o755)
        done = self.made("broken.release", f"{self.folder}/broken:{self.folder}/bin:/usr/bin:/bin")
        made = self.folder / "broken.release"
        self.expect("the end", (done.returncode, (made / "SHA256SUMS").exists()), (7, False))

    def test_no_debian(self) -> None:
        place = self.folder / "commands"
        place.mkdir()
        for name in os.listdir("/usr/bin"):
            if name != "dpkg-deb":
                (place / name).symlink_to(f"/usr/bin/{name}")
        done = self.made("other", str(place))
        said = "packaging/release: no Debian package, since there is no dpkg-deb\n"
        self.expect("the end", (done.returncode, done.stderr), (0, said))
        names = [f"{NAME}.tar.gz", f"{NAME}.spdx.json"]
        sums = (self.folder / "other/SHA256SUMS").read_text(encoding="utf-8").splitlines()
        self.expect("the sums", [it.partition("  ")[2] for it in sums], names)
        self.expect("the toolchain", "toolchain unknown" in (self.folder / f"other/{NAME}/VERSION").read_text("utf-8"))
