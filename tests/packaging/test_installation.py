"""The Debian package of a release in a root folder of its own: it is installed, installed again, removed and purged.
The library's data stays. Each check of what it installs fails for a spoilt copy."""
from __future__ import annotations

import os
import shutil
import subprocess
import tempfile
from pathlib import Path

from fixtures import needs
from fixtures.cases import Case
from packaging import releases

PROGRAM = Path(needs.PROGRAM)
# dpkg changes owners.
_AS_ROOT = [] if os.geteuid() == 0 else ["unshare", "--map-root-user"]
# A file of the installed package, a text in it, another one, and what is found then.
SPOILT = (
    ("usr/share/openlink/nginx/http.conf", "/usr/share/", "/usr/local/share/", "http.conf: it names /usr/local"),
    ("usr/share/doc/openlink/copyright", "Jane & Søn", "@MAINTAINER@", "copyright: a place of a name is left"),
    ("usr/share/doc/openlink/copyright", "licence yet", "licence", "copyright: it does not say that no licence"),
    ("lib/systemd/system/openlink@.service", "/usr/bin/openlink serve", "/bin/true", "does not start /usr/bin"),
    ("usr/share/doc/openlink/INSTALLING.md", "](LIBRARIANS.md", "](NONE.md", "INSTALLING.md: there is no NONE.md"),
)


@needs.program()
@needs.command("dpkg", "dpkg-deb")
@needs.root_or_namespaces()
class Installation(Case):
    folder: Path
    package: Path

    @classmethod
    def setUpClass(cls) -> None:
        cls.folder = Path(tempfile.mkdtemp(prefix="installation."))
        cls.addClassCleanup(shutil.rmtree, cls.folder)
        status, said = releases.made(str(cls.folder / "release"))
        if status:
            raise AssertionError(f"packaging/release ended with status {status}: {said}")
        (cls.package,) = (cls.folder / "release").glob("*.deb")

    def setUp(self) -> None:
        self.root = Path(tempfile.mkdtemp(prefix="root.", dir=self.folder))
        for name in "info", "updates":
            (self.root / "var/lib/dpkg" / name).mkdir(parents=True)
        (self.root / "var/lib/dpkg/status").touch()
        self.dpkg("the package is installed", "-i", str(self.package))

    def dpkg(self, what: str, *arguments: str) -> None:
        options = [
            f"--root={self.root}",
            "--force-script-chrootless",
            "--force-depends",
            "--no-triggers",
            "--force-unsafe-io",
        ]
        self.succeeds(what, *_AS_ROOT, "dpkg", *options, *arguments)

    def succeeds(self, what: str, *words: str) -> None:
        done = subprocess.run(words, stdin=subprocess.DEVNULL, capture_output=True, encoding="utf-8")
        self.expect(f"{what}: {done.stdout}{done.stderr}", done.returncode, 0)

    def left(self) -> list[str]:
        """Those of its files that are there."""
        return [it for it in releases.FILES if os.path.lexists(self.root / it)]

    def test_what_is_installed(self) -> None:
        self.expect("what is wrong", releases.faults_of_installed(self.root, PROGRAM), [])
        self.dpkg("the sums of dpkg", "--verify", "openlink")
        share = f"{self.root}/usr/share/openlink"
        self.succeeds("targets.json", "python3", f"{share}/update.d/targets_file.py", f"{share}/nginx/targets.json")
        self.succeeds("openlink-holdings", f"{self.root}/usr/bin/openlink-holdings", "--help")
        self.succeeds("openlink-library", f"{self.root}/usr/sbin/openlink-library", "--root", str(self.root), "list")
        words = ["dpkg-deb", "-f", str(self.package), "Maintainer"]
        said = subprocess.run(words, capture_output=True, encoding="utf-8").stdout
        self.expect("its maintainer", said, "{} <{}>\n".format(*releases.MAKER))

    def test_spoilt_copies(self) -> None:
        for name, old, new, wanted in SPOILT:
            path = self.root / name
            text = path.read_text(encoding="utf-8")
            path.write_text(text.replace(old, new), encoding="utf-8")
            found = releases.faults_of_installed(self.root, PROGRAM)
            self.expect(f"{name} with {new}: {found[:5]}", any(wanted in it for it in found))
            path.write_text(text, encoding="utf-8")
        for name in [*releases.FILES, "usr/share/openlink/nginx/readers.conf"]:
            (self.root / name).rename(self.root / "aside")
            found = releases.faults_of_installed(self.root, PROGRAM)
            self.expect(f"without {name}: {found[:5]}", any(name in it for it in found))
            (self.root / "aside").rename(self.root / name)
        shutil.copy("/bin/true", self.root / "usr/bin/openlink")
        found = releases.faults_of_installed(self.root, PROGRAM)
        self.expect("a program that does nothing", found, ["usr/bin/openlink is not the program"])

    def test_removal(self) -> None:
        """The library's data, a version and the link to it, stays."""
        data = self.root / "etc/openlink/current/registry.tsv"
        (self.root / "etc/openlink/v1").mkdir()
        (self.root / "etc/openlink/current").symlink_to("v1")
        data.write_text("data\n", encoding="utf-8")
        self.dpkg("it is installed again", "-i", str(self.package))
        self.expect("its files", self.left(), releases.FILES)
        self.dpkg("it is removed", "-r", "openlink")
        self.expect("its files are gone", self.left(), [])
        self.expect("the data stays", data.read_text(encoding="utf-8"), "data\n")
        self.dpkg("it is purged", "-P", "openlink")
        self.expect("the data stays then too", data.read_text(encoding="utf-8"), "data\n")

    @needs.command("lintian")
    def test_lintian(self) -> None:
        self.succeeds("lintian finds no error", "lintian", "--fail-on", "error", str(self.package))
