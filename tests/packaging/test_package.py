"""The Debian package that packaging/release makes: its scripts, what it depends on, and what it installs where."""
from __future__ import annotations

import os
import re
import shutil
import stat
import subprocess
import tempfile

from fixtures import needs
from fixtures.cases import Case
from packaging import expected_table

SCRIPTS = ["postinst", "postrm", "prerm"]
SHARE = "usr/share/openlink"
UNITS = "lib/systemd/system"
LINKS = {
    "usr/bin/openlink-counts": "../share/openlink/counts",
    "usr/bin/openlink-holdings": "../share/openlink/holdings",
    "usr/bin/openlink-probe": "../share/openlink/probe",
    "usr/sbin/openlink-fetch": "../share/openlink/fetch",
    "usr/sbin/openlink-desk": "../share/openlink/desk",
    "usr/sbin/openlink-library": "../share/openlink/library",
    "usr/sbin/openlink-update": "../share/openlink/update",
}
# The folder of the package for each folder of declarations, and the least number of these.
INSTALLED = {
    "packaging/systemd": (UNITS, 6),
    "front_door": (f"{SHARE}/nginx", 9),
    "packaging/haproxy": (f"{SHARE}/haproxy", 1),
    "packaging/nftables": (f"{SHARE}/nftables", 1),
    "packaging/kubernetes/base": (f"{SHARE}/kubernetes/base", 6),
    "packaging/prometheus": (f"{SHARE}/prometheus", 1),
}


def text_of(path: str) -> str:
    with open(path, encoding="utf-8") as file:
        return file.read()


def faults_of_installed(path: str, text: str) -> list[str]:
    """What differs from the table of a declaration. The package has /usr for /usr/local, but not in what is for images,
    which have no package."""
    table = text_of(expected_table.table_of(path))
    if not path.startswith("packaging/kubernetes/"):
        table = table.replace("/usr/local/", "/usr/")
    return expected_table.faults(path, text, expected_table.rows_of(table))


@needs.program()
@needs.command("dpkg-deb")
class Package(Case):
    """The package of one release."""

    folder: str
    file: str

    @classmethod
    def setUpClass(cls) -> None:
        cls.folder = tempfile.mkdtemp(prefix="package.")
        cls.addClassCleanup(shutil.rmtree, cls.folder)
        names = {"DEBFULLNAME": "Jane Smith", "DEBEMAIL": "jane@library.example.org"}
        subprocess.run(
            ["packaging/release", f"{cls.folder}/release"],
            env={**os.environ, **names},
            check=True,
            stdout=subprocess.DEVNULL,
        )
        (cls.file,) = (
            f"{cls.folder}/release/{it}" for it in os.listdir(f"{cls.folder}/release") if it.endswith(".deb")
        )
        subprocess.run(["dpkg-deb", "-e", cls.file, f"{cls.folder}/control"], check=True)
        subprocess.run(["dpkg-deb", "-x", cls.file, f"{cls.folder}/files"], check=True)

    def field(self, name: str) -> str:
        done = subprocess.run(["dpkg-deb", "-f", self.file, name], check=True, capture_output=True, text=True)
        return done.stdout.strip()

    def members(self) -> dict[str, os.stat_result]:
        """Each file and folder that it installs."""
        top = f"{self.folder}/files"
        return {
            os.path.relpath(os.path.join(place, name), top): os.lstat(os.path.join(place, name))
            for place, folders, names in os.walk(top)
            for name in [*folders, *names]
        }

    def test_the_maintainer_scripts_are_in_it(self) -> None:
        folder = f"{self.folder}/control"
        self.expect("its control files", sorted(os.listdir(folder)), ["control", "md5sums", *SCRIPTS])
        for name in SCRIPTS:
            self.expect(f"the mode of {name}", oct(stat.S_IMODE(os.stat(f"{folder}/{name}").st_mode)), "0o755")
            self.expect(name, text_of(f"{folder}/{name}"), text_of(f"packaging/debian/{name}"))

    def test_what_it_needs(self) -> None:
        with open(needs.PROGRAM, "rb") as file:
            versions = {int(it) for it in re.findall(rb"GLIBC_2\.(\d+)", file.read())}
        self.expect("versions of the C library", len(versions) >= 2)
        self.expect("Depends", self.field("Depends"), f"libc6 (>= 2.{max(versions)}), python3 (>= 3.10)")
        self.expect("Recommends", self.field("Recommends"), "nginx, libnginx-mod-http-js, curl")
        self.expect("Architecture", self.field("Architecture"), "amd64")
        with open(self.file, "rb") as file:
            packed = file.read()
        self.expect("what every dpkg unpacks", [b"control.tar.gz" in packed, b"data.tar.gz" in packed], [True, True])
        self.expect("Maintainer", self.field("Maintainer"), "Jane Smith <jane@library.example.org>")
        said = subprocess.run([needs.PROGRAM, "--version"], check=True, capture_output=True, text=True).stdout
        self.expect("Version", f"openlink {self.field('Version')}\n", said)
        self.expect("places of names", re.findall(r"@[A-Z]+@", text_of(f"{self.folder}/control/control")), [])

    def test_its_declarations_are_those_of_the_repository(self) -> None:
        for folder, (place, least) in INSTALLED.items():
            names = [
                it for it in sorted(os.listdir(folder)) if os.path.exists(expected_table.table_of(f"{folder}/{it}"))
            ]
            self.expect(f"{len(names)} of {folder}", len(names) >= least)
            for name in names:
                text = text_of(f"{self.folder}/files/{place}/{name}")
                self.expect(f"{place}/{name}", faults_of_installed(f"{folder}/{name}", text), [])
        units = sorted(os.listdir(f"{self.folder}/files/{UNITS}"))
        self.expect("units", units, sorted(os.listdir("packaging/systemd")))

    def test_modes_of_what_it_installs(self) -> None:
        members = self.members()
        self.expect(f"{len(members)} members", len(members) >= 100)
        others = {
            name: oct(stat.S_IMODE(it.st_mode))
            for name, it in members.items()
            if not stat.S_ISLNK(it.st_mode)
            and stat.S_IMODE(it.st_mode) not in ((0o755,) if stat.S_ISDIR(it.st_mode) else (0o644, 0o755))
        }
        self.expect("other modes than 644 and 755", others, {})
        programs = ["usr/bin/openlink", f"{SHARE}/targets", f"{SHARE}/update.d/targets_file.py"]
        programs += [f"{SHARE}/{os.path.basename(it)}" for it in LINKS.values()]
        self.expect("programs", [it for it in programs if not members[it].st_mode & 0o111], [])
        words = subprocess.run(["dpkg-deb", "-c", self.file], check=True, capture_output=True, text=True).stdout
        owners = {line.split()[1] for line in words.splitlines()}
        self.expect("owners", owners, {"root/root"})

    def test_commands_and_folders(self) -> None:
        members = self.members()
        links = {
            name: os.readlink(f"{self.folder}/files/{name}") for name, it in members.items() if stat.S_ISLNK(it.st_mode)
        }
        self.expect("links", links, LINKS)
        self.expect("the library's folder is empty", [it for it in members if it.startswith("etc/")], ["etc/openlink"])
        self.expect("compiled Python", [it for it in members if "__pycache__" in it or it.endswith(".pyc")], [])
        self.expect("tests", [it for it in members if "/tests" in it or "test_" in it], [])
