"""Upgrades of an installation of the last commit whose update was a folder of modules, update.d/: by the Debian
package, and by the commands of INSTALLING.md, which copy over it. After both each command starts, and none loads a
module that the old installation left."""
from __future__ import annotations

import glob
import os
import re
import shutil
import subprocess
import sys
import tempfile
from pathlib import Path

from fixtures import needs
from fixtures.cases import Case

OLD = "deploy/release"  # the file that the commit after the old one removed
KEPT = "targets_file.py"  # the module of update.d/ whose path operators know
FEWEST = 50  # modules in update.d/ of the old installation
LOADED = 'raise SystemExit("an old module is loaded")\n'


def output(*words: str, **how: str) -> tuple[int, str]:
    """The status of a command without the environment of the tests, and all that it prints."""
    path = {"PATH": "/usr/sbin:/usr/bin:/sbin:/bin", "HOME": "/nonexistent"}
    done = subprocess.run(
        words, stdout=subprocess.PIPE, stderr=subprocess.STDOUT, text=True, env=path, cwd=how.get("cwd")
    )
    return done.returncode, done.stdout


def old_modules(share: str) -> list[str]:
    """The modules of update.d/, without the one that stays."""
    found = glob.glob(f"{share}/update.d/**/*.py", recursive=True)
    return [path for path in found if os.path.basename(path) != KEPT]


def spoil(share: str) -> None:
    """An old module of the update that is loaded from now on ends the command."""
    for path in glob.glob(f"{share}/update.d/*.py"):
        if os.path.basename(path) != KEPT:
            Path(path).write_text(LOADED, encoding="utf-8")


def commands_of_page(path: str, where: str) -> str:
    """The commands of a page that install the scripts, below another folder than /usr/local."""
    lines = Path(path).read_text(encoding="utf-8").splitlines()
    first = next(at for at, line in enumerate(lines) if line.startswith("mkdir -p /usr/local/share/openlink"))
    last = next(at for at, line in enumerate(lines) if at > first and line.startswith("for it in probe"))
    found = lines[first : last + 1]
    assert len(found) >= 4, path
    return "\n".join(found).replace("/usr/local/", f"{where}/usr/local/").replace("ln -s ", "ln -sf ")


@needs.program()
@needs.command("dpkg", "dpkg-deb", "git")
@needs.commit_before_removal(OLD)
@needs.root_or_namespace()
class Upgrade(Case):
    """Both ways, from the same old files."""

    folder: str
    old: str

    @classmethod
    def setUpClass(cls) -> None:
        super().setUpClass()
        cls.folder = tempfile.mkdtemp(prefix="upgrade.")
        cls.addClassCleanup(shutil.rmtree, cls.folder, ignore_errors=True)
        cls.old = f"{cls.folder}/old"
        os.makedirs(f"{cls.old}/crates/openlink/out")
        archive = subprocess.Popen(["git", "archive", needs.commit_before(OLD)], stdout=subprocess.PIPE)
        words = ["tar", "-x", "-C", cls.old, "--exclude=crates", "--exclude=sweeps"]
        subprocess.run(words, stdin=archive.stdout, check=True)
        archive.communicate()
        shutil.copy(needs.PROGRAM, f"{cls.old}/crates/openlink/out/openlink")

    def expect_starts(self, where: str, share: str) -> None:
        """The commands that are installed below a folder, with their scripts in another."""
        usages = {"sbin/openlink-update": "update", "sbin/openlink-fetch": "fetch", "bin/openlink-holdings": "holdings"}
        for command, name in usages.items():
            status, printed = output(f"{where}/{command}", "--help")
            self.expect(
                f"{where}/{command}: {printed}", (status, bool(re.search(f"usage: .*{name}", printed))), (0, True)
            )
        status, printed = output(f"{where}/sbin/openlink-library", "--root", f"{self.folder}/none", "list")
        self.expect(f"{where}/sbin/openlink-library: {printed}", status, 0)
        status, printed = output(f"{where}/bin/openlink-probe")
        self.expect(f"{where}/bin/openlink-probe: {printed}", (status, "usage: " in printed), (2, True))
        words = ("python3", f"{share}/update.d/{KEPT}", f"{share}/nginx/targets.json")
        self.expect(f"{share}: {KEPT}", output(*words), (0, "ok\n"))

    def package_of(self, name: str, release: str) -> str:
        """The package that a script for releases makes."""
        folder = f"{self.folder}/{name}"
        subprocess.run([release, folder], check=True, stdout=subprocess.DEVNULL)
        (package,) = glob.glob(f"{folder}/*.deb")
        return package

    def install(self, what: str, root: str, package: str) -> None:
        as_root = [] if os.geteuid() == 0 else ["unshare", "--map-root-user"]
        how = ["--force-script-chrootless", "--force-depends", "--no-triggers"]
        status, printed = output(*as_root, "dpkg", f"--root={root}", *how, "-i", package)
        self.expect(f"{what}: {printed}", status, 0)

    def test_by_package(self) -> None:
        packages = self.package_of("one", f"{self.old}/{OLD}"), self.package_of("two", "packaging/release")
        root = f"{self.folder}/root"
        share = f"{root}/usr/share/openlink"
        for name in ("info", "updates"):
            os.makedirs(f"{root}/var/lib/dpkg/{name}")
        Path(f"{root}/var/lib/dpkg/status").touch()
        self.install("the old package is installed", root, packages[0])
        self.expect("it has many modules", len(old_modules(share)) > FEWEST)
        self.expect_starts(f"{root}/usr", share)
        self.install("the package is upgraded", root, packages[1])
        self.expect("no module of the old package is left", old_modules(share), [])
        self.expect_starts(f"{root}/usr", share)

    def test_by_copies(self) -> None:
        where = f"{self.folder}/copy"
        usr, share = f"{where}/usr/local", f"{where}/usr/local/share/openlink"
        for name in ("bin", "sbin"):
            os.makedirs(f"{usr}/{name}")
        for page, folder in ((f"{self.old}/docs/OPERATING.md", self.old), ("docs/INSTALLING.md", ".")):
            status, printed = output("bash", "-ec", commands_of_page(page, where), cwd=folder)
            self.expect(f"the scripts are copied as {page} says: {printed}", status, 0)
            self.expect("the old modules are there", len(old_modules(share)) > FEWEST)
            if folder == ".":
                spoil(share)
            self.expect_starts(usr, share)
        self.expect_traps(share)

    def expect_traps(self, share: str) -> None:
        """The traps work: a command that loads an old module fails."""
        text = f'import sys\nsys.path.insert(0, "{share}/update.d")\nimport fetching\n'
        Path(f"{share}/fetch").write_text(text, encoding="utf-8")
        status, printed = output(sys.executable, f"{share}/fetch", "--help")
        self.expect("an old module is loaded", (status, printed), (1, "an old module is loaded\n"))
