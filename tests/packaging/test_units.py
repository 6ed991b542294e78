"""The units of systemd: each line is one that its table explains, and systemd accepts them."""
from __future__ import annotations

import os
import shutil
import subprocess
import tempfile

from fixtures import needs
from fixtures.cases import Case
from packaging import spoiling

FOLDER = "packaging/systemd"
NAMES = [
    "openlink-connections.service",
    "openlink-desk.service",
    "openlink-desk.timer",
    "openlink-update.service",
    "openlink-update.timer",
    "openlink-walls.service",
    "openlink-walls.timer",
    "openlink@.service",
]
PATHS = [f"{FOLDER}/{name}" for name in NAMES]
# Tenths of the exposure that `systemd-analyze security` of systemd 252 computes.
MOST_EXPOSURE = {
    "openlink@.service": 14,
    "openlink-connections.service": 18,
    "openlink-desk.service": 20,
    "openlink-update.service": 30,
    "openlink-walls.service": 30,
}


class Units(Case):
    """What the units declare."""

    def test_each_unit_is_as_its_table_says(self) -> None:
        self.expect("the units", sorted(os.listdir(FOLDER)), NAMES)
        spoiling.check_files(self, *PATHS)

    def test_each_spoilt_line_is_a_fault(self) -> None:
        spoiling.check_spoilt(self, *PATHS)


@needs.command("systemd-analyze")
class AcceptedUnits(Case):
    """What systemd says of the units."""

    def setUp(self) -> None:
        """A copy of the units whose commands exist, with the process of one port."""
        self.folder = tempfile.mkdtemp(prefix="units.")
        self.addCleanup(shutil.rmtree, self.folder)
        for name in ("bin/openlink", "sbin/openlink-update", "sbin/openlink-library", "sbin/openlink-desk"):
            os.makedirs(os.path.dirname(f"{self.folder}/local/{name}"), exist_ok=True)
            shutil.copy("/bin/true", f"{self.folder}/local/{name}")
        for name in NAMES:
            with open(f"{FOLDER}/{name}", encoding="utf-8") as file:
                self.write(
                    name.replace("@.", "@8081."),
                    file.read().replace("/usr/local", f"{self.folder}/local").replace("/usr/sbin/nft", "/bin/true"),
                )

    def write(self, name: str, text: str) -> None:
        """Puts a unit into the folder."""
        with open(f"{self.folder}/{name}", "w", encoding="utf-8") as file:
            file.write(text)

    def said(self, command: str, name: str, *options: str) -> tuple[int, str]:
        """The status of systemd-analyze for a unit, and what it prints of the units."""
        words = ["systemd-analyze", command, *options, f"{self.folder}/{name}"]
        done = subprocess.run(words, capture_output=True, text=True, check=False)
        return done.returncode, "\n".join(line for line in done.stderr.splitlines() if "openlink" in line)

    def test_systemd_has_nothing_to_say(self) -> None:
        for name in NAMES:
            name = name.replace("@.", "@8081.")
            self.expect(name, self.said("verify", name, "--man=no"), (0, ""))
        self.write("openlink-bad.service", "[Service]\nExecStart=/bin/true\nProtectHomes=yes\n")
        self.expect("an unknown directive", "ProtectHomes" in self.said("verify", "openlink-bad.service")[1])

    def test_exposure_is_bounded(self) -> None:
        self.expect("all services", sorted(MOST_EXPOSURE), sorted(it for it in NAMES if it.endswith(".service")))
        for name, most in MOST_EXPOSURE.items():
            options = ["--offline=yes", "--no-pager", f"--threshold={most}"]
            self.expect(name, self.said("security", name.replace("@.", "@8081."), *options)[0], 0)
        self.write("openlink-open.service", "[Service]\nExecStart=/bin/true\n")
        options = ["--offline=yes", "--no-pager", "--threshold=91"]
        self.expect("a unit without limits", self.said("security", "openlink-open.service", *options)[0] != 0)
