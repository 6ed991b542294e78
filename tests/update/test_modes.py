"""The modes of what the update and the fetch make, whatever the umask: nginx reads versions as another user, and what
is private stays so."""
from __future__ import annotations

import os
import subprocess

from fixtures import needs
from fixtures.cases import Case
from fixtures.library import Library
from fixtures.library import PYTHON
from fixtures.modes import UMASKS
from fixtures.modes import mode_of
from fixtures.modes import modes_below
from fixtures.modes import with_umask
from fixtures.provider import TABLE
from fixtures.provider import Folder
from fixtures.provider import Provider
from fixtures.provider import reply

PUBLIC = ({0o755}, {0o644})
# Of versions: tables as they came are for the user of the update alone.
SERVED = ({0o755}, {0o644, 0o600})


class _Library(Library):
    """One whose runs have a umask."""

    umask = "077"

    def __init__(self, **how: int) -> None:
        super().__init__(**how)
        self.is_like_others = False

    def begin(self, *options: str, **how: str) -> "subprocess.Popen[str]":
        before = (*with_umask(self.umask), *PYTHON)
        child: subprocess.Popen[str] = super().begin(*options, before=before, is_command=True, **how)
        return child


@needs.nginx()
@needs.program()
class Modes(Case):
    def test_weeks(self) -> None:
        """The first version, one that takes its place, and one with files that the input keeps for its owner alone."""
        with _Library(probes=2) as library:
            self.expect("the first version", modes_below(library.path("versions")), SERVED)
            self.expect("beside it", mode_of(library.path("updated")), 0o644)
            for umask, week in zip(UMASKS, "BA"):
                library.umask = umask
                library.input.deliver(week)
                for name in os.listdir(library.input.folder):
                    os.chmod(library.input.path(name), 0o600)
                status, printed = library.run()
                self.expect(f"umask {umask}: {printed}", (status, library.weeks_served()), (0, {week}))
                self.expect(f"umask {umask}: the versions", modes_below(library.path("versions")), SERVED)
                received = library.path("current", "received")
                private = [name for name in os.listdir(received) if mode_of(os.path.join(received, name)) == 0o600]
                tables = [f"{name}.txt" for name in library.input.names]
                self.expect(f"umask {umask}: for the update alone", sorted(private), sorted(tables))
                self.expect(f"umask {umask}: the tables", modes_below(library.path("current/tables")), PUBLIC)
                self.expect(f"umask {umask}: beside them", mode_of(library.path("updated")), 0o644)
                self.expect(f"umask {umask}: for readers", library.site.get("/journals").status, 200)


@needs.command("curl")
class FetchedModes(Case):
    def test_fetch(self) -> None:
        """All may read a table, also in a new folder, and one that was private before; none the state of the fetch."""
        provider = Provider(has_tls=False)
        self.addCleanup(provider.stop)
        provider.steps = {"/table": [reply(200, TABLE)]}
        for umask in UMASKS:
            folder = Folder(provider)
            self.addCleanup(folder.close)
            names = ("table.txt", "below/it/table.txt", "private.txt")
            folder.write("private.txt", "old\n")
            os.chmod(folder.path("private.txt"), 0o600)
            folder.write(
                "sources.tsv", "".join(f"{name}\t{provider.address('/table')}\tplain http\n" for name in names)
            )
            status, printed = folder.fetch(before=with_umask(umask))
            self.expect(f"umask {umask}: {printed}", status, 0)
            self.expect(f"umask {umask}: tables", [mode_of(folder.path(name)) for name in names], [0o644] * 3)
            self.expect(f"umask {umask}: folders", modes_below(folder.path("below")), PUBLIC)
            self.expect(f"umask {umask}: its folder", mode_of(f"{folder.folder}.fetch"), 0o711)
            self.expect(f"umask {umask}: the state", mode_of(f"{folder.folder}.fetch/state.json"), 0o600)

    def test_secrets(self) -> None:
        """Secrets that others may read are not used."""
        provider = Provider(has_tls=False)
        self.addCleanup(provider.stop)
        provider.steps = {"/table?key=s3cr3t": [reply(200, TABLE)]}
        folder = Folder(provider)
        self.addCleanup(folder.close)
        folder.write("sources.tsv", f"table.txt\t{provider.address('/table?key={key}')}\tplain http\n")
        folder.write("secrets.tsv", "key\ts3cr3t\n")
        for mode in (0o640, 0o620, 0o610, 0o604, 0o602, 0o601, 0o644):
            os.chmod(folder.path("secrets.tsv"), mode)
            status, printed = folder.fetch()
            self.expect(
                f"mode {mode:o}: {printed}",
                (status, "others than its owner may read it: chmod 600" in printed),
                (1, True),
            )
        self.expect("requests", provider.asked(), [])
        for mode in (0o600, 0o400):
            os.chmod(folder.path("secrets.tsv"), mode)
            self.expect(f"mode {mode:o}", (folder.fetch()[0], mode_of(folder.path("secrets.tsv"))), (0, mode))
