"""update/update --fetch: what it prints, which root gets by mail, begins with what could not be fetched."""
from __future__ import annotations

import os
import signal

from fixtures import needs
from fixtures.fetch_input import OLD
from fixtures.fetch_input import TABLE
from fixtures.fetch_input import ended
from fixtures.patience import wait_until
from fixtures.providers import ProvidersCase
from fixtures.updates import Library


@needs.program()
class Mail(ProvidersCase):
    """The first lines of a week."""

    def write_input(self, library: Library) -> None:
        """Two targets: one whose file is fetched, and one whose provider refuses it."""
        library.write("secrets.tsv", f"TOKEN\t{self.providers.TOKEN}\n")
        library.write_sources(
            f"good.txt\t{self.providers.address('/kbart?token={TOKEN}')}",
            f"refused.txt\t{self.providers.address('/401', 1)}\theader X-Key: {{TOKEN}}",
        )
        library.write("refused.txt", OLD)
        library.targets = {"good": ("good.txt", ""), "refused": ("refused.txt", "")}
        library.write_targets()

    def test_weeks(self) -> None:
        with Library(self.providers.path("authority.pem")) as library:
            self.write_input(library)
            self.expect("without --fetch", library.update()[0], 1)
            status, printed = library.update("--fetch")
            self.expect(
                "the first lines",
                printed.splitlines()[:4],
                [
                    "refused.txt: kept the old file: 401 Unauthorized",
                    f"good.txt: new, {len(TABLE)} bytes",
                    "2 files asked for, 1 new or changed, 1 not fetched",
                    "good: new, 2 rows",
                ],
            )
            self.expect(
                "what was fetched is served, and the status says that one file was not",
                (status, library.table("good")),
                (1, TABLE.decode()),
            )
            again = library.update("--fetch", "--dry-run")
            self.expect(
                "a trial", (again[0], again[1].splitlines()[0]), (1, "refused.txt: kept the old file: 401 Unauthorized")
            )
            self.expect("no secret in the mail", [text for text in (printed, again[1]) if "s3cr3t" in text], [])
            library.write_sources(f"good.txt\t{self.providers.address('/kbart?token={TOKEN}')}")
            status, printed = library.update("--fetch")
            self.expect(
                "all is fetched",
                (status, printed.splitlines()[0]),
                (0, "1 file asked for, 0 new or changed, 0 not fetched"),
            )
            more = f"More.txt\t{self.providers.address('/table.txt')}\n".encode()
            library.write("sources.tsv", library.read("sources.tsv") + more)
            self.expect_lines(
                "a file that no target has",
                library.update("--fetch")[1],
                f"{library.path('sources.tsv')}: fetched, and no target has it: More.txt",
            )
            os.unlink(library.path("sources.tsv"))
            status, printed = library.update("--fetch")
            self.expect("no list of sources", (status, printed.splitlines()[0].split(":")[0]), (0, "nothing new"))
            self.expect("back, which fetches nothing", library.update("--fetch", "--back")[0], 2)

    def test_faults(self) -> None:
        """A fetch that cannot be made keeps no week from its update."""
        with Library(self.providers.path("authority.pem")) as library:
            self.write_input(library)
            library.write("good.txt", TABLE)
            library.environment["PATH"] = library.path()
            status, printed = library.update("--fetch")
            self.expect(
                "no curl",
                (status, printed.splitlines()[0], library.table("good")),
                (1, "nothing was fetched: no curl on this machine", TABLE.decode()),
            )

    def test_signal(self) -> None:
        """SIGTERM while files are fetched ends the run, and no version is made."""
        with Library(self.providers.path("authority.pem")) as library:
            self.write_input(library)
            library.write_sources(f"good.txt\t{self.providers.address('/raw/drip')}")
            library.write("good.txt", OLD)
            child = library.begin_update("--fetch")
            self.expect("it fetches", wait_until(lambda: library.read(library.state("bodies/0")) is not None))
            child.send_signal(signal.SIGTERM)
            status, printed = ended(child)
            self.expect("its end", (status, printed), (3, "openlink-update: ended by SIGTERM\n"))
            self.expect("no desk was begun", os.path.exists(f"{library.library}/desk"), False)
            self.expect("no version", (library.read("good.txt"), library.served("registry.tsv")), (OLD, None))
            self.expect("no connection is left", wait_until(lambda: not self.providers.raw.now.get("127.0.0.2")))
