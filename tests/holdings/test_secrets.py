"""openlink-fetch: its secrets, and who may read them."""
from __future__ import annotations

import os
import threading
import time
from collections.abc import Iterable

from fixtures.fetch_input import Input
from fixtures.fetch_input import TABLE
from fixtures.providers import HOSTS
from fixtures.providers import ProvidersCase
from fixtures.raw_replies import SENT
from fixtures.raw_replies import WHOLE


class Spy(threading.Thread):
    """Reads the arguments and the environment of every process, as long as the block lasts."""

    def __init__(self, secrets: Iterable[str]) -> None:
        super().__init__(daemon=True)
        self.secrets, self.is_stopped = secrets, False
        self.found: set[tuple[str, str]] = set()
        self.curls: set[bytes] = set()

    def __enter__(self) -> Spy:
        self.start()
        return self

    def __exit__(self, *_: object) -> None:
        self.is_stopped = True
        self.join()

    def run(self) -> None:
        while not self.is_stopped:
            for number in filter(str.isdigit, os.listdir("/proc")):
                for name in ("cmdline", "environ"):
                    try:
                        with open(f"/proc/{number}/{name}", "rb") as file:
                            data = file.read()
                    except OSError:
                        continue
                    if data.startswith(b"curl\0"):
                        self.curls.add(data)
                    self.found.update((name, it) for it in self.secrets if it.encode() in data)
            time.sleep(0.01)


class Secrets(ProvidersCase):
    """Runs with a token and a key."""

    def test_secrets(self) -> None:
        """A token in an address, a key in a header, and one in a redirect: the provider sees them, nobody else."""
        key, token = self.providers.KEY, self.providers.TOKEN
        secrets = (key, token, self.providers.ENCODED, "s3cr3t", "other-secret")
        with Input(self.authority) as folder, Spy(secrets) as spy:
            folder.write("secrets.tsv", f"# from the providers\nKEY\t{key}\r\nTOKEN\t{token}\nOTHER\tother-secret\n")
            folder.write_sources(
                f"kbart.txt\t{self.address('/kbart?token={TOKEN}')}",
                f"key.txt\t{self.address('/with-key', 1)}\theader X-Key: {{KEY}}",
                f"elsewhere.txt\t{self.address('/key-elsewhere', 2)}\theader X-Key: {{KEY}};"
                "header Authorization: Bearer {KEY}",
                f"port.txt\t{self.address('/key-to-port', 2)}\theader X-Key: {{KEY}}",
                f"path.txt\t{self.address('/key-to-path', 2)}\theader X-Key: {{KEY}}",
                f"bad.txt\t{self.address('/raw/cut?token={TOKEN}', 3)}\theader X-Key: {{KEY}}",
                f"refused.txt\t{self.address('/kbart?token={OTHER}', 4)}",
                f"slow.txt\t{self.address('/raw/slow?{TOKEN}', 5)}",
            )
            status, printed = folder.fetch()
            self.expect(
                "a token and a key", (status, folder.read("kbart.txt"), folder.read("key.txt")), (1, TABLE, TABLE)
            )
            self.expect_lines(
                "what fails",
                printed,
                "refused.txt: not fetched, and there is no old file: 401 Unauthorized",
                f"bad.txt: not fetched, and there is no old file: ended after {SENT:,} of {WHOLE:,} bytes",
            )
            last = self.providers.requests("/table.txt")[-1]
            keys = [
                [rest[:5] for _, _, _, rest in self.providers.requests(f"/table.txt?{it}")] for it in ("port", "path")
            ]
            self.expect(
                "nor does another port of its host; the same port gets it again",
                (folder.read("port.txt"), keys),
                (TABLE, [["- -"], ["- top"]]),
            )
            self.expect(
                "another host gets no header with a secret",
                (folder.read("elsewhere.txt"), last[0], last[3]),
                (TABLE, HOSTS[1], "- -"),
            )
            self.expect("the host gets it", self.providers.requests("/key-elsewhere")[0][3].startswith("Bearer top"))
            again = folder.fetch()
            folder.write("secrets.tsv", f"TOKEN\t{token}\nKEY\tanother-key\n")
            self.expect(
                "after a change of secrets",
                (
                    folder.fetch("kbart.txt")[0],
                    [status for _, status, _, _ in self.providers.requests(f"/kbart?token={self.providers.ENCODED}")],
                ),
                (0, ["200", "304", "200"]),
            )
            folder.write("secrets.tsv", f"KEY\t{key}\nTOKEN\twrong-token\n")
            wrong = folder.fetch("kbart.txt")
            self.expect("a changed token is used", (wrong[0], folder.read("kbart.txt")), (1, TABLE))
            texts = [
                printed,
                again[1],
                wrong[1],
                *(
                    text
                    for name in (*folder.names(), folder.state("state.json"))
                    if name != "secrets.tsv"
                    for text in [folder.read(name).decode()]
                ),
            ]
            self.expect(
                "no output and no file has a secret", [it for it in secrets for text in texts if it in text], []
            )
        self.expect("no process has one", spy.found, set())
        self.expect("curl was seen", b"-q" in {data.split(b"\0")[1] for data in spy.curls})

    def test_who_may_read_secrets(self) -> None:
        with Input(self.authority) as folder:
            folder.write_sources(
                f"kbart.txt\t{self.address('/kbart?token={TOKEN}')}",
                f"table.txt\t{self.address('/table.txt')}",
                f"unknown.txt\t{self.address('/kbart?token={UNKNOWN}')}",
            )
            folder.write("secrets.tsv", f"TOKEN\t{self.providers.TOKEN}\n")
            os.chmod(folder.path("secrets.tsv"), 0o640)
            path = folder.path("secrets.tsv")
            refused = f"{path}: others than its owner may read it: chmod 600"
            self.expect(
                "secrets that others may read",
                folder.fetch(),
                (
                    1,
                    "".join(
                        f"{line}\n"
                        for line in [
                            f"kbart.txt: not fetched, and there is no old file: {refused}",
                            f"unknown.txt: not fetched, and there is no old file: {refused}",
                            f"table.txt: new, {len(TABLE)} bytes",
                            "3 files asked for, 1 new or changed, 2 not fetched",
                        ]
                    ),
                ),
            )
            os.chmod(path, 0o400)
            status, printed = folder.fetch()
            self.expect("secrets that only the owner may read", (status, folder.read("kbart.txt")), (1, TABLE))
            self.expect_lines(
                "an unknown secret",
                printed,
                "unknown.txt: not fetched, and there is no old file: secrets.tsv has no UNKNOWN",
            )
            for text in ("TOKEN alone\n", "TOKEN\t\n", "TO KEN\tx\n", "TOKEN\ta\x01b\n"):
                os.chmod(path, 0o600)
                folder.write("secrets.tsv", text)
                self.expect(
                    f"secrets {text!r}",
                    folder.fetch("kbart.txt"),
                    (
                        1,
                        (
                            f"kbart.txt: kept the old file: {path}: line 1: not a name, a tab and a value\n"
                            "1 file asked for, 0 new or changed, 1 not fetched\n"
                        ),
                    ),
                )
