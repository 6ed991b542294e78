"""Fetching again: after which errors another try is made, where it begins, and what it may still take."""
from __future__ import annotations

import os

from fixtures import needs
from fixtures.cases import Case
from fixtures.patience import patience
from fixtures.patience import wait_until
from fixtures.provider import HOSTS
from fixtures.provider import TABLE
from fixtures.provider import Folder
from fixtures.provider import Held
from fixtures.provider import Provider
from fixtures.provider import Step
from fixtures.provider import close
from fixtures.provider import cut
from fixtures.provider import reply

FETCHED = f"table.txt: new, {len(TABLE)} bytes\n1 file asked for, 1 new or changed, 0 not fetched\n"
_PASSING = (408, 425, 429, 500, 502, 503, 504)
_LASTING = (400, 401, 403, 404, 405, 410, 451, 501, 505)


def kept(reason: str) -> str:
    return (
        f"table.txt: not fetched, and there is no old file: {reason}\n"
        "1 file asked for, 0 new or changed, 1 not fetched\n"
    )


@needs.command("curl", "openssl")
class Retries(Case):
    provider: Provider

    @classmethod
    def setUpClass(cls) -> None:
        cls.provider = Provider()
        cls.addClassCleanup(cls.provider.stop)

    def setUp(self) -> None:
        super().setUp()
        self.folder = Folder(self.provider)
        self.addCleanup(self.folder.close)
        self.provider.asked()

    def to(self, path: str, host: int = 0) -> Step:
        return reply(302, Location=self.provider.address(path, host))

    def fetched(self, path: str, *words: str, options: str = "") -> tuple[int | None, str]:
        """The end of a run that fetches one file from a path."""
        self.folder.write("sources.tsv", f"table.txt\t{self.provider.address(path)}\t{options}\n")
        return self.folder.fetch(*words)

    def test_begins_at_the_first_address(self) -> None:
        """The first try is led to an address that fails. The second begins at the first address and not there: it may
        be led elsewhere, as where each address is signed for a while. A header goes to the first host alone."""
        provider = self.provider
        provider.steps = {
            "/table": [self.to("/signed-1"), self.to("/signed-2", 1)],
            "/signed-1": [reply(500)],
            "/signed-2": [reply(200, TABLE)],
        }
        self.folder.write("secrets.tsv", "key\ts3cr3t\n")
        os.chmod(self.folder.path("secrets.tsv"), 0o600)
        self.expect("the file", self.fetched("/table", options="header X-Key: {key}"), (0, FETCHED))
        keys = [request.headers.get("x-key") for request in provider.requests]
        self.expect(
            "the requests",
            list(zip(provider.asked(), keys)),
            [
                ((HOSTS[0], "/table"), "s3cr3t"),
                ((HOSTS[0], "/signed-1"), "s3cr3t"),
                ((HOSTS[0], "/table"), "s3cr3t"),
                ((HOSTS[1], "/signed-2"), None),
            ],
        )

    def test_redirects_of_each_try(self) -> None:
        """Five redirects are followed in each try, not in all tries together; six in none."""
        provider, hops = self.provider, [f"/{number}" for number in range(1, 6)]
        provider.steps = {here: [self.to(there)] for here, there in zip(["/first", *hops], hops)}
        provider.steps["/5"] = [reply(503), reply(503), reply(200, TABLE)]
        self.expect("five, three times", self.fetched("/first"), (0, FETCHED))
        self.expect("the requests", [path for _, path in provider.asked()], ["/first", *hops] * 3)
        provider.steps["/5"], provider.steps["/6"] = [self.to("/6")], [reply(200, TABLE)]
        os.unlink(self.folder.path("table.txt"))
        self.expect("six", self.fetched("/first"), (1, kept("more than 5 redirects")))
        self.expect("the requests then", [path for _, path in provider.asked()], ["/first", *hops])

    def all_fetched(self, steps: dict[str, list[Step]]) -> tuple[int | None, list[str]]:
        """The end of a run that fetches a file from each path, and the lines that it prints but the last."""
        self.provider.steps = {f"/{name}": list(these) for name, these in steps.items()}
        self.folder.write(
            "sources.tsv", "".join(f"{name}.txt\t{self.provider.address(f'/{name}')}\n" for name in steps)
        )
        status, printed = self.folder.fetch()
        return status, printed.splitlines()[:-1]

    def test_statuses(self) -> None:
        """Those after which another try may end well are tried three times, the others once."""
        statuses = _PASSING + _LASTING
        status, lines = self.all_fetched({str(it): [reply(it)] for it in statuses})
        self.expect("the status", status, 1)
        for it, line in zip(statuses, lines):
            self.expect(
                f"what is said of {it}", line.startswith(f"{it}.txt: not fetched, and there is no old file: {it}")
            )
        asked = [path for _, path in self.provider.asked()]
        self.expect(
            "tries of each",
            {it: asked.count(f"/{it}") for it in statuses},
            {**dict.fromkeys(_PASSING, 3), **dict.fromkeys(_LASTING, 1)},
        )

    def test_third_try(self) -> None:
        """A reply that is missing, cut short, or of a server in trouble, twice; then a whole one. A fourth try is not
        made."""
        steps = {"none": close, "trouble": reply(503), "part": cut(TABLE[:50], 100)}
        reasons = {"none": "no reply", "trouble": "503 Service Unavailable", "part": "ended after 50 of 100 bytes"}
        self.expect(
            "twice",
            self.all_fetched({name: [it, it, reply(200, TABLE)] for name, it in steps.items()}),
            (0, [f"{name}.txt: new, {len(TABLE)} bytes" for name in steps]),
        )
        self.expect("tries", len(self.provider.asked()), 9)
        self.expect(
            "three times",
            self.all_fetched({name: [it, it, it, reply(200)] for name, it in steps.items()}),
            (1, [f"{name}.txt: kept the old file: {reason}" for name, reason in reasons.items()]),
        )
        self.expect("tries then", len(self.provider.asked()), 9)

    def test_held(self) -> None:
        """A server that sends nothing, some bytes and then nothing, or a byte from time to time: curl goes when the
        time of the file is over. There is none left for another try, however the first one began."""
        head = b"HTTP/1.1 200 X\r\nContent-Length: 1000000\r\n\r\n"
        seconds = str(round(patience(2)))
        for name, held in (("nothing", Held()), ("a part", Held(head + TABLE)), ("drops", Held(head, b"x"))):
            self.provider.steps = {"/table": [held]}
            status, printed = self.fetched("/table", "--seconds", seconds)
            self.expect(
                f"{name}: {printed}",
                (status, "no old file: no end, after " in printed, f" bytes, within {seconds} seconds\n" in printed),
                (1, True, True),
            )
            self.expect(f"{name}: the connection is closed", wait_until(held.has_ended.is_set))
            self.expect(f"{name}: requests", len(self.provider.asked()), 1)
            self.expect(f"{name}: nothing is left", self.folder.read("table.txt"), None)
