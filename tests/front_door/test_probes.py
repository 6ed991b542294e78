"""The probes of the sample library, mistakes in a file of probes, and a front door that does not answer."""
from __future__ import annotations

import re
import subprocess
from pathlib import Path

from fixtures.local_ports import free_ports
from fixtures.site_case import ARTICLE
from fixtures.site_case import SiteCase

LISTED = b"\ttidal-press aggregate-net catalogue web-search"


def probe(*words: str) -> tuple[int, str, str]:
    done = subprocess.run(["update/probe", *words], capture_output=True, text=True)
    return done.returncode, done.stdout, done.stderr


class Probes(SiteCase):
    """Each has its own message and exit status."""

    processes = 1
    is_sample = True

    def tried(self, text: bytes, front_door: str | None = None, reports: str | None = None) -> tuple[int, str, str]:
        """What the script says of a file with this text."""
        file = Path(self.site.path("probes.tsv"))
        file.write_bytes(text)
        door = front_door or f"http://127.0.0.1:{self.site.port}"
        return probe(str(file), door, reports or f"http://127.0.0.1:{self.site.report_port}")

    def test_sample(self) -> None:
        text = Path("examples/library/probes.tsv").read_bytes()
        self.expect("probes of the sample library", len(re.findall(rb"^[^#\n].*\t", text, re.M)), 33)
        self.expect("they hold", self.tried(text), (0, "", ""))
        self.expect("they hold with line ends of Windows", self.tried(text.replace(b"\n", b"\r\n")), (0, "", ""))

    def test_what_differs(self) -> None:
        article, file = ARTICLE.encode(), self.site.path("probes.tsv")
        self.expect(
            "an order", self.tried(article + b"\tweb-search catalogue aggregate-net tidal-press\n"), (0, "", "")
        )
        self.expect("no page", self.tried(b"sid=Entrez:PubMed\tnone")[0], 0)
        wrong = b"\ttidal-press coastal-law interlibrary-loan pubmed nobody web-search\n"
        self.expect(
            "what differs",
            self.tried(b"# a source\n\n" + article + wrong + article + LISTED),
            (
                1,
                f"{file}:3: {ARTICLE}\n  missing coastal-law: no row\n"
                "  missing interlibrary-loan: link 0 but not shown: onlyWithout in targets.json hides its group\n"
                "  missing pubmed: no link\n  missing nobody: not in the registry\n"
                "  too many aggregate-net: link 0\n  too many catalogue: link 0\n1 of 2 probes differ\n",
                "",
            ),
        )
        self.expect("none, and some are shown", self.tried(article + b"\tnone")[1].count("too many"), 4)
        hostile = b'rft.atitle=\xff\x00\r "#$(id)\x1b&issn=2901-0012\ttidal-press'
        self.expect("a hostile query", self.tried(hostile)[0], 1)
        self.expect("a query that is too long", "the front door refuses" in self.tried(b"a" * 9000 + b"\tnone")[1])

    def test_no_front_door(self) -> None:
        article, nothing = ARTICLE.encode(), f"http://127.0.0.1:{free_ports(1)[0]}"
        self.expect("no reports", "no report: " in self.tried(article + b"\tpubmed", reports=nothing)[1])
        for reason, status, door in (
            ("nothing listens", 4, nothing),
            ("another server", 4, f"http://127.0.0.1:{self.site.ports[0]}"),
            ("no address", 2, "127.0.0.1"),
        ):
            got = self.tried(article + LISTED, door)
            self.expect(f"probe: {reason}", (got[0], got[1], got[2] != ""), (status, "", True))

    def test_slips(self) -> None:
        article = ARTICLE.encode()
        for end in (b"", b"\t", b"\tnone tidal-press", b"\ta/b"):
            self.expect(f"a slip: {end!r}", self.tried(article + end)[0], 3)
        for text in (b"", b"# none\n"):
            self.expect(f"a slip: {text!r}", self.tried(text)[0], 3)
        self.expect("no file", probe(self.site.path("none"))[0], 3)
        self.expect("no arguments", probe()[0], 2)

    def test_no_process(self) -> None:
        self.site.kill()
        self.expect("no process", self.tried(ARTICLE.encode() + LISTED)[:2], (4, ""))
