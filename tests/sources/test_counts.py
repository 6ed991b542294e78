"""The table that update/counts makes of a log, in one file, in two, and compressed, byte for byte; what it says of
lines of another form; and its exit statuses. Some lines of the log have an older form, and some are hostile."""
from __future__ import annotations

import gzip
import subprocess
import tempfile

from fixtures.cases import Case

# October: an older line, one of each path, a redirect, errors, and probes.
OCTOBER = b"""\
2026-10-30T08:00:00+00:00 200 GET /find 0.011 found=1/2 from=info:sid/google
2026-10-31T09:42:47+00:00 200 GET /find 0.017 found=1/3 targets=tidal-press,catalogue from=info:sid/google
2026-10-31T09:42:48+00:00 200 POST /find.json 0.009 found=0/2 targets=interlibrary-loan,web-search from=
2026-10-31T09:42:49+00:00 302 GET /go 0.009 found=2/2 targets=tidal-press from=info:sid/Entrez:PubMed
2026-10-31T09:42:50+00:00 200 GET /find 0.000 found= targets= from=
2026-10-31T09:42:51+00:00 503 GET /find 0.404 found= targets= from=info:sid/google
2026-10-31T09:42:52+00:00 404 GET /fault 0.000 found= targets= from=
2026-10-31T09:42:53+00:00 200 GET /openurl.txt 0.003 found= targets= from=
2026-10-31T09:42:54+00:00 200 GET /find.json 0.012 found=1/1 targets=tidal-press from=info:sid/openlink:probe
2026-10-31T09:42:55+00:00 200 GET /find.json 0.012 found=0/0 targets= from=info:sid/openlink:probe
2026-10-31T09:42:56+00:00 503 GET /find.json 0.404 found= targets= from=info:sid/openlink:probe
2026-10-31T09:42:57+00:00 200 GET /find.json 0.000 found= targets= from=info:sid/openlink:probe
"""
# November: paths that imitate the fields, a quote, a tab and bytes that are no UTF-8 in place of a source or a target,
# and lines that are cut short. Only the first three have the log's form, and only the first is a request.
NOVEMBER = b"""\
2026-11-01T00:00:01+00:00 200 GET /find 0.017 found=0/0 targets= from=info:sid/a.b:c/d_e-f
2026-11-01T00:00:02+00:00 404 GET /find found=9/9 targets=x from=y 0.000 found= targets= from=
2026-11-01T00:00:03+00:00 200 GET /menu.css 0.000 found= targets= from=
2026-11-01T00:00:04+00:00 200 GET /find 0.017 found=1/1 targets=a from="quoted"
2026-11-01T00:00:05+00:00 200 GET /find 0.017 found=1/1 targets=a from=\ttab
2026-11-01T00:00:06+00:00 200 GET /find 0.017 found=1/1 targets=a from=\xff\xe9
2026-11-01T00:00:07+00:00 200 GET /find 0.017 found=1/1 targets=\xc3( from=a
2026-11-01T00:00:08+00:00 200 GET /find 0.017 found=-1/1 targets=a from=a
2026-11-01T00:00:09+00:00 200 GET /find 0.0
2026-77-01T00:00:10+00:00 200 GET /find 0.017 found=1/1 targets=a from=a
<script>"&#0;\\ %s %n

2026-11-01T00:00:11+00:00 200 GET /find 0.017 found=1"""

TABLE = """\
month|counted|name|number
2026-10|requests||4
2026-10|probes||4
2026-10|without full text||1
2026-10|errors|404|1
2026-10|errors|503|1
2026-10|source|info:sid/google|2
2026-10|source|(none)|1
2026-10|source|info:sid/Entrez:PubMed|1
2026-10|source without full text|(none)|1
2026-10|shown|catalogue|1
2026-10|shown|interlibrary-loan|1
2026-10|shown|tidal-press|1
2026-10|shown|web-search|1
2026-10|followed|tidal-press|1
2026-11|requests||1
2026-11|without full text||1
2026-11|without a link||1
2026-11|source|info:sid/a.b:c/d_e-f|1
2026-11|source without full text|info:sid/a.b:c/d_e-f|1
""".replace(
    "|", "\t"
)
HEAD = TABLE.partition("\n")[0] + "\n"
OTHER_LINES = "openlink-counts: 9 of 24 lines have another form\n"
USAGE = """\
usage: openlink-counts [--format tsv|json|xlsx] [--cost FILE] [--counter FILE].. [FILE..]
       openlink-counts --wanted [--index FOLDER] [FILE..]
"""

Given = tuple[int, str, str]


class Counts(Case):
    def setUp(self) -> None:
        room = tempfile.TemporaryDirectory()
        self.addCleanup(room.cleanup)
        self.folder = room.name
        self.october, self.november = self.write("october", OCTOBER), self.write("november", NOVEMBER)

    def write(self, name: str, content: bytes) -> str:
        with open(f"{self.folder}/{name}", "wb") as file:
            file.write(content)
        return f"{self.folder}/{name}"

    def given(self, *arguments: str, log: bytes = b"") -> Given:
        """The status, the table, and what is said on standard error, for these files or for standard input."""
        ran = subprocess.run(["update/counts", *arguments], input=log, capture_output=True)
        return ran.returncode, ran.stdout.decode(errors="replace"), ran.stderr.decode(errors="replace")

    def test_tables(self) -> None:
        wanted = (0, TABLE, OTHER_LINES)
        self.expect("two files", self.given(self.october, self.november), wanted)
        self.expect("standard input", self.given(log=OCTOBER + NOVEMBER), wanted)
        compressed = self.write("october.gz", gzip.compress(OCTOBER))
        self.expect("a compressed file", self.given(self.november, compressed), wanted)
        empty = self.write("empty", b"")
        self.expect("an empty file", self.given(empty), (0, HEAD, ""))
        self.expect("no standard input", self.given(), (0, HEAD, ""))

    def test_a_spoilt_table_is_another(self) -> None:
        """The comparison sees each changed line of a table, and a changed line of the log."""
        got = self.given(self.october, self.november)
        lines = TABLE.splitlines(keepends=True)
        for at, line in enumerate(lines):
            spoilt = "".join([*lines[:at], line.replace("\n", "0\n"), *lines[at + 1 :]])
            self.expect(f"with {line!r} changed", got == (0, spoilt, OTHER_LINES), False)
        other = self.given(log=OCTOBER.replace(b"found=1/3", b"found=0/3") + NOVEMBER)
        self.expect("another log", other == (0, TABLE, OTHER_LINES), False)

    def test_statuses(self) -> None:
        cut = self.write("cut", b"\n".join(NOVEMBER.split(b"\n")[-3:]))
        said = "openlink-counts: 2 of 2 lines have another form\n"
        self.expect("no line of the form", self.given(cut), (1, HEAD, said))
        none = f"{self.folder}/none"
        self.expect("no file", self.given(self.october, none), (3, "", f"openlink-counts: {none}: cannot be read\n"))
        for arguments in ["--help"], ["--wanted", "--index"], [self.october, "--wanted"]:
            self.expect(f"{arguments}", self.given(*arguments), (2, "", USAGE))

    def test_many_sources(self) -> None:
        """Sources beyond the first 10,000 of a month, each of which would take memory, are counted together."""
        line = "2026-11-01T00:00:01+00:00 200 GET /find 0.017 found=1/1 targets=a from={}\n"
        status, table, _ = self.given(log="".join(map(line.format, range(1, 10_006))).encode())
        self.expect("the status", status, 0)
        self.expect_lines("sources", table, "2026-11\tsource\t(others)\t5")

    def test_a_file_that_breaks_off(self) -> None:
        """It is counted up to there, and the file after it too."""
        broken = self.write("broken.gz", gzip.compress(OCTOBER)[:150])
        status, table, said = self.given(broken, self.november)
        self.expect("the status", status, 3)
        self.expect_lines("the next file", table, "2026-11\trequests\t\t1")
        self.expect("what it says", "gzip" in said)
