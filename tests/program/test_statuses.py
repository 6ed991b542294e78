"""Each form of error and each exit status of the README's table, except for "out of memory": status, standard output
and standard error, byte for byte."""
from __future__ import annotations

import re
import subprocess

from fixtures.assembler import FAIL, HALT, TWENTY_TEXTS, code
from fixtures.program import PATH, ProgramCase

USAGE = "openlink: usage\n"
FILES = {
    "some.rules": "rule\nwhen has x\nlink http://e.org/{x}\n",
    "bad.rules": "rule\nlink {a\n",
    "issn.rules": "rule\nlink http://e.org/{rft.issn}\n",
    "long.rules": "rule\nlink " + "{a}" * 585,
    "bad.olk": "OLK",
    "halt.olk": HALT,
    "text.olk": code([("text", "x")], [], "TEXT r0 n0"),
    "fail.olk": FAIL,
    "twenty.olk": TWENTY_TEXTS,
    "table.txt": "title_url\nhttp://e.org/\n",
    "empty.txt": "",
    "registry.tsv": "alpha\thalt.olk\ttable.txt\n",
    "text.tsv": "alpha\ttext.olk\ttable.txt\n",
    "empty.tsv": "alpha\thalt.olk\tempty.txt\n",
    "none.tsv": "alpha\thalt.olk\tnone\n",
    "twice.tsv": "alpha\thalt.olk\ttable.txt\n" * 2,
}
# The arguments, in the order in which they run; the status; standard output, or the error.
RUNS: list[tuple[list[str | bytes], int, str]] = [
    (["expand", "{x}", "x=1"], 0, "1\n"),
    (["link", "some.rules", "x=1"], 0, "http://e.org/1\n"),
    (["show", "halt.olk"], 0, "OLK1 names 0 literals 0 instructions 1\n0 HALT\n"),
    (["upgrade", "halt.olk", "halt2.olk"], 0, "18 bytes\n"),
    (["show", "halt2.olk"], 0, "OLK2 names 0 literals 0 instructions 1\n0 HALT\n"),
    (["compile", "issn.rules", "issn.olk"], 0, "127 bytes\n"),
    (["upgrade", "issn.olk", "issn2.olk"], 0, "127 bytes\n"),
    (["run", "issn.olk", "rft.issn=1234-5678"], 0, "http://e.org/1234-5678\n"),
    (["link", "some.rules", ""], 1, ""),
    ([], 2, USAGE),
    (["expand", "{x}"], 2, USAGE),
    (["expand", "{x}", b"x=\xff"], 2, USAGE),
    (["expand", "{a b}", ""], 3, "openlink: template: BadName at 1\n"),
    (["expand", "{x}", "ctx_ver=Z39.88-2005&x=1"], 3, "openlink: query: WrongVersion\n"),
    (["link", "bad.rules", ""], 3, "openlink: rules: line 2: Template Unclosed\n"),
    (["compile", "bad.rules", "none.olk"], 3, "openlink: rules: line 2: Template Unclosed\n"),
    (["compile", "long.rules", "none.olk"], 3, "openlink: compile: TooManyInstructions\n"),
    (["show", "bad.olk"], 3, "openlink: code: BadMagic at 0\n"),
    (["verify", "halt.olk"], 0, "ok\nsteps 1 + 0*M\nbytes 0 + 0*M + 0*E + 0*M*E\n"),
    (["verify", "bad.olk"], 3, "openlink: load: BadMagic at 0\n"),
    (["verify", "text.olk"], 3, "openlink: load: FallsOff at 0\n"),
    (["run", "halt.olk", "x=1"], 0, "\n"),
    (["run", "twenty.olk", "x=a"], 0, "a" * 20 + "\n"),
    (["run", "fail.olk", "x=1"], 1, ""),
    (["run", "text.olk", "x=1"], 3, "openlink: load: FallsOff at 0\n"),
    (["run", "halt.olk", "url_ver=1"], 3, "openlink: query: WrongVersion\n"),
    (["run", "twenty.olk", "x=" + "0" * 20_000], 3, "openlink: over budget: 1200000\n"),
    (["run", "none", ""], 4, "openlink: device: none\n"),
    (["show", "none"], 4, "openlink: device: none\n"),
    (["link", ".", ""], 4, "openlink: device: .\n"),
    (["compile", "issn.rules", "none/new"], 4, "openlink: device: none/new\n"),
    (["upgrade", "halt.olk", "none/new"], 4, "openlink: device: none/new\n"),
    (["inspect", "empty.txt"], 3, "openlink: table: NoHeader\n"),
    (["lint", "some.rules", "empty.txt"], 3, "openlink: table: NoHeader\n"),
    (["lint", "issn.rules", "table.txt"], 0, "rules 1\n"),
    (
        ["lint", "some.rules", "table.txt"],
        1,
        "rules 1\nrule 1, guard 1: unknown name x\nrule 1, link: unknown name x\n",
    ),
    (["explain", "issn.rules", "table.txt", "rft.issn=1234-5678"], 1, "no row\n"),
    (["resolve", "registry.tsv", "rft.issn=1234-5678"], 1, ""),
    (["resolve", "registry.tsv", "url_ver=1"], 3, "openlink: query: WrongVersion\n"),
    (["read", "volume=12&rft_val_fmt=x"], 0, "rft.volume\t12\nvolume\t12\nrft_val_fmt\tx\n"),
    (["read", "x=" + "a" * 65_535], 3, "openlink: query: TooLong\n"),
    (["find", "registry.tsv", "url_ver=1"], 1, ""),
    (["find", "none", ""], 4, "openlink: device: none\n"),
    (["serve", "registry.tsv", "65536", "1"], 2, USAGE),
    (["resolve", "some.rules", ""], 3, "openlink: registry: line 1\n"),
    (["resolve", "none", ""], 4, "openlink: device: none\n"),
    (["serve", "none", "0", "1"], 4, "openlink: device: none\n"),
    (["resolve", "text.tsv", ""], 3, "openlink: target alpha: load: FallsOff at 0\n"),
    (["resolve", "empty.tsv", ""], 3, "openlink: target alpha: table: NoHeader\n"),
    (["resolve", "none.tsv", ""], 4, "openlink: target alpha: device: none\n"),
    (["resolve", "twice.tsv", ""], 3, "openlink: target alpha: BadTargetName\n"),
]


def wanted(status: int, text: str) -> tuple[int, bytes, bytes]:
    """An error is on standard error, and nothing else is."""
    return (status, b"", text.encode()) if text.startswith("openlink: ") else (status, text.encode(), b"")


def statuses(readme: str) -> set[str]:
    return {*re.findall(r"^\| (\d) \| .*", readme, re.M)}


class Statuses(ProgramCase):
    def setUp(self) -> None:
        super().setUp()
        for name, content in FILES.items():
            self.program.write(name, content)

    def test_runs(self) -> None:
        for arguments, status, text in RUNS:
            self.expect(f"openlink {str(arguments)[:200]}", self.program.run(arguments), wanted(status, text))

    def test_a_port_that_is_taken(self) -> None:
        words, pipe = [PATH, "serve", "registry.tsv", "0", "1"], subprocess.PIPE
        with subprocess.Popen(words, cwd=self.program.folder, stdout=pipe) as service:
            try:
                assert service.stdout
                address = service.stdout.readline().decode().split()[1]
                got = self.program.run(["serve", "registry.tsv", address.rpartition(":")[2], "1"])
                self.expect("a second service", got, wanted(4, f"openlink: device: {address}\n"))
            finally:
                service.kill()

    def test_an_output_that_takes_nothing(self) -> None:
        with open("/dev/full", "wb") as full:
            ran = subprocess.run([PATH, "expand", "{x}", "x=1"], stdout=full, stderr=subprocess.PIPE)
        self.expect("a full output", (ran.returncode, ran.stderr), (4, b"openlink: device: -\n"))

    def test_the_statuses_of_the_readme(self) -> None:
        with open("README.md", encoding="utf-8") as file:
            listed = statuses(file.read())
        self.expect("the statuses of the README", listed, {str(status) for _, status, _ in RUNS})

    def test_spoilt_expectations(self) -> None:
        """The comparison fails for another status, another text, and one on the other stream."""
        for arguments, status, text in RUNS[0], RUNS[12], RUNS[8]:
            got = self.program.run(arguments)
            self.expect(f"{arguments}", got, wanted(status, text))
            for other in (status + 1, text), (status, f"{text}\n"), (status, text[:-1] + "?"), (0, "openlink: usage\n"):
                self.expect(f"{arguments} is not {other}", got == wanted(*other), False)
        self.expect("no table", statuses("| Status | |\n|---|---|\n"), set())
