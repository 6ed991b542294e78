"""The commands of README.md and of the pages of docs/ print what the pages say: a line '$ COMMAND' in a block of code,
and the lines below it. If the line before a block of code ends with a link to `examples/NAME` in parentheses and a
colon, the block is that file without its comments. The commands run in a temporary folder that has a copy of examples/,
update/ and packaging/. The first command of README.md compiles the program, so unproved.test_first_menu runs it; its
second one opens the reader's page, and its third one is ./test."""
from __future__ import annotations

import dataclasses
import glob
import os
import re
import shutil
import signal
import subprocess
import tempfile
import urllib.request
from typing import Any

from fixtures import TOP, needs
from fixtures.cases import Case
from fixtures.patience import patience, wait_until

FILE = re.compile(r".*\(\[`(examples/[a-z_/-]*(?:\.rules)?)`\]\([^()]*\)\):$")
# The least commands of pages that must have some, and the least files of all pages.
LEAST = {"README.md": 6, "docs/RULES.md": 15, "docs/TARGETS.md": 6}
LEAST_FILES = 8
# The first commands of README.md. The first one is shown with what it prints.
TRY, SERVE, TEST = "examples/menu/try", "examples/library/serve ./openlink", "./test"


@dataclasses.dataclass
class Page:
    """The commands of a page, each with what it prints, and the files that it shows, each with its lines."""

    commands: list[tuple[str, str]] = dataclasses.field(default_factory=list)
    files: list[tuple[str, str]] = dataclasses.field(default_factory=list)


def pieces(block: list[str]) -> list[tuple[str, str]]:
    """The commands in the lines of a block, each with the lines below it. Lines above the first have no command."""
    found: list[tuple[str, str]] = [("", "")]
    for line in block:
        command, printed = found[-1]
        if command.endswith("\\"):
            found[-1] = command[:-1] + line, printed
        elif line.startswith("$ "):
            found.append((line[2:], ""))
        else:
            found[-1] = command, f"{printed}{line}\n"
    return found


def read(text: str) -> Page:
    page, file = Page(), ""
    block: list[str] | None = None
    for line in text.splitlines():
        if line.startswith("```"):
            if block is not None:
                commands = pieces(block)
                page.commands += commands[1:]
                page.files += [(file, "".join(printed for _, printed in commands))] * bool(file)
                file = ""
            block = [] if block is None else None
        elif block is not None:
            block.append(line)
        elif line:
            found = FILE.match(line)
            file = found[1] if found else ""
    return page


class Room:
    """A folder in which the commands of pages run."""

    def __init__(self, case: type[Case] | Case) -> None:
        room = tempfile.TemporaryDirectory()
        add = case.addClassCleanup if isinstance(case, type) else case.addCleanup
        add(room.cleanup)
        self.folder = room.name
        shutil.copytree("examples", f"{self.folder}/examples", symlinks=True)
        for name in ("front_door", "packaging", "update"):
            os.symlink(f"{TOP}/{name}", f"{self.folder}/{name}")

    def printed(self, command: str) -> str:
        """What a command prints, with its errors, without the empty lines at its end."""
        words = ["bash", "-c", command.replace("./openlink", '"$program"')]
        how: dict[str, Any] = {
            "cwd": self.folder,
            "env": {**os.environ, "program": needs.PROGRAM},
            "stdin": subprocess.DEVNULL,
            "stdout": subprocess.PIPE,
            "stderr": subprocess.STDOUT,
        }
        ran = subprocess.run(words, timeout=patience(120), **how)
        return ran.stdout.decode(errors="replace").rstrip("\n")

    def faults_of_commands(self, page: Page) -> list[str]:
        got = [
            (command, self.printed(command), wanted.removesuffix("\n"))
            for command, wanted in page.commands
            if command != TRY
        ]
        return [
            f"{command} prints {printed!r}, not {wanted!r}" for command, printed, wanted in got if printed != wanted
        ]


def faults_of_files(page: Page) -> list[str]:
    found = []
    for path, block in page.files:
        with open(path, encoding="utf-8") as file:
            lines = [line for line in file.read().rstrip("\n").split("\n") if not line.startswith("#")]
        if "\n".join(lines).rstrip("\n") + "\n" != block:
            found.append(f"the page shows another {path}")
    return found


@needs.program()
class Pages(Case):
    def test_commands_and_files(self) -> None:
        room, files, commands = Room(self), 0, {}
        for path in ["README.md", *sorted(glob.glob("docs/*.md"))]:
            with open(path, encoding="utf-8") as file:
                page = read(file.read())
            files, commands[path] = files + len(page.files), len(page.commands)
            self.expect(f"{len(page.commands)} commands of {path}", room.faults_of_commands(page), [])
            self.expect(f"{len(page.files)} files in {path}", faults_of_files(page), [])
        for path, least in LEAST.items():
            self.expect(f"{commands.get(path)} commands of {path}", commands.get(path, 0) >= least)
        self.expect(f"{files} files", files >= LEAST_FILES)


def blocks(text: str) -> list[str]:
    """The first line of each block of code, as it is to be typed."""
    found = re.findall(r"^```\n(.*?)^```$", text, re.M | re.S)
    return [it.split("\n")[0].removeprefix("$ ") for it in found]


def without_packages(folder: str, name: str) -> None:
    """Writes an nginx without a JavaScript module, and a browser that notes the address."""
    os.mkdir(f"{folder}/{name}")
    for command, body in (("nginx", "echo --modules-path=/none >&2"), ("xdg-open", f'echo "$1" >{folder}/opened')):
        with open(f"{folder}/{name}/{command}", "w", encoding="utf-8") as file:
            file.write(f"#!/bin/sh\n{body}\n")
        os.chmod(f"{folder}/{name}/{command}", 0o755)


@needs.program()
class FirstCommands(Case):
    """The first three commands of README.md, as they stand there."""

    def setUp(self) -> None:
        with open("README.md", encoding="utf-8") as file:
            self.text = file.read()
        self.room = Room(self)
        os.symlink(needs.PROGRAM, f"{self.room.folder}/openlink")

    def served(self, lines: int, **environment: str) -> tuple[list[str], str, bytes]:
        """What the second command prints: its first lines, the rest with errors, and the page of its last address."""
        how: dict[str, Any] = {"cwd": self.room.folder, "stdout": subprocess.PIPE, "stderr": subprocess.PIPE}
        run = subprocess.Popen(blocks(self.text)[1].split(), env={**os.environ, **environment}, text=True, **how)
        try:
            assert run.stdout is not None
            first = [run.stdout.readline().rstrip("\n") for _ in range(lines)]
            addresses = re.findall(r"http://.*", "\n".join(first))
            with urllib.request.urlopen(addresses[-1], timeout=patience(20)) as reply:
                page = reply.read()
        finally:
            run.send_signal(signal.SIGTERM)
            rest = "".join(run.communicate(timeout=patience(60)))
        return first, rest, page

    def test_order(self) -> None:
        self.expect("the first blocks", blocks(self.text)[:3], [TRY, SERVE, TEST])
        self.expect("a command with what it prints", blocks("a\n```\n$ b c\nd\n```\n```\ne\n```\n"), ["b c", "e"])
        self.expect("the tests are a command", os.access(f"{TOP}/{TEST}", os.X_OK))

    def links(self) -> list[bytes]:
        with open("examples/library/article.menu", encoding="utf-8") as file:
            return [line.split("\t")[1].replace("&", "&amp;").encode() for line in file.read().splitlines()]

    @needs.nginx()
    def test_page(self) -> None:
        without_packages(self.room.folder, "bin")
        os.remove(f"{self.room.folder}/bin/nginx")
        path = f"{self.room.folder}/bin:{os.environ['PATH']}"
        first, rest, page = self.served(2, PATH=path, DISPLAY=":0")
        opened = f"{self.room.folder}/opened"
        self.expect("what it prints", [it.partition("http")[0] for it in first], ["open ", "for readers "])
        self.expect("and after that", rest, "")
        self.expect("links that the reader's page lacks", [it for it in self.links() if it not in page], [])
        self.expect("a page is opened", wait_until(lambda: os.path.exists(opened) and os.path.getsize(opened)) > 0)
        with open(opened, encoding="utf-8") as file:
            self.expect("the page that is opened", f"for readers {file.read()}", first[1] + "\n")

    def test_missing_packages(self) -> None:
        without_packages(self.room.folder, "bin")
        first, rest, page = self.served(2, PATH=f"{self.room.folder}/bin:{os.environ['PATH']}", DISPLAY=":0")
        self.expect("what is missing", first[1], "no front door: apt-get install libnginx-mod-http-js")
        self.expect(
            "what it says before it builds",
            rest,
            "no reader's page without these packages: apt-get install libnginx-mod-http-js\n",
        )
        self.expect("links that the menu lacks", [it for it in self.links() if it not in page], [])
        self.expect("a page is opened", os.path.exists(f"{self.room.folder}/opened"), False)


PAGE = """\
Text, and a file ([`examples/article.rules`](examples/article.rules)):

```
FILE```

```
$ ./openlink expand \\
'{x}' 'x=1'
1
$ echo a; echo; echo b >&2
a

b
$ ./openlink
openlink: usage
```
"""


@needs.program()
class SpoiltPages(Case):
    """The check fails for a page with a changed line, and finds no command where none is written."""

    def test_pages(self) -> None:
        with open("examples/article.rules", encoding="utf-8") as file:
            lines = "".join(line for line in file if not line.startswith("#"))
        room, text = Room(self), PAGE.replace("FILE", lines)
        page = read(text)
        self.expect("commands and files", (len(page.commands), len(page.files)), (3, 1))
        self.expect("what is wrong", room.faults_of_commands(page) + faults_of_files(page), [])
        for line, other in ("\n1\n", "\n2\n"), ("\nb\n", "\n"), ("openlink: usage", "usage"), ("'x=1'", "'x=2'"):
            self.expect(f"{other!r}", len(room.faults_of_commands(read(text.replace(line, other)))), 1)
        self.expect("another file", len(faults_of_files(read(text.replace("rule\n", "rule \n", 1)))), 1)
        self.expect("no commands", read(text.replace("$ ", "% ")).commands, [])
