"""The first command of README.md prints what it shows. With a stand-in for the toolchain: of a program that fails its
script prints the error, and of one that is killed it says so."""
from __future__ import annotations

import os
import shutil
import subprocess
import tempfile
import time
from typing import Any

from fixtures import TOP, needs
from fixtures.cases import Case
from fixtures.patience import patience
from program.test_readme import TRY, read
from unproved import without_hint

SECONDS = 300
# What stands in for the toolchain: it says what `rt try` says around an error of the program.
RT = """#!/bin/sh
echo "$*" >"$SAID_TO_RT"
echo 'warning: something else' >&2
echo 'openlink: query: WrongVersion' >&2
echo "run=$HOW status=3 runners=1 proved=no" >&2
exit 3
"""


def run(*arguments: str, **environment: str) -> tuple[int, str, str]:
    """The status, standard output and standard error. What is printed is short."""
    with tempfile.TemporaryFile() as out, tempfile.TemporaryFile() as errors:
        how: dict[str, Any] = {"stdin": subprocess.DEVNULL, "stdout": out, "stderr": errors}
        process = subprocess.Popen([f"{TOP}/{TRY}", *arguments], env={**os.environ, **environment}, **how)
        started = time.monotonic()

        def end_if_late() -> None:
            if time.monotonic() - started > SECONDS and time.monotonic() - started > patience(SECONDS):
                process.kill()

        status = without_hint.wait(process, end_if_late)
        for file in (out, errors):
            file.seek(0)
        return status, out.read().decode(), errors.read().decode()


class FirstMenu(Case):
    @needs.toolchain()
    def test_article(self) -> None:
        with open("README.md", encoding="utf-8") as file:
            command, shown = read(file.read()).commands[0]
        self.expect("the first command", command, TRY)
        status, out, said = run()
        self.expect("the status", status, 0)
        self.expect("what it prints, with what it says before", said + out, shown)
        with open("examples/menu/article.menu", encoding="utf-8") as file:
            self.expect("the stored menu", out, file.read())
        self.expect("it says that nothing is proved", said.endswith("this proves nothing\n") and said.count("\n") == 1)

    def test_an_error(self) -> None:
        with tempfile.TemporaryDirectory() as folder:
            path, given = f"{folder}/rt", f"{folder}/arguments"
            with open(path, "w", encoding="utf-8") as file:
                file.write(RT)
            os.chmod(path, 0o755)
            how = {"PATH": f"{folder}:{os.environ['PATH']}", "SAID_TO_RT": given}
            status, out, said = run("ctx_ver=other", HOW="ended", **how)
            with open(given, encoding="utf-8") as file:
                words = file.read().split()
            self.expect(
                "a request of another version",
                (status, out, said.splitlines()[1:]),
                (3, "", ["openlink: query: WrongVersion"]),
            )
            wanted = ["--", "resolve", "examples/menu/registry.tsv", "ctx_ver=other"]
            self.expect("what runs", (words[0], words[-4:]), ("try", wanted))
            status, out, said = run("ctx_ver=other", HOW="killed", **how)
            self.expect("one that is killed", (status, out), (70, ""))
            self.expect("why", said.splitlines()[-1], f"{TRY}: the program did not run to its end")

    def test_without_the_toolchain(self) -> None:
        with tempfile.TemporaryDirectory() as folder:
            for name in ("bash", "dirname", "cat", "mktemp", "rm"):
                os.symlink(str(shutil.which(name)), f"{folder}/{name}")
            wanted = f"{TRY}: needs the toolchain's command rt on the PATH, and the sources of the program\n"
            self.expect("what it says", run(PATH=folder), (70, "", wanted))
