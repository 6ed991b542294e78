"""The completions of bash: what each command offers at each of its places, and that no command is left out."""
from __future__ import annotations

import os
import re
import shutil
import subprocess
import tempfile

import fixtures
from fixtures import needs
from fixtures.cases import Case

SCRIPT = "packaging/completions/openlink"
MANUAL = "docs/man/openlink.1"
# Prints each word that the completions of the last word offer. A file manager's options are of an interactive shell.
_COMPLETE = """. "$1"; shift; COMP_WORDS=(openlink "$@"); COMP_CWORD=$#; _openlink 2>/dev/null
printf '%s\\n' "${COMPREPLY[@]}"; complete -p openlink"""
COMMANDS = [
    "expand",
    "link",
    "compile",
    "verify",
    "show",
    "upgrade",
    "run",
    "inspect",
    "lint",
    "explain",
    "resolve",
    "read",
    "find",
    "serve",
    "help",
    "--help",
    "--version",
]
# How many paths the arguments of each command begin with. What follows them is a query, a port or a number.
PATHS = {
    "link": 1,
    "compile": 2,
    "verify": 1,
    "show": 1,
    "upgrade": 2,
    "run": 1,
    "inspect": 1,
    "lint": 2,
    "explain": 2,
    "resolve": 1,
    "read": 0,
    "find": 1,
    "serve": 1,
    "expand": 0,
    "help": 0,
    "--help": 0,
    "--version": 0,
}
MOST_ARGUMENTS = 4


def named_in_manual(text: str) -> set[str]:
    """The commands of the manual's synopsis."""
    synopsis = text.partition(".Sh SYNOPSIS")[2].partition(".Sh ")[0]
    return set(re.findall(r"^\.Nm\n\.Cm (\w+)", synopsis, re.M))


@needs.command("bash")
class Completions(Case):
    """What bash offers in a folder with two files and a folder."""

    def setUp(self) -> None:
        self.folder = tempfile.mkdtemp(prefix="completions.")
        self.addCleanup(shutil.rmtree, self.folder)
        for name in ("one.rules", "other table.txt"):
            with open(f"{self.folder}/{name}", "w", encoding="utf-8"):
                pass
        os.mkdir(f"{self.folder}/folder")

    def offered(self, *words: str, first: str = "") -> list[str]:
        """What the completions print, after this command."""
        done = subprocess.run(
            ["bash", "--norc", "-c", f"{first}{_COMPLETE}", "bash", f"{fixtures.TOP}/{SCRIPT}", *words],
            cwd=self.folder,
            capture_output=True,
            text=True,
            check=False,
        )
        *found, registered = done.stdout.splitlines()
        self.assertEqual((done.stderr, registered), ("", "complete -F _openlink openlink"))
        return [it for it in found if it]

    def test_commands(self) -> None:
        self.expect("all", self.offered(""), COMMANDS)
        for begun in (*sorted({it[0] for it in COMMANDS} | {"q"}), *COMMANDS):
            self.expect(begun, self.offered(begun), [it for it in COMMANDS if it.startswith(begun)])
        self.expect("--", self.offered("--"), ["--help", "--version"])

    def test_no_command_of_the_manual_is_left_out(self) -> None:
        with open(MANUAL, encoding="utf-8") as file:
            named = named_in_manual(file.read())
        self.expect("commands of the manual", len(named) >= 14)
        self.expect("left out", named - {*COMMANDS}, set())

    def test_paths_are_offered_where_a_command_takes_them(self) -> None:
        everything = ["folder", "one.rules", "other table.txt"]
        self.expect("commands", sorted(PATHS), sorted(COMMANDS))
        for command, count in PATHS.items():
            for place in range(1, MOST_ARGUMENTS + 1):
                words = ["a"] * (place - 1)
                paths = place <= count
                what = f"{command}, argument {place}"
                self.expect(
                    what,
                    sorted(self.offered(command, *words, "")),
                    everything if paths else ["--list"] * (command == "expand"),
                )
                self.expect(f"{what}, begun", self.offered(command, *words, "o"), everything[1:] if paths else [])

    def test_a_path_below_a_folder(self) -> None:
        with open(f"{self.folder}/folder/two.rules", "w", encoding="utf-8"):
            pass
        self.expect("link", self.offered("link", "folder/t"), ["folder/two.rules"])
        self.expect("expand", self.offered("expand", "folder/t"), [])

    def test_paths_are_names_of_files(self) -> None:
        """So bash escapes what is in them, and puts a slash after a folder."""
        noted = 'compopt() { echo "compopt $*"; }; '
        self.expect("paths", self.offered("link", "f", first=noted), ["compopt -o filenames", "folder"])
        self.expect("none", self.offered("expand", "-", first=noted), ["--list"])

    def test_what_was_offered_before(self) -> None:
        self.expect("nothing is left", self.offered("run", "a", "", first="COMPREPLY=(old); "), [])

    def test_the_option_of_expand(self) -> None:
        for words, wanted in (
            ([""], ["--list"]),
            (["--"], ["--list"]),
            (["x"], []),
            (["--list", ""], []),
            (["--list", "rft", ""], ["--list"]),
            (["--list", "rft", "--list", "a"], []),
        ):
            self.expect(f"expand {' '.join(words)}", self.offered("expand", *words), wanted)

    def test_a_command_that_is_unknown(self) -> None:
        for words in (["nothing", ""], ["nothing", "o"], ["links", "a", ""]):
            self.expect(" ".join(words), self.offered(*words), [])
