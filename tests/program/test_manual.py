"""The manual pages. Their examples print what the pages say. The commands and exit statuses of openlink(1) are the
README's and those that the program's help prints; the help's arguments and limits are the README's; the first version
in CHANGELOG.md is the program's; and the options in the pages of openlink-update, openlink-fetch, openlink-holdings and
openlink-library are those of the scripts. If mandoc is installed, it finds no error in a page."""
from __future__ import annotations

import glob
import re
import subprocess

from fixtures import needs
from fixtures.cases import Case
from program import test_readme

PAGE = "docs/man/openlink.1"
# The scripts of update/ that have a help, with the sections of their pages, and the commands that have their own help.
SCRIPTS = {"update": (8, ()), "desk": (8, ()), "fetch": (8, ()), "holdings": (1, ()),
           "library": (8, ("add", "remove", "list", "mail"))}
# There are at least this many examples, commands, exit statuses and limits in the help.
LEAST = {"examples": 3, "commands": 14, "exit statuses": 5, "limits": 5}


def read(path: str) -> str:
    with open(path, encoding="utf-8") as file:
        return file.read()


def printed(*words: str) -> str:
    return subprocess.run(words, stdout=subprocess.PIPE, encoding="utf-8", check=True).stdout


def between(text: str, first: str, last: str) -> str:
    """The lines from one that begins with the first to one that begins with the last."""
    return text.partition(f"\n{first}")[2].partition(f"\n{last}")[0] + "\n"


def examples(manual: str) -> str:
    """The examples of the manual page, as a page of blocks of code."""
    blocks = re.findall(r"^\.Bd -literal.*?\n(.*?)^\.Ed", manual, re.M | re.S)
    text = "".join(f"```\n{it}```\n" for it in blocks).replace("\\(aq", "'")
    return re.sub(
        r"(compile) openlink$",
        r"\1 ./openlink",
        re.sub(r"^\$ openlink ", "$ ./openlink ", text, flags=re.M),
        flags=re.M,
    )


def lists(manual: str, readme: str, help_text: str) -> dict[str, dict[str, list[str]]]:
    """What each of the three has: commands, exit statuses, arguments, and limits."""
    statuses = re.findall(r"^  (\d) .*", help_text.partition("\nExit status:")[2], re.M)
    limits = re.findall(r"[0-9][0-9,]*[0-9]", between(help_text, "Limits:", "Exit status:"))
    table = between(readme, "| Command ", "\n")
    return {
        "commands": {
            "manual": sorted(re.findall(r"^\.Cm (.*)", between(manual, ".Sh SYNOPSIS", ".Sh DESCRIPTION"), re.M)),
            "readme": sorted(re.findall(r"^\| `openlink ([a-z]*) .*", readme, re.M)),
            "help": sorted(re.findall(r"^  openlink ([a-z]*) .*", help_text, re.M)),
        },
        "exit statuses": {
            "manual": re.findall(r"^\.It (.*)", between(manual, ".Sh EXIT STATUS", ".Sh EXAMPLES"), re.M),
            "readme": re.findall(r"^\| (\d) \| .*", readme, re.M),
            "help": statuses,
        },
        "arguments": {
            "readme": sorted(re.findall(r"^\| `(openlink [a-z][^`]*)`.*", readme, re.M)),
            "help": sorted(it.partition("   ")[0] for it in re.findall(r"^  (openlink [a-z].*)$", help_text, re.M)),
        },
        "limits": {
            "help": limits,
            "readme": [it for it in limits if re.search(rf"(?<!\w){re.escape(it)}(?!\w)", table)],
        },
    }


def faults(found: dict[str, dict[str, list[str]]]) -> list[str]:
    """Which lists of a subject differ, or have too few items."""
    wrong = []
    for what, by_place in found.items():
        (first, wanted), *others = by_place.items()
        wrong += [
            f"the {what} of the {place} and the {first} differ: {got}, {wanted}"
            for place, got in others
            if got != wanted
        ]
        wrong += [f"{len(wanted)} {what}: {wanted}"] * (len(wanted) < LEAST.get(what, 1))
    return wrong


def options(text: str) -> list[str]:
    return sorted({*re.findall(r"--[a-z-]*", text)} - {"--help"})


def options_of_page(script: str, section: int) -> list[str]:
    page = read(f"docs/man/openlink-{script}.{section}")
    return sorted(f"--{it}" for it in re.findall(r"^\.It Fl -([a-z-]*).*", page, re.M))


@needs.program()
class Manual(Case):
    def test_examples(self) -> None:
        page = test_readme.read(examples(read(PAGE)))
        self.expect(f"{len(page.commands)} examples", len(page.commands) >= LEAST["examples"])
        self.expect("what they print", test_readme.Room(self).faults_of_commands(page), [])

    def test_lists(self) -> None:
        found = lists(read(PAGE), read("README.md"), printed(needs.PROGRAM, "--help"))
        self.expect("the lists", faults(found), [])

    def test_a_spoilt_list(self) -> None:
        """The comparison fails if one of the three has a command, a status, an argument or a limit less."""
        texts = [read(PAGE), read("README.md"), printed(needs.PROGRAM, "--help")]
        spoilt = [
            (0, "\n.Cm explain\n", "\n"),
            (0, "\n.It 3\n", "\n"),
            (1, "| `openlink lint", "| `openlink lynt"),
            (1, "\n| 4 | ", "\n| 5 | "),
            (1, "65,536", "65,537"),
            (2, "  openlink resolve", "  openlink"),
            (2, "\nExit status:", "\n"),
            (2, "\nLimits:", "\n"),
        ]
        for at, before, after in spoilt:
            self.expect(f"{before!r} occurs", before in texts[at])
            changed = [it.replace(before, after) if number == at else it for number, it in enumerate(texts)]
            self.expect(f"{before!r} is {after!r}", bool(faults(lists(*changed))))
        self.expect("empty texts", len(faults(lists("", "", ""))), 4)

    def test_version(self) -> None:
        first = re.findall(r"^## ([0-9.]+)", read("CHANGELOG.md"), re.M)[:1]
        self.expect("the version", printed(needs.PROGRAM, "--version"), "".join(f"openlink {it}\n" for it in first))

    def test_options_of_scripts(self) -> None:
        for script, (section, commands) in SCRIPTS.items():
            helps = [["--help"], *([it, "--help"] for it in commands)]
            told = options("".join(printed(f"update/{script}", *words) for words in helps))
            self.expect(f"the options of update/{script}", options_of_page(script, section), told)
            self.expect(f"{len(told)} options", len(told) >= 1)

    @needs.command("mandoc")
    def test_form(self) -> None:
        pages = sorted(glob.glob("docs/man/*"))
        self.expect(f"{len(pages)} pages", len(pages) >= 7)
        for words in ["-T", "lint", PAGE], ["-T", "lint", "-W", "warning", *pages]:
            ran = subprocess.run(["mandoc", *words], stdout=subprocess.PIPE, stderr=subprocess.STDOUT, encoding="utf-8")
            self.expect(f"mandoc {' '.join(words)}: {ran.stdout}", ran.returncode, 0)
