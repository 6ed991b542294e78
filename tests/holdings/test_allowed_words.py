"""The words that a line of targets.tsv may have, compared with what the program, the update and its documents say."""
from __future__ import annotations

import re
import tempfile
from pathlib import Path

from fixtures import needs
from fixtures.cases import Case
from fixtures.made_titles import issn
from fixtures.made_versions import Weeks
from fixtures.made_versions import table
from openlink_update import target_options
from openlink_update.input_files import InputFolder
from openlink_update.slips import kinds
from openlink_update.versions import allowed_words
from openlink_update.versions import target_list
from openlink_update.versions.program import warnings_in
from openlink_update.versions.program import words_of

CRATES = Path("crates")
LABEL = re.compile(r'(?:tell|add_count|add_text|add_misspelled)\(\s*&?(?:mut )?findings,\s*"([^"]+)"')
TEXT = re.compile(r'"((?:: |rules? )[^"\\]+)(?:\\n)?"')
NAMES = {"{rule}": "1", "{n}": "0", "{name}": "shelf", "{other}": "room"}


def of_inspect() -> list[str]:
    """The warnings of `inspect`, as its sources write them."""
    texts = [path.read_text(encoding="utf-8") for path in (CRATES / "table_inspection/src").glob("*.rt")]
    labels = {label for text in texts for label in LABEL.findall(text)}
    lines = [f'{label} {0 if label in ("rows", "identifiers") else 3}, first 1 "x"' for label in labels]
    lines = [re.sub("^(rows|identifiers) 0.*", r"\1 0", line) for line in lines]
    lines = [line.replace(' 3, first 1 "x"', ' "x", did you mean y') if " column" in line else line for line in lines]
    return warnings_in("\n".join([*lines, "no column print_identifier", "no column online_identifier"]))


def of_lint() -> list[str]:
    """The warnings of `lint`, as its sources write them."""
    found = TEXT.findall((CRATES / "rule_lint/src/lines.rt").read_text(encoding="utf-8"))
    lines = []
    for text in found:
        for name, value in NAMES.items():
            text = text.replace(name, value)
        places = ("rule 1, guard 2", "rule 1, link") if text.startswith(":") else ("",)
        places = places[-1:] if "never a web link" in text else places  # said of links alone
        lines += [place + text for place in places]
    return warnings_in("\n".join(lines))


class Words(Case):
    """Words that allow something, and others."""

    def test_program(self) -> None:
        """Each warning of the program can be allowed, and no words of a warning are unknown to it."""
        found = {"inspect": of_inspect(), "lint": of_lint()}
        for command, least in (("inspect", 11), ("lint", 12)):
            self.expect(f"{command}: {found[command]}", len(found[command]) >= least)
            for line in found[command]:
                for words in (words_of(line), f"{words_of(line)} up to 40"):
                    self.expect(f"{command}: {line}", allowed_words.unknown([words]), [])
        for command, words in (("inspect", allowed_words._OF_INSPECT), ("lint", allowed_words._OF_LINT)):
            known = {words_of(line) for line in found[command]}
            self.expect(f"{command}: words that it never says", set(words) - known, set())
        for words in allowed_words._BEFORE_NAMES:
            known = [line for lines in found.values() for line in lines if words_of(line).startswith(words)]
            self.expect(f"before a name: {words}", known != [])

    def test_documents(self) -> None:
        """The lists of warnings in the documents, and the words of each slip."""
        for name, heading, least in (
            ("TARGETS", "### What to do about each warning of `inspect`", 9),
            ("RULES", "## What to do about each line of `lint`", 8),
        ):
            text = Path(f"docs/{name}.md").read_text(encoding="utf-8").split(heading)[1].split("\n#")[0]
            items = [
                re.findall("`([^`]+)`", line.split(": ")[0]) for line in text.splitlines() if line.startswith("- ")
            ]
            self.expect(f"{name}: {items}", len(items) >= least)
            for line in (line for item in items for line in item if line not in ("never a web link",)):
                words = words_of(line.removeprefix("rule K ").replace("did you mean OTHER", "never holds"))
                self.expect(f"{name}: {line}", allowed_words.unknown([words.split(" TEXT")[0]]), [])
        text = Path("docs/LIBRARIANS.md").read_text(encoding="utf-8")
        for kind in kinds.KINDS:
            self.expect(f"LIBRARIANS: {kind.words}", f"`{kind.words}`" in text)

    def test_slips(self) -> None:
        """The words of slips can be allowed, and are never read as an option or as other words."""
        self.expect("slips", len(kinds.KINDS), 20)
        for kind in kinds.KINDS:
            for text in (kind.words, f"{kind.words} up to 40", f"{kind.words} up to 3%"):
                self.expect(text, target_options.parse(text), (target_options.NONE, frozenset([text])))
                self.expect(text, allowed_words.unknown([text]), [])
                self.expect(text, words_of(text).startswith(kind.words))

    def test_known(self) -> None:
        for text in (
            "rule",
            "rule up to 3",
            "gone up to 25%",
            "came up to 150%",
            "same address up to 100%",
            "dropped up to 40",
            "dropped up to 5%",
            "less than half of the rows",
            "hosts +a.example.org +*.example.org",
            "unknown name shelf",
            "unknown name shelf, did you mean self",
            "no column title_id",
            "a request can set the host by title_url",
            "openlink lint has status",
        ):
            self.expect(text, allowed_words.unknown([text]), [])

    def test_unknown(self) -> None:
        """What is said of a text that is none, with what is near it."""
        start = "neither an option nor words that allow something: "
        for text, near in (
            ("dropped upto 40", "dropped up to 40"),
            ("Gone up to 25%", "gone up to 25%"),
            ("gone 25%", "gone up to 25%"),
            ("not an ISSN", "not an ISSN or ISBN"),
            ("check digits of print_identifer wrong up to 3%", "check digits of print_identifier wrong up to 3%"),
            ("colums Titel=publication_title", "columns"),
            ("html tabel", "html table"),
            ("leest 500 rows", "least"),
            ("hosts press.example.org", "hosts +HOST"),
            ("hosts +a.example.org b.example.org", "hosts +HOST"),
            ("xyzzy", ""),
        ):
            wanted = f"{start}{text}" + (f", did you mean {near}" if near else "")
            self.expect(text, allowed_words.unknown([text]), [wanted])
        many = allowed_words.unknown([f"xyzzy{at}\x1b[2J" + "x" * 9999 for at in "abcdefgh"])
        self.expect("many", (len(many), many[-1], all(len(line) < 200 for line in many)), (6, "3 more of them", True))
        self.expect("no controls", "\x1b" in "".join(many), False)

    def test_line(self) -> None:
        """The place in the list."""
        with tempfile.TemporaryDirectory() as folder:
            Path(folder, "targets.tsv").write_text("# head\na\ta.rules\ta.txt\trule; drop\nb\tb.rules\tb.txt\trule\n")
            found = {target.name: target.reasons for target in target_list.read(InputFolder(folder))}
            line = f"{folder}/targets.tsv: line 2: neither an option nor words that allow something: drop"
            self.expect("reasons", found, {"a": (f"{line}, did you mean dropped",), "b": ()})


@needs.program()
class Week(Case):
    """A line with such a word keeps the old files of its target."""

    def test_kept(self) -> None:
        def rows(count: int) -> bytes:
            return table(*((f"Title {at}", issn(at), "", "1990", "", "", f"t{at}") for at in range(count)))

        with Weeks() as weeks:
            self.expect("the first week", weeks.week("press", rows(9)), [])
            reasons = weeks.week("press", rows(10), "gone upto 5%")
            line = "line 1: neither an option nor words that allow something: gone upto 5%, did you mean gone up to 5%"
            self.expect("a slip of the list", [it.split("targets.tsv: ")[-1] for it in reasons], [line])
            self.expect("the old table", len(weeks.rows("press")[1]), 9)
            self.expect("corrected", weeks.week("press", rows(10), "gone up to 5%"), [])
