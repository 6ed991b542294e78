"""The patterns by which update/openlink_update/versions/program.py finds the warnings of `inspect` and `lint`, compared
with the stored output in examples/spoilt/, which has a line of each kind, and with the lists of warnings in docs/. Runs
nothing: that the program prints this output is tested by tests/program/test_spoilt.py."""
from __future__ import annotations

import glob
import re
from collections.abc import Iterator

from fixtures.cases import Case
from openlink_update.versions.program import NO_COLUMN, PLACE, PLAIN, warnings_in

LISTS = (
    ("inspect", "docs/TARGETS.md", "What to do about each warning of `inspect`"),
    ("lint", "docs/RULES.md", "What to do about each line of `lint`"),
)
# The stored output without a warning, and the only kind of line in the lists that is no warning.
CLEAN = ("examples/spoilt/target.inspect", "examples/spoilt/hosts.inspect")
HARMLESS = "never a web link"
# The least kinds of warnings in a list, and lines of stored output of a command.
LEAST_KINDS, LEAST_LINES = 6, 10


def read(path: str) -> str:
    with open(path, encoding="utf-8") as file:
        return file.read()


def kinds(text: str, heading: str) -> dict[str, str]:
    """The kinds of lines in the list below a heading, each with a pattern of its lines without the place."""
    items = re.findall(r"^- (`.*?`): ", text.partition(heading)[2].partition("\n#")[0], re.M)
    found = [it for item in items for it in re.findall(r"`([^`]+)`", item)]
    return {it: re.sub(r"\b(NAME|TEXT|OTHER)\b", ".+", re.sub(r"^rule K ", "", it)) + r"( \d.*)?" for it in found}


def stored(command: str) -> dict[str, str]:
    return {path: read(path) for path in sorted(glob.glob(f"examples/spoilt/*.{command}"))}


def faults_of_patterns(lines: list[str]) -> Iterator[str]:
    patterns: list[re.Pattern[str]] = [*PLAIN, NO_COLUMN, PLACE]
    for pattern in patterns:
        if not any(pattern.match(line) for line in lines):
            yield f"no stored line matches the pattern {pattern.pattern!r}"


def faults_of_warnings(command: str, page: str, listed: dict[str, str], outputs: dict[str, str]) -> Iterator[str]:
    """The warnings in the output of a command, without their places, are of the listed kinds, and each kind occurs."""
    told = []
    for path, text in outputs.items():
        warnings = [PLACE.sub("", line, count=1) for line in warnings_in(text)]
        if (path in CLEAN) == bool(warnings):
            yield f"{path}: it has the warnings {warnings}"
        for line in warnings:
            if not any(re.fullmatch(pattern, line) for kind, pattern in listed.items() if kind != HARMLESS):
                yield f"{path}: {line!r} is told as a warning, and {page} lists none such"
        told += warnings
    for kind, pattern in listed.items():
        if kind != HARMLESS and not any(re.search(pattern, line) for line in told):
            yield f"{page}: no output in examples/spoilt/ has a warning of `{command}` such as `{kind}`"


class Warnings(Case):
    def test_stored_output_has_the_listed_warnings(self) -> None:
        for command, page, heading in LISTS:
            listed, outputs = kinds(read(page), heading), stored(command)
            self.expect(f"{len(listed)} kinds in {page}", len(listed) >= LEAST_KINDS)
            self.expect(f"the warnings of {command}", [*faults_of_warnings(command, page, listed, outputs)], [])

    def test_each_pattern_finds_a_line(self) -> None:
        lines = []
        for command, _, _ in LISTS:
            found = [line for text in stored(command).values() for line in text.splitlines()]
            self.expect(f"{len(found)} lines of {command}", len(found) >= LEAST_LINES)
            lines += found
        self.expect("the patterns", [*faults_of_patterns(lines)], [])

    def test_spoilt_copies(self) -> None:
        """The comparison fails for a list with a kind more or fewer, and for output with other lines."""
        self.expect("patterns without lines", len([*faults_of_patterns([])]), len(PLAIN) + 2)
        for command, page, heading in LISTS:
            listed, outputs = kinds(read(page), heading), stored(command)
            more, fewer = {**listed, "no such kind": "no such kind"}, dict([*listed.items()][1:])
            self.expect(f"a kind more of {command}", len([*faults_of_warnings(command, page, more, outputs)]), 1)
            self.expect(f"a kind fewer of {command}", bool([*faults_of_warnings(command, page, fewer, outputs)]))
            self.expect(f"no output of {command}", len([*faults_of_warnings(command, page, listed, {})]) >= LEAST_KINDS)
            clean = {**outputs, CLEAN[0]: [*outputs.values()][0], [*outputs][0]: ""}
            self.expect(f"changed output of {command}", bool([*faults_of_warnings(command, page, listed, clean)]))
