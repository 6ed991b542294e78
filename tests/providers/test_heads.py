"""What the update reads in the head of a rule file, and how much of it."""
from __future__ import annotations

import json
import string
import tempfile
from pathlib import Path

from fixtures.cases import Case
from openlink_update.exports.site_names import SiteNames
from openlink_update.index import target_heads
from openlink_update.rules import heads
from openlink_update.rules.heads import Head

RULE = "rule\nlink https://e.org/\n"


def head(*lines: str) -> Head:
    return heads.parse(("".join(f"{line}\n" for line in lines) + RULE).encode("utf-8", "surrogateescape"))


def language(number: int) -> str:
    return "".join(string.ascii_lowercase[it] for it in divmod(number, 26))


class Lines(Case):
    def test_lines(self) -> None:
        """Which lines count, and which of two."""
        for name, lines, wanted in (
            ("a label", ["# label: A b"], Head((("", "A b"),))),
            ("without spaces", ["#label:A"], Head((("", "A"),))),
            ("a space before the colon", ["# label : A", "# label de : B"], Head((("", "A"), ("de", "B")))),
            ("two spaces before the name", ["#  label: A"], Head()),
            ("of a language", ["# label de: A", "# label zh-Hans: B"], Head((("de", "A"), ("zh-Hans", "B")))),
            ("of two the first", ["# label: A", "# label: B", "# group: C", "# group: D"], Head((("", "A"),), "C")),
            ("an empty one", ["# label: ", "# label: B"], Head((("", "B"),))),
            ("line ends of Windows", ["# group: C\r"], Head((), "C")),
            ("after an empty line", ["# words", "", "# group: C"], Head((), "C")),
            ("after an empty line of Windows", ["# words\r", "\r", "# group: C\r"], Head((), "C")),
            ("after spaces", ["# words", "  ", "# group: C"], Head((), "C")),
            ("after a rule", ["rule", "# label: A", "link https://e.org/", "# group: C"], Head()),
            ("a group of a language", ["# group de: C"], Head()),
            ("another word", ["# labels: A", "# a label: B", "label: C"], Head()),
            ("no proxy", ["# proxy: never"], Head(has_proxy=False)),
            ("another proxy", ["# proxy: always"], Head()),
            ("a byte order mark", ["\ufeff# group: C"], Head((), "C")),
        ):
            self.expect(name, head(*lines), wanted)

    def test_texts(self) -> None:
        """A text is one line, without controls and bytes that are no UTF-8, and cut."""
        for name, text, wanted in (
            ("a tab", "a\tb", "a b"),
            ("controls", "a\x00\x1b[2Jb\x85", "a??[2Jb?"),
            ("another direction", "a\u202eb", "a?b"),
            ("no UTF-8", "a\udcffb", "a b"),
            ("spaces", "  a   b  ", "a b"),
            ("100 characters", "x" * 100, "x" * 100),
            ("101 characters", "x" * 101, "x" * 100),
            ("10,000 characters", "é" * 5_000, "é" * 100),
        ):
            self.expect(f"a label with {name}", head(f"# label: {text}").labels, (("", wanted),))
            self.expect(f"a group with {name}", head(f"# group: {text}").group, wanted)

    def test_numbers(self) -> None:
        """How many languages, and how much of a file; the parts of a tag."""
        for count in (24, 25, 10_000):
            lines = [f"# label {language(at % 676)}: x{at}" for at in range(count)]
            self.expect(f"{count} languages", len(head(*lines).labels), 24)
        for size, wanted in ((16_384, "x"), (16_385, "")):
            before = "#" * (size - len("\n# group: x"))
            self.expect(f"{size} bytes", heads.parse(f"{before}\n# group: x".encode()).group, wanted)
        for tag, is_one in (
            ("a", False), ("ab", True), ("abcdefgh", True), ("abcdefghi", False), ("ab-12345678", True),
            ("ab-123456789", False), ("ab-1-2-3-4", True), ("ab-1-2-3-4-5", False), ("ab-", False),
        ):
            self.expect(tag, bool(head(f"# label {tag}: x").labels), is_one)

    def test_exports(self) -> None:
        """The lists for others have the label, and count as full text what the first group has."""
        with tempfile.TemporaryDirectory() as folder:
            site = {"languages": ["de"], "groups": [{"name": "Full text"}, {"name": "Other"}], "targets": {"a": {}}}
            (Path(folder) / "targets.json").write_text(json.dumps(site))
            for name, text in (
                ("a", "# label: No\n# group: Other\n"), ("b", "# label de: B\n# label: C\n# group: Full text\n"),
                ("c.x", "# label: C\n# group: Other\n"), ("d", "# label fr: D\n# group: More\n"),
            ):
                (Path(folder) / f"{name}.rules").write_text(text)
            names = SiteNames(Path(folder) / "targets.json", Path(folder).glob("*.rules"))
            found = {it: (names.label(it), names.is_full_text(it)) for it in ("a", "b", "c.x", "d", "e")}
            wanted = {"a": ("a", True), "b": ("B", True), "c.x": ("C", False), "d": ("d", False), "e": ("e", False)}
            self.expect("labels and full text", found, wanted)

    def test_exports_of_a_region(self) -> None:
        """Where the site's language has a region, a label for it counts, then the language's, then any other."""
        labels = {"de-AT": "A", "de": "D", "": "N", "de-CH": "C", "at": "X"}
        with tempfile.TemporaryDirectory() as folder:
            (Path(folder) / "targets.json").write_text(json.dumps({"languages": ["de-AT", "en"]}))
            for count, wanted in enumerate(("A", "D", "N", "a")):
                lines = [f"# label{' ' if tag else ''}{tag}: {text}" for tag, text in list(labels.items())[count:]]
                (Path(folder) / "a.rules").write_text("\n".join([*lines, RULE]))
                names = SiteNames(Path(folder) / "targets.json", [Path(folder) / "a.rules"])
                self.expect(f"{lines}", names.label("a"), wanted)

    def test_file(self) -> None:
        """The file of the index: a line for each target whose rules say something, and none of a code file."""
        with tempfile.TemporaryDirectory() as folder:
            rules = [
                ("a", b"# label: A=b\n# label de: C\n# group: G\n"), ("b", RULE.encode()), ("c", b"# group: G\n"),
                ("d", b""), ("e", b"OLK\x01# label: x\n"), ("f", b"# proxy: never\n"),
            ]
            target_heads.write(Path(folder), rules)
            wanted = b"\na\tG\t=A=b\tde=C\nc\tG\n"
            self.expect("the file", (Path(folder) / "heads").read_bytes(), wanted)
