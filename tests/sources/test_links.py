"""The links of the pages at the top, in docs/ and in benches/: each file exists, and has the heading that the link
names. A path in code font that begins with a folder of the repository exists too, and is the text of a link. So is the
file name of a page of docs/, and, in pages for engineers, the name of a crate."""
from __future__ import annotations

import glob
import os
import re
from collections.abc import Iterator

from fixtures.cases import Case

PAGES = ("README.md", "CHANGELOG.md", "CONTRIBUTING.md", "SECURITY.md", "docs/*.md", "benches/*.md")
FOLDERS = (
    ".ci/",
    "benches/",
    "crates/",
    "docs/",
    "edits/",
    "examples/",
    "front_door/",
    "packaging/",
    "tests/",
    "tools/",
    "update/",
)
WITH_CRATES = ("ARCHITECTURE.md", "DECISIONS.md", "DEFINITIONS.md", "MACHINE.md", "README.md", "CONTRIBUTING.md")
LINK = re.compile(r"\]\(([^()\s]+)\)")
BARE = re.compile(r"`([^`\n]+)`")
# Not a path with a place for a name, such as crates/NAME, nor what a build or a command makes.
PATH = re.compile(r"`((?:" + "|".join(map(re.escape, FOLDERS)) + r")[\w./@-]*)`")
MADE = re.compile(r"NAME|/out/|\.olk$")
# The pages have at least this many links, links to headings, and paths.
LEAST = {"links": 400, "links to headings": 90, "paths": 90}


def prose(text: str) -> str:
    """The lines outside blocks of code."""
    parts = re.split(r"^```.*$", text, flags=re.M)
    return "\n".join(parts[::2])


def read(page: str) -> str:
    with open(page, encoding="utf-8") as file:
        return prose(file.read())


def without_links(text: str) -> str:
    return re.sub(r"\[((?:[^\[\]]|\[\])*)\]\([^()\s]+\)", "", text)


def links(text: str) -> list[str]:
    return [it for it in LINK.findall(text) if not re.match(r"https?:|mailto:", it)]


def anchors(path: str) -> set[str]:
    """The anchors of the headings of a page, as GitHub makes them."""
    headings = re.findall(r"^#+ (.*)$", read(path), re.M)
    headings = [re.sub(r"\]\([^()\s]+\)", "]", it) for it in headings]
    return {re.sub(r"[^\w\- ]", "", it.strip().lower()).replace(" ", "-") for it in headings}


def crates() -> set[str]:
    """The crates of crates.txt, without that of the program, whose name is also that of the command."""
    with open("crates.txt", encoding="utf-8") as file:
        return set(re.findall(r"^(\w+):", file.read(), re.M)) - {"openlink"}


def faults(page: str, text: str, known: set[str]) -> Iterator[str]:
    """What is wrong in a page with this text outside its blocks of code."""
    for link in links(text):
        target, _, anchor = link.partition("#")
        path = os.path.normpath(os.path.join(os.path.dirname(page), target)) if target else page
        if not os.path.exists(path):
            yield f"{page}: {link}: there is no {path}"
        elif anchor and anchor not in anchors(path):
            yield f"{page}: {link}: {path} has no such heading"
    for path in PATH.findall(text):
        if not MADE.search(path) and not os.path.exists(path):
            yield f"{page}: there is no {path}"
    for name in BARE.findall(without_links(text)):
        is_crate = page.split("/")[-1] in WITH_CRATES and name in known
        is_page = re.fullmatch(r"[A-Z]+\.md", name) and os.path.exists(f"docs/{name}")
        is_path = name.startswith(FOLDERS) and os.path.exists(name) and not MADE.search(name)
        if is_crate or is_page or is_path:
            yield f"{page}: `{name}` is not the text of a link"


# A text, and what is wrong with it in docs/RULES.md and in docs/MACHINE.md.
TEXTS = [
    ("[a](ERRORS.md) [b](../README.md#commands) [c](https://example.org/none) `examples/NAME`", 0, 0),
    ("[a](NONE.md)", 1, 1),
    ("[a](../README.md#no-such-heading)", 1, 1),
    ("[a](#no-such-heading)", 1, 1),
    ("`docs/NONE.txt`", 1, 1),
    ("`examples/article.rules`", 1, 1),
    ("[`examples/article.rules`](../examples/article.rules)", 0, 0),
    ("`ERRORS.md`", 1, 1),
    ("`rule_parser`", 0, 1),
    ("[`rule_parser`](../crates/rule_parser)", 0, 0),
]


class Links(Case):
    def test_pages(self) -> None:
        pages, known = [page for pattern in PAGES for page in sorted(glob.glob(pattern))], crates()
        texts = {page: read(page) for page in pages}
        self.expect("what is wrong", [it for page, text in texts.items() for it in faults(page, text, known)], [])
        self.expect("pages", {*PAGES[:4], "docs/RULES.md", "benches/README.md"} <= {*pages})
        found = [it for text in texts.values() for it in links(text)]
        counts = {
            "links": len(found),
            "links to headings": len([it for it in found if "#" in it]),
            "paths": sum(len(PATH.findall(text)) for text in texts.values()),
        }
        for what, count in counts.items():
            self.expect(f"{count} {what}", count >= LEAST[what])

    def test_examples(self) -> None:
        for text, *counts in TEXTS:
            for page, count in zip(("docs/RULES.md", "docs/MACHINE.md"), counts):
                self.expect(f"{text} in {page}", len([*faults(page, text, {"rule_parser"})]), count)
        self.expect("a block of code", [*faults("docs/RULES.md", prose("a\n```\n[a](NONE.md)\n```\nb"), set())], [])
