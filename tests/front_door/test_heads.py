"""Labels and groups that the heads of rules say of targets that targets.json does not name."""
from __future__ import annotations

import json
import re
import subprocess
import tempfile
from pathlib import Path

from fixtures import needs
from fixtures.cases import Case
from fixtures.titles_case import ARTICLE
from fixtures.titles_case import GERMAN
from fixtures.titles_case import TitlesCase
from fixtures.titles_case import main_of
from openlink_update.index import target_heads

QUERY = f"issn=2901-0012&{ARTICLE}"
HEAD = "# label: The {} Press\n# label de: Der {}-Verlag\n# group: {}\nrule\nlink https://e.org/\n"
SCRIPT = "<script>alert(1)</script>"


class Heads(TitlesCase):
    @classmethod
    def setUpClass(cls) -> None:
        super().setUpClass()
        data = json.loads(cls.site.read("openlink/targets.json"))
        cls.named = data
        cls.others = {**data, "targets": {name: it for name, it in data["targets"].items() if name != "tidal-press"}}

    def setUp(self) -> None:
        super().setUp()
        self.site.write_targets(self.others)

    def write(self, **rules: str) -> None:
        """The heads of these rules are those of the index."""
        folder = Path(self.site.version(), "index")
        before = (folder / "heads").read_bytes() if (folder / "heads").exists() else None
        target_heads.write(folder, ((name.replace("_", "-"), text.encode()) for name, text in rules.items()))

        def restore() -> None:
            if before is None:
                (folder / "heads").unlink(missing_ok=True)
            else:
                (folder / "heads").write_bytes(before)

        self.addCleanup(restore)

    def shown(self, headers: dict[str, str] | None = None) -> tuple[str, str]:
        """The group and the label of the target that targets.json does not name."""
        reply = self.site.get(f"/find.json?{QUERY}", headers=headers)
        self.expect("the status", reply.status, 200)
        links = [(group["name"], it) for group in json.loads(reply.text)["groups"] for it in group["links"]]
        return next((name, it["label"]) for name, it in links if it["target"] == "tidal-press")

    def test_groups(self) -> None:
        """Without a head the target is last; a group that targets.json does not have is More."""
        self.write()
        self.expect("no head", self.shown(), ("More", "tidal-press"))
        for group, wanted in (
            ("Full text", "Full text"),
            ("In the library", "In the library"),
            ("Volltext", "More"),
            ("__proto__", "More"),
            ("toString", "More"),
            ("", "More"),
        ):
            self.write(tidal_press=HEAD.format("Tidal", "Tiden", group))
            self.expect(f"group {group}", self.shown(), (wanted, "The Tidal Press"))

    def test_languages(self) -> None:
        """The label in the reader's language; else that of no language; else that of the default language."""
        self.write(tidal_press=HEAD.format("Tidal", "Tiden", "Full text"))
        self.expect("English", self.shown()[1], "The Tidal Press")
        self.expect("German", self.shown(GERMAN)[1], "Der Tiden-Verlag")
        self.expect("of Austria", self.shown({"Accept-Language": "de-AT"})[1], "Der Tiden-Verlag")
        self.write(tidal_press="# label: One\n")
        self.expect("for all others", self.shown(GERMAN)[1], "One")
        self.write(tidal_press="# label de: Eins\n")
        self.expect("no English one", self.shown()[1], "tidal-press")
        self.write(tidal_press="# label en: One\n")
        self.expect("the default language", self.shown(GERMAN)[1], "One")

    def test_long_labels(self) -> None:
        """A hundred characters are shown."""
        for length in (100, 101):
            self.write(tidal_press=f"# label: {'x' * length}\n")
            self.expect(f"{length} characters", self.shown()[1], "x" * 100)

    def test_regions(self) -> None:
        """Where the reader's language has a region, the label for it counts, then that of the language."""
        self.site.edit(("js_preload_object words_de ", "js_preload_object words_de_AT "))
        self.site.write_targets({**self.others, "languages": ["en", "de-AT"]})
        labels = {"de-AT": "Inn", "de": "Elbe", "": "River", "en": "Thames", "de-CH": "Rhine", "at": "Wrong"}
        for count, wanted in enumerate(("Inn", "Elbe", "River", "Thames", "tidal-press")):
            lines = [f"# label{' ' if tag else ''}{tag}: {text}\n" for tag, text in list(labels.items())[count:]]
            self.write(tidal_press="".join(lines))
            self.expect(f"{lines}", self.shown({"Accept-Language": "de-AT"})[1], wanted)

    def test_named(self) -> None:
        """What targets.json says of a target counts, and nothing else."""
        self.write(tidal_press=HEAD.format("Tidal", "Tiden", "In the library"))
        self.site.write_targets(self.named)
        self.expect("named", self.shown(), ("Full text", "Tidal Press"))
        others = {name: it for name, it in self.others["targets"].items() if name != "aggregate-net"}
        self.site.write_targets({**self.others, "targets": {**others, "tidal-press": {"group": "Full text"}}})
        self.expect("named without a label", self.shown(), ("Full text", "tidal-press"))

    def test_redirect(self) -> None:
        """/go leads to the one link of the first group, whoever says the group."""
        query = "issn=2915-0272&date=2003&volume=16&issue=2&spage=88"
        self.write()
        self.expect("last", self.site.get(f"/go?{query}").status, 200)
        self.write(tidal_press=HEAD.format("Tidal", "Tiden", "Full text"))
        reply = self.site.get(f"/go?{query}")
        is_there = reply.headers["Location"].startswith("https://press.example.com/")
        self.expect("first", (reply.status, is_there), (302, True))

    def test_lists(self) -> None:
        """The lists of titles have the label too."""
        self.write(tidal_press=HEAD.format("Tidal", "Tiden", "Full text"))
        for path in ("/journals?q=harbour", "/journals/h/1"):
            text = main_of(self.search(path))
            self.expect(path, ("The Tidal Press" in text, "tidal-press" in text), (True, False))

    def test_hostile(self) -> None:
        """Heads with markup, controls, and thousands of characters or lines break nothing."""
        for name, head in (
            ("markup", f"# label: {SCRIPT}\n# group: {SCRIPT}\n"),
            ("controls", "# label: a\x00\x1b[2Jb\u202ec\td\r\n# group: Full\ttext\n"),
            ("ten thousand characters", f"# label: {'x' * 10_000}\n# group: {'y' * 10_000}\n"),
            ("ten thousand lines", "".join(f"# label a{at:04d}: x\n" for at in range(10_000)) + "# label: y\n"),
            ("a code file", "\x00\x01OLK# label: x\n# group: Full text\n"),
            ("bytes that are no UTF-8", "# label: \udcff\udcfe\n"),
        ):
            with self.subTest(name):
                folder = Path(self.site.version(), "index")
                data = head.encode("utf-8", "surrogateescape")
                target_heads.write(folder, [("tidal-press", data + b"rule\nlink https://e.org/\n")])
                self.addCleanup((folder / "heads").unlink, True)
                size = (folder / "heads").stat().st_size
                self.expect(f"{name}: the file is small", size < 6000)
                label = self.shown()[1]
                self.expect(f"{name}: one line of few characters", len(label) <= 100 and label.isprintable())
                text = self.site.get(f"/find?{QUERY}").text
                self.expect(f"{name}: no markup", SCRIPT in text, False)
                self.expect(f"{name}: the page is whole", text.count("<main>") == text.count("</html>") == 1)
        lines = ["\n", "tidal-press\n", "tidal-press\t\n", "tidal-press\tFull text\t=\n", "\t\t\t\n", "\xff\t\x00\n"]
        (Path(self.site.version()) / "index/heads").write_text("\n" + "".join(lines))
        self.expect("damaged lines", self.shown(), ("Full text", "tidal-press"))

    def test_half_heads(self) -> None:
        """A label without a group, and a group without a label."""
        self.write(tidal_press="# label: Only a label\n")
        self.expect("a label", self.shown(), ("More", "Only a label"))
        self.write(tidal_press="# group: Full text\n")
        self.expect("a group", self.shown(), ("Full text", "tidal-press"))
        text = self.site.get(f"/find?{QUERY}").text
        self.expect("the heading", bool(re.search(r"<h1[^>]*>Full text from .*tidal-press", text, re.S)))


# Prints how many files of the index are read for links to a target, and for titles that it has or has pages of.
READS = """import heads from 'heads.js';
const count = (targets, links, titles) => {
    let reads = 0;
    const r = { subrequest: () => { reads++; return Promise.resolve({ status: 204 }); } };
    return heads.add(r, { targets, heads: {}, language: 'en', main: 'en' }, links, titles).then(() => reads);
};
const link = [{ target: 'press' }];
const title = [{ rows: ['press 1 1990'], pages: [] }];
const page = [{ rows: [], pages: [{ target: 'press' }] }];
Promise.all([{ press: {} }, { other: {} }, undefined].map((targets) => Promise.all([
    count(targets, link, []), count(targets, [], title), count(targets, [], page), count(targets, [], [])
]))).then((found) => { console.log(JSON.stringify(found)); });
"""


@needs.command("njs")
class Reading(Case):
    def test_reads(self) -> None:
        """Most sites name all of their targets, and then no file is read for a page."""
        with tempfile.TemporaryDirectory() as folder:
            script = Path(folder, "main.js")
            script.write_text(READS, encoding="utf-8")
            words = ["njs", "-p", str(Path("front_door").resolve()), str(script)]
            done = subprocess.run(words, capture_output=True, text=True, check=True)
        named, others, without = json.loads(done.stdout)
        self.expect("a site that names the target", named, [0, 0, 0, 0])
        self.expect("one that names others", others, [1, 1, 1, 0])
        self.expect("one that names none", without[:3], [1, 1, 1])
