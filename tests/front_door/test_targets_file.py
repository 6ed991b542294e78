"""The check of targets.json and of the files of texts: the sample has no slip, and each slip is found."""
from __future__ import annotations

import json
import re
import subprocess
import sys
import tempfile
from pathlib import Path

from fixtures.cases import Case
from openlink_update.site import targets_file as targets

SLIPS = [
    (b'{"groups": [{"name": "A"}],\n "targets": {"a": {"label": "x",}}}', "line 2, column"),
    (b'{"groups": [{"name": "A"}]\n', "line 2, column 1"),
    (b'{"groups": [{"name": 01}]}', "line 1, column 23"),
    (b'{"groups": [{"name": "A\\ud800"}]}', '"groups": 1: "name": half of a character'),
    (b'{"groups": [{"name": "A", "\\udfff": "B"}]}', '"groups": 1: "\\udfff": half of a character'),
    (b'\xef\xbb\xbf{"groups": [{"name": "A"}]}', "line 1: begins with a byte order mark"),
    (b'{"groups": [{"name": "A"}],\n"words": {"library": "B\xfccher"}}', "line 2: not UTF-8"),
    (b"[]", "not an object"),
    (b'{"groups": []}', "groups is not a list of groups"),
    (b'{"groups": [{"name": "A", "onlyWithout": "B"}]}', "group 1: onlyWithout is no group"),
    (b'{"groups": [{"label": "A"}]}', "group 1 has no name"),
    (b'{"groups": [{"name": "A"}], "targets": {"a": {"group": "B"}}}', 'target "a": no group "B"'),
    (b'{"groups": [{"name": "A"}], "targets": {"a b": {}}}', 'target "a b": no target can have this name'),
    (b'{"groups": [{"name": "A"}], "words": {"libary": "x"}}', 'words: unknown name "libary"'),
    (b'{"groups": [{"name": "A"}], "words": {"library": 3}}', "words: library is not a text"),
    (b'{"groups": [{"name": "A"}], "words": {"problemLink": "https://e.org/"}}', "words: problemLink is no address"),
    (
        b'{"groups": [{"name": "A"}], "words": {"problemLink": {"en": "a@e.org?body={}"}}}',
        "words: problemLink is no address",
    ),
    (b'{"groups": [{"name": "A"}], "words": {"logo": "../logo.svg"}}', "words: logo is no file name"),
    (b'{"groups": [{"name": "A"}], "words": {"links": "x"}}', "words: links is not a list"),
    (b'{"groups": [{"name": "A"}], "words": {"links": [{"label": "x"}]}}', "link 1 has no url"),
    (b'{"groups": [{"name": "A"}], "words": {"links": [{"label": "x", "url": "e.org"}]}}', "link 1: url is no address"),
    (b'{"groups": [{"name": "A"}], "folder": "openlink"}', "folder is not an absolute path"),
    (b'{"groups": [{"name": "A"}], "folder": 3}', "folder is not an absolute path"),
    (b'{"groups": [{"name": "A"}], "targets": {"a": {"rules": {"en": "x"}}}}', 'target "a": rules is not a text'),
    (b'{"groups": [{"name": "A"}], "words": {"library": {"en": 3}}}', "words: library: en is not a text"),
    (
        b'{"groups": [{"name": "A"}], "words": {"library": {"de": "x"}}}',
        'words: library: "de" is none of the languages',
    ),
    (b'{"groups": [{"name": {"en": "A"}}]}', "group 1: name is not a text"),
    (b'{"languages": "en", "groups": [{"name": "A"}]}', "languages is not a list of languages"),
    (b'{"languages": ["en_GB"], "groups": [{"name": "A"}]}', 'languages: "en_GB" is no tag of a language'),
    (b'{"languages": ["fr"], "groups": [{"name": "A"}]}', "languages: no words/fr.json"),
    (
        b'{"groups": [{"name": "A"}], "targets": {"a": {"label": {"e": "x"}}}}',
        'target "a": label: "e" is none of the languages',
    ),
]
NO_LOGO = ["words: logo is no file name that ends with .svg, .png, .jpg, .gif or .webp"]
NO_REPORTS = ["words: problemLink is no address of http, https or mailto with {} for the request"]
NO_ADDRESS = ["link 1: url is no address of http or https"]
# A name of `words`, values of it, and what is said of each.
VALUES: list[tuple[str, list[object], list[str]]] = [
    ("logo", ["logo.svg", "a_b-1.png", "1.jpg", "x.gif", "X.webp", {"en": "a.svg", "de": "b.svg"}], []),
    ("logo", ["", ".svg", "a.jpeg", "a.SVG", "a.b.svg", "lögo.svg", "a.svg\n", "a/b.svg", {"en": "a"}], NO_LOGO),
    (
        "problemLink",
        ["https://e.org/?a={}", "HTTP://e.org/{}/b", "mailto:a@e.org?body={}", {"en": "http://e.org/{}"}],
        [],
    ),
    (
        "problemLink",
        ["https://e.org/", "https://e.org/ {}", "https://e.org/{} b", "https://é.org/{}", "e.org/{}"],
        NO_REPORTS,
    ),
    ("problemLink", ["ftp://e.org/{}", "see https://e.org/{}", {"en": "https://e.org/"}], NO_REPORTS),
    ("links", [[{"label": "x", "url": url}] for url in ("https://e.org/", "HTTP://e.org", {"en": "http://e.org"})], []),
    ("links", [[{"label": "x", "url": url}] for url in ("https://", "https://é.org/", "http://e.org/ b")], NO_ADDRESS),
    ("links", [[{"label": "x", "url": url}] for url in ("", "mailto:a@e.org", {"en": "e.org"})], NO_ADDRESS),
]
SLIPS_OF_WORDS = [
    (b'{"heading": "x"', "line 1, column"),
    (b"[]", "not an object"),
    (b'{"heading": "x"}', "words: no unavailable"),
    (b'{"heading": {"en": "x"}}', "words: heading is not a text"),
    (b'{"titel": "x"}', 'words: unknown name "titel"'),
    (b'{"volume": "vol."}', "words: volume has not 1 of {}"),
]


class TargetsFile(Case):
    """What is said of them."""

    def test_sample(self) -> None:
        self.expect("targets.json", targets.faults_in("front_door/targets.json"), [])
        with open("front_door/targets.json") as file:
            site = json.load(file)
        self.expect(
            "targets.json has the library's words", set(site["words"]), {"links", *targets.OF_THE_LIBRARY} - {"logo"}
        )
        with open("front_door/openlink.conf") as file:
            loaded = re.findall(r"^js_preload_object words_(\w+) ", file.read(), re.M)
        self.expect("it offers all languages that openlink.conf loads", sorted(site["languages"]), sorted(loaded))

    def test_the_name_that_operators_know(self) -> None:
        """The script in update.d/ is that of the folder above it: its lines and its status."""
        ends = []
        for script in ("update/update.d/targets_file.py", "update/targets"):
            for path in ("front_door/targets.json", "front_door/none.json"):
                done = subprocess.run([sys.executable, "-B", script, path], capture_output=True, text=True, check=False)
                ends.append((done.returncode, done.stdout, done.stderr))
        self.expect("the sample", ends[0], (0, "ok\n", ""))
        self.expect("no such file", (ends[1][0], "front_door/none.json" in "".join(ends[1][1:])), (ends[3][0], True))
        self.expect("the script itself", ends[2:], ends[:2])

    def test_languages_that_the_site_loads(self) -> None:
        """A language that has a file and is not loaded is left out of the pages, so the check says so."""
        with tempfile.TemporaryDirectory() as folder:
            path, site = Path(folder, "targets.json"), Path(folder, "openlink.conf")
            path.write_text('{"languages": ["en", "fr", "zh-Hans"], "groups": [{"name": "A"}]}', encoding="utf-8")
            text = Path("front_door/openlink.conf").read_text(encoding="utf-8")
            self.expect("no site names it", targets.faults_in(path, site), [])
            site.write_text(text.replace("/etc/nginx/openlink/targets.json", str(path)), encoding="utf-8")
            faults = [f"{path}: languages: no words/{it}.json is loaded" for it in ("fr", "zh-Hans")]
            self.expect("two are not loaded", targets.faults_in(path, site), faults)
            text = site.read_text(encoding="utf-8").replace("#js_preload_object words_", "js_preload_object words_")
            site.write_text(text, encoding="utf-8")
            self.expect("all are loaded", targets.faults_in(path, site), [])

    def test_slips(self) -> None:
        for data, fault in SLIPS:
            self.expect(
                f"targets.json: {fault}", any(fault in found for found in targets.faults_of(data, {"en", "de"}))
            )

    def test_values(self) -> None:
        """Right and wrong logos, addresses, languages, names of targets and groups."""
        for name, values, wanted in VALUES:
            for value in values:
                data = json.dumps({"languages": ["en", "de"], "groups": [{"name": "A"}], "words": {name: value}})
                self.expect(f"{name}: {value}", targets.faults_of(data.encode()), wanted)
        for language, is_right in (
            ("en", True),
            ("zh-Hans", True),
            ("pt-BR", True),
            ("de-1996", True),
            ("en-", False),
            ("en_GB", False),
            ("1996", False),
            ("", False),
        ):
            data = json.dumps({"languages": [language], "groups": [{"name": "A"}]}).encode()
            wanted = [] if is_right else [f"languages: {json.dumps(language)} is no tag of a language"]
            self.expect(f"the language {language!r}", targets.faults_of(data), wanted)
        groups = [{"name": "A", "onlyWithout": "B"}, {"name": "B"}]
        names: dict[str, dict[str, str]] = {"a.b_C-1": {}, "b": {"group": "B"}, "c": {"group": "A", "rules": "c.rules"}}
        data = json.dumps({"groups": groups, "targets": names, "folder": "/srv/openlink"}).encode()
        self.expect("a group that a later one hides", targets.faults_of(data), [])
        data = json.dumps({"groups": [{"name": "A", "onlyWithout": {"en": "A"}}]}).encode()
        self.expect("its name by language", "group 1: onlyWithout is not a text" in targets.faults_of(data))

    def test_own_files_of_words(self) -> None:
        """Those beside the file count as loaded where no site names it, and are checked; other files there are not."""
        with tempfile.TemporaryDirectory() as folder:
            path = Path(folder, "targets.json")
            path.write_text('{"languages": ["en", "eo"], "groups": [{"name": "A"}]}', encoding="utf-8")
            words = Path(folder, "words")
            words.mkdir()
            (words / "notes.txt").write_text("x", encoding="utf-8")
            missing = f"{path}: languages: no words/eo.json is loaded"
            self.expect("without its file", targets.faults_in(path), [missing])
            english = Path("front_door/words/en.json").read_text(encoding="utf-8")
            (words / "eo.json").write_text(english, encoding="utf-8")
            found = targets.faults_in(path)
            self.expect("with it", [line for line in found if not line.startswith(f"{words}/eo.json: words: ")], [])
            self.expect("it is in English", f"{words}/eo.json: words: heading is in English: Find this item" in found)

    def test_slips_of_words(self) -> None:
        for data, fault in SLIPS_OF_WORDS:
            self.expect(f"words: {fault}", any(fault in found for found in targets.faults_of_words(data, "fr")))
