"""Files of a library's site that njs would refuse, or read in another way than Python: they are refused with the place
before they are put in a version."""
from __future__ import annotations

import json
import os
import random
import shutil
import subprocess
import tempfile
import types
from collections.abc import Iterator
from pathlib import Path
from typing import Any

from fixtures import needs
from fixtures.cases import Case
from openlink_update.input_files import InputFolder
from openlink_update.site import front_door
from openlink_update.site import names_file
from openlink_update.site import targets_file

MOST_BYTES, DEPTH = 1_048_576, 31
READERS = ("njs", "node")  # one of them reads the files too
GOOD = {"groups": [{"name": "A"}], "targets": {"a": {"label": "x"}}}


def with_text(text: str) -> bytes:
    """A targets.json with a text after its groups."""
    return ('{"groups": [{"name": "A"}], ' + text + "}").encode()


def of_size(size: int) -> bytes:
    text = json.dumps(GOOD)
    return (text + " " * (size - len(text))).encode()


def nested(depth: int) -> bytes:
    """A file with this number of lists in each other, in the object of the file; only the last has another."""
    return ('{"groups": ' + "[" * (depth - 1) + "]" * (depth - 1) + "}").encode()


REFUSED = [
    (with_text('"folder": NaN'), ['"folder": NaN is no value of JSON']),
    (with_text('"folder": NaN, "folder": "/x"'), ['"folder" occurs more than once']),
    (
        with_text('"targets": {"a": {"label": [1, -Infinity]}}'),
        ['"targets": "a": "label": 2: -Infinity is no value of JSON'],
    ),
    (
        with_text('"targets": {"a": {}, "b": {"note": Infinity}, "a": {}}'),
        ['"targets": "a" occurs more than once', '"targets": "b": "note": Infinity is no value of JSON'],
    ),
    (with_text('"targets": {"\\u0061": {}, "a": {}}'), ['"targets": "a" occurs more than once']),
    (with_text('"groups": []'), ['"groups" occurs more than once']),
    (of_size(MOST_BYTES + 1), ["more than 1,048,576 bytes"]),
    (b"\xef\xbb\xbf" + json.dumps(GOOD).encode(), ["line 1: begins with a byte order mark"]),
    (nested(DEPTH + 1), ['"groups": 1: 1: 1: 1: 1: 1: 1: 1: 1: 1: ..: more than 31 objects and lists in each other']),
    (nested(60), ['"groups": 1: 1: 1: 1: 1: 1: 1: 1: 1: 1: ..: more than 31 objects and lists in each other']),
    (nested(500_000), ["more than 31 objects and lists in each other"]),
    (with_text('"folder": ' + "9" * 5000), ["a number with thousands of digits"]),
    (b'{"groups": [{"name": "A"}],\n "targets": {"a": {},}}', ["line 2, column 21: Illegal trailing comma"]),
]
# Odd files that are not refused for their form.
TAKEN = [
    json.dumps(GOOD).encode(),
    of_size(MOST_BYTES),
    with_text('"": 1'),
    with_text('"__proto__": {"constructor": "x"}'),
    with_text('"folder": 1e999'),
    with_text('"folder": -0.0E-5'),
    with_text('"folder": "\\u0000\x7f"'),
    with_text('"folder": null, "0": {"length": -1}'),
    nested(DEPTH),
    b" \t\r\n" + json.dumps(GOOD).encode() + b"\n",
    '{"é\u2028": "日本語"}'.encode(),
    b'{"a": ' + b"9" * 4000 + b"}",
]


def form_faults(data: bytes) -> list[str]:
    """What is said of the form of a file, whatever its names."""
    faults: list[str] = []
    targets_file.parsed(data, faults)
    return faults


def mutations(count: int) -> Iterator[bytes]:
    """Files that differ in a character or two from one of the cases, with a fixed seed."""
    source = random.Random(20261128)
    seeds = [data.decode() for data in (*TAKEN, *(data for data, _ in REFUSED)) if len(data) < 300]
    for _ in range(count):
        text = list(source.choice(seeds))
        for _ in range(source.randrange(1, 3)):
            place = source.randrange(len(text))
            text[place : place + source.randrange(2)] = source.choice(' \t\n"\\{}[]:,019.eE+-truNaIy\xa0\x7f\x00/')
        yield "".join(text).encode()


class SiteFiles(Case):
    """Good and bad files, and those that differ in a character."""

    def test_refused(self) -> None:
        for data, expected in REFUSED:
            found = form_faults(data)
            if "line 2" in expected[0]:  # the words are those of Python's json
                found, expected = [it.partition(": ")[0].partition(",")[0] for it in found], ["line 2"]
            self.expect(f"a file that begins {data[:80]!r}", found, expected)
            self.expect(f"it is refused, {data[:80]!r}", targets_file.faults_of(data) != [])
        for data in TAKEN:
            self.expect(f"a file that begins {data[:80]!r}", form_faults(data), [])
        self.expect("no more lines than can be read", len(form_faults(with_text('"x": [' + "NaN, " * 99 + "NaN]"))), 10)
        self.expect("a long name", len(form_faults(with_text(f'"{"x" * 500}": NaN'))[0]) < 100)

    @needs.one_of(*READERS)
    def test_njs(self) -> None:
        """Nothing that Python takes is refused by njs."""
        command = next(filter(shutil.which, READERS))
        files = [*TAKEN, *(data for data, _ in REFUSED), *mutations(2000)]
        with tempfile.TemporaryDirectory() as folder:
            for number, data in enumerate(files):
                with open(os.path.join(folder, str(number)), "wb") as file:
                    file.write(data)
            with open(os.path.join(folder, "read.js"), "w", encoding="utf-8") as file:
                file.write(
                    "var fs = require('fs');\n"
                    f"for (var n = 0; n < {len(files)}; n++) {{\n    var taken = true;\n"
                    f"    try {{ JSON.parse(fs.readFileSync({json.dumps(folder)} + '/' + n, 'utf8')); }}\n"
                    "    catch (e) { taken = false; }\n    console.log(taken);\n}\n"
                )
            done = subprocess.run([command, os.path.join(folder, "read.js")], capture_output=True, text=True)
        taken = [line == "true" for line in done.stdout.splitlines()]
        self.expect(f"a line for each file; {done.stderr[:200]}", len(taken), len(files))
        by_python = [form_faults(data) == [] for data in files]
        self.expect(
            "files that Python takes and njs does not",
            [data[:200] for data, one, other in zip(files, by_python, taken) if one and not other],
            [],
        )
        self.expect(f"Python takes some: {sum(by_python)}", 100 < sum(by_python) < len(files) - 100)
        self.expect("njs takes the odd ones", taken[: len(TAKEN)], [True] * len(TAKEN))

    def test_versions(self) -> None:
        """A version gets only what was checked, and keeps the old file in place of a refused one."""
        with tempfile.TemporaryDirectory() as folder:
            paths = {name: os.path.join(folder, name) for name in ("input", "old", "new", "site")}
            for name in ("input", "old", "new"):
                os.mkdir(paths[name])
            site: Any = types.SimpleNamespace(languages={"en"}, path=paths["site"], targets_path=lambda: paths["site"])
            for name, data in (("old", json.dumps(GOOD).encode()), ("input", REFUSED[0][0])):
                with open(os.path.join(paths[name], "targets.json"), "wb") as file:
                    file.write(data)
            old, new = Path(paths["old"]), Path(paths["new"])
            added = names_file.NamesFile(site, old).add(new, InputFolder(paths["input"]), old)
            self.expect(
                "what is said",
                (added.lines, added.is_older),
                (
                    [
                        "targets.json: the old one is kept",
                        f"  {paths['input']}/targets.json: \"folder\": NaN is no value of JSON",
                    ],
                    True,
                ),
            )
            with open(os.path.join(paths["new"], "targets.json"), "rb") as file:
                self.expect("the old one", json.load(file), GOOD)


class Sites(Case):
    def test_includes(self) -> None:
        """What a site includes is part of it, and so is what that includes; a file that is missing has nothing."""
        with tempfile.TemporaryDirectory() as folder:
            texts = {
                "site.conf": "    server 127.0.0.1:8100 max_fails=0;\n    include FOLDER/more.conf;\n",
                "more.conf": "include FOLDER/none.conf;\n#include FOLDER/off.conf;\ninclude FOLDER/ports.conf ;\n",
                "ports.conf": "server 127.0.0.1:8101;\nserver_name links.example.org other.example.org;\n",
                "off.conf": "server 127.0.0.1:8102;\n",
            }
            for name, text in texts.items():
                Path(folder, name).write_text(text.replace("FOLDER", folder), encoding="utf-8")
            site = front_door.Site(Path(folder, "site.conf"))
            self.expect(
                "its ports and its address", (site.ports, site.base), ([8100, 8101], "http://links.example.org")
            )
            self.expect("no site", front_door.Site(Path(folder, "none.conf")).ports, [])

    def test_lines(self) -> None:
        """What lines of a site say; what is in a comment says nothing."""
        log, wanted = "access_log /var/log/a.log openlink if=$openlink_line;", Path("/var/log/b.log")
        for text, name, found in (
            ("listen 443 ssl;\n  server_name a.example.org b.example.org;", "base", "https://a.example.org"),
            ("listen [::]:443 ssl http2;\nserver_name a.example.org;", "base", "https://a.example.org"),
            ("listen 80; # no ssl\n#server_name a.example.org;", "base", "http://localhost"),
            ("listen 80 # no ssl\n;", "base", "http://localhost"),
            ("#listen 443 ssl;\nserver_name a.example.org;", "base", "http://a.example.org"),
            ("    set $openlink_list off;", "has_list", False),
            ("log_format a;\njs_var $openlink_list off ;", "has_list", False),
            ("#set $openlink_list off;", "has_list", True),
            ("set $openlink_list on;", "has_list", True),
            ("set $openlink_lists off;", "has_list", True),
            (f'{log}\n  access_log "{wanted}" openlink_wanted;\n{log}', "logs", [Path("/var/log/a.log"), wanted]),
            (f"#{log}\naccess_log /var/log/c.log combined;\naccess_log off;", "logs", []),
            ("set $openlink_disk 2G;", "most_disk", 2 * 2**30),
            ("set $openlink_disk 5mb;", "most_disk", 5 * 2**20),
            ("#  server 127.0.0.1:8100;\nserver 127.0.0.1:8101;\nserver 10.0.0.1:8102;", "ports", [8101]),
        ):
            with tempfile.TemporaryDirectory() as folder:
                path = Path(folder, "site.conf")
                path.write_text(f"{text}\n", encoding="utf-8")
                self.expect(text, getattr(front_door.Site(path), name), found)

    def test_lines_of_a_machine(self) -> None:
        """A library of several has the module and the languages of all, and ports, logs and a disk of its own."""
        every = (
            "js_path /usr/share/openlink;\njs_preload_object words_en from /w/en.json;\nset $openlink_disk 9g;\n"
            "server 127.0.0.1:291;\naccess_log /var/log/all.log openlink;\nset $openlink_list off;\n"
        )
        own = "server 127.0.0.1:215;\njs_preload_object words_zh_Hans__east from /w/zh-Hans.json;\n"
        with tempfile.TemporaryDirectory() as folder:
            paths = [Path(folder, name) for name in ("site.conf", "openlink.conf")]
            for path, text in zip(paths, (f"{own}set $openlink_disk 2g;\n", every)):
                path.write_text(text, encoding="utf-8")
            site = front_door.Site(*paths)
            self.expect("the module", site.processes, "/usr/share/openlink/processes.conf")
            self.expect("the languages", site.languages, ["en", "zh-Hans"])
            found = (site.ports, site.logs, site.has_list, site.most_disk)
            self.expect("its own", found, ([215], [], True, 2 * 2**30))
