"""Texts of which few characters or digits count: names, numbers, entities, limits in lists, and options."""
from __future__ import annotations

import datetime
import os
import re
import tempfile
from pathlib import Path
from unittest import mock

from bounds import numbers
from fixtures.cases import Case
from openlink_update import update_options
from openlink_update.exports import scholar
from openlink_update.index import index_files
from openlink_update.index import title_index
from openlink_update.index import title_list
from openlink_update.index import title_rows
from openlink_update.index import titles
from openlink_update.index import word_sets
from openlink_update.site import probes
from openlink_update.tables import cells
from openlink_update.tables.embargo import Embargo
from openlink_update.versions import judging


class Cells(Case):
    def test_entities(self) -> None:
        """Seven decimal digits, six hexadecimal ones."""
        for text, wanted in (
            ("&#0000065;", "A"),
            ("&#00000065;", "&#00000065;"),
            ("&#x000041;", "A"),
            ("&#x0000041;", "&#x0000041;"),
            ("&thetasym;", "\u03d1"),
        ):
            self.expect(text, titles.plain(text), wanted)

    def test_number_with_words(self) -> None:
        """A number of seventeen characters, as an ISBN with hyphens has."""
        for cell, wanted in (
            ("978-0-306-40615-7 (online)", "978-0-306-40615-7"),
            ("978-0-306--40615-7 (online)", "978-0-306--40615-7 (online)"),
            ("1234567 (online)", "1234567 (online)"),
            ("1234-5679 online", "1234-5679"),
        ):
            self.expect(cell, cells._number_alone(cell), wanted)

    def test_embargo(self) -> None:
        for text, wanted in (("R99999D", True), ("R100000D", False), ("P1Y;R99999D", True), ("P1Y;R100000D", False)):
            self.expect(text, Embargo.parse(text) is not None, wanted)

    def test_volume(self) -> None:
        """Google Scholar gets volumes of six digits."""
        for volume, wanted in (("999999", True), ("1000000", False)):
            self.expect(volume, "<volume>" in scholar._date_element("from", "2000", volume, ""), wanted)


class Lists(Case):
    def test_numbers_of_limits(self) -> None:
        """Nine digits; what has more is no limit."""
        self.expect("nine", judging._limits_of({"gone up to 999999999"}), {"gone": 999_999_999})
        self.expect("ten", judging._limits_of({"gone up to 9999999999"}), {"gone up to 9999999999": None})

    def test_names_in_probes(self) -> None:
        with tempfile.TemporaryDirectory() as folder:
            for count, wanted in ((64, ""), (65, "line 1 is not a query, a tab, and names of targets or none")):
                Path(folder, "probes.tsv").write_text(f"issn=1234-5679\t{'a' * count}\n")
                told = ""
                try:
                    probes.read(Path(folder, "probes.tsv").read_bytes())
                except ValueError as fault:
                    told = str(fault)
                self.expect(f"{count} characters", told, wanted)

    def test_parts_in_reports(self) -> None:
        """The parts of a target are .2 to .999."""
        for name, wanted in (
            ("a.2", "a"),
            ("a.9", "a"),
            ("a.10", "a"),
            ("a.999", "a"),
            ("a.1", "a.1"),
            ("a.1000", "a.1000"),
        ):
            self.expect(name, probes._PART.sub("", name), wanted)


class Options(Case):
    def test_options(self) -> None:
        """Two versions are kept at least, and a process has some time."""
        found = update_options.parse([])
        self.expect("without options", (found.seconds, found.keep, found.drained), (60, 4, 3))
        words = found.shell.split()
        self.expect("ssh asks for no password", "BatchMode=yes" in words)
        self.expect("nor does it wait for long", {"ConnectTimeout=10", "ServerAliveInterval=10"} <= set(words))
        self.expect("an empty folder is none", update_options.parse(["--input", ""]).input, None)
        found = update_options.parse(["--keep", "2", "--seconds", "0.1"])
        self.expect("the least", (found.keep, found.seconds), (2, 0.1))
        self.expect("of a library's user", (found.minutes, found.memory), (45, 3584))
        found = update_options.parse(["--minutes", "0.1", "--memory", "256"])
        self.expect("the least of these", (found.minutes, found.memory), (0.1, 256))
        wrong = (("--keep", "1"), ("--seconds", "0"), ("--seconds", "nan"), ("--minutes", "0"), ("--memory", "255"))
        for words in wrong:
            with open(os.devnull, "w") as null, mock.patch("sys.stderr", null), self.assertRaises(SystemExit) as ending:
                update_options.parse([*words])
            self.expect(f"{words}", ending.exception.code, 2)

    def test_options_of_each_library(self) -> None:
        """What a run for several libraries is told, the run of each is told too."""
        values = "--program p --restart r --reload l --seconds 7 --keep 3 --minutes 8 --memory 512".split()
        stamp = f"{datetime.datetime.now(datetime.timezone.utc):%Y%m%dT%H%M%SZ}"
        for words in ([], ["--dry-run"], ["--walls"], ["--back"], ["--fetch"], ["--receive", stamp]):
            for more in ([], values):
                found = update_options.parse([*words, *more])
                self.expect(f"{words}, {more}", update_options.parse(found.words()), found)


class FrontDoor(Case):
    def test_same_numbers(self) -> None:
        """Those that the front door's scripts and the update share, since one reads what the other writes."""
        values = {}
        for name in ("abbreviations", "index", "titles", "search", "lookup"):
            with open(f"front_door/{name}.js", encoding="utf-8") as file:
                values.update({f"{name} {key}": int(value) for key, value in numbers.of_script(file.read())})
        pairs = {
            "index KEY_DIGITS": title_index._DIGITS,
            "index HASH_DIGITS": title_index._KEY_DIGITS - title_index._DIGITS,
            "index MOST_LINES": title_index._MOST_LINES,
            "index PAGE": title_list.PAGE,
            "titles MOST_CHARACTERS": titles.MOST_CHARACTERS,
            "search MOST_FEW": word_sets._FEW,
            "search MOST_LETTERS": word_sets._MOST_LETTERS,
            "abbreviations MOST_OF_A_PUBLISHER": title_rows._MOST_OF_A_PUBLISHER,
        }
        self.expect("they are equal", {name: values.get(name) for name in pairs}, pairs)

    def test_size_of_a_file(self) -> None:
        """nginx gives the scripts more of a file than the index writes into one."""
        with open("front_door/processes.conf", encoding="utf-8") as file:
            size = re.search(r"^subrequest_output_buffer_size (\d+)m;", file.read(), re.M)
        self.expect("bytes", (int(size[1]) if size else 0) * 2**20 >= index_files.MOST_BYTES)
