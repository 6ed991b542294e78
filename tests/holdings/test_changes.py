"""What is said of a table that is used: the titles that came and went, a table that was in use before, files that are
written while they are read, and targets without a label."""
from __future__ import annotations

import datetime
import functools
import gzip
import json
import os
from collections.abc import Callable
from pathlib import Path
from typing import Any
from unittest import mock

from fixtures import needs
from fixtures.cases import Case
from fixtures.made_titles import issn
from fixtures.made_versions import HEADER
from fixtures.made_versions import Weeks
from fixtures.made_versions import table
from holdings.test_judging import RULE
from holdings.test_judging import rows
from openlink_update.site.front_door import Site
from openlink_update.tables.preparation import prepare
from openlink_update.versions.earlier_files import EarlierFiles
from openlink_update.versions.program import Program

WRITTEN = "it changed while it was read: update again when it is written"


def differences(conf: str, names: list[str], groups: dict[str, str] | None = None) -> list[str]:
    path = Path(Site(conf).targets_path())
    return Site.differences(names, path, path.read_bytes() if path.is_file() else b"", groups or {})


class Writing(Program):
    """The program, beside which a file is written while it compiles."""

    def __init__(self, program: Program, write: Callable[[], None]) -> None:
        super().__init__(program.path, program.folder)
        self.write = write

    def run(self, *words: Any, **how: Any) -> Any:
        if words[0] == "compile":
            self.write()
        return super().run(*words, **how)


@needs.program()
class Changes(Case):
    """Weeks of one target."""

    def test_changes(self) -> None:
        """The titles that came and went, with their numbers and coverage, in a file that the mail names."""
        old = [*rows(0, 40), ("Went", issn(50), issn(51), "1990-01-01", "1999", "", "w", "P1Y"), ("Kept", issn(60))]
        new = [
            *rows(0, 40),
            ("Came", "", issn(70), "2001-05", "", "", "c", "R5Y;P6M"),
            ("Came", "", issn(70), "1980", "1985"),
            ("Renamed", issn(61), issn(60)),
        ]
        with Weeks() as weeks:
            weeks.deliver("press", table(*old))
            self.expect("new", weeks.make(), ["press: new, 42 rows"])
            self.expect("no changes yet", os.path.exists(f"{weeks.version}/changes"), False)
            weeks.deliver("press", table(*new))
            self.expect(
                "what is said",
                weeks.make(),
                ["press: 3 rows added, 2 gone", "  titles: 1 came, 1 gone: changes/press.txt"],
            )
            self.expect(
                "the file",
                weeks.read("changes/press.txt").decode().splitlines(),
                [
                    "change\ttitle\tnumbers\tfirst date\tlast date\tembargo",
                    f"came\tCame\t{issn(70)}\t2001-05\t2026-05\tR5Y,P6M",
                    f"came\tCame\t{issn(70)}\t1980\t1985\t",
                    f"gone\tWent\t{issn(50)} {issn(51)}\t1990-01-01\t1999\tP1Y",
                ],
            )
            weeks.deliver("press", table(*new, ("Kept", issn(60), "", "2020")))
            self.expect("no title came", weeks.make(), ["press: 1 row added, 0 gone"])
            other = [("Renamed", issn(62), *row[2:]) if row[0] == "Renamed" else row for row in new]
            weeks.deliver("press", table(*other, ("Kept", issn(60), "", "2020")))
            self.expect("a title with another number", weeks.make(), ["press: 1 row added, 1 gone"])
            self.expect("no file", os.path.exists(f"{weeks.version}/changes"), False)

    def test_no_last_dates(self) -> None:
        """A table without a column of last dates is served without walls there, and the file has none either."""
        header = tuple(name for name in HEADER if name != "date_last_issue_online")
        old = [row[:4] + row[5:] for row in rows(0, 40)]
        with Weeks() as weeks:
            weeks.deliver("press", table(*old, header=header))
            weeks.make()
            weeks.deliver("press", table(*old, ("Came", issn(70), "", "2001-05", "", "c", "P6M"), header=header))
            self.expect("what is said", weeks.make()[:1], ["press: 1 row added, 0 gone"])
            lines = weeks.read("changes/press.txt").decode().splitlines()
            self.expect("the file", lines[1:], [f"came\tCame\t{issn(70)}\t2001-05\t\tP6M"])

    def test_again(self) -> None:
        """A table that was in use before is said, with its first day, if another one was in use since."""
        a, b, bad = (table(*rows(0, count)) for count in (20, 21, 1))
        weeks_of: tuple[tuple[bytes, list[str]], ...] = (
            (a, []),
            (b, []),
            (bad, []),
            (b, []),
            (a, ["2026-11-01"]),
            (a, []),
            (b, ["2026-11-02"]),
            (b.decode().encode("utf-16"), []),
            (b, []),
            (table(*rows(0, 22)), []),
        )
        with Weeks() as weeks:
            for number, (data, days) in enumerate(weeks_of, 1):
                weeks.deliver("press", data)
                said = weeks.make(datetime.date(2026, 11, number))
                self.expect(
                    f"week {number}",
                    [line for line in said if "again" in line],
                    [f"  the table of {day} again" for day in days],
                )
            weeks.deliver("press", table(*rows(0, 22)), rules=RULE)
            self.expect("other rules alone", weeks.make(), ["press: rules changed"])
        many = EarlierFiles(None)
        for number in range(40):
            many.put("press", b"%d" % number)
            many.days["press"] = dict(
                line.split("\t")[1:]
                for line in many.text(["press"], datetime.date(2026, 1, 1) + datetime.timedelta(number)).splitlines()
            )
        remembered: list[str | None] = []
        for number in range(40):
            many.put("press", b"%d" % number)
            remembered.append(many.day_of("press"))
        newest = [(datetime.date(2026, 1, 1) + datetime.timedelta(number)).isoformat() for number in range(14, 40)]
        self.expect("the last 26 are remembered", remembered, [None] * 14 + newest)

    def test_written_meanwhile(self) -> None:
        """A file that is written after it was read is not used; one that was replaced or removed is, as it was read."""

        def append(path: str) -> None:
            with open(path, "ab") as file:
                file.write(b"\n")

        def replace(path: str) -> None:
            with open(f"{path}.new", "wb") as file:
                file.write(b"another")
            os.rename(f"{path}.new", path)

        with Weeks() as weeks:
            half = gzip.compress(table(*rows(0, 99)))[:-9]
            weeks.deliver("press", half)

            def read_meanwhile(files: Any) -> Any:
                append(files[0][0])
                return prepare(files)

            with mock.patch("openlink_update.tables.preparation.prepare", read_meanwhile):
                said = [line.split(".txt: ")[1] for line in weeks.make() if line.startswith("  ")]
            self.expect(
                "half of a file, which is written on", said, ["a gzip file that is cut short or damaged", WRITTEN]
            )
            self.expect("the first week", weeks.week("press", table(*rows(0, 20))), [])
            writes: tuple[tuple[Callable[[str], None], str], ...] = (
                (append, "press.txt"),
                (append, "press.rules"),
                (replace, "press.txt"),
                (os.unlink, "press.txt"),
            )
            for number, (write, file) in enumerate(writes, 1):
                path = weeks.path("input", file)
                weeks.deliver("press", table(*rows(0, 20 + number)))
                said = weeks.make(program_of=lambda program: Writing(program, functools.partial(write, path)))
                self.expect(
                    f"{write} {file}",
                    [line for line in said if line.startswith("  /")],
                    [f"  {path}: {WRITTEN}"] if write is append else [],
                )

    def test_labels(self) -> None:
        """Targets that `targets.json` does not name, and names there without a target."""
        with Weeks() as weeks:
            path, conf = weeks.path("targets.json"), weeks.path("openlink.conf")
            with open(conf, "w", encoding="utf-8") as file:
                file.write(f"js_path /x;\n  js_preload_object targets from {path};\njs_preload_object fold from /x;\n")
            cases: list[tuple[dict[str, object], list[str]]] = [
                ({"a": {}, "b": {}}, []),
                ({"a": {}}, [f"{path}: not named, so they are shown last and not as full text: b"]),
                ({"a": {}, "b": {}, "c": {}, "d": {}}, [f"{path}: named, and no target: c, d"]),
                (
                    {"c": {}},
                    [
                        f"{path}: not named, so they are shown last and not as full text: a, b",
                        f"{path}: named, and no target: c",
                    ],
                ),
            ]
            for targets, expected in cases:
                with open(path, "w", encoding="utf-8") as file:
                    json.dump({"targets": targets}, file)
                self.expect(f"targets.json with {sorted(targets)}", differences(conf, ["a", "b"]), expected)
            with open(path, "w", encoding="utf-8") as file:
                json.dump({"targets": {}, "groups": [{"name": "Full text"}]}, file)
            for groups, unnamed in (({}, "a, b"), ({"a": "Full text", "b": ""}, "b"), ({"b": "Volltext"}, "a, b")):
                expected = [f"{path}: not named, so they are shown last and not as full text: {unnamed}"]
                self.expect(f"groups of rules {groups}", differences(conf, ["a", "b"], groups), expected)
            self.expect("all say one", differences(conf, ["a"], {"a": "Full text"}), [])
            for text in ("", "[]", '{"targets": []}', "{}"):
                with open(path, "w", encoding="utf-8") as file:
                    file.write(text)
                self.expect(f"targets.json is {text}", differences(conf, ["a"]), [])
            self.expect("no site", differences("/dev/null", ["a"]), [])
