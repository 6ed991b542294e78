"""Forty files as vendors send them, through openlink-update with lines of targets.tsv alone: the rows that are
served, and
what the mail says."""
from __future__ import annotations

import re

from fixtures import needs
from fixtures.cases import Case
from fixtures.updates import Library
from fixtures.updates import without_columns
from fixtures.vendor_files import FILES
from openlink_update import target_options
from openlink_update.tables import preparation

WALL = re.compile(r"\d{4}-\d\d(?=\t[^\t]*\tP)")  # a moving wall, which is of the day of the run


def without_empty_ends(text: str) -> str:
    return "".join(line.rstrip("\t") + "\n" for line in text.splitlines())


def without_walls(text: str | None) -> str:
    """A table without the last dates that moving walls make."""
    return WALL.sub("", text or "")


class Files(Case):
    def test_prepared(self) -> None:
        """The table of each file, and what is said of it."""
        for name, it in FILES.items():
            prepared = preparation.prepare([(it.file, it.data)], target_options.parse(it.options)[0])
            table = prepared.table.to_bytes().decode()
            self.expect(name, without_empty_ends(table), without_empty_ends(it.served))
            self.expect(f"what is said of {name}", tuple(prepared.lines), it.said)
        self.expect("files", len(FILES), 40)

    def test_without_its_line(self) -> None:
        """What the fourth cell says is needed: without it the file is another table, or none."""
        count = 0
        for name, it in FILES.items():
            options = target_options.parse(it.options)[0]
            if options.changes_reading():
                try:
                    table = preparation.prepare([(it.file, it.data)]).table.to_bytes().decode()
                except target_options.Refused:
                    table = ""
                self.expect(name, without_empty_ends(table) != without_empty_ends(it.served))
                count += 1
        self.expect("files with a cell", count, 9)


@needs.program()
class Week(Case):
    def test_update(self) -> None:
        with Library() as library:
            lines = list[str]()
            for name, it in FILES.items():
                library.write(it.file, it.data)
                rules = "provider:book" if "monograph" in it.served else "provider:title-page"
                lines.append(f"{name}\t{rules}\t{it.file.replace(';', '*')}\t{it.options}\n")
            library.write("targets.tsv", "".join(lines))
            status, printed = library.update()
            self.expect(f"the status: {printed}", status, 0)
            for name, it in FILES.items():
                served = without_columns(it.served)
                self.expect(f"the rows of {name}", without_walls(library.table(name)), served)
                told = f"\n{printed}".split(f"\n{name}: new, ")[-1].splitlines()[1:]
                self.expect(f"what is said of {name}", told[: len(it.said)], [f"  {line}" for line in it.said])
            self.expect("targets", len((library.served("registry.tsv") or "").splitlines()), 40)
