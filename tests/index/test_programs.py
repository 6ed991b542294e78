"""Two modules of the index run as programs: one makes an index, the other prints the table of letters."""
from __future__ import annotations

import contextlib
import io
import os
import runpy
import tempfile
from pathlib import Path
from unittest import mock

import fixtures
from fixtures.cases import Case
from fixtures.index_reader import journal
from fixtures.index_reader import table
from openlink_update.index import title_index
from openlink_update.index import titles
from openlink_update.tables.table import Table


def run(path: str, *words: str) -> str:
    """What a module prints that is run as a program."""
    printed = io.StringIO()
    with mock.patch("sys.argv", [path, *words]), contextlib.redirect_stdout(printed):
        runpy.run_path(path, run_name="__main__")
    return printed.getvalue()


def files_in(folder: Path) -> dict[str, bytes]:
    return {str(path.relative_to(folder)): path.read_bytes() for path in folder.rglob("*") if path.is_file()}


class Programs(Case):
    def test_letters(self) -> None:
        """The front door reads the file that this prints."""
        stored = Path(fixtures.TOP, "front_door/fold.json").read_text(encoding="utf-8")
        self.expect("front_door/fold.json", run(titles.__file__), stored)

    def test_index(self) -> None:
        """That of the tables which a registry names, relative to the present folder; with the list of titles."""
        tables = {"one": table(journal("Tides", "2901-0012")), "two": table(journal("Piers", "2915-0272"))}
        with tempfile.TemporaryDirectory() as name:
            folder = Path(name)
            (folder / "tables").mkdir()
            for target, data in tables.items():
                (folder / f"tables/{target}.txt").write_bytes(data)
            lines = [f"{target}\tcode/{target}.olk\ttables/{target}.txt\n" for target in tables]
            (folder / "registry.tsv").write_text("".join(lines), encoding="utf-8")
            self.addCleanup(os.chdir, os.getcwd())
            os.chdir(folder)
            self.expect("what it prints", run(title_index.__file__, "registry.tsv", f"{folder}/made"), "")
            title_index.begin(folder / "wanted", True)
            pairs = [(target, Table.parse(data)) for target, data in tables.items()]
            title_index.make(folder / "wanted", True, pairs)
            found, wanted = files_in(folder / "made"), files_in(folder / "wanted")
            self.expect(f"{len(wanted)} files", len(wanted) >= 8)
            self.expect("the index", found, wanted)
