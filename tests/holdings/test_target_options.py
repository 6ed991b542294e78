"""The fourth cell of a line of targets.tsv: options, and words that allow warnings."""
from __future__ import annotations

import tempfile
from pathlib import Path

from fixtures.cases import Case
from openlink_update import target_options
from openlink_update.input_files import InputFolder
from openlink_update.outcome import Refused
from openlink_update.target_options import NONE, Options
from openlink_update.versions import target_list

CELLS = {
    "": NONE,
    " ; ;": NONE,
    "columns Titel=publication_title, Verlag=-": Options(
        columns=(("Titel", "publication_title"), ("Verlag", "-")),
    ),
    'columns "ISSN, print"=print_identifier': Options(columns=(("ISSN, print", "print_identifier"),)),
    'columns "a = b; c"=notes': Options(columns=(("a = b; c", "notes"),)),
    'columns "a=b"=notes': Options(columns=(("a=b", "notes"),)),
    'columns ""=notes': Options(columns=(("", "notes"),)),
    'columns "say ""x"""=notes': Options(columns=(('say "x"', "notes"),)),
    "columns  A = notes ,  B = - ": Options(columns=(("A", "notes"), ("B", "-"))),
    'columns " A "=notes': Options(columns=((" A ", "notes"),)),
    "no header publication_title, print_identifier": Options(header=("publication_title", "print_identifier")),
    "columns A=-, B=-, C=x_subject": Options(columns=(("A", "-"), ("B", "-"), ("C", "x_subject"))),
    "no header -, notes, -": Options(header=("-", "notes", "-")),
    "sheet Journals 2026": Options(sheet="Journals 2026"),
    'sheet "A; B"': Options(sheet="A; B"),
    "html table": Options(is_html=True),
    "proxy https://proxy.example.org/login?url=": Options(proxy="https://proxy.example.org/login?url="),
    "proxy https://proxy.example.org:8443/x?a=1&qurl=": Options(proxy="https://proxy.example.org:8443/x?a=1&qurl="),
    "filter press-journals": Options(filter="press-journals"),
    "least 500 rows": Options(least=500),
    "least 1 row": Options(least=1),
    "sheet A; least 2 rows; html table": Options(sheet="A", least=2, is_html=True),
}

WRONG = {
    "columns": "columns: no names follow",
    "columns Titel": "columns: not NAME=NAME: Titel",
    "columns A=notes=x": "columns: not NAME=NAME: A=notes=x",
    "columns =notes": "columns: not NAME=NAME: =notes",
    "columns A=publication_titel": "columns: publication_titel is no column of KBART, and none of x_NAME",
    "columns A=Notes": "columns: Notes is no column of KBART, and none of x_NAME",
    "columns A=coverage_from": "columns: coverage_from is no column of KBART, and none of x_NAME",
    "columns A=x_": "columns: x_ is no column of KBART, and none of x_NAME",
    "columns A=notes, B=notes": "columns: notes twice",
    'columns A=notes, "a "=title_id': "columns: a twice",
    "columns A=notes, A=-": "columns: a twice",
    "no header A": "no header: A is no column of KBART, and none of x_NAME",
    "no header notes, -, notes": "no header: notes twice",
    "no header": "no header: no names follow",
    "sheet": "sheet: no name follows",
    "html table x": "html table: nothing may follow: x",
    f"html table {'x' * 101}": f"html table: nothing may follow: {'x' * 100}..",
    "proxy http://proxy.example.org/": "proxy: an address that begins with https:// and a host must follow",
    "proxy https://proxy.example.org": "proxy: an address that begins with https:// and a host must follow",
    "proxy https://a@b/": "proxy: an address that begins with https:// and a host must follow",
    "proxy https://a_b/": "proxy: an address that begins with https:// and a host must follow",
    'proxy "https://a/ b"': "proxy: an address that begins with https:// and a host must follow",
    "filter ../x": "filter: the name of a file in the folder of filters must follow",
    "filter .x": "filter: the name of a file in the folder of filters must follow",
    "least 500": "least: a number of rows must follow, such as 500 rows",
    "least ５ rows": "least: a number of rows must follow, such as 500 rows",
    "least 1234567890 rows": "least: a number of rows must follow, such as 500 rows",
    "sheet A; sheet B": "sheet: twice",
    'columns "A=notes': 'a quotation mark without a second one: columns "A=notes',
}


def refused(cell: str) -> str:
    try:
        return str(target_options.parse(cell))
    except Refused as refusal:
        return str(refusal)


class TargetOptions(Case):
    def test_cells(self) -> None:
        for cell, wanted in CELLS.items():
            options, words = target_options.parse(cell)
            self.expect(cell, options, wanted)
            self.expect(f"{cell}: words", words, frozenset())

    def test_text_is_read_again(self) -> None:
        for cell, wanted in CELLS.items():
            self.expect(cell, target_options.parse(wanted.text())[0], wanted)

    def test_wrong(self) -> None:
        for cell, wanted in WRONG.items():
            self.expect(cell, refused(cell), wanted)

    def test_what_changes_a_table(self) -> None:
        """A proxy and a least number of rows change no table; each other option does."""
        for cell, changes in (
            ("", False),
            ("proxy https://a/", False),
            ("least 5 rows", False),
            ("columns A=notes", True),
            ("no header notes", True),
            ("sheet A", True),
            ("html table", True),
            ("filter a", True),
        ):
            options = target_options.parse(cell)[0]
            self.expect(cell, options.changes_reading(), changes)
            self.expect(f"{cell}: beside none", (options.reads_as(NONE), NONE.reads_as(options)), (not changes,) * 2)

    def test_words(self) -> None:
        cell = 'dropped up to 5%; columns "a;b"=notes; hosts +a.example.org; leasts'
        wanted = frozenset({"dropped up to 5%", "hosts +a.example.org", "leasts"})
        self.expect("words", target_options.parse(cell)[1], wanted)

    def test_a_version_has_them(self) -> None:
        options = {"a": Options(sheet="A; B"), "b": NONE, "c": Options(least=3)}
        with tempfile.TemporaryDirectory() as folder:
            text = target_options.text_of(options, ["a", "b"])
            self.expect("text", text, 'a\tsheet "A; B"\n')
            Path(folder, "options.tsv").write_text(text, encoding="utf-8")
            self.expect("read", target_options.options_in(Path(folder)), {"a": Options(sheet="A; B")})
        self.expect("an older version", target_options.options_in(Path("/nonexistent")), {})

    def test_a_wrong_cell_keeps_its_target_only(self) -> None:
        with tempfile.TemporaryDirectory() as folder:
            text = "a\ta.rules\ta.txt\tsheet\nb\tb.rules\tb.txt\tleast 5 rows; gone up to 20%\n"
            Path(folder, "targets.tsv").write_text(text, encoding="utf-8")
            targets = target_list.read(InputFolder(folder))
            reasons = [reason.removeprefix(f"{folder}/") for reason in targets[0].reasons]
            self.expect("reasons", reasons, ["targets.tsv: line 1: sheet: no name follows"])
            self.expect("options", targets[1].options, Options(least=5))
            self.expect("words", targets[1].allowed, frozenset({"gone up to 20%"}))
