"""What a person reads, in the mail, on a terminal, and in the lists of rows: no character there is a command, and no
cell of a list is a formula. The table and its rules are a hostile provider's."""
from __future__ import annotations

import contextlib
import csv
import io
import os
import pathlib
import subprocess
import tempfile
import unicodedata
from collections.abc import Iterator

from fixtures import PYTHON
from fixtures import needs
from fixtures.cases import Case
from fixtures.made_titles import issn
from fixtures.made_versions import HEADER
from fixtures.made_versions import Weeks
from fixtures.made_versions import table
from openlink_update import shown_text
from openlink_update.shown_text import report

# ESC, CR, BEL, NUL, DEL, C1 (CSI, NEL), and what ends a line or sets its direction.
UNSAFE = (
    "\x1b\r\x07\x00\x0b\x0c\x7f\x80\x85\x9b\x9f\u061c\u200e\u200f\u2028\u2029\u202a\u202b\u202c\u202d\u202e"
    "\u2066\u2067\u2068\u2069"
)
FORMULAS = (
    "=1",
    "+1",
    "-1",
    "@SUM(A1)",
    " =1",
    "\t=1",
    " \t+1",
    "\u3000=1",
    "\xa0-1",
    "＝1",
    "＋1",
    "－1",
    "＠1",
    "\x1b=1",
)
PLAIN = ("-", "Études – L’eau", "日本語", "می‌خواهم", "a=b", "Q & A", "", "'x", "50% + 1")


def is_unsafe(text: str) -> list[str]:
    return [
        char
        for char in text
        if char != "\n"
        and (
            unicodedata.category(char) in ("Cc", "Zl", "Zp")
            or unicodedata.bidirectional(char) in ("LRE", "RLE", "PDF", "LRO", "RLO", "LRI", "RLI", "FSI", "PDI")
        )
    ]


def row(title: str, number: str, embargo: str = "", first: str = "1995") -> tuple[str, ...]:
    return (title, number, "", first, "", "https://press.example.com/x", "x", embargo, "fulltext", "serial")


def hostile(start: int) -> list[tuple[str, ...]]:
    tail = UNSAFE.replace("\r", "")
    return [
        row(f"{text}{tail}{number}", issn(1000 * (start + number)), "six\x1b]0;owned months")
        for number, text in enumerate(FORMULAS)
        if "\t" not in text
    ]


def lists_of(weeks: Weeks) -> Iterator[tuple[str, str, list[list[str]]]]:
    """The rows of `changes/` and `dropped/` of the version in use, as a spreadsheet reads them."""
    for name in ("changes/press.txt", "dropped/press.txt"):
        text = weeks.read(name).decode()
        yield name, text.replace("\t", ""), list(csv.reader(io.StringIO(text), dialect="excel-tab"))


class Shown(Case):
    """Texts, cells, lines and lists."""

    def test_printable(self) -> None:
        for char in UNSAFE:
            self.expect(f"the character {char!r}", shown_text.printable(f"a{char}b"), "a?b")
        every = "".join(map(chr, (*range(0xD800), *range(0xE000, 0x3000))))
        self.expect("of all characters", is_unsafe(shown_text.printable(every)), [])
        for text in PLAIN:
            self.expect(f"the text {text!r}", shown_text.printable(text), text)
        self.expect("a tab, and lines", shown_text.printable("a\tb\nc"), "a b\nc")

    def test_cells(self) -> None:
        for text in FORMULAS:
            found = next(csv.reader([shown_text.row((text, "x"))], dialect="excel-tab"))
            self.expect(f"the cell {text!r}", (len(found), found[0].lstrip()[:1] in tuple("=+-@＝＋－＠")), (2, False))
        for text in PLAIN:
            self.expect(f"the cell {text!r}", shown_text.cell(text), text)
        found = next(csv.reader([shown_text.row(('"=1', 'a"b', "c\nd"))], dialect="excel-tab"))
        self.expect("quotation marks", found, ['"=1', 'a"b', "c d"])

    def test_report(self) -> None:
        """A line of a run has no commands; a process prints it as the mail gets it."""
        out = io.StringIO()
        with contextlib.redirect_stdout(out):
            report("first \x1b]0;owned\x07\x1b[2J\x9b1m\u202e months\r")
        self.expect("a line", out.getvalue(), "first ?]0;owned??[2J?1m? months?\n")
        code = "from openlink_update.shown_text import report; report('x\\x1b[2J\\x85y', 'stderr')"
        done = subprocess.run([*PYTHON, "-c", code], capture_output=True, env={**os.environ, "PYTHONPATH": "update"})
        self.expect("standard error", done.stderr, b"x?[2J?y\n")

    def test_lines(self) -> None:
        """No line, and no part of one that the journal divides, begins as a command of mail does."""
        for text, wanted in (
            ("~!true", " ~!true"),
            ("a\n~!true\n ~!true\na~!true", "a\n ~!true\n ~!true\na~!true"),
            ("\x1b~!true", "?~!true"),
            ("a" * 8000, "a" * 8000),
            ("a" * 8000 + "~!true", "a" * 8000 + ".."),
            ("é" * 8001, "é" * 8000 + ".."),
            ("~" * 8000, " " + "~" * 7999 + ".."),
        ):
            self.expect(f"{text[:20]!r}, {len(text)} characters", shown_text.lines_to_print(text), wanted)

    @needs.command("bsd-mailx")
    def test_mail(self) -> None:
        """What the mail program reads as a command in a text, it does not in the report of it."""
        with tempfile.TemporaryDirectory() as folder:
            mark = pathlib.Path(folder) / "mark"
            lines = [f"~{it}" for it in (f"!touch {mark}", f"| touch {mark}", f": !touch {mark}", f"r !touch {mark}")]
            for line in lines:
                reported = io.StringIO()
                with contextlib.redirect_stdout(reported):
                    report(line)
                    report(f"a: kept its old table\n{line}")
                self.expect(f"the report of {line!r}", self.is_run(reported.getvalue(), mark), False)
            self.expect("a text that is no report", self.is_run(lines[0], mark))

    def is_run(self, text: str, mark: pathlib.Path) -> bool:
        """Whether bsd-mailx makes the file for a text. With -I it reads commands in it, as some other programs do
        without an option."""
        mark.unlink(missing_ok=True)
        (mark.parent / "rc").write_text("set sendmail=/bin/true\n")
        environment = {**os.environ, "MAILRC": str(mark.parent / "rc"), "HOME": str(mark.parent)}
        words = ["bsd-mailx", "-I", "-s", "report", "root"]
        subprocess.run(words, input=f"{text}\n", text=True, env=environment, stdout=subprocess.DEVNULL, check=False)
        return mark.exists()

    @needs.program()
    def test_lists(self) -> None:
        """Titles that came and went, and dropped rows."""
        good = [row(f"Good {number}", issn(1000 * (1000 + number))) for number in range(20)]
        lost = [
            (*cells[:1], "=2+3" if number % 2 else "@soon", *cells[2:]) for number, cells in enumerate(hostile(3000))
        ]
        lost.append(row('"=1+1', "soon"))
        allowed = "gone up to 100; dropped up to 99; not an ISSN or ISBN; rows without an identifier"
        with Weeks() as weeks, contextlib.ExitStack() as stack:
            weeks.deliver("press", table(*good, *hostile(2000)).replace(b"\0", b""), allowed)
            weeks.make()
            weeks.deliver("press", table(*good, *hostile(4000), *lost, header=HEADER).replace(b"\0", b""), allowed)
            said = weeks.make()
            self.expect(f"the second week: {said}", weeks.maker.kept, [])
            out = stack.enter_context(contextlib.redirect_stdout(io.StringIO()))
            for line in said:
                report(line)
            found = list(lists_of(weeks))
        self.expect(
            "the lines of the mail", (is_unsafe(out.getvalue()), len(out.getvalue().splitlines()) > 3), ([], True)
        )
        for (name, text, rows), count in zip(found, (1 + 2 * len(hostile(0)), 1 + len(lost))):
            self.expect(
                f"{name}: rows, each with all cells", (len(rows), len({len(cells) for cells in rows})), (count, 1)
            )
            self.expect(f"{name}: characters", is_unsafe(text), [])
            self.expect(
                f"{name}: formulas",
                [cell for cells in rows for cell in cells if cell.lstrip()[:1] in tuple("=+-@＝＋－＠")],
                [],
            )
