"""Words and keys by which abbreviated titles are found: cases, the same in njs, and their lines in the index; and the
library's own abbreviations."""
from __future__ import annotations

import json
import os
import random
import subprocess
import tempfile
from pathlib import Path

from fixtures import needs
from fixtures.cases import Case
from fixtures.index_reader import Index
from fixtures.index_reader import book
from fixtures.index_reader import journal
from fixtures.index_reader import table
from index.test_keys import CASES
from index.test_keys import PIECES
from openlink_update.index import abbreviations
from openlink_update.index import short_titles
from openlink_update.index import title_rows
from openlink_update.index.title_groups import Title
from openlink_update.index.title_groups import Titles
from openlink_update.input_files import InputFolder
from openlink_update.tables.table import Table

# A title and its keys with their words.
WORDS = [
    ("Revista Española de Cardiología", ["rec ca revista espanola cardiologia"]),
    ("The Journal of the American Chemical Society", ["jacs so journal american chemical society"]),
    ("Physical Review A", ["pra a physical review a"]),
    ("Revue d'histoire littéraire de la France", ["rhlf fr revue histoire litteraire france"]),
    ("L’Année sociologique", ["as so annee sociologique"]),
    ("Biochemical J.", ["bj jo biochemical j"]),
    ("Historische Z", ["hz ze historische z"]),
    ("Am Econ Q", ["aeq qu am econ q"]),
    ("Annals of the New York Academy", ["anya ac annals new york academy"]),
    ("Ann N Y Acad", ["anya ac ann n y acad"]),
    ("Ciencia y Tierra", ["ct ti ciencia tierra"]),
    ("Proc Natl Acad Sci U S A", ["pnas sc proc natl acad sci"]),
    ("Proceedings of Science of the United States of America", ["ps sc proceedings science"]),
    ("Proceedings of Science, United States of America", ["ps sc proceedings science"]),
    ("P SCI USA", ["ps sc p sci"]),
    ("Vaccine (Amsterdam)", []),
    ("Clinical Science (London) [Online]", ["cs sc clinical science"]),
    ("Chest Reports: Heart and Lung", ["crhl lu chest reports heart lung", "cr re chest reports"]),
    ("JNCI: Journal of Cancer", ["jjc ca jnci journal cancer", "jc ca journal cancer"]),
    ("Blood", []),
    ("The", []),
    ("", []),
]
# Words that are left out before the last one: in English, German, French, Spanish, Portuguese, Italian, Dutch and the
# Nordic languages.
STOP = (
    "a an and the of in on for to at by with from as or "
    "der die das des dem den und für fur fuer im zur zum von aus mit "
    "de du la le les l d et en sur pour au aux un une el los las y del al con por para e da do dos das "
    "di della dello dei degli delle il lo gli i van voor het te og av om för på s"
).split()
SCRIPT = """import short from 'abbreviations.js';
import fs from 'fs';
globalThis.fold = JSON.parse(fs.readFileSync('fold.json'));
const list = fs.readFileSync(process.argv[2], 'utf8').split('\\n');
const line = (it) => {
    const words = short.wordsOf(it);
    return words.length === 0 ? '' : short.initialsOf(words) + ' ' + words.join(' ');
};
fs.writeFileSync(process.argv[3], list.map(line).join('\\n'));
"""
# Words of an abbreviation and of a title, and how they fit: 2 as beginnings, 1 with some letters left out, 0 not.
FITS = [
    ("water res", "water research", 2),
    ("water research", "water research", 2),
    ("water res", "water research letters", 0),
    ("res water", "water research", 0),
    ("j natl cancer", "journal national cancer", 1),
    ("ned tijdschr geneeskd", "nederlands tijdschrift geneeskunde", 1),
    ("ann med", "annals methods", 0),
    ("jpn law", "japanese law", 1),
    ("j chem", "japan chemistry", 0),
    ("j chem", "jornal chemistry", 2),
    ("z phys", "zoology physics", 0),
    ("z phys", "zeitschrift physik", 2),
    ("b phys", "bulletin physics", 2),
    ("ntal law", "national law", 1),
    ("atal law", "national law", 0),
    ("cat law", "chapter law", 0),
    ("pit law", "profit law", 0),
    ("cos law", "chaos law", 0),
    ("rus law", "rhesus law", 0),
    ("cyt law", "cryptic law", 0),
    ("clt law", "climate law", 1),
]
FIT = """import short from 'abbreviations.js';
const fits = JSON.parse(process.argv[2]);
console.log(JSON.stringify(fits.map((it) => short.fitOf(it[0].split(' '), it[1].split(' ')))));
"""


def line_of(title: str) -> str:
    words = short_titles.words_of(title)
    return " ".join([short_titles.initials_of(words), *words]) if words else ""


def in_njs(script: str, *words: str) -> str:
    with tempfile.TemporaryDirectory() as folder:
        path = os.path.join(folder, "script.js")
        Path(path).write_text(script, encoding="utf-8")
        command = ["njs", "-p", os.path.abspath("front_door"), path, *words]
        done = subprocess.run(command, cwd="front_door", check=True, stdout=subprocess.PIPE, text=True)
        return done.stdout


class Words(Case):
    def test_cases(self) -> None:
        for title, wanted in WORDS:
            found = [f"{key} {words}" for key, words in short_titles.keys_of(title)]
            self.expect(title, found, wanted)

    def test_left_out(self) -> None:
        """Stop words, but the last word never is one; and the letter before an apostrophe of any kind."""
        for word in STOP:
            self.expect(word, list(short_titles.words_of(f"Annals {word} Tides")), ["annals", "tides"])
            self.expect(f"{word} at the end", len(short_titles.words_of(f"Annals Tides {word}")), 3)
        for mark in "'`\u2018\u2019\xb4":
            self.expect(mark, list(short_titles.words_of(f"Revue d{mark}histoire")), ["revue", "histoire"])

    @needs.command("njs")
    def test_same_words(self) -> None:
        """njs makes the same words and keys, of cases, of each stop word, and of made texts of hard pieces."""
        source = random.Random(8)
        found = [title for title, _ in WORDS] + [title for title, _, _ in CASES]
        found += [f"Annals {word} Tides" for word in (*STOP, *sorted(short_titles._STOP))]
        found += [f"Revue d{mark}histoire" for mark in "'`\u2018\u2019\xb4"]
        pieces = [*PIECES, " of ", " and ", "(b)", "[c", " usa", "u.s.a.", " y ", "n y ", "d'", "Journal "]
        found += ["".join(source.choices(pieces, k=source.randrange(1, 25))) for _ in range(2000)]
        found = [text.replace("\n", " ") for text in found]
        with tempfile.TemporaryDirectory() as folder:
            paths = [os.path.join(folder, name) for name in ("titles", "lines")]
            Path(paths[0]).write_text("\n".join(found), encoding="utf-8")
            in_njs(SCRIPT, *paths)
            lines = Path(paths[1]).read_text(encoding="utf-8").split("\n")
        differing = [(text, line) for text, line in zip(found, lines, strict=True) if line != line_of(text)]
        self.expect(f"lines of {len(found)} titles", differing[:5], [])

    @needs.command("njs")
    def test_fits(self) -> None:
        found = json.loads(in_njs(FIT, json.dumps([it[:2] for it in FITS])))
        for (short, title, wanted), fit in zip(FITS, found, strict=True):
            self.expect(f"{short}, {title}", fit, wanted)


class Lines(Case):
    def test_lines(self) -> None:
        """Journals have lines by their initials, with years, publishers and the beginnings of DOIs."""
        header = "publication_title\tprint_identifier\tdate_first_issue_online\tdate_last_issue_online\tpublisher_name"
        rows = (
            "Annals of Tides\t2901-0012\t1990-01-01\t1999\tTidal Press\thttps://e.org/doi/10.5555/at\tserial",
            "Annals of Tides\t2901-0012\t2001\t2005-01\tTidal Press Ltd.\thttps://e.org/10.1234%2Fx\tserial",
            "Letters on Locks\t2901-0020\t1990\t\t\t\tserial",
            "Letters on Locks\t2901-0020\t1980\t1985\t\t\tserial",
            "Notes on Nets\t2901-0039\t1990\t1995\t\t\tserial",
            "Notes on Nets\t2901-0039\t\t1985\t\t\tserial",
            "A Book of Buoys\t9781234560102\t1990\t\tTidal Press\t\tmonograph",
        )
        text = "\n".join([f"{header}\ttitle_url\tpublication_type", *rows])
        with Index({"press": text.encode() + b"\n"}) as found:
            self.expect(
                "of several rows",
                found.of_key("^at ti"),
                [
                    [
                        "j",
                        "Annals of Tides",
                        "2901-0012",
                        "annals tides",
                        "1990 2005",
                        "tidal press",
                        "10.5555",
                        "tidal press ltd",
                        "10.1234",
                    ]
                ],
            )
            self.expect(
                "without a last year",
                found.of_key("^ll lo"),
                [["j", "Letters on Locks", "2901-0020", "letters locks", "1980 -"]],
            )
            self.expect("without a first year", found.of_key("^nn ne")[0][4], "- 1995")
            self.expect("of a book", found.of_key("^bb bu"), [])

    def test_signs(self) -> None:
        """Six publishers and beginnings of DOIs, and sixty characters of a publisher."""
        columns = ("publication_title", "print_identifier", "publisher_name")
        for count in (6, 7):
            titles = Titles()
            titles.add_table("a", Table(columns, [["Tides", "2901-0012", f"Press {at}"] for at in range(count)]))
            self.expect(
                f"{count} publishers", titles.finish().titles[0].signs.split("\t"), [f"press {at}" for at in range(6)]
            )
        for count in (60, 61):
            titles = Titles()
            titles.add_table("a", Table(columns, [["Tides", "2901-0012", "a" * count]]))
            self.expect(f"{count} characters", titles.finish().titles[0].signs, "a" * 60)

    def test_beginnings_of_dois(self) -> None:
        for cell, wanted in (
            ("10.1234/x", "10.1234"),
            ("https://doi.org/10.123456789/x", "10.123456789"),
            ("https://e.org/?doi=10.1234%2fx", "10.1234"),
            ("10.123/x", ""),
            ("10.1234567890/x", ""),
            ("10.1234", ""),
            ("", ""),
        ):
            self.expect(cell, short_titles.prefix_in("", cell), wanted)
        header = ("publication_title", "print_identifier", "title_id", "title_url")
        rows = [["Tides", "2901-0012", "10.1111/a", "https://doi.org/10.2222/b"], ["Piers", "2915-0272", "10.1111/a"]]
        prefixes = [row.prefix for row in title_rows.rows_of("press", Table(header, rows))]
        self.expect("that of the title's page is first", prefixes, ["10.2222", "10.1111"])


class Pairs(Case):
    """abbreviations.tsv."""

    def folder(self, data: bytes | None) -> InputFolder:
        room = tempfile.TemporaryDirectory()
        self.addCleanup(room.cleanup)
        if data is not None:
            Path(room.name, "abbreviations.tsv").write_bytes(data)
        return InputFolder(room.name)

    def test_list(self) -> None:
        for name, data, wanted, faults in (
            ("no list", None, b"", []),
            (
                "pairs",
                "# ours\nAnn. T.\tAnnals of Tides\n\n AT \t2901-0012 \n".encode(),
                b"Ann. T.\tAnnals of Tides\nAT\t2901-0012\n",
                [],
            ),
            (
                "a line of one cell",
                b"Ann. T.\nAT\tTides\n",
                b"AT\tTides\n",
                ["line 1: not an abbreviation and a title with a tab between them"],
            ),
            (
                "a line of three cells",
                b"AT\tTides\tx\nAT\tTides\n",
                b"AT\tTides\n",
                ["line 1: not an abbreviation and a title with a tab between them"],
            ),
            (
                "a line without a word",
                b"..\tTides\n",
                b"",
                ["line 1: not an abbreviation and a title with a tab between them"],
            ),
            ("another encoding", b"AT\t\xe9tudes\n", None, ["not UTF-8: the old one is kept"]),
        ):
            folder = self.folder(data)
            found, lines = abbreviations.read(folder)
            place = folder.place("abbreviations.tsv")
            self.expect(name, (found, lines), (wanted, [f"{place}: {fault}" for fault in faults]))
        room = self.folder(None)
        os.symlink("/etc/hostname", room.place("abbreviations.tsv"))
        self.expect("a link", abbreviations.read(room)[0], None)

    def test_most(self) -> None:
        for count in (10_000, 10_001):
            found, faults = abbreviations.read(self.folder(b"a b\tAnnals\n" * count))
            said = [fault.split(": ")[1] for fault in faults]
            wanted = ["10001 lines, and the first 10000 count"] if count > 10_000 else []
            self.expect(f"{count} lines", ((found or b"").count(b"\n"), said), (10_000, wanted))

    def test_once(self) -> None:
        """An abbreviation that a title has by its name and its number is one, and its own key is none."""
        title = Title("Tides")
        title.add("2901-0012 2908-0142", title_rows.PRINT, True, "press 0 1995")
        pairs = {"tides": ["t", "tides"], "2901-0012": ["t", "td"], "2908-0142": ["td"]}
        self.expect("its keys", abbreviations.keys_of(title, pairs), ["t", "td"])

    def test_rows_of_a_title(self) -> None:
        """A title is a journal if one of its rows is, and lacks targets that one of its parts lacks."""
        one, other = Title("Tides"), Title("Tides")
        one.add("2901-0012", title_rows.PRINT, True, "press 0 1995")
        one.add("2901-0012", title_rows.ONLINE, False, "archive 0 1995")
        self.expect("one", (one.is_journal, one.columns), (True, title_rows.PRINT | title_rows.ONLINE))
        other.add("2908-0142", title_rows.ONLINE, False, "large 0 1995")
        other.left_out = frozenset({"large"})
        one.add_addresses("press https://press.example.com/1")
        other.add_addresses("press https://press.example.com/2\tlarge https://large.example.com/1")
        one.add_signs(["tidal press", "10.5555"])
        other.add_signs(["10.5555", "large press"])
        one.take(other)
        self.expect("addresses", one.addresses, "press https://press.example.com/1\tlarge https://large.example.com/1")
        self.expect("signs", one.signs, "tidal press\t10.5555\tlarge press")
        self.expect("numbers", one.numbers(), ["2901-0012", "2908-0142"])
        self.expect("both", (one.is_journal, one.coverage_text()), (True, "press 0 1995;archive 0 1995"))

    def test_index(self) -> None:
        """An abbreviation leads to the titles that have the name or the number; what no table has is said."""
        rows = table(
            journal("Annals of Tides", "2901-0012"),
            journal("Soundings", "2901-0020", "2908-0142"),
            book("Buoys", "9781234560102"),
        )
        room = tempfile.TemporaryDirectory()
        self.addCleanup(room.cleanup)
        lines = ["AnnTid\tAnnals of Tides, The", "Snd.\t2908-0142", "BB\t1234560106", "X\tNone of these"]
        lines += ["AT\tAnnals of Tides"]
        Path(room.name, "abbreviations.tsv").write_text("".join(f"{line}\n" for line in lines))
        pairs = abbreviations.pairs_of(Path(room.name))
        with Index({"press": rows}, pairs=pairs) as found:
            for key, wanted in (
                ("anntid", "2901-0012"),
                ("at", "2901-0012"),
                ("snd", "2901-0020 2908-0142"),
                ("bb", "9781234560102"),
            ):
                self.expect(key, found.numbers_of(f"={key}"), [wanted])
            self.expect("the title itself", found.numbers_of("=annals of tides"), ["2901-0012"])
        titles = Titles()
        titles.add_table("press", Table.parse(rows))
        every = titles.finish().titles
        self.expect(
            "said", abbreviations.unknown(Path(room.name), every), ["abbreviations.tsv: no table has None of these"]
        )
        for count, more in ((5, []), (6, ["abbreviations.tsv: nor 1 more"])):
            text = "".join(f"a b\tnone {at}\n" for at in range(count))
            Path(room.name, "abbreviations.tsv").write_text(text)
            self.expect(f"{count} of them", abbreviations.unknown(Path(room.name), every)[5:], more)
