"""The key of a title: cases, and the same keys in njs."""
from __future__ import annotations

import json
import os
import random
import subprocess
import tempfile

from fixtures import needs
from fixtures.cases import Case
from openlink_update.index import titles

# A title, its key, and the key without the subtitle.
CASES = [
    ("Annals of Tidal Studies", "annals of tidal studies", ""),
    ("The  ANNALS of\ttidal-studies.", "annals of tidal studies", ""),
    ("The", "the", ""),
    ("Études océanographiques", "etudes oceanographiques", ""),
    ("E\u0301tudes", "etudes", ""),
    ("Die Straße & das Æther", "strasse and das aether", ""),
    ("R&amp;D", "r and d", ""),
    ("R&amp;amp;D", "r and d", ""),
    ("R&AMP;D", "r and d", ""),
    ("AT&T; and &bogus;", "at and t and and bogus", ""),
    ("Caf&eacute; &#233; &#xE9;", "cafe e e", ""),
    ("&#55296;&#0;", "and 55296 and 0", ""),
    ("&#XE9;tudes in H&sup2;O", "etudes in h2o", ""),
    ("<i>E. coli</i> in H<sub>2</sub>O", "e coli in h2o", ""),
    ("<mml:mi>E. coli</mml:mi>", "e coli", ""),
    ("&lt;i&gt;E. coli&lt;/i&gt;", "e coli", ""),
    ("<h2>Tides <br/>and Piers</h2>", "tides and piers", ""),
    ("3 < 4 > 2", "3 4 2", ""),
    ("L'Année sociologique", "annee sociologique", ""),
    ("«L’École»", "ecole", ""),
    ("L'Yonne", "yonne", ""),
    ("L'Homme", "homme", ""),
    ("L’ Homme malgré tout", "homme malgre tout", ""),
    ("L' Homme", "homme", ""),
    ("Gl'Inni sacri", "inni sacri", ""),
    ("Gl’Inni della libertà", "inni della liberta", ""),
    ("L'!", "l", ""),
    ("Un’altra storia", "altra storia", ""),
    ("UN's role", "uns role", ""),
    ("Reader's Guide", "readers guide", ""),
    ("Los Angeles", "angeles", ""),
    ("Gli studi", "studi", ""),
    ("Der Der", "der", ""),
    ("Zeit\u00adschrift\u200b", "zeitschrift", ""),
    ("ΟΔΥΣΣΕΎΣ", "οδυσσευσ", ""),
    ("İstanbul Йод", "istanbul иод", ""),
    ("Teil Ⅳ, № １２", "teil iv 12", ""),
    ("中国科学", "中国科学", ""),
    ("《中国科学：化学》", "中国科学 化学", ""),
    ("サイエンス・レポート", "サイエンス レポート", ""),
    ("...", "", ""),
    ("", "", ""),
    ("Acta: X", "acta x", "acta"),
    ("Acta = Acts", "acta acts", "acta"),
    ("Acta – Reports", "acta reports", "acta"),
    ("Acta — Reports", "acta reports", "acta"),
    ("Acta-Reports", "acta reports", ""),
    ("Acta (Online)", "acta online", "acta"),
    ("Acta [1995] (Online)", "acta 1995 online", "acta 1995"),
    ("Acta (Online) B", "acta online b", ""),
    ("Acta / edited by A. Li", "acta edited by a li", "acta"),
    ("Input/output", "input output", ""),
    ("Annals of Tides, The", "annals of tides", ""),
    ("Annals of Tides, the.", "annals of tides", ""),
    ("Siècle, Le", "siecle", ""),
    ("Annals of Tides, A", "annals of tides a", ""),
    ("Tides, ebb, and the", "tides ebb and the", ""),
    ("Tides, the sea", "tides the sea", ""),
    (", The", "the", ""),
    ("The Tides, The", "tides", ""),
    (": X", "x", ""),
    ("A" * 499 + " é", "a" * 499, ""),
    ("A" * 600 + ": b", "a" * 500, ""),
    ("A" * 496 + "&amp;: b", "a" * 496 + " and amp", ""),
]
# Articles that are no part of a key: in English, German, French, Spanish and Italian; and those after a last comma.
ARTICLES = (
    "the a an der die das den dem des ein eine einen einem einer eines le la les un une "
    "el la lo los las un una unos unas il lo la i gli le un uno una"
).split()
LAST_ARTICLES = "the der die das le la les el la los las il gli".split()
PIECES = [
    *" '’:=()[]-–—&;<>/#xliugnABCXYZabcßéÉàñäÖüЙйΣςσ\u0301\u00ad\u200b１Ⅳﬁ漢語😀",
    "&amp;",
    "&eacute;",
    "&#39;",
    "&#x2019;",
    "<i>",
    "</i>",
    "the ",
    "The ",
    "L'",
    "l’",
    "un'",
    "Die ",
    " : ",
    " - ",
    " / ",
    ", the",
    ", Les",
    "a\u0308",
    "O\u0308",
    "u\u0308",
]
SCRIPT = """import titles from 'titles.js';
import fs from 'fs';
globalThis.fold = JSON.parse(fs.readFileSync('fold.json'));
const list = fs.readFileSync(process.argv[2], 'utf8').split('\\n');
const short = (it) => titles.shorter(it) === titles.plain(it.slice(0, 500)) ? '' : titles.keyOf(titles.shorter(it));
const keys = (it) => [titles.keyOf(it), short(it), titles.keyOf(titles.writtenOut(it))].join('\\t');
fs.writeFileSync(process.argv[3], list.map(keys).join('\\n'));
"""
PART = 2500  # njs frees no memory, so it gets few titles at a time


def texts() -> list[str]:
    """The cases, every character below U+3100 and from U+FE00 to U+FFFF, a part of the others, and made texts of hard
    pieces."""
    source = random.Random(7)
    found = [title for title, _, _ in CASES]
    found += [f"{it} Tides" for it in ARTICLES] + [f"Tides, {it}" for it in ARTICLES]
    codes = [*range(0x20, 0x3100), *range(0xFE00, 0x10000), *source.sample(range(0x3000, 0x2FA20), 2000)]
    found += [f"a{chr(code)}b" for code in codes if not 0xD800 <= code < 0xE000]
    # Texts of 32 characters and of their multiples, since njs has found their ends hard.
    found += ["".join(source.choices(PIECES, k=source.randrange(1, 25))) for _ in range(4000)]
    for length in (32, 64, 96):
        found += ["é" * length, "a" * (length - 1) + "é", "é" * (length - 1) + "–", "ab" * (length // 2 - 1) + "é&amp;"]
    # Only the first 500 characters count, of which the last may be an umlaut, or begin a word or a subtitle.
    for length in (498, 499, 500, 501, 5000):
        found += [f"{'a' * length}{end}" for end in ("ü b", " bc", ": b", " (b)")]
    return [text.replace("\n", " ") for text in found]


def in_njs(texts: list[str]) -> list[str]:
    """The keys that front_door/titles.js makes, as lines."""
    with tempfile.TemporaryDirectory() as folder:
        for name, text in (("keys.js", SCRIPT), ("titles", "\n".join(texts))):
            with open(os.path.join(folder, name), "w", encoding="utf-8") as file:
                file.write(text)
        paths = [os.path.join(folder, name) for name in ("keys.js", "titles", "keys")]
        subprocess.run(["njs", "-p", os.path.abspath("front_door"), *paths], cwd="front_door", check=True)
        with open(paths[2], encoding="utf-8") as file:
            return file.read().split("\n")


class Keys(Case):
    """The same keys in the update and the front door."""

    def test_cases(self) -> None:
        for title, key, short in CASES:
            self.expect(f"the key of {title[:40]!r}", (titles.key_of(title), titles.short_key(title)), (key, short))

    def test_articles(self) -> None:
        for article in ARTICLES:
            for title in (f"{article.capitalize()} Tides", f"{article.upper()} «Tides»"):
                self.expect(title, titles.article_and_key(title), (article, "tides"))
            last = (article, "tides") if article in LAST_ARTICLES else ("", f"tides {article}")
            self.expect(f"Tides, {article}", titles.article_and_key(f"Tides, {article}"), last)

    def test_umlauts(self) -> None:
        for title, written, key in (
            ("Küste & Öl", "kueste & oel", "kueste and oel"),
            ("Straße", "straße", ""),
            ("A\u0308rzte", "aerzte", "aerzte"),
            ("H&auml;fen", "haefen", "haefen"),
            ("Ñandú", "ñandú", ""),
            ("Hafen", "hafen", ""),
            ("R&amp;D", "r&d", ""),
        ):
            self.expect(
                f"the umlauts of {title}", (titles.written_out(title), titles.written_key(title)), (written, key)
            )

    def test_table(self) -> None:
        with open("front_door/fold.json", encoding="utf-8") as file:
            self.expect(
                "front_door/fold.json is what update/openlink_update/index/titles.py prints",
                json.load(file),
                {"letters": titles.letters(), "entities": titles.entities()},
            )

    @needs.command("njs")
    def test_same_keys(self) -> None:
        found = texts()
        for start in range(0, len(found), PART):
            part = found[start : start + PART]
            differing = [
                (text, keys)
                for text, keys in zip(part, in_njs(part), strict=True)
                if keys
                != "\t".join((titles.key_of(text), titles.short_key(text), titles.key_of(titles.written_out(text))))
            ]
            self.expect(f"njs makes the keys of {len(part)} titles from {start}", differing[:5], [])
