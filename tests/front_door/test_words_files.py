"""The files of words: each language has all texts, with the places, the plural forms and the numbers of the language,
and each kind of slip is found."""
from __future__ import annotations

import json
import re
import subprocess
from pathlib import Path

from fixtures import needs
from fixtures.cases import Case
from openlink_update.site import targets_file
from openlink_update.site import words_file

FOLDER = Path("front_door/words")
TRANSLATED = ["ar", "cs", "da", "el", "es", "fr", "he", "it", "ja", "nl", "pl", "pt", "sv", "tr", "uk", "zh-Hans"]
# Texts that are the same as the English ones, and right.
OF_ALL = {"doi", "pmid", "issn", "isbn", "list", "labelled", "thousand", "tenThousand"}
SAME = {
    "de": {"group"},
    "da": {"group"},
    "es": {"pages", "volume"},
    "fr": {"nearPages", "pages", "volume", "volumeField"},
    "it": {"pages", "volume", "volumeField"},
    "ja": {"pages"},
    "nl": {"group", "letters", "pages"},
    "pt": {"group", "pages", "volume", "volumeField"},
    "sv": {"volume"},
}
# A language, the name of a text, what is written in its place (None: nothing), and what is said of it.
SLIPS = [
    ("fr", "heading", None, "no heading"),
    ("fr", "heading", "", "heading is empty"),
    ("fr", "heading", " ", "heading is empty"),
    ("fr", "heading", "Les libraries", "heading is in English: Les libraries"),
    ("fr", "heading", "Find this item", "heading is in English: Find this item"),
    ("fr", "heading", "Trouver this document", "heading is in English: Trouver this document"),
    ("de", "noTitle", "Kein Titel hat these words.", "noTitle is in English: Kein Titel hat these words."),
    ("uk", "heading", "Знайти item", "heading is in English: Знайти item"),
    ("zh-Hans", "busy", "Please wait", "busy is in English: Please wait"),
    ("ar", "journals", "Journals A to Z", "journals is in English: Journals A to Z"),
    ("fr", "pageOf", "Page {}", "pageOf has not 2 of {}"),
    ("fr", "busy", "Trop de demandes {}", "busy has not 0 of {}"),
    ("fr", "titles.one", None, "no titles.one"),
    ("fr", "titles.one", "un titre", "titles.one has not 1 of {}"),
    ("fr", "titles.few", "{} titres", 'unknown name "titles.few"'),
    ("pl", "withoutYears.few", None, "no withoutYears.few"),
    ("pl", "onlyDays.many", None, "no onlyDays.many"),
    ("uk", "titles.one", None, "no titles.one"),
    ("cs", "titles.few", None, "no titles.few"),
    ("he", "onlyMonths.two", None, "no onlyMonths.two"),
    ("ar", "titles.zero", None, "no titles.zero"),
    ("ar", "titles.two", "{} {}", "titles.two has not 1 of {}"),
    ("ar", "withoutDays.many", None, "no withoutDays.many"),
    ("es", "titles.many", None, "no titles.many"),
    ("en", "titles.few", "{} titles", 'unknown name "titles.few"'),
    ("da", "thousand", "1000.0", "thousand is no number with one mark"),
    ("da", "thousand", "11000", "thousand is no number with one mark"),
    ("da", "tenThousand", "10.0000", "tenThousand is no number with one mark"),
    ("da", "tenThousand", "1.000", "tenThousand is no number with one mark"),
    ("da", "titel", "x", 'unknown name "titel"'),
]
# Prints what the module and the browsers' own data (Intl) say of each language and number.
SCRIPT = """
import plurals from '{folder}/plurals.js';
import words from '{folder}/words.js';
const files = {files};
const numbers = Array.from({{ length: 1200 }}, (_, i) => i).concat(9999, 10000, 12345, 99999, 1e6, 1000001, 2e6);
const found = Object.keys(files).map((language) => {{
    const site = {{ language, known: {{ thousand: files[language][0], tenThousand: files[language][1] }} }};
    const rules = new Intl.PluralRules(language);
    const format = new Intl.NumberFormat(language, {{ numberingSystem: 'latn' }});
    const wrong = numbers.filter((n) => rules.select(n) !== plurals.categoryOf(language, n));
    const other = numbers.filter((n) => format.format(n) !== words.numberOf(site, n));
    const categories = (list) => Array.from(new Set(list.map((n) => plurals.categoryOf(language, n)))).sort();
    return [language, wrong.slice(0, 9), other.slice(0, 9), categories(numbers.filter((n) => n !== 1)),
        categories(numbers.filter((n) => n > 1 && n < 100000))];
}});
console.log(JSON.stringify(found));
"""


def texts_of(language: str) -> dict[str, str]:
    texts: dict[str, str] = json.loads((FOLDER / f"{language}.json").read_text(encoding="utf-8"))
    return texts


class WordsFiles(Case):
    """What is said of the files, and of slips in them."""

    def test_all_files(self) -> None:
        languages = sorted(path.stem for path in FOLDER.glob("*.json"))
        self.expect("the languages", languages, sorted(["de", "en", *TRANSLATED]))
        for language in languages:
            data = (FOLDER / f"{language}.json").read_bytes()
            self.expect(language, targets_file.faults_of_words(data, language), [])
        for language in TRANSLATED:
            self.expect(f"{language} waits", texts_of(language).get("review"), "waits for a native reader’s look")

    def test_left_in_english(self) -> None:
        """No text is the English one, but for those that the language has too."""
        english = texts_of("en")
        for language in ("de", *TRANSLATED):
            same = {name for name, text in texts_of(language).items() if english.get(name) == text}
            self.expect(language, same - OF_ALL, SAME.get(language, set()))

    def test_slips(self) -> None:
        for language, name, text, fault in SLIPS:
            texts = {key: it for key, it in texts_of(language).items() if key != name}
            data = json.dumps(texts if text is None else {**texts, name: text}).encode()
            self.expect(f"{language}: {fault}", targets_file.faults_of_words(data, language), [f"words: {fault}"])

    def test_english_of_a_region(self) -> None:
        data = (FOLDER / "en.json").read_bytes()
        for language in ("en", "en-GB", "EN-gb"):
            self.expect(language, targets_file.faults_of_words(data, language), [])

    def test_names_of_forms_in_a_site(self) -> None:
        """A site may replace a form, and no form that no language has."""
        for name, wanted in (("titles.few", []), ("titles.other", ['words: unknown name "titles.other"'])):
            data = json.dumps({"groups": [{"name": "A"}], "words": {name: "{} x"}}).encode()
            self.expect(name, targets_file.faults_of(data), wanted)

    def test_lines_of_the_sites(self) -> None:
        """Each file has its line in the site, and English and German alone are switched on."""
        lines = {
            f"{'' if it in ('de', 'en') else '#'}js_preload_object words_{it.replace('-', '_')} "
            f"from /usr/local/share/openlink/nginx/words/{it}.json;"
            for it in ("de", "en", *TRANSLATED)
        }
        for name in ("openlink.conf", "machine.conf"):
            text = Path("front_door", name).read_text(encoding="utf-8")
            self.expect(name, set(re.findall(r"^#?js_preload_object words_.*$", text, re.M)), lines)

    def test_regions(self) -> None:
        """By CLDR, no titles are `one` in Brazil and `other` in Portugal. A site may write a tag in any case."""
        for language, has_one in (("pt", True), ("pt-BR", True), ("PT-br", True), ("pt-PT", False), ("PT-pt", False)):
            self.expect(language, "one" in words_file.forms_of(language, words_file.TITLES), has_one)
        for language in ("ru", "RU"):
            self.expect(language, words_file.forms_of(language, words_file.TITLES), ("one", "few", "many"))

    @needs.command("node")
    def test_plurals_and_numbers(self) -> None:
        """The categories and the marks of thousands are those of CLDR, and each category that a count may have has a
        text."""
        files = {it: [texts_of(it)["thousand"], texts_of(it)["tenThousand"]] for it in ("de", "en", *TRANSLATED)}
        text = SCRIPT.format(folder=Path("front_door").resolve(), files=json.dumps(files))
        done = subprocess.run(["node", "--input-type=module"], input=text, capture_output=True, text=True, check=True)
        found = json.loads(done.stdout)
        self.expect("the languages", len(found), len(files))
        for language, wrong, other, of_titles, of_embargoes in found:
            self.expect(f"{language}: plural forms", wrong, [])
            self.expect(f"{language}: numbers", other, [])
            for name in words_file.COUNTED:
                wanted = set(of_titles if name == words_file.TITLES else of_embargoes) - {"other"}
                self.expect(f"{language}: {name}", set(words_file.forms_of(language, name)), wanted)
