"""The words of the desk: each language of the reader's page has all of them, with the places for values, and none is
left in English; and the templates use each."""
from __future__ import annotations

import re
from pathlib import Path

from fixtures.cases import Case
from openlink_update.desk import templates_in
from openlink_update.desk import week
from openlink_update.desk import words_in
from openlink_update.site import words_file

ENGLISH = words_in.texts_of("en")


def faults_of(texts: dict[str, str], language: str) -> list[str]:
    faults = [f"no {name}" for name in ENGLISH if not texts.get(name, "").strip()]
    faults += [f"unknown name {name}" for name in texts if name not in ENGLISH]
    faults += [f"{name}: {{}}" for name in texts if texts[name].count("{}") != ENGLISH.get(name, "").count("{}")]
    return faults + words_file.left_over(texts, ENGLISH, language)


class Words(Case):
    def test_all_languages(self) -> None:
        languages = sorted(path.stem for path in words_file.FOLDER.glob("*.json"))
        self.expect("the languages", sorted(path.stem for path in words_in.FOLDER.glob("*.json")), languages)
        self.expect("how many", len(languages) >= 18, True)
        for language in languages:
            self.expect(language, faults_of(words_in.texts_of(language), language), [])

    def test_languages_of_a_page(self) -> None:
        """A page has the words of its language, and is written from right to left where that is."""
        for t in words_in.languages_of(sorted(path.stem for path in words_in.FOLDER.glob("*.json"))):
            self.expect(f"words of {t.tag}", {**t.words}, words_in.texts_of(t.tag))
            self.expect(f"direction of {t.tag}", t.direction, "rtl" if t.tag in ("ar", "he") else "ltr")

    def test_spoilt_words(self) -> None:
        german = words_in.texts_of("de")
        for name, text in (("week", ""), ("made", "Erstellt am"), ("allWell", ENGLISH["allWell"]), ("none", "x")):
            self.expect(f"{name}: {text}", len(faults_of({**german, name: text}, "de")) > 0, True)
        self.expect(
            "Latin words in Greek", faults_of({**words_in.texts_of("el"), "week": "This week"}, "el") != [], True
        )

    def test_each_is_used(self) -> None:
        texts = [path.read_text("utf-8") for path in templates_in.FOLDER.glob("*.html")]
        texts.append(Path(week.__file__).read_text("utf-8"))
        used = set(re.findall(r"[\"'](\w+)[\"']", "".join(texts)))
        used |= {"changes", "dropped"}  # the lists of a target, by the names of their folders
        self.expect("words that no page has", set(ENGLISH) - used, set())

    def test_numbers(self) -> None:
        numbers = {t.tag: t.number(1234567) for t in words_in.languages_of(["en", "de", "fr", "zh-Hans"])}
        self.expect("marks", (numbers["en"], numbers["de"]), ("1,234,567", "1.234.567"))
        self.expect("one that is unknown", [t.tag for t in words_in.languages_of(["tlh", "../x", "de", "de"])], ["de"])
        self.expect("none", [t.tag for t in words_in.languages_of([])], ["en"])
        self.expect("values", words_in.languages_of(["en"])[0].filled("made", "{}{}"), "Made on {}{}")
