"""Checks the texts of a file of words, which are those of the reader's page in one language: each name of the English
file, with as many places for values; the plural forms of the language; and no text that was left in English.

A word with a count has a text for most numbers (`titles`) and one for 1 (`oneTitle`). A language with more forms has a
text for each: `titles.few` is for the numbers that have the category `few` in CLDR's rules, and so for `zero`, `one`,
`two` and `many`. `review` says whether a native reader has looked at the file, and no page shows it."""
import json
import re
from collections.abc import Mapping

from openlink_update.places import FRONT_DOOR

FOLDER = FRONT_DOOR / "words"
_SAMPLE = FOLDER / "en.json"
_REVIEW = "review"
TITLES = "titles"
# Words with a count: these are of the years, months and days of an embargo, from 2 on.
_OF_EMBARGOES = ("withoutYears", "withoutMonths", "withoutDays", "onlyYears", "onlyMonths", "onlyDays")
COUNTED = (TITLES, *_OF_EMBARGOES)
# The categories of whole numbers from 2 to 99,999 beside `other`; those of 0 and of millions, of which there may be
# titles. plurals.js has the rules.
_SLAVIC = ("one", "few", "many")
_FORMS = {
    **dict.fromkeys(("be", "ru", "uk"), _SLAVIC),
    **dict.fromkeys(("bs", "hr", "sr"), ("one", "few")),
    **dict.fromkeys(("cs", "sk"), ("few",)),
    "ar": ("two", "few", "many"),
    "he": ("two",),
    "pl": ("few", "many"),
}
_OF_ZERO = {"ar": ("zero",), "fr": ("one",), "pt": ("one",), "pt-pt": ()}
_OF_MILLIONS = dict.fromkeys(("ca", "es", "fr", "it", "pt"), ("many",))
# Forms that may leave out the number, since they are of one number alone.
_OF_ONE_NUMBER = ("zero", "two")
# How the language writes a thousand and ten thousand: the marks of thousands of all numbers follow from them.
_NUMBERS = {"thousand": r"1\D?000", "tenThousand": r"10\D?000"}
# Words that English has and no other language of Latin letters, as far as the page uses them.
_ENGLISH = re.compile(
    r"\b(the|this|that|these|with|without|please|cannot|librar(y|ies)|requests?|search|years?|months?|which|there|from"
    r"|your|words?|titles|could|found|too|many)\b",
    re.I,
)
# What is written in Latin letters everywhere.
_NAMES = re.compile(r"\b(DOI|ISSN|ISBN|PubMed|RIS|A|Z|OpenURL|Crossref|Unpaywall|OA|PDF)\b")
_LATIN = re.compile(r"[A-Za-z]{2,}")


def sample() -> dict[str, str]:
    """The texts of the English file."""
    texts: dict[str, str] = json.loads(_SAMPLE.read_text(encoding="utf-8"))
    return texts


def forms_of(language: str, name: str) -> tuple[str, ...]:
    """The categories for which a language has further texts of a word with a count."""
    tag = language.lower()
    base = tag.partition("-")[0]
    forms = _FORMS.get(base, ())
    if name != TITLES:
        return forms
    return (*_OF_ZERO.get(tag, _OF_ZERO.get(base, ())), *forms, *_OF_MILLIONS.get(base, ()))


def names_of_forms(languages: tuple[str, ...] | None = None) -> set[str]:
    """The names of all plural forms that these languages have, or that any has."""
    every = languages if languages is not None else tuple({*_FORMS, *_OF_ZERO, *_OF_MILLIONS})
    return {f"{name}.{form}" for language in every for name in COUNTED for form in forms_of(language, name)}


def faults_of(words: Mapping[str, object], language: str) -> list[str]:
    """The errors of the texts of a language."""
    expected = sample()
    needed = {name: expected[name.partition(".")[0]] for name in (*expected, *sorted(names_of_forms((language,))))}
    texts = {name: text for name, text in words.items() if isinstance(text, str)}
    faults = [f"words: unknown name {json.dumps(name)}" for name in words if name not in needed and name != _REVIEW]
    faults += [f"words: {name} is not a text" for name in words if name not in texts]
    faults += [f"words: no {name}" for name in needed if name not in words]
    faults += [f"words: {name} is empty" for name, text in texts.items() if not text.strip()]
    for name, text in needed.items():
        if name in texts and not _has_places(name, texts[name], text):
            faults.append(f"words: {name} has not {text.count('{}')} of {{}}")
    for name, form in _NUMBERS.items():
        if name in texts and not re.fullmatch(form, texts[name]):
            faults.append(f"words: {name} is no number with one mark")
    return faults + left_over(texts, expected, language)


def _has_places(name: str, text: str, english: str) -> bool:
    """Whether a text has as many places for values as the English one; a form of one number may have fewer."""
    count, wanted = text.count("{}"), english.count("{}")
    return count == wanted or (count < wanted and name.partition(".")[2] in _OF_ONE_NUMBER)


def left_over(texts: Mapping[str, str], expected: Mapping[str, str], language: str) -> list[str]:
    """Errors of texts in English: those that are as in the English file, if they have several words, those with
    English words, and in a language with other letters those with Latin ones."""
    if language.partition("-")[0].lower() == "en":
        return []
    every = "".join(texts.values())
    is_latin = sum(letter.isascii() for letter in every if letter.isalpha()) * 2 > sum(map(str.isalpha, every))
    faults = []
    for name, text in texts.items():
        if name == _REVIEW:
            continue
        plain = _NAMES.sub(" ", text)
        is_same = text == expected.get(name) and len(_LATIN.findall(plain)) > 1
        if is_same or (_ENGLISH if is_latin else _LATIN).search(plain):
            faults.append(f"words: {name} is in English: {text[:60]}")
    return faults
