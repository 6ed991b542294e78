"""Checks a targets.json, and files of words, and says where they are wrong: nginx gives no reason. Run as a program it
checks those that it is given: targets_file.py /etc/nginx/openlink/targets.json

    languages   those that the page offers, the default first; each needs a file of words that openlink.conf loads
    words       the library's name (`library`); the help link (`help`, `helpLink`); `problemLink`, the address (https:
                or mailto:) to which readers report problems, with {} for the request; `links`, a list for the end of
                every page, each with `label` and `url`; `logo`, the name of an image next to the file; and
                replacements for texts of the files of words
    groups      in the order of the page: `name`, `label`, and in `onlyWithout` a group that hides this one
    targets     by name: `label`, `group`, `note`, and the path of the rules in `rules`, if they are neither
                rules/NAME.rules nor received/NAME.rules in the folder (NAME is that of the code file)
    folder      that of the registry, if it is not /etc/openlink/current
    scholar     for Google Scholar: `label` and `otherLabel` of the links, `keywords`, `contact`, `addresses` of the
                campus, and `base` if it is not the site's first server_name

Each label, note and text of `words` is one string, or one for each language: {"en": "Catalogue", "de": "Katalog"}. A
missing language has the default language's text. A replacement that is one string replaces only the default language's.

A file has at most MOST_BYTES, each name occurs once in its object, and the values are those of JSON alone, nested no
deeper than njs reads them.
"""
import collections
import itertools
import json
import os
import re
import sys
from collections.abc import Collection, Iterator
from pathlib import Path

from openlink_update.shown_text import report
from openlink_update.site import words_file
from openlink_update.site.front_door import Site
from openlink_update.update_options import SITE

# Texts that depend on the library, so no file of a language has them.
OF_THE_LIBRARY = ("library", "help", "helpLink", "problemLink", "logo")
_LOGO = r"[\w-]{1,60}\.(svg|png|jpg|gif|webp)"
# Names of groups, and paths, which are the same in all languages.
_PLAIN = ("name", "group", "onlyWithout", "rules")
_SCHOLAR = ("label", "otherLabel", "keywords", "contact", "addresses", "base")
_TAG = r"[A-Za-z]{2,8}(-[A-Za-z0-9]{1,8})*"
MOST_BYTES = 1_048_576  # each page of the library needs memory for its texts
_MOST_DEPTH = 31  # objects and lists in each other; njs 0.7.9 reads no more
_MOST_FAULTS, _MOST_CHARACTERS = 10, 40  # of those in the values, and of a name in them


def names_of_words() -> set[str]:
    """Returns the names that `words` may have."""
    return {*words_file.sample(), *words_file.names_of_forms(), *OF_THE_LIBRARY}


def _texts(place: str, value: object, names: Collection[str], languages: Collection[str], faults: list[str]) -> None:
    """Errors of an object whose members are texts under known names, some of them by language."""
    if not isinstance(value, dict):
        faults.append(f"{place} is not an object")
        return
    for name, text in value.items():
        if name not in names:
            faults.append(f"{place}: unknown name {json.dumps(name)}")
        elif isinstance(text, dict) and name not in _PLAIN:
            _by_language(f"{place}: {name}", text, languages, faults)
        elif not isinstance(text, str):
            faults.append(f"{place}: {name} is not a text")


def _by_language(place: str, value: dict[str, object], languages: Collection[str], faults: list[str]) -> None:
    for language, text in value.items():
        if language not in languages:
            faults.append(f"{place}: {json.dumps(language)} is none of the languages")
        elif not isinstance(text, str):
            faults.append(f"{place}: {language} is not a text")


class _Members(dict[str, object]):
    """An object, which knows the names that it has more than once."""

    def __init__(self, pairs: list[tuple[str, object]]) -> None:
        super().__init__(pairs)
        counts = collections.Counter(name for name, _ in pairs)
        self.repeated = [name for name, count in counts.items() if count > 1]


class _Constant(str):
    """NaN, Infinity or -Infinity, which Python reads and JSON does not have."""


def _values(value: object) -> Iterator[str]:
    """Yields an error for each value that nginx refuses or reads in another way, after the names that lead to it."""
    stack = [(value, "", 1)]
    while stack:
        value, place, depth = stack.pop()
        if isinstance(value, _Constant):
            yield f"{place}{value} is no value of JSON"
        elif isinstance(value, str) and not _is_whole(value):
            yield f"{place}half of a character"
        elif isinstance(value, (dict, list)) and depth > _MOST_DEPTH:
            yield f"{place[:_MOST_CHARACTERS]}..: more than {_MOST_DEPTH} objects and lists in each other"
        elif isinstance(value, _Members):
            yield from (f"{place}{_quoted(name)} occurs more than once" for name in value.repeated)
            yield from (f"{place}{_quoted(name)}: half of a character" for name in value if not _is_whole(name))
            stack += [(member, f"{place}{_quoted(name)}: ", depth + 1) for name, member in reversed(value.items())]
        elif isinstance(value, list):
            stack += [(member, f"{place}{number}: ", depth + 1) for number, member in reversed([*enumerate(value, 1)])]


def _is_whole(text: str) -> bool:
    """Whether a text has no escape of half a character, which cannot be written and which njs reads as another."""
    return not any("\ud800" <= character <= "\udfff" for character in text)


def _quoted(name: str) -> str:
    return json.dumps(name[:_MOST_CHARACTERS])


def parsed(data: bytes, faults: list[str]) -> dict[str, object] | None:
    """The JSON of a file that nginx preloads; None, and an error, if it refuses it."""
    if len(data) > MOST_BYTES:
        faults.append(f"more than {MOST_BYTES:,} bytes")
        return None
    if data.startswith(b"\xef\xbb\xbf"):
        faults.append("line 1: begins with a byte order mark")
        return None
    try:
        value = json.loads(data.decode("utf-8"), parse_constant=_Constant, object_pairs_hook=_Members)
    except UnicodeDecodeError as fault:
        faults.append(f"line {data[:fault.start].count(10) + 1}: not UTF-8")
        return None
    except json.JSONDecodeError as fault:
        faults.append(f"line {fault.lineno}, column {fault.colno}: {fault.msg}")
        return None
    except RecursionError:
        faults.append(f"more than {_MOST_DEPTH} objects and lists in each other")
        return None
    except ValueError:
        faults.append("a number with thousands of digits")
        return None
    wrong = list(itertools.islice(_values(value), _MOST_FAULTS))
    if wrong:
        faults += wrong
        return None
    if not isinstance(value, dict):
        faults.append("not an object")
        return None
    return value


def faults_of_words(data: bytes, language: str) -> list[str]:
    """Errors of a file of words, of this language."""
    faults: list[str] = []
    words = parsed(data, faults)
    return faults if words is None else words_file.faults_of(words, language)


def _languages_of(site: dict[str, object], loaded: Collection[str] | None, faults: list[str]) -> list[str]:
    """The languages that a targets.json offers, the default first."""
    languages = site.get("languages", ["en"])
    if not isinstance(languages, list) or not languages or not all(isinstance(each, str) for each in languages):
        faults.append("languages is not a list of languages")
        return ["en"]
    for language in languages:
        if not re.fullmatch(_TAG, language):
            faults.append(f"languages: {json.dumps(language)} is no tag of a language")
        elif loaded is not None and language not in loaded:
            faults.append(f"languages: no words/{language}.json is loaded")
    return languages


def _problem_link(site: dict[str, object], faults: list[str]) -> None:
    """Adds an error if the page would leave out the link "Report a problem"."""
    words_of_site = site.get("words")
    link = words_of_site.get("problemLink") if isinstance(words_of_site, dict) else None
    for text in link.values() if isinstance(link, dict) else [link]:
        if isinstance(text, str) and not re.fullmatch(r"(?i)(https?://|mailto:)[!-~]*\{\}[!-~]*", text):
            faults.append("words: problemLink is no address of http, https or mailto with {} for the request")


def _logo_and_links(site: dict[str, object], languages: list[str], faults: list[str]) -> None:
    """Removes `links` from the texts, and adds an error for each link or logo that the page would leave out."""
    words = site.get("words")
    words = words if isinstance(words, dict) else {}
    logo = words.get("logo")
    for text in logo.values() if isinstance(logo, dict) else [logo]:
        if isinstance(text, str) and not re.fullmatch(_LOGO, text, re.ASCII):
            faults.append("words: logo is no file name that ends with .svg, .png, .jpg, .gif or .webp")
    links = words.pop("links", [])
    if not isinstance(links, list):
        faults.append("words: links is not a list of links")
        return
    for number, link in enumerate(links, 1):
        _texts(f"link {number}", link, ("label", "url"), languages, faults)
        for name in ("label", "url") if isinstance(link, dict) else ():
            if name not in link:
                faults.append(f"link {number} has no {name}")
        url = link.get("url") if isinstance(link, dict) else None
        for text in url.values() if isinstance(url, dict) else [url]:
            if isinstance(text, str) and not re.fullmatch(r"(?i)https?://[!-~]+", text):
                faults.append(f"link {number}: url is no address of http or https")


def _groups(site: dict[str, object], languages: list[str], faults: list[str]) -> list[object]:
    """The names of the groups; none, and an error, if it has no list of them."""
    groups = site.get("groups", [])
    if not isinstance(groups, list) or not groups:
        faults.append("groups is not a list of groups")
        return []
    names = [group.get("name") if isinstance(group, dict) else None for group in groups]
    for number, group in enumerate(groups, 1):
        _texts(f"group {number}", group, ("name", "label", "onlyWithout"), languages, faults)
        if names[number - 1] is None:
            faults.append(f"group {number} has no name")
        elif "onlyWithout" in group and group["onlyWithout"] not in names:
            faults.append(f"group {number}: onlyWithout is no group")
    return names


def _targets(site: dict[str, object], groups: list[object], languages: list[str], faults: list[str]) -> None:
    targets = site.get("targets", {})
    if not isinstance(targets, dict):
        faults.append("targets is not an object")
        return
    for name, target in targets.items():
        place = f"target {json.dumps(name)}"
        _texts(place, target, ("label", "group", "note", "rules"), languages, faults)
        if not re.fullmatch(r"[A-Za-z0-9_.-]{1,64}", name):
            faults.append(f"{place}: no target can have this name")
        if isinstance(target, dict) and target.get("group", groups[0]) not in groups:
            faults.append(f"{place}: no group {json.dumps(target['group'])}")


def faults_of(data: bytes, loaded: Collection[str] | None = None) -> list[str]:
    """Errors of a targets.json; `loaded` has the languages that have a file of words."""
    faults: list[str] = []
    site = parsed(data, faults)
    if site is None:
        return faults
    known = ("languages", "words", "groups", "targets", "folder", "scholar")
    faults += [f"unknown name {json.dumps(name)}" for name in site if name not in known]
    languages = _languages_of(site, loaded, faults)
    _logo_and_links(site, languages, faults)
    _texts("words", site.get("words", {}), names_of_words(), languages, faults)
    _problem_link(site, faults)
    _texts("scholar", site.get("scholar", {}), _SCHOLAR, languages, faults)
    if not str(site.get("folder", "/")).startswith("/"):
        faults.append("folder is not an absolute path")
    groups = _groups(site, languages, faults)
    if groups:
        _targets(site, groups, languages, faults)
    return faults


def faults_in(path: str | Path, site: Path = SITE) -> list[str]:
    """Returns the errors in a targets.json and in the files of texts in words/ next to it, which are the library's
    own. The languages are those that the site loads if it names the file, and else those that have a file of words."""
    path = Path(path)
    files = sorted((path.parent / "words").glob("*.json"))
    loaded = {path.stem for path in (*files, *words_file.FOLDER.glob("*.json"))}
    named = Site(site)
    if os.path.abspath(named.targets_path() or "/") == os.path.abspath(path):
        loaded = set(named.languages)
    faults = [f"{path}: {fault}" for fault in faults_of(_start_of(path), loaded)]
    for file in files:
        faults += [f"{file}: {fault}" for fault in faults_of_words(_start_of(file), file.stem)]
    return faults


def _start_of(path: Path) -> bytes:
    with open(path, "rb") as file:
        return file.read(MOST_BYTES + 1)


def main(words: list[str] | None = None) -> int:
    words = sys.argv[1:] if words is None else words
    faults = [fault for path in words for fault in faults_in(path)]
    report("\n".join(faults) or "ok")
    return 1 if faults else 0
