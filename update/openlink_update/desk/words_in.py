"""The words of the desk's pages in the languages of a site: a file of JSON for each language, with the names of the
English one. How a language writes numbers and its own name is in the front door's words."""
import dataclasses
import json
from collections.abc import Mapping
from pathlib import Path

from openlink_update.site import words_file

FOLDER = Path(__file__).resolve().parent / "words"
_DEFAULT = "en"
_RIGHT_TO_LEFT = ("ar", "fa", "he", "ur")


@dataclasses.dataclass(frozen=True)
class Language:
    tag: str
    name: str
    direction: str
    mark: str  # between thousands
    words: Mapping[str, str]

    def __getitem__(self, name: str) -> str:
        return self.words[name]

    def number(self, number: int) -> str:
        return f"{number:,}".replace(",", self.mark)

    def filled(self, name: str, *values: str) -> str:
        """A text with values in its places."""
        parts = self.words[name].split("{}")
        return "".join(part + value for part, value in zip(parts, (*values, *[""] * len(parts))))


def texts_of(language: str) -> dict[str, str]:
    """The texts of a file; none if there is none."""
    path = FOLDER / f"{language}.json"
    texts: dict[str, str] = json.loads(path.read_text(encoding="utf-8")) if path.is_file() else {}
    return texts


def languages_of(tags: list[str]) -> list[Language]:
    """Those of these languages that have words, in their order; English if none has."""
    known = [tag for tag in dict.fromkeys(tags) if (FOLDER / f"{tag}.json").is_file()]
    return [_language(tag) for tag in known or [_DEFAULT]]


def _language(tag: str) -> Language:
    front_door = json.loads((words_file.FOLDER / f"{tag}.json").read_text(encoding="utf-8"))
    mark = front_door["thousand"].strip("01") or ""
    direction = "rtl" if tag.partition("-")[0] in _RIGHT_TO_LEFT else "ltr"
    return Language(tag, front_door["language"], direction, mark, {**texts_of(_DEFAULT), **texts_of(tag)})
