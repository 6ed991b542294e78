"""What targets.json says of the library and its targets, in the default language; of a target that it does not name,
what the head of its rules says."""
import json
import os
from collections.abc import Iterable
from pathlib import Path

from openlink_update.rules import heads


def _member(value: object, name: str) -> object:
    return value.get(name) if isinstance(value, dict) else None


class SiteNames:
    def __init__(self, path: str | os.PathLike[str] | None, rules: Iterable[Path] = ()) -> None:
        """Reads a targets.json, if the site names one, and rule files with the names of targets. `fault` says why the
        first cannot be read; then targets have only their names."""
        self._heads = {file.stem: heads.parse(file.read_bytes()) for file in rules}
        self.fault = ""
        self._site: object = {}
        try:
            if path:
                with open(path, encoding="utf-8") as file:
                    self._site = json.load(file)
        except OSError as fault:
            self.fault = f"{path}: {fault.strerror}"
        except ValueError as fault:
            self.fault = f"{path}: {fault}"
        self._groups = [_member(group, "name") for group in self._list_of("groups")]
        self._language = next((it for it in self._list_of("languages") if isinstance(it, str)), "en")

    def _list_of(self, name: str) -> list[object]:
        found = _member(self._site, name)
        return found if isinstance(found, list) else []

    def _text(self, value: object) -> str:
        """A text that is the same in all languages, or one of several."""
        if isinstance(value, dict):
            value = value.get(self._language)
        return value.strip() if isinstance(value, str) else ""

    def _target(self, name: str) -> object:
        return _member(_member(self._site, "targets"), name)

    def label(self, name: str) -> str:
        target = self._target(name)
        labels = dict(self._heads.get(name, heads.Head()).labels) if target is None else {}
        languages = (self._language, self._language.split("-")[0], "")
        own = next((labels[language] for language in languages if language in labels), name)
        return self._text(_member(target, "label")) or own

    def is_full_text(self, name: str) -> bool:
        """Whether the links of a target are in the first group, as the front door puts them."""
        if not self._groups:
            return True
        target = self._target(name)
        if target is None:
            return self._heads.get(name, heads.Head()).group == self._groups[0]
        group = self._text(_member(target, "group"))
        return group == self._groups[0] or group not in self._groups

    def library(self) -> str:
        return self._text(_member(_member(self._site, "words"), "library"))

    def scholar(self, name: str) -> str:
        """A text for Google Scholar."""
        return self._text(_member(_member(self._site, "scholar"), name))
