"""targets.json, if the operator keeps it in the input: then it goes forward and back with the version, and
openlink.conf names the one of the version in use. Otherwise it stays where it is: nginx reads it when it starts, so
each change costs a reload."""
import dataclasses
import filecmp
import os
import shutil
from collections.abc import Mapping
from pathlib import Path

from openlink_update.input_files import InputFolder
from openlink_update.site import targets_file
from openlink_update.site.front_door import Site

NAME = "targets.json"


@dataclasses.dataclass(frozen=True)
class _Addition:
    """What became of the file of an input: lines to report, and whether the older version's was used in its place."""

    lines: list[str]
    is_older: bool = False


class NamesFile:
    def __init__(self, site: Site, current: Path) -> None:
        """For a site and the link to the version in use."""
        self._site, self._current = site, current

    def is_served(self) -> bool:
        """Whether readers see the one of the version in use."""
        return os.path.abspath(self._site.targets_path() or "/") == os.path.abspath(self._current / NAME)

    def add(self, version: Path, folder: InputFolder | None, older: Path | None) -> _Addition:
        """Puts that of the input in a version, or keeps the older version's, as it does without a folder."""
        if not folder or not folder.exists(NAME):
            if older and self.is_served():
                self._copy(older, version)
            return _Addition([])
        path, data = folder.place(NAME), b""
        try:
            data = folder.read(NAME, targets_file.MOST_BYTES + 1)
            faults = targets_file.faults_of(data, self._site.languages)
        except OSError as error:
            faults = [str(error.strerror)]
        if faults:
            if older:
                self._copy(older, version)
            return _Addition([f"{NAME}: the old one is kept", *(f"  {path}: {fault}" for fault in faults)], True)
        (version / NAME).write_bytes(data)
        other = f"{path} is not in use: {self._site.path} names {self._site.targets_path()}"
        return _Addition([] if self.is_served() else [other])

    @staticmethod
    def _copy(older: Path, version: Path) -> None:
        if (older / NAME).is_file():
            shutil.copyfile(older / NAME, version / NAME)

    @staticmethod
    def is_same(one: Path, other: Path) -> bool:
        """Whether two versions have the same one, or none."""
        paths = [version / NAME for version in (one, other)]
        if not all(path.is_file() for path in paths):
            return not any(path.is_file() for path in paths)
        return filecmp.cmp(paths[0], paths[1], shallow=False)

    def differences(self, names: list[str], folder: InputFolder, groups: Mapping[str, str]) -> list[str]:
        """Lines about the targets of the next version of an input that its targets.json does not name, and the other
        way round; `groups` are those that their rules say."""
        is_own = self.is_served() and folder.exists(NAME)
        path = folder.place(NAME) if is_own else Path(self._site.targets_path())
        try:
            data = folder.read(NAME, targets_file.MOST_BYTES) if is_own else path.read_bytes()
        except OSError:
            return []  # who puts it in the version says why
        return self._site.differences(names, path, data, groups)

    def path_in(self, version: Path) -> str:
        """The one by which a version is shown."""
        own = version / NAME
        return str(own) if self.is_served() and own.is_file() else self._site.targets_path()
