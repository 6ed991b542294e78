"""openlink-fetch: neither a reply nor an archive chooses the name of a file."""
from __future__ import annotations

import io
import os
import zipfile

from fixtures.fetch_input import Input
from fixtures.fetch_input import TABLE
from fixtures.providers import ProvidersCase

NAMES = (
    "../targets.tsv",
    "../../targets.tsv",
    "/srv/targets.tsv",
    "targets.tsv",
    "secrets.tsv",
    "../input.fetch/state.json",
)


def zipped(name: str) -> bytes:
    data = io.BytesIO()
    with zipfile.ZipFile(data, "w", zipfile.ZIP_DEFLATED) as archive:
        archive.writestr(name, TABLE)
    return data.getvalue()


def files_around(folder: Input) -> list[str]:
    """The files that such a name would make outside the input."""
    places = (os.path.dirname(folder.folder), os.path.dirname(os.path.dirname(folder.folder)), "/tmp")
    return [path for path in (os.path.join(place, "targets.tsv") for place in places) if os.path.exists(path)]


class FileNames(ProvidersCase):
    """What is written by a fetch."""

    def test_names(self) -> None:
        lines = [f"disposed.txt\t{self.providers.address('/raw/misplaced')}"]
        for number, name in enumerate(NAMES):
            self.providers.write(f"zip{number}.zip", zipped(name))
            lines.append(f"zip{number}.txt\t{self.providers.address(f'/zip{number}.zip')}")
        with Input(self.authority) as folder:
            folder.write("targets.tsv", "the list\n")
            folder.write_sources(*lines)
            before = files_around(folder)
            status, printed = folder.fetch()
            self.expect(f"the run: {printed}", status, 0)
            tables = ["disposed.txt", *(f"zip{number}.txt" for number in range(len(NAMES)))]
            self.expect("its files", folder.names(), sorted(["sources.tsv", "targets.tsv", *tables]))
            self.expect("the list", folder.read("targets.tsv"), b"the list\n")
            self.expect("a table by its own name", folder.read("disposed.txt"), TABLE)
            self.expect("no other file", files_around(folder), before)
