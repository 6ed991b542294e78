"""The limit of connections for each reader: each line of its table is one that is explained, and nft takes the file."""
from __future__ import annotations

import os
import subprocess
import tempfile

from fixtures import needs
from fixtures.cases import Case
from packaging import declarations
from packaging import spoiling

FILE = "packaging/nftables/connections.nft"


class Connections(Case):
    """What the table declares."""

    def test_each_line_is_as_the_table_says(self) -> None:
        self.expect("the files", os.listdir(os.path.dirname(FILE)), [os.path.basename(FILE)])
        spoiling.check_files(self, FILE)

    def test_each_spoilt_line_is_a_fault(self) -> None:
        spoiling.check_spoilt(self, FILE)

    def test_what_is_no_table_is_refused(self) -> None:
        for text, wanted in (
            ("table inet a {\n", "the file ends within table inet a"),
            ("}\n", "a bracket without the other: }"),
            ("define a = { 80,\n", "a bracket without the other: define a = { 80,"),
        ):
            with self.assertRaises(ValueError) as raised:
                declarations.nftables(text)
            self.expect(text, str(raised.exception), wanted)


@needs.root()
@needs.command("nft", "unshare")
class Accepted(Case):
    """What nft says, in a network of its own."""

    def said(self, path: str) -> int:
        words = ["unshare", "--net", "nft", "--check", "--file", path]
        environment = {**os.environ, "PATH": f"{os.environ.get('PATH', '')}:/usr/sbin:/sbin"}
        return subprocess.run(words, env=environment, capture_output=True, check=False).returncode

    def test_nft_takes_the_file(self) -> None:
        self.expect("as it is", self.said(FILE), 0)
        with open(FILE, encoding="utf-8") as file, tempfile.TemporaryDirectory() as folder:
            with open(f"{folder}/bad.nft", "w", encoding="utf-8") as bad:
                bad.write(file.read().replace("ct count over", "ct counts over"))
            self.expect("spoilt", self.said(bad.name) != 0)
