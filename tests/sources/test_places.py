"""Each file below tests/ is in a folder, and each module of tests in a package of Python: nobody runs others."""
from __future__ import annotations

import os
import re

from fixtures.cases import Case

LEAST = 200  # files


def faults_of_places(paths: list[str]) -> list[str]:
    """The files that nobody runs."""
    packages = {os.path.dirname(it) for it in paths if os.path.basename(it) == "__init__.py"}
    modules = [it for it in paths if re.match(r"test_.*\.py", os.path.basename(it))]
    return [
        it for it in paths if os.path.dirname(it) == "tests" or it in modules and os.path.dirname(it) not in packages
    ]


class Places(Case):
    def test_all_files(self) -> None:
        paths = [f"{folder}/{it}" for folder, _, names in os.walk("tests") for it in names]
        self.expect("files that nobody runs", faults_of_places(paths), [])
        self.expect(f"{len(paths)} files", len(paths) > LEAST)

    def test_spoilt_places(self) -> None:
        good = ["tests/a/__init__.py", "tests/a/test_b.py", "tests/a/c.py", "tests/long/all"]
        self.expect("good places", faults_of_places(good), [])
        for more in ("tests/pages", "tests/test_b.py", "tests/b/test_b.py", "tests/a/b/test_b.py"):
            self.expect(more, faults_of_places([*good, more]), [more])
