"""Scripts of the front door that take all cases at once, in one process of njs."""
from __future__ import annotations

import json
import shutil
import subprocess
import tempfile
from pathlib import Path
from typing import Any

from fixtures.readings import write_modules

_HERE = Path(__file__).parent
_AT_ONCE = 1000  # njs frees no memory before its end


def results_of(script: str, cases: list[Any]) -> list[Any]:
    """What a script of this folder writes for each case."""
    found: list[Any] = []
    with tempfile.TemporaryDirectory() as folder:
        write_modules(folder)
        shutil.copy(_HERE / script, folder)
        for start in range(0, len(cases), _AT_ONCE):
            given, read = Path(folder, "given.json"), Path(folder, "read.json")
            given.write_text(json.dumps(cases[start : start + _AT_ONCE]), encoding="ascii")
            words = ["njs", "-p", folder, f"{folder}/{script}", str(given), str(read)]
            done = subprocess.run(words, capture_output=True, encoding="utf-8", check=False)
            if done.returncode or done.stdout:
                raise RuntimeError(f"{script}: {done.stdout[-300:]}{done.stderr[-300:]}")
            found += json.loads(read.read_text(encoding="utf-8"))
    return found
