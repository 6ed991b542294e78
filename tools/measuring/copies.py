"""A copy of the repository as it is now, with the built program: what runs there leaves the checkout as it is."""
from __future__ import annotations

import shutil
import subprocess
from pathlib import Path

TOP = Path(__file__).resolve().parent.parent.parent
_PROGRAM = "crates/openlink/out/openlink"


def files(top: Path) -> list[str]:
    """The files that git knows, and those that it does not ignore."""
    words = ["git", "ls-files", "-z", "--cached", "--others", "--exclude-standard"]
    listed = subprocess.run(words, cwd=top, stdout=subprocess.PIPE, check=True).stdout.decode()
    return sorted({name for name in listed.split("\0") if name and (top / name).is_file()})


def make(folder: Path) -> Path:
    """Copies the repository into a folder, which must not exist yet."""
    names = files(TOP)
    for parent in {(folder / name).parent for name in names}:
        parent.mkdir(parents=True, exist_ok=True)
    for name in names:
        shutil.copy2(TOP / name, folder / name)
    if (TOP / _PROGRAM).exists():
        (folder / _PROGRAM).parent.mkdir(parents=True, exist_ok=True)
        shutil.copy2(TOP / _PROGRAM, folder / _PROGRAM)
    # What others than root run may read it.
    folder.parent.chmod(0o755)
    return folder
