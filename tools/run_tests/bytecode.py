"""The bytecode of what many tests load, in a folder of the run, so that they need not compile it anew. The repository
gets none. Python looks there for that of its own modules too, so these are linked: the standard library, and of other
packages those that a start of Python or a test loads."""
from __future__ import annotations

import contextlib
import os
import subprocess
import sys

import catalogue

_LOADED = ("update", "tests/fixtures", "tools/run_tests")
_KEPT = "__pycache__"
# Folders of other packages than those of the standard library; the packages that tests import, and what these need;
# and what no test loads of the standard library.
_OTHERS = ("site-packages", "dist-packages")
_PACKAGES = {"jinja2", "markupsafe", "hypothesis", "attr", "attrs", "sortedcontainers", "yaml"}
_UNUSED = {*_OTHERS, "ensurepip", "idlelib", "lib2to3", "test", "tkinter", "turtledemo"}
_START = "import sys; print(*sys.path[1:], sep='\\n', end='\\n\\n'); print(*sys.modules, sep='\\n')"


def keep(folder: str) -> None:
    """Has Python find bytecode in a folder from now on, in this process's children. One that runs within another run
    has the folder of that."""
    if sys.pycache_prefix:
        return
    os.chmod(folder, 0o755)  # the users to whom an update gives up its rights read it
    os.environ["PYTHONPYCACHEPREFIX"] = folder
    for python in dict.fromkeys(map(os.path.realpath, filter(os.path.exists, (sys.executable, catalogue.DEBIANS)))):
        said = os.fsdecode(subprocess.run([python, "-c", _START], stdout=subprocess.PIPE).stdout)
        paths, _, modules = said.partition("\n\n")
        for path in paths.splitlines():
            _link(folder, path, {*modules.splitlines()} | _PACKAGES)
        # What does not compile is said by the test that loads it.
        subprocess.run([python, "-S", "-m", "compileall", "-q", *_LOADED], stdout=subprocess.DEVNULL)


def _link(folder: str, path: str, packages: set[str]) -> None:
    """Links the bytecode below one of Python's own folders; in one for other packages, that of these packages."""
    for place, below, names in os.walk(path):
        if place == path and os.path.basename(path) in _OTHERS:
            below[:] = [it for it in below if it in packages or it == _KEPT]
        else:
            below[:] = [it for it in below if it not in _UNUSED]
        if os.path.basename(place) == _KEPT:
            own = folder + os.path.dirname(place)
            os.makedirs(own, exist_ok=True)
            for name in names:
                with contextlib.suppress(FileExistsError):
                    os.symlink(os.path.join(place, name), os.path.join(own, name))
