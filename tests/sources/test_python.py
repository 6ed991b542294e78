"""Checks the package of the update and its commands: mypy, black and pyflakes have nothing to say; no file changes the
path of imports or loads a script as a module; each public name of a module is used outside of it; `__all__` of a
subpackage has the modules that others use; and openlink-fetch loads few modules. Each of these refuses a copy with a
mistake in it."""
from __future__ import annotations

import ast
import functools
import os
import shutil
import subprocess
import sys
import tempfile
from collections.abc import Iterator
from pathlib import Path

import fixtures
from fixtures import needs
from fixtures.cases import Case

TOP = Path(fixtures.TOP)
PACKAGE = "openlink_update"
COMMANDS = (
    "update",
    "desk",
    "fetch",
    "library",
    "holdings",
    "counts",
    "probe",
    "targets",
    "update.d/targets_file.py",
)
AMONG = ("weekly_run.py", "shown_text.py", "input_files.py", "fetch/sources.py", "versions/library.py")
LEAST, LEAST_SUBPACKAGES = 55, 9
MOST_MODULES, MOST_WITH_A_REPLY = 15, 21  # that openlink-fetch loads, its subpackages aside
FORBIDDEN = ("sys.path", "SourceFileLoader", "spec_from_", "type: ignore", "cast(")
USERS = ("tests", "benches")  # beside the package: what a test uses is public
SETTINGS = str(TOP / "pyproject.toml")
# Of this process: for the spoilt copies, mypy reads only what a mistake changes.
CACHE = tempfile.TemporaryDirectory()
TOOLS = {
    "mypy": [
        "mypy",
        "--config-file",
        SETTINGS,
        "--cache-dir",
        CACHE.name,
        "--no-error-summary",
        "--scripts-are-modules",
        "--disallow-any-explicit",
    ],
    "black": ["black", "--config", SETTINGS, "--check", "--quiet"],
    "pyflakes3": ["pyflakes3"],
}
# What is appended to a module, and what refuses that.
SPOILT = (
    ("outcome.py", "\n\ndef status() -> int:\n    return 'none'\n\n\nstatus()\n", "mypy"),
    ("outcome.py", "\n\ndef _status():\n    return 0\n", "mypy"),
    ("outcome.py", "\nfrom typing import Any\n\nANYTHING: Any = 0\n", "mypy"),
    ("disk.py", "\nNUMBER=1\n", "black"),
    ("disk.py", "\nimport shlex\n", "pyflakes3"),
    ("outcome.py", "\n# by sys.path\n", "words"),
    ("outcome.py", "\nSIXTH: int = ''  # type: ignore\n", "words"),
    ("outcome.py", "\nSIXTH = 6\n", "names"),
    ("disk.py", "\nfrom openlink_update.received import limits\n\nprint(limits)\n", "exports"),
    ("disk.py", "\nfrom openlink_update.fetch.transfers import host_of\n\nprint(host_of)\n", "exports"),
    ("received/__init__.py", '\n__all__ = ["archives", "headers", "limits", "patterns", "texts"]\n', "exports"),
    ("received/__init__.py", "\n__all__ = []\n", "exports"),
    ("children.py", "\nfrom openlink_update.versions import library\n\nprint(library)\n", "modules"),
    ("received/headers.py", "\nfrom openlink_update.site import targets_file\n\nprint(targets_file)\n", "modules"),
)


@functools.lru_cache(maxsize=None)
def _parsed(text: str) -> ast.Module:
    """Of a spoilt copy, most files are the same again."""
    return ast.parse(text)


def tree_of(path: Path) -> ast.Module:
    return _parsed(path.read_text(encoding="utf-8"))


def modules(folder: Path) -> list[Path]:
    return sorted((folder / PACKAGE).rglob("*.py"))


def checked(folder: Path) -> list[Path]:
    """The modules and commands."""
    return [*modules(folder), *(folder / name for name in COMMANDS)]


def said(words: list[str], folder: Path) -> list[str]:
    """What a command says if it fails."""
    environment = {**os.environ, "MYPYPATH": str(folder)}
    process = subprocess.run(words, capture_output=True, text=True, cwd=folder, env=environment)
    lines = (process.stdout + process.stderr).splitlines()
    return lines or [f"{words[0]} ended with status {process.returncode}"] if process.returncode else []


def faults_of_tool(name: str, folder: Path, paths: list[Path], command: str) -> list[str]:
    """What a tool, or another command in its place, says of these files."""
    return said([command or name, *TOOLS[name][1:], *map(str, paths)], folder)


def faults_of_words(folder: Path) -> Iterator[str]:
    for path in [*modules(folder), *(folder / name for name in COMMANDS)]:
        text = path.read_text(encoding="utf-8")
        yield from (f"{path.relative_to(folder)}: {word}" for word in FORBIDDEN if word in text)


def public_names(tree: ast.Module) -> Iterator[str]:
    for node in tree.body:
        if isinstance(node, (ast.FunctionDef, ast.ClassDef)):
            yield node.name
        targets = node.targets if isinstance(node, ast.Assign) else []
        for target in [*targets, *([node.target] if isinstance(node, ast.AnnAssign) else [])]:
            yield from (name.id for name in ast.walk(target) if isinstance(name, ast.Name))


@functools.lru_cache(maxsize=None)
def uses_in(text: str) -> frozenset[tuple[str, str]]:
    """Pairs of a module of the package and a name of it that a file uses."""
    return frozenset(_uses_in(_parsed(text)))


def _uses_in(tree: ast.Module) -> Iterator[tuple[str, str]]:
    of_names, nodes = {}, [*ast.walk(tree)]
    for node in nodes:
        if isinstance(node, ast.ImportFrom) and (node.module or "").startswith(PACKAGE):
            for alias in node.names:
                yield str(node.module), alias.name
                of_names[alias.asname or alias.name] = f"{node.module}.{alias.name}"
    for node in nodes:
        if isinstance(node, ast.Attribute) and isinstance(node.value, ast.Name) and node.value.id in of_names:
            yield of_names[node.value.id], node.attr
        elif isinstance(node, ast.Attribute) and isinstance(node.value, ast.Attribute):  # of a module in a module
            yield node.value.attr, node.attr


def python_files(folder: Path) -> Iterator[Path]:
    """Those that may use the package."""
    yield from modules(folder)
    yield from (folder / name for name in COMMANDS)
    for below in USERS:
        for path in (TOP / below).rglob("*"):
            if path.is_file() and (path.suffix == ".py" or path.read_bytes()[:22] == b"#!/usr/bin/env python3"):
                yield path


def faults_of_names(folder: Path) -> Iterator[str]:
    used: set[tuple[str, str]] = set()
    for path in python_files(folder):
        used |= uses_in(path.read_text(encoding="utf-8"))
    for path in modules(folder):
        if path.name == "__init__.py":
            continue
        name = ".".join(path.relative_to(folder).with_suffix("").parts)
        for public in public_names(tree_of(path)):
            if not public.startswith("_") and not {(name, public), (path.stem, public)} & used:
                yield f"{path.relative_to(folder)}: {public} is used nowhere else, and has no _"


@functools.lru_cache(maxsize=None)
def _imports_in(text: str) -> list[ast.ImportFrom]:
    return [node for node in ast.walk(_parsed(text)) if isinstance(node, ast.ImportFrom)]


def modules_used(path: Path) -> Iterator[tuple[str, str]]:
    """Yields pairs of a subpackage and a module of it that a file imports."""
    for node in _imports_in(path.read_text(encoding="utf-8")):
        if (node.module or "").startswith(f"{PACKAGE}."):
            for alias in node.names:
                subpackage, *module = [*str(node.module).split(".")[1:], alias.name]
                yield subpackage, module[0]


def exported(path: Path) -> list[str]:
    """What the last `__all__` of a module has."""
    found: list[str] = []
    for node in tree_of(path).body:
        if isinstance(node, ast.Assign) and ast.unparse(node.targets[0]) == "__all__":
            found = ast.literal_eval(node.value)
    return found


def faults_of_exports(folder: Path) -> Iterator[str]:
    heads = {path.parent.name: path for path in (folder / PACKAGE).glob("*/__init__.py")}
    used: dict[str, set[str]] = {name: set() for name in heads}
    for path in [*modules(folder), *(folder / name for name in COMMANDS)]:
        for subpackage, module in modules_used(path):
            if subpackage in heads and path.parent != heads[subpackage].parent:
                used[subpackage].add(module)
    if len(heads) < LEAST_SUBPACKAGES:
        yield f"{len(heads)} subpackages, and there are at least {LEAST_SUBPACKAGES}"
    for name, path in heads.items():
        public = {*exported(path)}
        for module in sorted(used[name] ^ public):
            what = "in __all__, and no other uses it" if module in public else "used by others, and not in __all__"
            yield f"{name}: {module} is {what}"


def modules_loaded(folder: Path, work: str) -> list[str]:
    """The modules of the package that openlink-fetch has loaded after some work."""
    code = f"""import sys, {PACKAGE}.fetch.fetching
{work}
loaded = {{name: it for name, it in sys.modules.items() if name.startswith("{PACKAGE}")}}
print(*(name for name, it in loaded.items() if not hasattr(it, "__path__")))"""
    words = [sys.executable, "-S", "-B", "-c", code]
    process = subprocess.run(words, capture_output=True, text=True, cwd=folder, check=True)
    return process.stdout.split()


def faults_of_modules(folder: Path) -> Iterator[str]:
    """Those of the modules that a fetch loads before it has a reply, and then."""
    reply = f'{PACKAGE}.fetch.fetching.table_in(b"a\\tb\\nc\\td\\n", {PACKAGE}.fetch.sources.Source("a", "b"))'
    works = ("", MOST_MODULES, "fetch.sources"), (reply, MOST_WITH_A_REPLY, "received.headers")
    for work, most, among in works:
        loaded = modules_loaded(folder, work)
        if len(loaded) > most:
            yield f"openlink-fetch loads {len(loaded)} modules, and {most} are allowed: {' '.join(loaded)}"
        if f"{PACKAGE}.{among}" not in loaded:
            yield f"openlink-fetch loads no {among}"


OTHERS = {
    "words": faults_of_words,
    "names": faults_of_names,
    "exports": faults_of_exports,
    "modules": faults_of_modules,
}


def faults_of(kind: str, folder: Path, paths: list[Path], command: str = "") -> list[str]:
    """What a tool says of these files, or another check of all."""
    return list(OTHERS[kind](folder)) if kind in OTHERS else faults_of_tool(kind, folder, paths, command)


def faults_of_numbers(every: list[Path], folder: Path) -> Iterator[str]:
    """Too few modules: then the other checks say nothing."""
    yield from (f"{name} is not found" for name in AMONG if folder / PACKAGE / name not in every)
    if len(every) < LEAST:
        yield f"{len(every)} modules, and there are at least {LEAST}"


def spoilt_copies(kind: str) -> list[tuple[str, str]]:
    return [(name, addition) for name, addition, refused_by in SPOILT if refused_by == kind]


def unseen(kind: str, command: str = "") -> Iterator[str]:
    """The spoilt copies in which a check sees nothing."""
    with tempfile.TemporaryDirectory() as place:
        folder = Path(place) / "update"
        shutil.copytree(TOP / "update", folder, symlinks=True, ignore=shutil.ignore_patterns("__pycache__"))
        for name, addition in spoilt_copies(kind):
            path = folder / PACKAGE / name
            text = path.read_text(encoding="utf-8")
            path.write_text(text + addition, encoding="utf-8")
            if not faults_of(kind, folder, [path], command):
                yield f"a copy of {name} with {addition!r} is not refused"
            path.write_text(text, encoding="utf-8")


class Python(Case):
    """Each check, of the update and of its spoilt copies."""

    def check(self, kind: str) -> None:
        folder = TOP / "update"
        self.expect("modules", [*faults_of_numbers(modules(folder), folder)], [])
        self.expect("what is wrong", faults_of(kind, folder, checked(folder)), [])
        self.expect("spoilt copies", len(spoilt_copies(kind)) > 0)
        self.expect("what it does not see", [*unseen(kind)], [])

    @needs.command("mypy")
    def test_mypy(self) -> None:
        self.check("mypy")

    @needs.command("black")
    def test_black(self) -> None:
        self.check("black")

    @needs.command("pyflakes3")
    def test_pyflakes(self) -> None:
        self.check("pyflakes3")

    def test_words(self) -> None:
        self.check("words")

    def test_public_names_are_used(self) -> None:
        self.check("names")

    def test_exports(self) -> None:
        self.check("exports")

    def test_modules_that_a_fetch_loads(self) -> None:
        self.check("modules")


class Checks(Case):
    """What would let a check pass whatever the modules have."""

    def test_a_tool_that_accepts_everything(self) -> None:
        for name in TOOLS:
            self.expect(f"{name} is true", len([*unseen(name, "true")]), len(spoilt_copies(name)))

    def test_too_few_modules(self) -> None:
        folder = TOP / "update"
        every = modules(folder)
        self.expect("none", len([*faults_of_numbers([], folder)]), len(AMONG) + 1)
        self.expect("few", len([*faults_of_numbers(every[: LEAST - 1], folder)]) > 0)
        for name in AMONG:
            without = [it for it in every if it != folder / PACKAGE / name]
            self.expect(f"without {name}", [*faults_of_numbers(without, folder)], [f"{name} is not found"])

    def test_which_files_are_checked(self) -> None:
        """The commands too."""
        folder = TOP / "update"
        found = checked(folder)
        self.expect("commands", [it for it in COMMANDS if folder / it not in found], [])
        self.expect("modules", [it for it in modules(folder) if it not in found], [])
