"""Finds in the JavaScript of the front door and of its tests what a reader would stumble over and njs does not report:
names that nothing uses or declares, names that hide another one, exports that nothing imports, imports that do not
exist, and functions in array literals, which njs 0.7.9 gets wrong. It reads the part of JavaScript that njs has: no
classes, and names alone on the left of an assignment. Each kind is found in a spoilt text too."""
from __future__ import annotations

import functools
import glob
import os
import re
from collections.abc import Iterator
from collections.abc import Mapping

from fixtures.cases import Case
from sources.javascript_scopes import Source

Texts = Mapping[str, str]  # by path
# The spoilt texts are of one file each, so the others are read once.
source_of = functools.lru_cache(maxsize=None)(Source)
FILES = ("front_door/*.js", "tests/**/*.js")
# The files that use the modules but are no part of them: configurations of nginx, and scripts in Python.
USERS = ("front_door/*.conf", "packaging/**/*", "update/**/*.py", "tests/**/*", "benches/*")
LEAST_FILES, LEAST_NAMES, LEAST_USERS = 30, 2000, 5
# What njs, node and nginx declare. The last two are objects that nginx has loaded.
GLOBALS = set(
    """Array Boolean Buffer Date Error JSON Math Number Object Promise RegExp String clearTimeout console
    decodeURIComponent encodeURIComponent globalThis isNaN NaN ngx njs parseInt process setTimeout undefined fold
    targets
    """.split()
)
BUILT_IN = {"fs", "crypto"}
MADE = {"fold", "readings"}  # modules that the tests of the front door write
IMPORT = re.compile(r"import (\w+) from '?(?:\./)?(\w+)\.js'?")
# A file, whose name no other one has, a text in it, what takes its place, and what is found then.
SPOILT = (
    ("log.js", "const MOST = 60;", "const MOST = 60;\nconst LEAST = 6;", "nothing uses LEAST"),
    ("log.js", "import texts", "import words from './words.js';\nimport texts", "nothing uses words"),
    (
        "log.js",
        "function isProbe(q) {",
        "function isOld(q) { return q; }\nfunction isProbe(q) {",
        "nothing uses isOld",
    ),
    ("log.js", "function isProbe(q) {", "function isProbe(q, site) {", "nothing uses site"),
    ("log.js", "const date =", "const year = 7;\n    const date =", "nothing uses year"),
    ("log.js", "const host = HOST", "const texts = HOST", "texts hides the one of line"),
    ("lists.js", "titles.map((it) =>", "titles.map((site) =>", "site hides the one of line"),
    ("log.js", "is(YEAR, date)", "is(YEARS, date)", "nothing declares YEARS"),
    ("log.js", "const is = texts.is;", "const is = texts.isNot;", "text.js exports no isNot"),
    ("log.js", "from './text.js'", "from './nowhere.js'", "there is no nowhere.js"),
    ("log.js", "export default { sourceOf", "export default { isProbe, sourceOf", "nothing imports isProbe"),
    ("log.js", "const MOST = 60;", "const MOST = [60, (q) => q][0];", "a function in an array literal"),
    (
        "log.js",
        "const MOST = 60;",
        "const MOST = [function (q) { return q; }];",
        "a function in an array literal",
    ),
    (
        "rules.js",
        "import door from",
        "import gate from './form.js';\nimport door from",
        "nothing uses gate",
    ),
    ("http.conf", "js_content staff.why;", "js_content staff.wherefore;", "why.js exports no wherefore"),
)


def faults_of_names(source: Source) -> Iterator[str]:
    """Yields what is wrong with the names of one file."""
    for it in source.declared:
        if it.uses == 0 and not (it.is_parameter and (it.name == "r" or it.is_before_used())):
            yield f"{source.path}:{it.line}: nothing uses {it.name}"
        outer = it.scope.outer.find(it.name) if it.scope.outer else None
        if outer:
            yield f"{source.path}:{it.line}: {it.name} hides the one of line {outer.line}"
    for name, line in source.unknown:
        if name not in GLOBALS:
            yield f"{source.path}:{line}: nothing declares {name}"
    for line in source.functions_in_arrays:
        yield f"{source.path}:{line}: a function in an array literal"


def module_of(path: str) -> str:
    return os.path.basename(path).removesuffix(".js")


def uses_in(users: Texts, exports: Mapping[str, Mapping[str, int]]) -> Iterator[tuple[str, str, str]]:
    """Yields each use of a module by a file that is no module: the module, a name that it has to export, and the path.
    Configurations share what one of them imports. A script may have names of its own that look like a module's."""
    shared = [it for path, text in users.items() if path.endswith(".conf") for it in IMPORT.findall(text)]
    for path, text in users.items():
        is_configuration = path.endswith(".conf")
        for name, module in {*(shared if is_configuration else IMPORT.findall(text))}:
            form = rf"\bjs_\w+\s+(?:\$\w+\s+)?{name}\.(\w+)" if is_configuration else rf"\b{name}\.(\w+)"
            for used in re.findall(form, text):
                if is_configuration or used in exports.get(module, ()):
                    yield module, used, path


def faults_of_exports(sources: list[Source], users: Texts) -> Iterator[str]:
    """Yields the imports that do not exist, and the exports that nothing imports."""
    exports = {module_of(it.path): it.exports for it in sources}
    used: dict[str, set[str]] = {name: set() for name in exports}
    uses = [*uses_in(users, exports)]
    for source in sources:
        for name, (module, line) in source.imports.items():
            if module not in exports and module not in BUILT_IN | MADE:
                yield f"{source.path}:{line}: there is no {module}.js"
            members = source.members_of(name)
            uses += [(module, it, source.path) for it in (exports.get(module, ()) if members is None else members)]
    for module, name, path in uses:
        if module in exports and name not in exports[module]:
            yield f"{path}: {module}.js exports no {name}"
        used.setdefault(module, set()).add(name)
    for source in sources:
        for name in sorted({*source.exports} - used[module_of(source.path)]):
            yield f"{source.path}: nothing imports {name}"


def faults_in(files: Texts, users: Texts) -> list[str]:
    """Returns what is wrong with files, or that they are too few."""
    sources = [source_of(path, text) for path, text in files.items()]
    faults = [line for source in sources for line in faults_of_names(source)]
    return [*faults, *faults_of_exports(sources, users), *faults_of_numbers(sources, users)]


def faults_of_numbers(sources: list[Source], users: Texts) -> Iterator[str]:
    count = sum(len(it.declared) for it in sources)
    if len(sources) < LEAST_FILES or count < LEAST_NAMES:
        yield f"{len(sources)} files with {count} names, and there are at least {LEAST_FILES} with {LEAST_NAMES}"
    if len(users) < LEAST_USERS:
        yield f"{len(users)} other files use them, and there are at least {LEAST_USERS}"


def read(patterns: tuple[str, ...], left_out: tuple[str, ...] = ()) -> dict[str, str]:
    paths = sorted({it for pattern in patterns for it in glob.glob(pattern, recursive=True)} - {*left_out})
    texts = {}
    for path in (it for it in paths if os.path.isfile(it)):
        with open(path, encoding="utf-8", errors="replace") as file:
            texts[path] = file.read()
    return texts


def path_of(name: str, texts: Texts) -> str:
    """The one path that ends with this name."""
    (found,) = (it for it in texts if os.path.basename(it) == name)
    return found


class Names(Case):
    files: dict[str, str]
    users: dict[str, str]

    @classmethod
    def setUpClass(cls) -> None:
        cls.files = read(FILES)
        others = read(USERS, (*cls.files, "tests/sources/test_names.py"))
        cls.users = {it: text for it, text in others.items() if it.endswith(".conf") or IMPORT.search(text)}

    def test_all_files(self) -> None:
        self.expect(f"{len(self.files)} files", faults_in(self.files, self.users), [])

    def test_spoilt_files(self) -> None:
        for name, old, new, expected in SPOILT:
            path = path_of(name, {**self.files, **self.users})
            text = {**self.files, **self.users}[path]
            self.expect(f"{path} has once {old!r}", text.count(old), 1)
            spoilt = {path: text.replace(old, new)}
            files = {**self.files, **spoilt} if path in self.files else self.files
            users = {**self.users, **spoilt} if path in self.users else self.users
            found = faults_in(files, users)
            self.expect(f"{path} with {new!r}: {expected}: {found}", any(expected in it for it in found))

    def test_too_few_files(self) -> None:
        few = dict([*self.files.items()][: LEAST_FILES - 1])
        nothing: Texts = {}
        empty: Texts = {it: "" for it in self.files}
        cases: list[tuple[str, Texts, Texts, str]] = [
            ("no file", nothing, self.users, "0 files with 0 names"),
            ("few files", few, self.users, f"{LEAST_FILES - 1} files with"),
            ("no other files", self.files, nothing, "0 other files"),
            ("empty files", empty, self.users, f"{len(self.files)} files with 0 names"),
        ]
        for what, files, users, wanted in cases:
            found = faults_in(files, users)
            self.expect(f"{what}: {found[-3:]}", any(it.startswith(wanted) for it in found))
