"""Which statements of the crates below it a part of a crate depends on: those that it names, and those that these name,
and so on. A statement is a definition of a file of `specs`, or what a file of `src` states. Of an `unfoldable`
definition it is the type alone, unless the part unfolds it: everywhere else the prover does not see its value."""
import functools
import glob
import os
import re

from statements import lines_stated_in, stated_in
from stored import text_of

DEFINITIONS = re.compile(r"Rattle\.(\w+)\.specs\.([\w.]*\w)(?:\.\{([^}]*)\})?(?: as (\w+))?")
IMPORT = re.compile(r"^ *(?:pub )?use ([\w:{},\s]*);", re.M)
PATH = re.compile(r"\b([a-z_]\w*)::((?:\w+::)*\w+)")
WORD = re.compile(r"[^\s(){}\[\],;:.<>&']+")
DOTTED = re.compile(r"\b(\w+)\.(?=(\w+))")
CALL = re.compile(r"\.(\w+)\(|::(\w+)")
DEFINED = re.compile(r"^(?:(?:unfoldable|abbrev|pub|record|data|mutual) )*([^\s:(){}=]+)", re.M)
FUNCTION = re.compile(r"^(?:pub(?:\(crate\))? )?(?:const |unsafe )*fn (\w+)", re.M)
TRAIT = re.compile(r"^(?:pub(?:\(crate\))? )?trait (\w+)", re.M)
TYPE = re.compile(r"^(?:pub(?:\(crate\))? )?(?:struct|enum|trait|const|type) (\w+)", re.M)
# What a text unfolds, in a line of a proof or in an attribute.
UNFOLDING = re.compile(r"\bunfolding\b *(\([^)]*\)|[^\n]*)")
IMPLEMENTED = re.compile(r"^impl(?:<[^{]*?>)? (?:([\w:]+)[^{\n]*? for )?(\w+)", re.M)


def statements(crate, crates, texts, sources):
    """Returns the statements of lower crates that texts of a crate depend on: a dictionary from a path and a name to
    the text. `crates` are all crates of the repository, and the texts of `sources` call methods."""
    calls = {method or function for text in sources for method, function in CALL.findall(text)}
    opened = {word for text in texts for it in UNFOLDING.findall(text) for word in WORD.findall(it)}
    found, left = {}, {it for text in texts for it in named_in(text, crate, crates, None)}
    named, waiting = {word for text in texts for word in WORD.findall(text)}, {}
    while left or waiting:
        if not left:
            # What a type has by a trait of the repository counts where the trait is named.
            left = {at for at, traits in waiting.items() if not traits.isdisjoint(named)}
            waiting = {at: traits for at, traits in waiting.items() if left and at not in left}
            continue
        path, name = left.pop()
        if (path, name) in found or path.split("/")[1] == crate or is_inner(path, name):
            continue
        is_source = path.endswith(".rt")
        is_sealed = not is_source and name not in opened
        found[path, name] = stated_in(path, name, calls) if is_source else definition(path, name, is_sealed)
        named.update(WORD.findall(found[path, name]))
        for method in methods_of(path, name) & {"", *calls} if is_source else [""]:
            left.update(named_by(path, name, method, crates, is_sealed))
        if is_source:
            for other in beside(path):
                is_certain, traits = additions(other, name, calls, crates)
                if is_certain:
                    left.add((other, name))
                elif traits:
                    waiting[other, name] = traits
    return {at: text for at, text in found.items() if text.strip()}


@functools.lru_cache(maxsize=None)
def methods_of(path, item):
    return {method for of, method, _ in lines_stated_in(path) if of == item}


@functools.lru_cache(maxsize=None)
def named_by(path, name, method, crates, is_sealed):
    """Returns what a definition names, or an item of a source by what it states of a method, or apart from methods."""
    crate, text = path.split("/")[1], text_of(path)
    if path.endswith(".rt"):
        lines = [line for of, it, line in lines_stated_in(path) if (of, it) == (name, method)]
        return {*named_in(text, crate, crates, frozenset(WORD.findall(" ".join(lines))))}
    here = definitions(path)
    words = {*WORD.findall(definition(path, name, is_sealed) or name)}
    return {*named_in(text, crate, crates, frozenset(words | {name}))} | {(path, it) for it in words & {*here} - {name}}


@functools.lru_cache(maxsize=None)
def definitions(path):
    """Returns a file's definitions by their names, without comments; those that stand together have the same text."""
    found = {}
    lines = [line for line in text_of(path).split("\n") if not re.match(r" *--|(?:pub )?(?:use|mod) ", line)]
    for block in re.split(r"\n\n+", "\n".join(lines)):
        for name in DEFINED.findall(block):
            found[name] = found.get(name, "") + block.strip() + "\n"
    return found


def definition(path, name, is_sealed):
    """Returns the text of a definition; where it is sealed, and `unfoldable` by itself, its type."""
    text = definitions(path).get(name, "")
    if not is_sealed or not text.startswith("unfoldable ") or {*DEFINED.findall(text)} != {name}:
        return text
    lines = text.split("\n")
    end = next((at for at, line in enumerate(lines) if re.match(rf"{re.escape(name)}(?: |$)", line)), len(lines))
    return "\n".join(lines[:end])


def named_in(text, crate, crates, words):
    """Yields what a text of a crate names; if there are words, only by names that are among them."""
    for other, module, names, alias in definitions_named_in(text):
        if other not in crates:
            continue
        prefix = alias or module.rpartition(".")[2]
        used = WORD.findall(names) if names else [it for at, it in dotted_in(text) if at == prefix]
        used = [it for it in used if words is None or it in words or prefix in words]
        if used or words is None:
            yield from of_module(other, module, used)
    for path in paths_in(text) if words is None else imported_by(text):
        first, *rest = re.split("::| as ", path)
        first = crate if first == "crate" else first
        if first in crates and rest and (words is None or not words.isdisjoint(rest)):
            yield from sources_of(first, tuple(rest), crates)


@functools.lru_cache(maxsize=None)
def definitions_named_in(text):
    return DEFINITIONS.findall(text)


@functools.lru_cache(maxsize=None)
def dotted_in(text):
    return DOTTED.findall(text)


@functools.lru_cache(maxsize=None)
def imported_by(text):
    return [path for it in IMPORT.findall(text) for path in spelled_out(it)]


def paths_in(text):
    return [*imported_by(text), *("::".join(it) for it in PATH.findall(text))] if "::" in text else []


def spelled_out(imported):
    """Yields the paths of an import, one for each name in its braces."""
    head, opened, rest = imported.partition("{")
    if not opened:
        yield imported.strip()
        return
    depth, start = 0, 0
    inner = rest.rpartition("}")[0] + ","
    for at, letter in enumerate(inner):
        depth += (letter == "{") - (letter == "}")
        if letter == "," and depth == 0:
            if inner[start:at].strip():
                yield from spelled_out(head.strip() + inner[start:at].strip())
            start = at + 1


def of_module(crate, module, names):
    """Yields the named definitions of a module, or the source that declares them; all of the crate if there is no such
    file."""
    first, *rest = module.split(".")
    if first in ("Private", "contracts"):
        return
    is_source = first == "declared"
    folder, parts, ending = ("src", rest, ".rt") if is_source else ("specs", [first, *rest], ".antt")
    path = longest(f"crates/{crate}/{folder}", parts, ending)
    if path is None:
        yield from ((it, name) for it in all_of(crate) for name in ([""] if it.endswith(".rt") else definitions(it)))
    elif is_source:
        yield path, next((it for it in rest[::-1] if it in names_in(path, TYPE)), "")
    else:
        yield from ((path, name) for name in names or definitions(path))


@functools.lru_cache(maxsize=None)
def longest_of(folder, parts, ending):
    for end in range(len(parts), 0, -1):
        path = f"{folder}/{'/'.join(parts[:end])}{ending}"
        if os.path.isfile(path):
            return path
    return None


def longest(folder, parts, ending):
    """Returns the file that the longest beginning of the parts names, or None."""
    return longest_of(folder, tuple(parts), ending)


@functools.lru_cache(maxsize=None)
def sources_of(crate, names, crates):
    """Returns the source in which a crate declares what it exports by a path, and the name there; all its sources if
    none is found."""
    exported = exports(crate)
    if names[0] in exported:
        first, *rest = exported[names[0]].split("::")
        if first in crates and not os.path.exists(f"crates/{crate}/src/{first}.rt"):
            return sources_of(first, tuple(rest), crates)
        names = (first, *rest)
    path = longest(f"crates/{crate}/src", names, ".rt")
    root = f"crates/{crate}/src/lib.rt"
    if path is None and (names[0] in names_in(root, TYPE) or names[0] in names_in(root, FUNCTION)):
        path = root
    return [(path, names[-1])] if path else [(it, "") for it in all_of(crate) if it.endswith(".rt")]


@functools.lru_cache(maxsize=None)
def exports(crate):
    """Returns the path of each name that a crate exports from a file or from another crate."""
    imports = re.findall(r"^pub use ([\w:{},\s]*);", text_of(f"crates/{crate}/src/lib.rt"), re.M)
    paths = [path for it in imports for path in spelled_out(it)]
    return {re.split("::| as ", path)[-1]: path.split(" as ")[0] for path in paths}


@functools.lru_cache(maxsize=None)
def is_inner(path, name):
    """Whether a source has a function of the name that its crate does not export."""
    if not path.endswith(".rt") or name not in names_in(path, FUNCTION):
        return False
    _, crate, _, *module = path[: -len(".rt")].split("/")
    is_open = f"\npub mod {module[0]};" in text_of(f"crates/{crate}/src/lib.rt")
    return not is_open and module != ["lib"] and "::".join([*module, name]) not in exports(crate).values()


@functools.lru_cache(maxsize=None)
def names_in(path, pattern):
    return frozenset(pattern.findall(text_of(path)))


@functools.lru_cache(maxsize=None)
def all_of(crate):
    return [path for part in ("src/**/*.rt", "specs/**/*.antt")
            for path in glob.glob(f"crates/{crate}/{part}", recursive=True) if "/specs/Private" not in path]


@functools.lru_cache(maxsize=None)
def beside(path):
    """Returns the other sources of the file's crate that implement something."""
    others = [it for it in all_of(path.split("/")[1]) if it != path] if path.endswith(".rt") else []
    return [it for it in others if it.endswith(".rt") and IMPLEMENTED.search(text_of(it))]


def additions(path, name, calls, crates):
    """Returns whether a source has methods of a type that are called, or implements a trait of other libraries for it,
    which may be called without a name; and the traits of the repository that it implements for it."""
    heads, methods = implemented_in(path)
    traits = {trait.rpartition("::")[2] for trait, of in heads if of == name}
    own = frozenset(traits & traits_of(crates))
    return bool(traits - own - {""}) or "" in traits and not calls.isdisjoint(methods), own


@functools.lru_cache(maxsize=None)
def traits_of(crates):
    """Returns the names of the traits that the crates declare."""
    sources = (path for crate in sorted(crates) for path in all_of(crate) if path.endswith(".rt"))
    return {name for path in sources for name in names_in(path, TRAIT)}


@functools.lru_cache(maxsize=None)
def implemented_in(path):
    return IMPLEMENTED.findall(text_of(path)), re.findall(r"pub fn (\w+)", text_of(path))
