"""The rules that ship, which a line of targets.tsv names by `provider:NAME`. A file `providers/NAME.rules` of the input
is taken in place of the one that ships."""
import difflib
import os
import re

from openlink_update.input_files import InputFile, InputFolder
from openlink_update.places import PROVIDERS
from openlink_update.root_folder import MOST_BYTES, RootFolder

WORD = "provider:"
_FOLDER, _SUFFIX = "providers", ".rules"
_NAME = re.compile(r"[a-z0-9][a-z0-9-]{0,63}", re.A)
_MOST_LIKE = 3  # names that are like an unknown one
_MOST_CHARACTERS = 64  # of an unknown name


def _names() -> list[str]:
    """The names of the rules that ship."""
    try:
        files = RootFolder(PROVIDERS).names()
    except OSError:
        return []
    return sorted(file.removesuffix(_SUFFIX) for file in files if file.endswith(_SUFFIX))


def own_path(name: str) -> str:
    """The path of a library's own file in its input, for the rest of a cell after the word."""
    return f"{_FOLDER}/{name}{_SUFFIX}"


def fault_of(name: str, folder: InputFolder) -> str:
    """Why no rules have a name, neither in the input nor among those that ship; '' if some have."""
    if _NAME.fullmatch(name) and (folder.exists(own_path(name)) or name in _names()):
        return ""
    like = [f"{WORD}{it}" for it in difflib.get_close_matches(name[:_MOST_CHARACTERS], _names(), _MOST_LIKE)]
    hint = f"did you mean {' or '.join(like)}" if like else f"{PROVIDERS} has those that ship"
    return f"no rules are {WORD}{name[:_MOST_CHARACTERS]}: {hint}"


def is_own(name: str, folder: InputFolder) -> bool:
    """Whether the input has rules of this name."""
    return folder.exists(own_path(name))


def path_of(name: str) -> str:
    """The path of rules that ship."""
    return str(PROVIDERS / f"{name}{_SUFFIX}")


def file(path: str) -> InputFile:
    """The rules that ship with a path. OSError if they cannot be read."""
    folder, parts = RootFolder(PROVIDERS), (os.path.basename(path),)
    with folder.open(parts) as opened:
        mark, data = os.fstat(opened.fileno()), opened.read(MOST_BYTES)
    return InputFile(folder.place(parts), data, mark, lambda: folder.status(parts))
