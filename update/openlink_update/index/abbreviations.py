"""The library's own abbreviations of titles, abbreviations.tsv in the input: a line has an abbreviation, a tab, and the
title as a table has it, or its ISSN or ISBN. A request by the abbreviation is one by this title. A version has the
pairs in a file of the same name, without what is wrong in the list."""
import collections
from collections.abc import Iterable, Mapping
from pathlib import Path

from openlink_update.index.title_groups import Title
from openlink_update.index.titles import key_of
from openlink_update.input_files import InputFolder, Line, cells_in
from openlink_update.shown_text import line_of
from openlink_update.tables.identifiers import form_of, standard

NAME = "abbreviations.tsv"
_MOST_LINES = 10_000
_MOST_SAID = 5  # lines of the mail about pairs whose title no table has
Pairs = Mapping[str, list[str]]  # by the key of a title, or its number: the keys of its abbreviations


def read(folder: InputFolder) -> tuple[bytes | None, list[str]]:
    """The pairs of a folder's list as a version has them, and what is wrong with it; None if it cannot be read."""
    place = folder.place(NAME)
    if not folder.exists(NAME):
        return b"", []
    try:
        lines = list(folder.lines(NAME))
    except UnicodeDecodeError:
        return None, [f"{place}: not UTF-8: the old one is kept"]
    except OSError as fault:
        return None, [f"{place}: {fault.strerror}: the old one is kept"]
    wrong = [line for line in lines if not _is_pair(line)]
    faults = [f"{place}: line {line.number}: not an abbreviation and a title with a tab between them" for line in wrong]
    pairs = [line for line in lines if _is_pair(line)]
    if len(pairs) > _MOST_LINES:
        faults.append(f"{place}: {len(pairs)} lines, and the first {_MOST_LINES} count")
    text = "".join("\t".join(cell.strip() for cell in line.cells) + "\n" for line in pairs[:_MOST_LINES])
    return text.encode(), faults


def _is_pair(line: Line) -> bool:
    return len(line.cells) == 2 and all(map(key_of, line.cells))


def _name_of(title: str) -> str:
    """The number that a cell is, or the key of the title that it has."""
    return standard(form_of(title)) or key_of(title)


def pairs_of(version: Path) -> Pairs:
    """The pairs of a version; none if it has no list."""
    found: dict[str, list[str]] = collections.defaultdict(list)
    path = version / NAME
    for short, title in cells_in(path, 2) if path.exists() else ():
        found[_name_of(title)].append(key_of(short))
    return found


def keys_of(title: Title, pairs: Pairs) -> list[str]:
    """The keys of the abbreviations of a title."""
    if not pairs:
        return []
    found = [key for name in (title.key, *title.numbers()) for key in pairs.get(name, ())]
    return [key for key in dict.fromkeys(found) if key != title.key]


def unknown(version: Path, titles: Iterable[Title]) -> list[str]:
    """Lines for pairs whose title is none of these."""
    pairs = pairs_of(version)
    if not pairs:
        return []
    known = {name for title in titles for name in (title.key, *title.numbers())}
    path = version / NAME
    missing = [title for _, title in cells_in(path, 2) if _name_of(title) not in known]
    lines = [f"{NAME}: no table has {line_of(title)}" for title in missing[:_MOST_SAID]]
    return [*lines, f"{NAME}: nor {len(missing) - _MOST_SAID} more"] if len(missing) > _MOST_SAID else lines
