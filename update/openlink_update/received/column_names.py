"""The names of columns: those of KBART in any spelling, and those that the line of a target gives for its files."""
import collections
import dataclasses
import functools
import re
from collections.abc import Sequence

from openlink_update.outcome import Unreadable
from openlink_update.shown_text import line_of

# The 25 columns of NISO RP-9-2014.
COLUMNS = (
    "publication_title",
    "print_identifier",
    "online_identifier",
    "date_first_issue_online",
    "num_first_vol_online",
    "num_first_issue_online",
    "date_last_issue_online",
    "num_last_vol_online",
    "num_last_issue_online",
    "title_url",
    "first_author",
    "title_id",
    "embargo_info",
    "coverage_depth",
    "notes",
    "publisher_name",
    "publication_type",
    "date_monograph_published_print",
    "date_monograph_published_online",
    "monograph_volume",
    "monograph_edition",
    "first_editor",
    "parent_publication_title_id",
    "preceding_publication_title_id",
    "access_type",
)
IDENTIFIERS = ("print_identifier", "online_identifier")
DATES = (
    "date_first_issue_online",
    "date_last_issue_online",
    "date_monograph_published_print",
    "date_monograph_published_online",
)
DROPPED = "-"  # in place of a name: the column is left out
_LEAST = 3  # names of a header
_AROUND = " \t\"'\xa0\u201c\u201d"
_OWN = re.compile(r"x_[a-z0-9_]{1,60}", re.A)  # a column that only rules of this target read
_MOST_SHOWN, _MOST_CHARACTERS = 30, 40  # names in a line, and characters of each


def _spelling(name: str) -> str:
    """What two spellings of a name have in common: its letters and digits, in lower case."""
    return re.sub("[^a-z0-9]", "", name.lower())


NAMES = {_spelling(name): name for name in COLUMNS}


def plain_name(name: str) -> str:
    """A name as the line of a target is compared with a file: case and spaces make no difference."""
    return " ".join(name.strip(_AROUND).casefold().split())


def is_known(name: str) -> bool:
    """Whether the line of a target may give a column this name: one of KBART, or one of its own, x_NAME."""
    return name in COLUMNS or _OWN.fullmatch(name) is not None


@dataclasses.dataclass(frozen=True)
class Naming:
    """The names that the line of a target gives."""

    columns: tuple[tuple[str, str], ...] = ()  # the name in a file, and the one of KBART, or DROPPED
    header: tuple[str, ...] = ()  # of a file that has none

    @functools.cached_property
    def by_plain_name(self) -> dict[str, str]:
        return {plain_name(name): standard for name, standard in self.columns}

    def is_header(self, cells: Sequence[str]) -> bool:
        """Whether cells are a header: some names of KBART and of the line, or all of the line."""
        names, found = self.by_plain_name, set(map(plain_name, cells))
        known = {_spelling(cell) for cell in cells} & NAMES.keys()
        more = {name for name in found & names.keys() if _spelling(name) not in NAMES}
        return len(known) + len(more) >= _LEAST or bool(names) and names.keys() <= found

    def missing_in(self, cells: Sequence[str]) -> tuple[str, ...]:
        """The names of the line that a header lacks, as the line has them."""
        found = set(map(plain_name, cells))
        return tuple(name for name, _ in self.columns if plain_name(name) not in found)


PLAIN = Naming()


@dataclasses.dataclass(frozen=True)
class _Named:
    """The names of the columns of a file, and the places of those that are left out."""

    names: list[str]
    dropped: list[int]
    mapped: int  # names that the line gave
    spelled: int  # names that only got another spelling


def named(cells: Sequence[str], naming: Naming) -> _Named:
    """The names that a header gets. Unreadable if two columns would have one name."""
    names = [cell.strip(_AROUND) for cell in cells]
    given = {
        place: naming.by_plain_name[key]
        for place, key in enumerate(map(plain_name, names))
        if key in naming.by_plain_name
    }
    _check(names, given)
    dropped = [place for place, name in given.items() if name == DROPPED]
    for place, name in given.items():
        names[place] = "" if name == DROPPED else name
    before = list(names)
    names = spelled(names)
    changed = sum(
        name != cell
        for place, (name, cell) in enumerate(zip(names, cells))
        if place not in given or before[place] != name
    )
    return _Named(names, dropped, len(given) - len(dropped), changed)


def _check(names: Sequence[str], given: dict[int, str]) -> None:
    counts = collections.Counter(map(plain_name, (names[place] for place in given)))
    twice = next((name for name, count in counts.items() if count > 1), None)
    if twice is not None:
        raise Unreadable(f"{counts[twice]} columns are named {shown([twice])}: which one `columns` means is unknown")
    for place, standard in given.items():
        if standard != DROPPED and any(name == standard for at, name in enumerate(names) if at not in given):
            raise Unreadable(
                f"it has a column {standard} beside {shown([names[place]])}, which `columns` calls so: leave one out, "
                f"{standard}={DROPPED}"
            )


def spelled(cells: Sequence[str]) -> list[str]:
    """The names of columns as the standard spells them, without spaces and quotes around them. The first of two
    spellings of one name gets it, unless a column has the name itself."""
    names = [cell.strip(_AROUND) for cell in cells]
    taken = set(names)
    for place, name in enumerate(names):
        standard = NAMES.get(_spelling(name))
        if standard and standard not in taken:
            names[place] = standard
            taken.add(standard)
    return names


def shown(names: Sequence[str]) -> str:
    """Names of a file for a line of the mail."""
    texts = [f'"{line_of(name.strip(_AROUND), _MOST_CHARACTERS)}"' for name in names[:_MOST_SHOWN]]
    return ", ".join([*texts, *([f"and {len(names) - _MOST_SHOWN} more"] if len(names) > _MOST_SHOWN else [])])
