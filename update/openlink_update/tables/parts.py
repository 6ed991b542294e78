"""Parts of a table that is too large for the program: each is a target of the registry, NAME, NAME.2, NAME.3, .. All
rows that share a number are in the same part, in their order."""
import re
from collections.abc import Iterable, Sequence

from openlink_update.outcome import Refused
from openlink_update.received.column_names import IDENTIFIERS
from openlink_update.tables.identifiers import form_of, standard
from openlink_update.tables.table import Table, cell

_MOST_BYTES, MOST_ROWS = 16_777_216, 200_000
MOST_TARGETS, MOST_REGISTRY_BYTES, _MOST_NAME_BYTES = 256, 65_536, 64
_NAME = re.compile(r"(.+)\.(?:[2-9]|[1-9]\d{1,2})", re.A)
_Group = tuple[list[int], tuple[int, int]]  # rows, and their bytes and number


def base_of(name: str) -> str:
    """The target that a name of the registry is a part of."""
    match = _NAME.fullmatch(name)
    return match[1] if match else name


def _name_of(target: str, number: int) -> str:
    """The name of a part; they count from 0."""
    return target if number == 0 else f"{target}.{number + 1}"


def _key_of(text: str) -> str:
    """A number as the program compares it; an ISBN of ten digits also equals one of thirteen."""
    return standard(form_of(text)) or text.replace("-", "").replace(" ", "").upper()


def _groups_of(table: Table) -> list[list[int]]:
    """The rows that may not be divided, as lists of their places, in the order of their first rows."""
    places = table.places(IDENTIFIERS)
    into = list(range(len(table.rows)))
    owner: dict[str, int] = {}

    def root(row: int) -> int:
        while into[row] != row:
            into[row] = into[into[row]]
            row = into[row]
        return row

    for number, row in enumerate(table.rows):
        for key in filter(None, (_key_of(cell(row, place)) for place in places)):
            one, other = root(owner.setdefault(key, number)), root(number)
            into[max(one, other)] = min(one, other)
    groups: dict[int, list[int]] = {}
    for number in range(len(table.rows)):
        groups.setdefault(root(number), []).append(number)
    return list(groups.values())


def _packed(groups: Iterable[_Group], most_bytes: int, most_rows: int) -> list[list[int]]:
    """The bins into which groups of these bytes and rows go, each into the first that has room for it."""
    bins: list[list[int]] = []
    room: list[list[int]] = []
    for group, (size, count) in groups:
        at = next((at for at, (left, more) in enumerate(room) if size <= left and count <= more), None)
        if at is None:
            at = len(bins)
            bins.append([])
            room.append([most_bytes, most_rows])
        bins[at] += group
        room[at][0] -= size
        room[at][1] -= count
    return bins


def _size(cells: Sequence[str]) -> int:
    line = "\t".join(cells)
    return (len(line) if line.isascii() else len(line.encode())) + 1


def places_of(table: Table, most_bytes: int, most_rows: int) -> list[Sequence[int]]:
    """The places of the rows of each part: one part if the table is not too large, otherwise as few as possible."""
    sizes = list(map(_size, table.rows))
    room = most_bytes - _size(table.columns)
    if sum(sizes) <= room and len(sizes) <= most_rows:
        return [range(len(sizes))]
    groups = [(group, (sum(sizes[row] for row in group), len(group))) for group in _groups_of(table)]
    bins = _packed(groups, room, most_rows)
    if len(bins) > max(-(-sum(sizes) // room), -(-len(sizes) // most_rows)):
        by_size = sorted(groups, key=lambda group: group[1], reverse=True)
        bins = min(bins, _packed(by_size, room, most_rows), key=len)
    return [*sorted(sorted(rows) for rows in bins)]


def parts_of(target: str, table: Table, size: int) -> dict[str, Sequence[int]]:
    """The names of the parts of a table with this number of bytes, each with the places of its rows."""
    if size <= _MOST_BYTES and len(table.rows) <= MOST_ROWS:
        return {target: range(len(table.rows))}
    places = places_of(table, _MOST_BYTES, MOST_ROWS)
    names = [_name_of(target, number) for number in range(len(places))]
    if len(names[-1]) > _MOST_NAME_BYTES:
        raise Refused([f"it has {len(names)} parts, and the name {names[-1]} is too long"])
    return dict(zip(names, places))


def fault_of(counts: dict[str, int], registry: bytes) -> str:
    """Why the program would reject a registry of targets with these numbers of parts; '' if it would not."""
    names = sum(counts.values())
    if names <= MOST_TARGETS and len(registry) <= MOST_REGISTRY_BYTES:
        return ""
    several = ", ".join(f"{name} ({count})" for name, count in counts.items() if count > 1)
    return (
        f"registry.tsv: {names} targets and {len(registry)} bytes, and {MOST_TARGETS} and {MOST_REGISTRY_BYTES} "
        f"are possible; in parts: {several or 'none'}"
    )
