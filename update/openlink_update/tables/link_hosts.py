"""The hosts to which the links of a target lead: those that its rules have as text, and those that cells of its table
give. A cell gives one if it is a web address, or if a rule makes the host of it."""
import dataclasses
import re
from collections import Counter
from collections.abc import Collection, Iterable, Iterator
from itertools import chain

from openlink_update.tables.table import Table, cell

_LINK = re.compile(r"^link (\S+)", re.M)
_AUTHORITY = re.compile(r"https?://((?:\{[^}]*\}|[^/?#{}])*)", re.I)
_EXPRESSION = re.compile(r"\{[+#./;?&]?([^}]*)\}")
# A browser skips more slashes than two, and reads \ as a slash.
_ADDRESS = re.compile(r"https?://[/\\]*([^/\\?#]*)", re.I)
_HOST = re.compile(r"[/\\]*([^/\\?#]*)")
# What a template has before the address of a title's page, as links through a proxy do.
_BEFORE = re.compile(
    r"(https?://[^{}]*?=)(?:(\{title_(?:url|page)\}|https?%3A)|\{\+title_(?:url|page)\}|https?://)", re.I
)
_COLUMN_OF = {"title_page": "title_url"}  # by a name that the update adds: the column whose addresses it has
_TITLE = "publication_title"


def _names_in(template: str) -> set[str]:
    """The variables of a template."""
    lists = (it[1].split(",") for it in _EXPRESSION.finditer(template))
    return {name.split(":")[0].rstrip("*") for name in chain.from_iterable(lists)}


def _host(authority: str) -> str:
    """The host and the port of an authority, without a user."""
    return authority.rpartition("@")[2].lower()


@dataclasses.dataclass(frozen=True)
class Templates:
    """What the templates of rules say of hosts."""

    names: frozenset[str] | None  # their variables; None: not known, since the rules are a code file
    hosts: frozenset[str]  # variables that can be the end of a host
    fixed: frozenset[str]  # hosts that are text

    @classmethod
    def parse(cls, rules: bytes) -> "Templates":
        templates = _LINK.findall(rules.decode("utf-8", "replace"))
        authorities = [it[1] for it in map(_AUTHORITY.match, templates) if it]
        free = [it for it in authorities if "{+" in it or "{" in it and "." not in it.rpartition("}")[2]]
        named = chain.from_iterable(map(_names_in, templates))
        names = (_COLUMN_OF.get(name, name) for name in named)
        hosts = chain.from_iterable(map(_names_in, free))
        return cls(frozenset(names), frozenset(hosts), frozenset(_host(it) for it in authorities if "{" not in it))


OF_CODE = Templates(None, frozenset(), frozenset())


def texts_before_addresses(rules: bytes) -> set[tuple[str, bool]]:
    """The texts that rules have before the address of a title's page, each with whether this is encoded there."""
    matches = map(_BEFORE.match, _LINK.findall(rules.decode("utf-8", "replace")))
    return {(match[1], match[2] is not None) for match in matches if match}


@dataclasses.dataclass(frozen=True)
class Links:
    """What the cells of a table give."""

    rows: int
    hosts: Counter[str]  # by host, how many rows have it
    most_common: tuple[str, int]  # the address that most rows have in one column, and how many; '' in none


def _columns_of(table: Table, templates: Templates) -> Iterator[tuple[str, int]]:
    """The columns whose cells are in links, each with its place; of two with one name the first."""
    for name in dict.fromkeys(table.columns):
        if templates.names is None or name in templates.names:
            yield name, table.columns.index(name)


def _hosts_in(cells: Iterable[str], is_host: bool) -> list[str]:
    """The host that each cell gives, or ''."""
    if is_host:
        return [_host(match[1]) if match else "" for match in map(_HOST.match, cells)]
    known = {"": ""}
    found = []
    for text in cells:
        match = _ADDRESS.match(text) if "://" in text else None
        authority = match[1] if match else ""
        if authority not in known:
            known[authority] = _host(authority)
        found.append(known[authority])
    return found


def links_of(tables: Iterable[Table], templates: Templates) -> Links:
    """What the parts of a table give."""
    rows, hosts = 0, Counter[str]()
    addresses: dict[str, Counter[str]] = {}  # by column
    for table in tables:
        rows += len(table.rows)
        columns = []
        for name, place in _columns_of(table, templates):
            cells = [row[place] if place < len(row) else "" for row in table.rows]  # faster than by `cell`
            if name not in templates.hosts and "://" not in "\n".join(cells):
                continue  # as most columns beside a code file
            found = _hosts_in(cells, name in templates.hosts)
            if any(found):
                columns.append(found)
                counts = Counter(text for text, host in zip(cells, found) if host)
                addresses.setdefault(name, Counter()).update(counts)
        several = (host for row in zip(*columns) for host in {*row})
        hosts.update(columns[0] if len(columns) == 1 else several)
    del hosts[""]
    most = [pair for counts in addresses.values() for pair in counts.most_common(1)]
    return Links(rows, hosts, max(most, key=lambda pair: pair[1], default=("", 0)))


def first_titles(tables: Iterable[Table], templates: Templates, hosts: Collection[str]) -> dict[str, str]:
    """The title of the first row of each of these hosts."""
    titles: dict[str, str] = {}
    for table in tables:
        title = table.place(_TITLE)
        for name, place in _columns_of(table, templates):
            found = _hosts_in((cell(row, place) for row in table.rows), name in templates.hosts)
            for row, host in zip(table.rows, found):
                if host in hosts and host not in titles:
                    titles[host] = cell(row, title)
    return titles
