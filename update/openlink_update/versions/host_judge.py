"""Judges a target's new table by where its links lead: by hosts that the table in use does not have, and by an address
that nearly all rows have. A table that somebody else controls is seen by them in the week in which it comes.

    hosts.tsv    a target, a host that is allowed for its links, and the day on which it was first; '' is no host, and
                 says that the target was judged

The hosts of the table in use are allowed, and so are those that the rules have as text. The addresses of titles' pages
are judged too, if readers get them: see undated_links.py."""
import dataclasses
import datetime
from collections.abc import Callable, Collection, Sequence
from pathlib import Path

from openlink_update import shown_text
from openlink_update.index.title_addresses import NO_OFFER, Offer, Proxy
from openlink_update.input_files import cells_in
from openlink_update.rules import compiled, proxies
from openlink_update.tables import link_hosts
from openlink_update.tables.link_hosts import Links, Templates
from openlink_update.tables.table import Table
from openlink_update.versions.allowed_words import HOSTS, SAME, is_word_of_hosts
from openlink_update.versions.undated_links import UndatedLinks

NAME = "hosts.tsv"
_PAGE = "title_url"
_ANY = "*"
_MOST_SAME = 90  # in 100 rows
_FEW_ROWS = 3  # that have a host, which another address of the same provider may have, or a slip
_MANY_HOSTS = 20  # of few rows each: a table that has them, as one of journals with their own sites, gets others
_MOST_NEW = 10  # of them in 100 each week
_MOST_NAMED = 20
_MOST_CHARACTERS = 100  # of a host, a title or an address in a line
_Days = dict[str, str]  # by host: the day on which it was allowed first


def _words_in(allowed: Collection[str]) -> set[str]:
    """The hosts that a target's line allows."""
    words = {word for text in allowed if is_word_of_hosts(text) for word in text.split()}
    return {word[1:].lower() for word in words if word.startswith("+")}


def _is_allowed(host: str, words: Collection[str]) -> bool:
    return any(host.endswith(word[1:]) if word.startswith(_ANY) else host == word for word in words)


def _new_hosts(before: Links, now: Links, known: Collection[str]) -> list[str]:
    """The hosts of a table that keep it out, those of most rows first. Those of few rows each do not where they are
    usual."""
    new = [host for host, _ in now.hosts.most_common() if host not in known]
    rare = [host for host in new if now.hosts[host] <= _FEW_ROWS]
    usual = sum(count <= _FEW_ROWS for count in before.hosts.values())
    if usual >= _MANY_HOSTS and len(rare) * 100 <= usual * _MOST_NEW:
        return [host for host in new if host not in rare]
    return new


def _reasons_of_hosts(new: Sequence[str], now: Links, titles: dict[str, str]) -> list[str]:
    reasons = []
    for host in new[:_MOST_NAMED]:
        name, title = (shown_text.line_of(text, _MOST_CHARACTERS) for text in (host, titles.get(host, "")))
        rows = f"{now.hosts[host]} of {shown_text.amount(now.rows, 'row')}"
        reasons.append(f'new host {name} in {rows}, first "{title}"; to allow it: {HOSTS} +{name}')
    if len(new) > _MOST_NAMED:
        reasons.append(f"{len(new) - _MOST_NAMED} more new hosts; to allow all below one: {HOSTS} +{_ANY}.example.org")
    return reasons


def _most_same(limit: int | None) -> int:
    return _MOST_SAME if limit is None else limit


def _reasons_of_same(before: Links, now: Links, limit: int | None) -> list[str]:
    """Why an address that too many rows have keeps a table out, as a list of at most one reason."""
    most = _most_same(limit)
    address, count = now.most_common
    if not _is_above(count, now.rows, most) or _is_above(before.most_common[1], before.rows, most):
        return []
    shown, part = shown_text.line_of(address, _MOST_CHARACTERS), -(-count * 100 // now.rows)
    return [f"{SAME} in {count} of {now.rows} rows, {shown}: {most}% are allowed; to allow it: {SAME} up to {part}%"]


def _is_above(count: int, rows: int, most: int) -> bool:
    return count > _FEW_ROWS and count * 100 > rows * most


def _line_of(links: Links) -> list[str]:
    """The hosts of a table that is judged for the first time, as a list of at most one line."""
    if not links.hosts:
        return []
    named = [
        f"{shown_text.line_of(host, _MOST_CHARACTERS)} ({shown_text.amount(count, 'row')})"
        for host, count in links.hosts.most_common(_MOST_NAMED)
    ]
    more = len(links.hosts) - len(named)
    line = f"hosts of its links, which are allowed from now on: {', '.join(named)}"
    line += f" and {more} more" if more else ""
    address, count = links.most_common
    if _is_above(count, links.rows, _MOST_SAME):
        line += f"; {shown_text.line_of(address, _MOST_CHARACTERS)} in {count} of {links.rows} rows"
    return [line]


class HostJudge:
    """Judges the targets of a version that is made in a folder, by the version before (None: there is none)."""

    def __init__(self, folder: Path, older: Path | None, today: datetime.date, undated: UndatedLinks) -> None:
        self._folder, self._today, self._undated = folder, today.isoformat(), undated
        self._before: dict[str, _Days] = {}  # by target
        self._now: dict[str, _Days] = {}
        self._lines: dict[str, list[str]] = {}
        path = older / NAME if older else None
        for target, host, day in cells_in(path, 3) if path and path.exists() else ():
            self._before.setdefault(target, {})[host] = day

    def reasons(
        self, name: str, allowed: Collection[str], limit: int | None, old: Sequence[Table] | None, new: Sequence[Table]
    ) -> list[str]:
        """Why the new table of a target cannot be used in place of an old one. Without an old one it can. `allowed` are
        the words of its line, and `limit` is that of the same address."""
        templates = self._templates(name)
        now = link_hosts.links_of(new, templates)
        before = link_hosts.links_of(old, templates) if old is not None else now
        self._remember(name, [*before.hosts, *now.hosts], before)
        if old is None:
            return []
        words = _words_in(allowed)
        known = {*self._before.get(name, ()), *before.hosts, *templates.fixed}
        known |= {host for host in now.hosts if _is_allowed(host, words)}
        hosts = _new_hosts(before, now, known)
        titles = link_hosts.first_titles(new, templates, {*hosts[:_MOST_NAMED]}) if hosts else {}
        return _reasons_of_hosts(hosts, now, titles) + _reasons_of_same(before, now, limit)

    def keep(self, name: str, tables: Callable[[], Sequence[Table]]) -> None:
        """Keeps what is allowed for a target whose old table is used again."""
        if name in self._before and not self._undated.is_new(name):
            self._now[name], self._lines[name] = self._before[name], []
        else:
            links = link_hosts.links_of(tables(), self._templates(name))
            self._remember(name, links.hosts, links)

    def keep_all(self) -> None:
        """Keeps what is allowed for all targets."""
        self._now = self._before

    def lines(self, name: str) -> list[str]:
        """What is said of a target that is judged for the first time."""
        return self._lines.get(name, [])

    def text(self, targets: Collection[str]) -> str:
        """What the next version has to know."""
        return "".join(
            f"{target}\t{host}\t{day}\n"
            for target in targets
            for host, day in sorted(self._now.get(target, {}).items())
        )

    def offer(self, name: str, prefix: str = "") -> Offer:
        """Which addresses of titles' pages readers get: those on hosts that are allowed, behind the proxy with this
        prefix, if the rules are behind it."""
        kinds = self._undated.kinds(name)
        if not kinds:
            return NO_OFFER
        texts = sorted(link_hosts.texts_before_addresses(self._rules(name)))
        is_known = not texts or len(texts) == 1 and texts[0][0].lower().startswith("https:")
        proxy = Proxy(*texts[0]) if texts else Proxy()
        if (self._folder / compiled.behind(name)).exists():
            is_known, proxy = not texts, Proxy(prefix, proxies.is_encoding(prefix))
        return Offer(kinds, frozenset(self._now.get(name, {})) - {""}, proxy if is_known else None)

    def _rules(self, name: str) -> bytes:
        """The rules that the version has for a target."""
        return (self._folder / f"received/{name}.rules").read_bytes()

    def _templates(self, name: str) -> Templates:
        """Those of the rules that the version has for a target."""
        if not (self._folder / f"received/{name}.rules").exists():
            return link_hosts.OF_CODE
        templates = Templates.parse(self._rules(name))
        if templates.names is None or not self._undated.kinds(name):
            return templates
        return dataclasses.replace(templates, names=templates.names | {_PAGE})

    def _remember(self, name: str, hosts: Collection[str], links: Links) -> None:
        self._now[name] = {**dict.fromkeys(["", *hosts], self._today), **self._before.get(name, {})}
        is_known = name in self._before and not self._undated.is_new(name)
        self._lines[name] = [] if is_known else _line_of(links)
