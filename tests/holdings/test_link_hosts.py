"""A table that somebody else controls: links on other hosts, one address for all titles, many titles more."""
from __future__ import annotations

import datetime
import os
import tempfile
from pathlib import Path
from unittest import mock

from fixtures import needs
from fixtures.cases import Case
from fixtures.made_titles import issn
from fixtures.made_versions import DAY
from fixtures.made_versions import Weeks
from fixtures.made_versions import table
from openlink_update.index.title_addresses import NO_OFFER
from openlink_update.index.title_addresses import Offer
from openlink_update.index.title_addresses import Proxy
from openlink_update.tables import link_hosts
from openlink_update.tables.link_hosts import Templates
from openlink_update.tables.table import Table
from openlink_update.versions.host_judge import HostJudge

RULES = "rule\nwhen given title_url\nlink {+title_url}\n"
EVIL = "login-press.evil.example"
SAID = "hosts of its links, which are allowed from now on"


def rows(first: int, last: int, host: str = "press.example.com") -> list[tuple[str, ...]]:
    """Titles, each with an address of its own."""
    return [(f"Title {at}", issn(at), "", "1990", "", f"https://{host}/{at}", f"t{at}") for at in range(first, last)]


def at(address: str, row: tuple[str, ...]) -> tuple[str, ...]:
    return (*row[:5], address, *row[6:])


def new_host(host: str, count: int, of: int, title: str = "Title 0") -> str:
    return f'new host {host} in {count} of {of} rows, first "{title}"; to allow it: hosts +{host}'


@needs.program()
class Hijacked(Case):
    """Which tables are used, and what is said of those that are not."""

    def test_other_host(self) -> None:
        """Every link on another host, and 60 titles more: kept, with a line for each reason, until words allow it."""
        hijacked = table(*rows(0, 100, EVIL))
        reasons = [
            "titles came 60, and 40 before: 50% are allowed; to allow it: came up to 150%",
            new_host(EVIL, 100, 100),
        ]
        words = f"hosts +{EVIL}"
        with Weeks() as weeks:
            self.expect("the first week", weeks.week("press", table(*rows(0, 40)), rules=RULES), [])
            before = weeks.read("tables/press.txt")
            self.expect("hijacked", weeks.week("press", hijacked, rules=RULES), reasons)
            self.expect("the old table stays", weeks.read("tables/press.txt"), before)
            self.expect("and again", weeks.week("press", hijacked, rules=RULES), reasons)
            self.expect("one word of two", weeks.week("press", hijacked, words, rules=RULES), reasons[:1])
            self.expect("both", weeks.week("press", hijacked, f"{words}; came up to 150%", rules=RULES), [])
            known = f"press\t\t{DAY}\npress\t{EVIL}\t{DAY}\npress\tpress.example.com\t{DAY}\n"
            self.expect("remembered", weeks.read("hosts.tsv").decode(), known)
            self.expect("the words taken back", weeks.week("press", table(*rows(0, 99, EVIL)), rules=RULES), [])
            self.expect("the first host again", weeks.week("press", table(*rows(0, 98)), rules=RULES), [])

    def test_odd_host(self) -> None:
        """One row on another host, in any spelling that a browser reads as this host."""
        for address in (
            f"https://{EVIL}/1",
            f"HTTP://{EVIL.upper()}",
            f"https:///{EVIL}/1",
            f"https://press.example.com@{EVIL}/1",
            f"https://{EVIL}\\press.example.com/",
            f"https://{EVIL}?press.example.com/",
        ):
            with Weeks() as weeks:
                weeks.week("press", table(*rows(0, 40)), rules=RULES)
                odd = table(*rows(0, 39), at(address, rows(39, 40)[0]))
                wanted = [new_host(EVIL, 1, 40, "Title 39")]
                # `lint` warns of some of these too, which `rule` allows.
                self.expect(address, weeks.week("press", odd, "rule", rules=RULES), wanted)
                self.expect("below", weeks.week("press", odd, "rule; hosts +x.org +*.evil.example", rules=RULES), [])
        with Weeks() as weeks:
            weeks.week("press", table(*rows(0, 40)), rules=RULES)
            odd = table(*rows(0, 39), *rows(39, 40, "press.example.com:8443"))
            wanted = [new_host("press.example.com:8443", 1, 40, "Title 39")]
            self.expect("a port", weeks.week("press", odd, "hosts +press.example.com", rules=RULES), wanted)

    def test_same_address(self) -> None:
        """One address in all rows."""
        address = "https://press.example.com/login"
        same = table(*(at(address, row) for row in rows(0, 40)))
        reason = f"same address in 40 of 40 rows, {address}: 90% are allowed; to allow it: same address up to 100%"
        with Weeks() as weeks:
            weeks.week("press", table(*rows(0, 40)), rules=RULES)
            self.expect("kept", weeks.week("press", same, rules=RULES), [reason])
            self.expect("allowed", weeks.week("press", same, "same address up to 100%", rules=RULES), [])
            other = table(*(at(f"{address}2", row) for row in rows(0, 41)))
            self.expect("the table in use has one", weeks.week("press", other, rules=RULES), [])

    def test_first_run(self) -> None:
        """What the table in use has is allowed at the first run of an update that judges hosts, which says so once."""
        line = f"press: {SAID}: press.example.com (39 rows), {EVIL} (1 row)"
        used = [*rows(0, 39), *rows(39, 40, EVIL)]
        for name, data in (("the same table", used), ("a new one", [*used, *rows(40, 42, EVIL)])):
            with Weeks() as weeks:
                weeks.deliver("press", table(*used), rules=RULES)
                self.expect("the first table is said", weeks.make(), ["press: new, 40 rows", line])
                os.unlink(f"{weeks.version}/hosts.tsv")
                weeks.deliver("press", table(*data), rules=RULES)
                self.expect(f"{name}: said", weeks.make()[-1:], [line])
                self.expect("in use", weeks.maker.kept, [])
                self.expect("not again", SAID in "".join(weeks.make()), False)
                weeks.deliver("press", table(*data, *rows(50, 51)), rules=RULES)
                self.expect("nor with another table", SAID in "".join(weeks.make()), False)
                self.expect("remembered", EVIL in weeks.read("hosts.tsv").decode(), True)
                weeks.make(walls=True)
                self.expect("by a run for walls too", EVIL in weeks.read("hosts.tsv").decode(), True)
        with Weeks() as weeks:
            weeks.week("press", table(*rows(0, 40)), rules=RULES)
            os.unlink(f"{weeks.version}/hosts.tsv")
            weeks.deliver("press", table(*rows(0, 40, EVIL)), rules=RULES)
            self.expect("a hijacked table", weeks.make()[-1:], [f"press: {SAID}: press.example.com (40 rows)"])
            self.expect("is not in use", weeks.maker.kept, ["press"])
            self.expect("nor allowed later", EVIL in weeks.read("hosts.tsv").decode(), False)

    def test_least_rows(self) -> None:
        """As many rows as the line of the target demands are enough, and half of those before."""
        words, less = "gone up to 99%; least 4 rows", ["3 rows, and at least 4 must be there"]
        half = ["less than half of the rows: 1, and 3 before; to allow it: less than half of the rows"]
        with Weeks() as weeks:
            weeks.week("press", table(*rows(0, 5)), rules=RULES)
            self.expect("as many", weeks.week("press", table(*rows(0, 4)), words, rules=RULES), [])
            self.expect("one less", weeks.week("press", table(*rows(0, 3)), words, rules=RULES), less)
            self.expect("half", weeks.week("press", table(*rows(0, 2)), "gone up to 99%", rules=RULES), [])
            weeks.week("press", table(*rows(0, 3)), rules=RULES)
            self.expect("fewer", weeks.week("press", table(*rows(0, 1)), "gone up to 99%", rules=RULES), half)

    def test_days(self) -> None:
        """A host is remembered with the day on which it was allowed first."""
        host = "new.example.com"
        with Weeks() as weeks:
            for day, last, words in (
                (1, rows(39, 40), ""),
                (8, rows(39, 40, host), f"hosts +{host}"),
                (15, rows(39, 41), ""),
            ):
                weeks.deliver("press", table(*rows(0, 39), *last), words, RULES)
                weeks.make(datetime.date(2026, 11, day))
            wanted = f"press\t\t2026-11-01\npress\t{host}\t2026-11-08\npress\tpress.example.com\t2026-11-01\n"
            self.expect("days", weeks.read("hosts.tsv").decode(), wanted)

    def test_rules(self) -> None:
        """Only cells that links have count, and hosts that the rules have as text are allowed."""
        fixed = "rule\nlink https://press.example.com/{title_id}\n"
        with Weeks() as weeks:
            weeks.week("press", table(*rows(0, 40)), rules=fixed)
            self.expect("a column of no link", weeks.week("press", table(*rows(0, 40, EVIL)), rules=fixed), [])
        with Weeks() as weeks:
            weeks.week("press", table(*rows(0, 40, "old.example.com")), rules=RULES + fixed)
            self.expect("a fixed host", weeks.week("press", table(*rows(0, 40)), rules=RULES + fixed), [])


class Offers(Case):
    def test_proxies(self) -> None:
        """Addresses of titles' pages are offered behind the one proxy that rules have, if its address is https; none if
        it is not known which one, or if there would be two."""
        one, other = "https://proxy.example.org/login?url=", "https://other.example.org/login?qurl="
        for links, behind, prefix, wanted in (
            (["{+title_url}"], False, "", Proxy()),
            ([f"{one}{{+title_url}}"], False, "", Proxy(one, False)),
            ([f"{other}{{title_url}}"], False, "", Proxy(other, True)),
            ([f"{one}{{+title_url}}".replace("https:", "http:")], False, "", None),
            ([f"{one}{{+title_url}}", f"{other}{{title_url}}"], False, "", None),
            (["{+title_url}"], True, one, Proxy(one, False)),
            (["{+title_url}"], True, other, Proxy(other, True)),
            ([f"{one}{{+title_url}}"], True, other, None),
        ):
            with tempfile.TemporaryDirectory() as folder:
                for name in ("received", *(["rules"] if behind else [])):
                    os.mkdir(f"{folder}/{name}")
                    Path(folder, name, "press.rules").write_text("".join(f"rule\nlink {it}\n" for it in links))
                undated = mock.Mock(kinds=lambda name: "j" if name == "press" else "")
                judge = HostJudge(Path(folder), None, datetime.date(2026, 11, 29), undated)
                judge._now["press"] = {"": "2026-11-22", "press.example.com": "2026-11-22"}
                offer = Offer("j", frozenset({"press.example.com"}), wanted)
                self.expect(f"{links}, {behind}", judge.offer("press", prefix), offer)
                self.expect("a target with links for all", judge.offer("other", prefix), NO_OFFER)


class Cells(Case):
    """What rules and cells say of hosts."""

    def test_templates(self) -> None:
        for template, names, hosts, fixed in (
            ("https://A.example.org:8080/{title_id}", {"title_id"}, set(), {"a.example.org:8080"}),
            ("https://proxy.example.org?u={title_url}{&b*,c:4}", {"title_url", "b", "c"}, set(), {"proxy.example.org"}),
            ("{+title_url}", {"title_url"}, set(), set()),
            ("{+title_page}", {"title_url"}, set(), set()),
            ("https://{+sub}.example.org/", {"sub"}, {"sub"}, set()),
            ("https://{+host}/x", {"host"}, {"host"}, set()),
            ("https://www.{host}/{title_id}", {"host", "title_id"}, {"host"}, set()),
            ("https://{sub}.example.org/", {"sub"}, set(), set()),
            ("https://www.{host}:8080/{title_id}", {"host", "title_id"}, {"host"}, set()),
        ):
            found = Templates.parse(f"# link https://no.example/{{no}}\nrule\nlink {template}\n".encode())
            self.expect(template, found, Templates(frozenset(names), frozenset(hosts), frozenset(fixed)))

    def test_rows(self) -> None:
        """Rows by host, in one column or two, and in columns whose cells are hosts; of a code file in each column."""
        parts = [
            Table(
                ("publication_title", "a", "b"), [["T", "http://one/x", "http://one/y"], ["U", "none", "http://two"]]
            ),
            Table(("publication_title", "b"), [["V", "http://one?x"], ["W"]]),
        ]
        both, host = Templates(frozenset({"a", "b"}), frozenset(), frozenset()), frozenset({"a"})
        for name, templates, wanted in (
            ("two columns", both, {"one": 2, "two": 1}),
            ("one", Templates(frozenset({"b"}), frozenset(), frozenset()), {"one": 2, "two": 1}),
            ("a code file", link_hosts.OF_CODE, {"one": 2, "two": 1}),
            ("none", Templates(frozenset(), frozenset(), frozenset()), {}),
        ):
            found = link_hosts.links_of(parts, templates)
            self.expect(name, (dict(found.hosts), found.rows), (wanted, 4))
        found = link_hosts.links_of([Table(("a",), [["one.org"], ["Two.org/x"]])], Templates(host, host, frozenset()))
        self.expect("hosts", dict(found.hosts), {"one.org": 1, "two.org": 1})
        same = [Table(("a", "b"), [[f"http://one/{at}", "http://two"] for at in range(3)])] * 2
        self.expect("in most rows of all parts", link_hosts.links_of(same, both).most_common, ("http://two", 6))
        few = [Table(("a",), [["http://one"], [""], [""], ["none"], ["none"]])]
        self.expect("cells without an address", link_hosts.links_of(few, both).most_common, ("http://one", 1))
        twice = [Table(("a", "a"), [["http://one/x", "http://two"]])]
        found = link_hosts.links_of(twice, both)
        self.expect(
            "two columns of one name", (dict(found.hosts), found.most_common), ({"one": 1}, ("http://one/x", 1))
        )
        titles = link_hosts.first_titles(parts, both, {"one", "two"})
        self.expect("titles", titles, {"one": "T", "two": "U"})

    def test_work(self) -> None:
        """A host is cut out of an address once for each authority, not for each row."""
        rows = [[f"https://press.example.com/{number}"] for number in range(1000)]
        with mock.patch.object(link_hosts, "_host", side_effect=link_hosts._host) as calls:
            link_hosts.links_of([Table(("a",), rows)], link_hosts.OF_CODE)
        self.expect("calls", calls.call_count, 1)
