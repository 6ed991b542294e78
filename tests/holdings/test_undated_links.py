"""Rules without a link for a title alone: the mail says so, and the index has the addresses of their rows, on hosts
that the judge of hosts accepts."""
from __future__ import annotations

import os
import re
import tempfile
from pathlib import Path

from fixtures import needs
from fixtures.cases import Case
from fixtures.made_titles import issn
from fixtures.made_versions import DAY
from fixtures.made_versions import Weeks
from fixtures.made_versions import table
from openlink_update.index.title_addresses import Offer
from openlink_update.index.title_addresses import Proxy
from openlink_update.outcome import Refused
from openlink_update.tables import link_hosts
from openlink_update.tables.table import Table
from openlink_update.versions import making
from openlink_update.versions import undated_links
from openlink_update.versions.program import Program

DATED = "rule\nwhen x.to from coverage_from to *\nlink https://press.example.com/{title_id}\n"
LAST = "\nrule\nwhen lacks rft.date\nlink https://press.example.com/{title_id}\n"
BOOKS = '\nrule\nwhen publication_type is "monograph"\nlink https://press.example.com/{title_id}\n'
TITLE = (
    '\nrule\nwhen rft_val_fmt is "info:ofi/fmt:kev:mtx:journal"\nwhen given rft.jtitle\nwhen given x.issn\n'
    'when rft.genre is "journal"\nlink https://e.org/{rft.jtitle}\n'
)
PROXY = "rule\nwhen has x.to\nlink https://proxy.example.org/login?qurl={title_url}\n"
SAID = 'no link without a date for journals, such as "Title 0"'
BOOKS_SAID = 'no link without a date for books, such as "Book 0"'
HOSTS = "hosts of its links, which are allowed from now on: press.example.com"


def rows(count: int, host: str = "press.example.com") -> list[tuple[str, ...]]:
    return [(f"Title {at}", issn(at), "", "1990", "", f"https://{host}/{at}", f"t{at}") for at in range(count)]


def books(count: int) -> list[tuple[str, ...]]:
    return [
        (
            f"Book {at}",
            f"97812345600{at:02d}",
            "",
            "",
            "",
            f"https://press.example.com/b{at}",
            f"b{at}",
            "",
            "",
            "monograph",
        )
        for at in range(count)
    ]


def addresses(weeks: Weeks) -> dict[str, str]:
    """The addresses in the index of the newest version, by title."""
    weeks.maker.make_index(True)
    text = "".join(path.read_text() for path in Path(weeks.version, "index", "keys").iterdir())
    return dict(re.findall(r"^[\d-]+X?\t[jb]\t([^\t]+)\t[^\t]+\t[^\t]+\t@press ([^\t\n]+)$", text, re.M))


@needs.program()
class Undated(Case):
    def test_rules(self) -> None:
        """What is said of rules, and which addresses are in the index."""
        mixed = table(*rows(2), *books(2))
        journals = {f"Title {at}": f"https://press.example.com/{at}" for at in range(2)}
        every = {**journals, **{f"Book {at}": f"https://press.example.com/b{at}" for at in range(2)}}
        for name, rules, said, wanted in (
            ("for a date alone", DATED, [SAID, BOOKS_SAID], every),
            ("for books too", DATED + BOOKS, [SAID], journals),
            ("with a last rule", DATED + LAST, [], {}),
            ("by what the front door adds", DATED + TITLE, [BOOKS_SAID], {it: every[it] for it in every if "B" in it}),
            ("with a link that is not of the web", DATED + LAST.replace("https", "none"), [SAID, BOOKS_SAID], every),
        ):
            with Weeks() as weeks:
                weeks.deliver("press", mixed, rules=rules)
                lines = [line.removeprefix("press: ") for line in weeks.make() if "without a date" in line]
                self.expect(f"rules {name}: said", lines, said)
                self.expect(f"rules {name}: addresses", addresses(weeks), wanted)

    def test_weeks(self) -> None:
        """It is said once, and again with new files; a run for walls keeps what is known."""
        with Weeks() as weeks:
            weeks.deliver("press", table(*rows(40)), rules=DATED)
            self.expect("new", weeks.make()[1:], [f"press: {HOSTS} (40 rows)", f"press: {SAID}"])
            self.expect("not again", weeks.make(), [])
            self.expect("a run for walls", (weeks.make(walls=True), len(addresses(weeks))), ([], 40))
            self.expect("after it", (weeks.make(), weeks.read("undated.tsv")), ([], b"press\tj\n"))
            weeks.deliver("press", table(*rows(41)), rules=DATED)
            self.expect("a new table", weeks.make()[-1], f"press: {SAID}")
            weeks.deliver("press", table(*rows(41)), rules=DATED + LAST)
            self.expect("a last rule", (weeks.make(), addresses(weeks)), (["press: rules changed"], {}))
            self.expect("nothing is known of it", weeks.read("undated.tsv"), b"")

    def test_same_versions(self) -> None:
        """A version in which this alone is another is not the same."""
        with Weeks() as weeks:
            weeks.deliver("press", table(*rows(4)), rules=DATED)
            weeks.make()
            first = weeks.version
            weeks.make()
            self.expect("the same", making.is_same(weeks.version, first))
            Path(first, "undated.tsv").write_text("")
            self.expect("another", making.is_same(weeks.version, first), False)

    def test_upgrade(self) -> None:
        """The first run that asks says it, and which hosts readers can get from now on."""
        with Weeks() as weeks:
            weeks.deliver("press", table(*rows(40)), rules=DATED)
            weeks.make()
            for name in "undated.tsv", "hosts.tsv":
                Path(weeks.version, name).unlink()
            Path(weeks.version, "hosts.tsv").write_text("press\t\t2026-11-01\n")
            self.expect("said", weeks.make(), [f"press: {HOSTS} (40 rows)", f"press: {SAID}"])
            self.expect("remembered", b"press.example.com" in weeks.read("hosts.tsv"))
            self.expect("in the index", len(addresses(weeks)), 40)

    def test_hosts(self) -> None:
        """An address on a host that nobody has allowed keeps the table out, and is not in the index."""
        with Weeks() as weeks:
            weeks.week("press", table(*rows(40)), rules=DATED)
            evil = table(*rows(40, "evil.example"))
            reason = 'new host evil.example in 40 of 40 rows, first "Title 0"; to allow it: hosts +evil.example'
            self.expect("another host", weeks.week("press", evil, rules=DATED), [reason])
            self.expect(
                "the old addresses", {it.split("/")[2] for it in addresses(weeks).values()}, {"press.example.com"}
            )
            self.expect("allowed", weeks.week("press", evil, "hosts +evil.example", rules=DATED), [])
            self.expect("the new addresses", {it.split("/")[2] for it in addresses(weeks).values()}, {"evil.example"})

    def test_proxy(self) -> None:
        """An address is behind the proxy that the rules have."""
        with Weeks() as weeks:
            weeks.week("press", table(*rows(2)), rules=PROXY)
            wanted = "https://proxy.example.org/login?qurl=https%3A%2F%2Fpress.example.com%2F1"
            self.expect("in the index", addresses(weeks)["Title 1"], wanted)
            weeks.week(
                "press", table(*rows(2)), rules=PROXY + PROXY.replace("proxy.", "other.").replace("has", "given")
            )
            self.expect("two of them", addresses(weeks), {})


class Rows(Case):
    """Which rows are tried."""

    def test_rows(self) -> None:
        """400, evenly spread: of 401 every second one."""
        for count, wanted in ((400, 2), (401, 1)):
            every = rows(400) + rows(1) * (count - 400)
            other = ("Title", issn(1), issn(2), "1990", "", "", "t")
            found = undated_links._rows_to_try(Table.parse(table(*every[:399], other, *every[400:])), "j")
            self.expect(f"kinds of {count} rows", len(found), wanted)

    def test_tried(self) -> None:
        """Twelve of different kinds."""
        for count in (12, 13):
            every = [(f"Title {at}", issn(at), "", "1990", "", "", "t", "", f"depth {at}") for at in range(count)]
            self.expect(f"{count} kinds", len(undated_links._rows_to_try(Table.parse(table(*every)), "j")), 12)

    def test_rows_that_are_refused(self) -> None:
        """That the program refuses them is no lack of a link: it is said of the whole table."""

        class Refusing(Program):
            def run(self, *words: str, most: int = 0) -> tuple[int, str]:
                raise Refused(["table: TooLong at row 2"])

        with tempfile.TemporaryDirectory() as folder:
            Path(folder, "received").mkdir()
            Path(folder, "received/press.rules").write_text(DATED, encoding="utf-8")
            undated = undated_links.UndatedLinks(Path(folder), None, Refusing("none", folder), DAY)
            undated.find("press", Table.parse(table(*rows(2))), True)
            self.expect("what is known", (undated.kinds("press"), undated.lines("press", True)), ("", []))
            self.expect("what is left", os.listdir(folder), ["received"])

    def test_both_kinds(self) -> None:
        """What the version before knows of a target stays if its files do."""
        with tempfile.TemporaryDirectory() as folder:
            text = "press\tj\npress\tb\nother\tb\n"
            Path(folder, "undated.tsv").write_text(text, encoding="utf-8")
            undated = undated_links.UndatedLinks(Path(folder), Path(folder), Program("none", folder), DAY)
            undated.keep_all()
            kinds = [undated.kinds(name) for name in ("press", "other", "none")]
            self.expect("kinds", (kinds, undated.text(["press", "other", "none"])), (["jb", "b", ""], text))
            self.expect("nothing is new", [undated.lines(name, False) for name in ("press", "other")], [[], []])

    def test_characters(self) -> None:
        for count, wanted in ((100, "a" * 100), (101, "a" * 100 + "..")):
            undated = undated_links.UndatedLinks(Path("."), None, Program("none", "."), DAY)
            undated._now["press"], undated._titles["press"] = "j", ["a" * count]
            line = f'no link without a date for journals, such as "{wanted}"'
            self.expect(f"{count} characters", undated.lines("press", True), [line])


class Addresses(Case):
    def test_offers(self) -> None:
        hosts = frozenset({"press.example.com", "press.example.com:8443"})
        offer = Offer("j", hosts)
        page = "https://press.example.com/a?b=1#c"
        for name, cell, wanted in (
            ("an address", page, page),
            ("spaces around it", f" {page} ", page),
            ("capitals", "https://PRESS.example.com/", "https://PRESS.example.com/"),
            ("a port", "https://press.example.com:8443", "https://press.example.com:8443"),
            ("without TLS", "http://press.example.com/", ""),
            ("another host", "https://evil.example/", ""),
            ("a longer host", "https://press.example.com.evil.example/", ""),
            ("another port", "https://press.example.com:99/", ""),
            ("a user", "https://press.example.com@evil.example/", ""),
            ("a user of an allowed host", "https://evil@press.example.com/", ""),
            ("a backslash", "https://evil.example\\press.example.com/", ""),
            ("more slashes", "https:///press.example.com/", ""),
            ("a tab", "https://press.example.com/a\tb", ""),
            ("a letter that is not ASCII", "https://press.example.com/é", ""),
            ("a script", "javascript:alert(1)//https://press.example.com/", ""),
            ("nothing", "", ""),
        ):
            self.expect(name, offer.address("j", cell), wanted)
        self.expect("of another kind", offer.address("b", page), "")
        self.expect("of a proxy that is not known", Offer("j", hosts, None).address("j", page), "")
        before = "https://proxy.example.org/login?url="
        self.expect("behind a proxy", Offer("j", hosts, Proxy(before)).address("j", page), before + page)

    def test_length(self) -> None:
        """500 characters, with those of a proxy."""
        offer, host = Offer("j", frozenset({"e.org"})), "https://e.org/"
        for count, wanted in ((500, 500), (501, 0)):
            self.expect(f"{count} characters", len(offer.address("j", host.ljust(count, "a"))), wanted)
        proxy = Offer("j", frozenset({"e.org"}), Proxy("https://p.org/?u="))
        for count, wanted in ((500, 500), (501, 0)):
            address = host.ljust(count - len("https://p.org/?u="), "a")
            self.expect(f"{count} characters behind a proxy", len(proxy.address("j", address)), wanted)

    def test_texts_before_addresses(self) -> None:
        for template, wanted in (
            ("https://p.org/login?qurl={title_url}", {("https://p.org/login?qurl=", True)}),
            ("https://p.org/login?url={+title_url}", {("https://p.org/login?url=", False)}),
            ("https://p.org/login?url=https://e.org/{title_id}", {("https://p.org/login?url=", False)}),
            ("https://p.org/login?qurl=https%3A%2F%2Fe.org%2F{title_id}", {("https://p.org/login?qurl=", True)}),
            ("http://p.org/r/e.org?url=http%3a%2f%2Fe.org", {("http://p.org/r/e.org?url=", True)}),
            ("https://e.org/{title_id}", set()),
            ("https://e.org/?id={title_id}&u={title_url}", set()),
            ("{+title_url}", set()),
        ):
            found = link_hosts.texts_before_addresses(f"rule\nlink {template}\n".encode())
            self.expect(template, found, wanted)
