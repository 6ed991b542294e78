"""Lines of targets.tsv that name rules that ship, and the library's own in their place."""
from __future__ import annotations

import os
from pathlib import Path

from fixtures import needs
from fixtures.cases import Case
from fixtures.made_titles import issn
from fixtures.made_versions import Weeks
from fixtures.made_versions import table
from openlink_update import input_files
from openlink_update import places
from openlink_update.rules import pages
from openlink_update.rules import shipped
from openlink_update.tables.table import Table
from openlink_update.versions import target_list

ROWS = table(("A", issn(1), "", "1990", "", "https://press.example.com/a", "t1"))
OWN = "rule\nlink https://own.example.org/{print_identifier}\n"
QUERY = f"rft.issn={issn(1)}"


class ShippedCopy:
    """Another folder of rules that ship, while it is open."""

    def __init__(self, folder: str) -> None:
        self.folder = Path(folder)

    def __enter__(self) -> ShippedCopy:
        self.folder.mkdir()
        self._before, shipped.PROVIDERS = shipped.PROVIDERS, self.folder
        return self

    def __exit__(self, *_: object) -> None:
        shipped.PROVIDERS = self._before


def line(weeks: Weeks, rules: str) -> None:
    weeks.write("press.txt", ROWS)
    weeks.write("targets.tsv", f"press\t{rules}\tpress.txt\n".encode())


@needs.program()
class Lines(Case):
    def test_taken(self) -> None:
        """The rules that ship, then the library's own, then those that ship again; and better ones with an upgrade."""
        with Weeks() as weeks, ShippedCopy(weeks.path("shipped")):
            (Path(weeks.folder) / "shipped/press-x.rules").write_text("rule\nlink https://one.example.org/\n")
            line(weeks, "provider:press-x")
            self.expect(
                "new",
                (weeks.make()[0], weeks.menu(QUERY)),
                ("press: new, 1 row", {"press": "https://one.example.org/"}),
            )
            (Path(weeks.folder) / "shipped/press-x.rules").write_text("rule\nlink https://two.example.org/\n")
            self.expect(
                "an upgrade",
                (weeks.make(), weeks.menu(QUERY)),
                (["press: rules changed"], {"press": "https://two.example.org/"}),
            )
            os.mkdir(weeks.path("input", "providers"))
            weeks.write("providers/press-x.rules", OWN.encode())
            self.expect(
                "her own",
                (weeks.make(), weeks.menu(QUERY)),
                (["press: rules changed"], {"press": f"https://own.example.org/{issn(1)}"}),
            )
            os.remove(weeks.path("input", "providers", "press-x.rules"))
            self.expect(
                "again",
                (weeks.make(), weeks.menu(QUERY)),
                (["press: rules changed"], {"press": "https://two.example.org/"}),
            )

    def test_links(self) -> None:
        """Her own is opened by the one door: a link, a pipe or a folder keeps the target's old rules."""
        for name, make in (
            ("a link", lambda path: os.symlink("/etc/passwd", path)),
            ("a link that leads to the shipped ones", lambda path: os.symlink(places.PROVIDERS / "doi.rules", path)),
            ("a pipe", os.mkfifo),
            ("a folder", os.mkdir),
        ):
            with Weeks() as weeks:
                line(weeks, "provider:doi")
                weeks.make()
                before = weeks.read("received/press.rules")
                os.mkdir(weeks.path("input", "providers"))
                make(weeks.path("input", "providers", "doi.rules"))
                said = weeks.make()
                self.expect(f"{name}: kept", said[0], "press: kept its old rules and table")
                self.expect(f"{name}: why", "providers/doi.rules" in said[1])
                self.expect(f"{name}: the rules", weeks.read("received/press.rules"), before)

    def test_unknown(self) -> None:
        """A line for a name that none have: it says which are like it, or where to look."""
        for name, hint in (
            ("wily", "did you mean provider:wiley"),
            ("elsvier", "did you mean provider:elsevier"),
            ("qqqqqqqq", f"{places.PROVIDERS} has those that ship"),
            ("../../etc/passwd", f"{places.PROVIDERS} has those that ship"),
            ("", f"{places.PROVIDERS} has those that ship"),
            ("WILEY", None),
            ("x" * 5000, None),
        ):
            with Weeks() as weeks:
                line(weeks, f"provider:{name}")
                said = weeks.make()
                self.expect(f"{name[:20]}: left out", said[0], "press: left out, since it has no old files")
                place = f"  {weeks.path('input', 'targets.tsv')}: line 1: no rules are provider:{name[:64]}: "
                self.expect(f"{name[:20]}: why", (said[1].startswith(place), len(said[1]) < 500), (True, True))
                if hint is not None:
                    self.expect(f"{name[:20]}: the hint", said[1].removeprefix(place), hint)

    def test_names(self) -> None:
        """How long a name may be, and how many are offered in place of a wrong one."""
        with Weeks() as weeks, ShippedCopy(weeks.path("shipped")):
            for name in ("a" * 64, "a" * 65, "press-a", "press-b", "press-c", "press-d"):
                (Path(weeks.folder) / f"shipped/{name}.rules").write_text(OWN)
            folder = input_files.InputFolder(weeks.path("input"))
            self.expect("64 characters", shipped.fault_of("a" * 64, folder), "")
            self.expect("65 characters", bool(shipped.fault_of("a" * 65, folder)))
            like = shipped.fault_of("press", folder).partition(": did you mean ")[2].split(" or ")
            self.expect("three", (len(like), {it[:-1] for it in like}), (3, {"provider:press-"}))

    def test_groups(self) -> None:
        """What the heads of rules say of groups: of those that ship, of her own, and of none that cannot be read."""
        with Weeks() as weeks:
            weeks.write("own.rules", f"# group: Mine\n{OWN}".encode())
            weeks.write("code.olk", b"# group: No\n")
            lines = ("a\tprovider:wiley\tp.txt", "b\town.rules\tp.txt", "c\tnone.rules\tp.txt", "d\tcode.olk\tp.txt",
                     "e\tprovider:nobody\tp.txt")
            weeks.write("targets.tsv", "".join(f"{it}\n" for it in lines).encode())
            targets = target_list.read(input_files.InputFolder(weeks.path("input")))
            self.expect("groups", target_list.groups_of(targets), {"a": "Full text", "b": "Mine"})

    def test_all(self) -> None:
        """Each of the rules that ship can be named."""
        names = sorted(path.stem for path in places.PROVIDERS.iterdir())
        with Weeks() as weeks:
            weeks.write("press.txt", ROWS)
            weeks.write("targets.tsv", "".join(f"t-{it}\tprovider:{it}\tpress.txt\n" for it in names).encode())
            weeks.make()
            self.expect("all of them", [it.removeprefix("t-") for it in weeks.maker.names], names)
            self.expect("none is left out", weeks.maker.left_out, [])

    def test_pages(self) -> None:
        """A column that only the update may write is refused, and a table whose rules do not name it has none."""
        with Weeks() as weeks:
            weeks.week("press", ROWS, rules=OWN)
            self.expect("none", "title_page" in weeks.rows("press")[0], False)
            weeks.week("press", ROWS, rules="rule\nlink {+title_page}\n")
            header, rows = weeks.rows("press")
            self.expect("the page", rows[0][header.index("title_page")], "https://press.example.com/a")
            brought = ROWS.replace(b"title_id", b"title_page")
            wanted = ["it has a column title_page, which only the update may write"]
            self.expect("brought", weeks.week("press", brought, rules="rule\nlink {+title_page}\n"), wanted)

    def test_addresses(self) -> None:
        """The column has only web addresses, and is never empty; the judge of hosts knows where it leads."""
        pairs = {
            "https://a.example/1": "https://a.example/1",
            " HTTP://b.example/2 ": "HTTP://b.example/2",
            "": "none:",
            "https://c.example": "https://c.example/",
            "https://c.example#d": "https://c.example/#d",
            "https://.c.example/": "none:",
            "https://d.example:8443?a=b#c": "https://d.example:8443/?a=b#c",
            "https://d.example:65535/": "https://d.example:65535/",
            "https://d.example:655350/": "none:",
            "javascript:alert(1)": "none:",
            "none:": "none:",
            "https://": "none:",
            "https:///e": "none:",
            "https://e.example@f.example/": "none:",
            "https://e.example\\@f.example/": "none:",
            "https://é.example/": "none:",
            "https://e.example/a b": "none:",
        }
        cells = list(pairs)
        rows = [(f"T{at}", issn(at + 1), "", "1990", "", text, f"t{at}") for at, text in enumerate(cells)]
        rules = "rule\nlink {+title_page}\n"
        with Weeks() as weeks:
            weeks.week("press", table(*rows), "title_url not a web link", rules=rules)
            header, served = weeks.rows("press")
            found = [row[header.index("title_page")] for row in served]
            self.expect("the cells", found, list(pairs.values()))
            evil = [(*row[:5], row[5].replace("a.example", "evil.example"), row[6]) for row in rows]
            reason = weeks.week("press", table(*evil), "title_url not a web link", rules=rules)
            self.expect("a new host", reason[0].startswith("new host evil.example in 1 of 17 rows"))

    def test_names_of_the_column(self) -> None:
        """A name that only has the column's within it is another."""
        for text, wanted in (
            ("link {+title_page}", True),
            ('when title_page is "none:"', True),
            ("link {title_page,x.title_page}", True),
            ("link {x.title_page}", False),
            ("link {title_page.x}", False),
            ("link {title_pages}", False),
            ("link {my_title_page}", False),
            ("link {%74title_page}", False),
        ):
            self.expect(text, pages.are_named(f"rule\n{text}\n".encode()), wanted)

    def test_rows_of_other_lengths(self) -> None:
        """The column comes after those of the header, also in a row that is shorter or longer than it."""
        address = "https://a.example/1"
        for name, row, wanted in (
            ("short", ["T"], ["T", "", "none:"]),
            ("long", ["T", address, "more"], ["T", address, address, "more"]),
        ):
            self.expect(name, pages.added(Table(("publication_title", "title_url"), [row])).rows, [wanted])
