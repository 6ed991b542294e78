"""What counts as a slip in single cells and rules, and how the lines of slips are written."""
from __future__ import annotations

import datetime

from fixtures.cases import Case
from fixtures.made_titles import issn
from fixtures.made_versions import table
from openlink_update.slips import guards
from openlink_update.slips import kinds
from openlink_update.slips import odd_cells
from openlink_update.slips import slip_judge

from openlink_update.slips.material import Material
from openlink_update.slips.material import Pair
from openlink_update.slips.other_titles import OtherTitles
from openlink_update.tables import preparation
from openlink_update.tables.check_digits import is_wrong
from openlink_update.tables.check_digits import wrong_places
from openlink_update.tables.table import Table

DAY = datetime.date(2026, 11, 27)
HEADER = ("publication_title", "print_identifier", "title_url", "coverage_depth", "notes", "title_id")
FIND = {kind.words: kind.find for kind in kinds.KINDS}
SESSIONS, PROXIES = "session identifiers in addresses", "the proxy of another library in addresses"
TEXTS, NO_ROW = "new texts that rules do not compare with", "rules that hold on no row"
DAMAGED, OTHERS = "damaged letters in titles", "numbers known under other titles"
EMBARGOES, COVERAGE = "embargoes in notes", "coverage in notes"
ABSTRACTS = "abstracts alone"
CAPITALS = "titles in capitals"
VOLUMES = tuple(f"num_{end}_{part}_online" for part in ("vol", "issue") for end in ("first", "last"))


def material(*rows: tuple[str, ...], rules: str = "rule\nlink {+title_url}\n", proxy: str = "") -> Material:
    prepared = preparation.prepare([("file", table(*rows, header=HEADER))])
    return Material(prepared.table, prepared.dropped, prepared.reversed, prepared.count, rules.encode(), proxy, "")


def count_of(words: str, now: Material, before: Material | None = None, others: dict[str, str] | None = None) -> int:
    found = FIND[words](Pair(now, before, DAY, lambda numbers: others or {}))
    return found.count if found else 0


class Journals(Case):
    def test_journals(self) -> None:
        """Rows with an ISSN, unless they are said to be of books, however that is written."""
        header = ("publication_title", "print_identifier", "publication_type")
        for number, kind, wanted in (
            (issn(1), "serial", True),
            (issn(1), "", True),
            (issn(1), "monograph", False),
            (issn(1), "Monograph", False),
            ("9780306406157", "", False),
        ):
            prepared = preparation.prepare([("file", table(("Tides", number, kind), header=header))])
            now = Material(prepared.table, prepared.dropped, prepared.reversed, prepared.count, b"", "", "")
            self.expect(f"{number} {kind}", now.is_journal(0), wanted)


class Cells(Case):
    """One cell at a time."""

    def test_check_digits(self) -> None:
        """Numbers of real titles, and the same with another digit; other texts have no check digit."""
        right = (
            "0028-0836",
            "2434-561X",
            "2434561x",
            "9780306406157",
            "978-0-306-40615-7",
            "0-306-40615-2",
            "080442957X",
        )
        wrong = (
            "0028-0837",
            "2434-5611",
            "9780306406158",
            "978-0-306-40615-8",
            "0-306-40615-3",
            "0804429570",
            "8020-0836",
            "00280837",
            " 0028-0837",
        )
        others = ("", "ANY", "12", "soon", "1234567890123", "２８００-0836", "0028", "-0836", "0028-083")
        for texts, is_slip in ((right, False), (wrong, True), (others, False)):
            for text in texts:
                self.expect(text, is_wrong(text), is_slip)
        cells = [text for texts in zip(right, wrong, others) for text in texts]
        self.expect("in a column", wrong_places(cells), list(range(1, len(cells), 3)))

    def test_titles_of_others(self) -> None:
        """Of two titles of a number the first counts; rows may be short, and ANY is no number."""
        header = ("print_identifier", "publication_title", "online_identifier")
        first = Table(
            header, [["0028-0836", "A", "2434-561X"], ["", "B", "0028-0836"], ["0028-0836", "C"], ["any", "D"]]
        )
        second = Table(header[:2], [["2434-561X", "E"], ["0317-8471"], []])
        others = OtherTitles(lambda: [first, second])
        wanted = {"0028-0836": "A", "2434-561X": "A", "0317-8471": ""}
        self.expect(
            "the titles", others.of(["0028-0836", "2434-561X", "0317-8471", "any", "C", "", "1050-124X"]), wanted
        )
        others.add(Table(("print_identifier",), [["1050-124X"]]))
        self.expect("a table without titles", others.of(["1050-124X"]), {})

    def test_all_check_digits(self) -> None:
        """Of eleven last digits one fits, which makes the weighted sum a multiple of 11."""
        for number in range(0, 10_000_000, 9973):
            digits = f"{number:07}"
            total = sum(int(digit) * weight for digit, weight in zip(digits, range(8, 1, -1)))
            cells = [f"{digits[:4]}-{digits[4:]}{last}" for last in "0123456789X"]
            fits = [place for place in range(11) if (total + place) % 11 == 0]
            self.expect(digits, [place for place in range(11) if place not in wrong_places(cells)], fits)

    def test_days(self) -> None:
        """Days after that of the run; a month or a year begins with its first day."""
        header = ("publication_title", "print_identifier", "date_first_issue_online")
        for date, is_slip in (
            ("2026-11-27", False),
            ("2026-11-28", True),
            ("2026-11", False),
            ("2026-12", True),
            ("2026", False),
            ("2027", True),
            ("soon", False),
            ("9998-01-01", True),
        ):
            now = Material(Table(header, [["T", "0028-0836", date]]), [], [], 1, None, "", "")
            self.expect(date, count_of("first dates after today", now), int(is_slip))

    def test_titles_of_the_version_before(self) -> None:
        """If it knows half of the numbers, the tables of the other targets are not asked for the rest."""
        titles = [(f"Tidal Currents {at}", issn(at), f"https://a.org/{at}") for at in range(10)]
        others = {issn(at): "Harbour Works" for at in range(5, 10)}
        for count, wanted in ((4, 5), (5, 0)):
            found = count_of(OTHERS, material(*titles), material(*titles[:count]), others)
            self.expect(f"{count} of 10", found, wanted)

    def test_sessions(self) -> None:
        for text, is_slip in (
            ("https://a.org/t;jsessionid=8A1F0C2D99", True),
            ("https://a.org/t.do;JSESSIONID=8A1F0C2D99?id=1", True),
            ("https://a.org/t?PHPSESSID=abcdef0123", True),
            ("https://a.org/t?id=1&session_id=abcdef0123", True),
            ("https://a.org/t?id=1&session-id=abcdef", True),
            ("https://a.org/t?id=1&session-id=abcde", False),
            ("https://a.org/t?ASPSESSIONIDAQQRS=abcdef0123", True),
            ("https://a.org/cf?CFID=1&CFTOKEN=12345678", True),
            ("https://a.org/(S(abcdefghijklmnopqrstuvwx))/t", True),
            ("https://a.org/t?sid=3b8a9c1e-7f20-4d1b-9a55-0c1d2e3f4a5b", True),
            ("https://a.org/(S(abcdefghijklmnopqrst))/t", True),
            ("https://a.org/(S(abcdefghijklmnopqrs))/t", False),
            ("https://a.org/t?sid=0123456789abcdef0123", True),
            ("https://a.org/t?sid=0123456789abcdef012", False),
            ("https://a.org/t?sid=google", False),
            ("https://a.org/sessions/1", False),
            ("https://a.org/t?session=spring", False),
            ("https://a.org/t?sid=info:sid/press.example.com:journals", False),
            ("sessionid=abcdef0123", False),
        ):
            self.expect(text, count_of(SESSIONS, material(("T", "0028-0836", text))), int(is_slip))

    def test_two_addresses_of_a_row(self) -> None:
        """The address of the title's page is the example, and the row counts once."""
        page, other = (f"https://{host}.org/t?PHPSESSID=abcdef0123" for host in "ab")
        now = material(("T", "0028-0836", page, "", "", other), rules="rule\nlink {+title_url}{title_id}\n")
        found = FIND[SESSIONS](Pair(now, None, DAY, lambda numbers: {}))
        self.expect("the row", found and (found.count, found.rows, found.example), (1, 1, page))
        rows = ("T", "0028-0836", "https://a.org/1", "", "", other), ("U", "2434-561X", page)
        found = FIND[SESSIONS](Pair(material(*rows, rules="rule\nlink {+title_url}{title_id}\n"), None, DAY, dict))
        self.expect("the first of two rows", found and (found.count, found.example), (2, other))
        now.forget()
        self.expect("its columns are forgotten", (now._columns, now._small_texts), ({}, {}))

    def test_proxies(self) -> None:
        """Proxies of others in each of the usual forms, and addresses that only look like them."""
        for text, is_slip in (
            ("https://ezproxy.lib.example.edu/login?url=https://a.org/1", True),
            ("https://login.ezproxy.example.edu/login?qurl=https%3A%2F%2Fa.org%2F1", True),
            ("https://www-a-org.ezproxy.example.edu/1", True),
            ("https://WWW-A-ORG.EZPROXY.EXAMPLE.EDU/1", True),
            ("https://www.a.org.libproxy.example.edu/1", True),
            ("https://example.idm.oclc.org/login?url=https://a.org/1", True),
            ("https://www-a-org.proxy.example.edu/1", True),
            ("https://proxy.example.edu/login?url=https://a.org/1", True),
            ("https://0-www.a.org.library.example.edu/1", True),
            ("https://go.openathens.net/redirector/example.edu?url=https%3A%2F%2Fa.org", True),
            ("https://access.example.edu/login?url=https://a.org/1", True),
            ("https://access.example.edu/login?url=https%3A%2F%2Fa.org%2F1", True),
            ("https://access.example.edu/login?target=https://a.org/1", True),
            ("https://access.example.edu/Login?URL=HTTPS://a.org/1", True),
            ("https://proxy.example.edu/login?target=https://a.org/1", True),
            ("https://www-a-org.proxy.openathens.net/1", True),
            ("https://www.2010-2020.org/find?url=https://a.org/1", False),
            ("https://reader@a.org/login?url=https://a.org/1", False),
            ("https://a.org/login?url=https://a.org/1", False),
            ("https://a.org/proxy-statements/1", False),
            ("https://a.org/find?url=https://b.org/1", False),
            ("https://proxy.press.example.com/1", False),
            ("https://a.org/?about=ezproxy", False),
        ):
            self.expect(text, count_of(PROXIES, material(("T", "0028-0836", text))), int(is_slip))

    def test_own_proxy(self) -> None:
        """A proxy that the rules or the line name is the library's own; of OpenAthens the path says whose it is."""
        own, other = "https://proxy.example.org/login?url=", "https://ezproxy.example.edu/login?url="
        athens = "https://go.openathens.net/redirector/{}?url="
        for name, address, rules, proxy, wanted in (
            ("rules", own, f"rule\nlink {own}{{+title_url}}\n", "", 0),
            ("a line", own, "rule\nlink {+title_url}\n", own, 0),
            ("in capitals", own.replace("proxy.example.org", "Proxy.Example.ORG"), "rule\nlink {+title_url}\n", own, 0),
            ("a link of the rules", other, "rule\nlink https://ezproxy.example.edu/menu/{title_id}\n", "", 0),
            ("neither", other, f"rule\nlink {own}{{+title_url}}\n", own, 1),
            ("its redirector", athens.format("example.org"), "", athens.format("example.org"), 0),
            ("the redirector of another", athens.format("example.edu"), "", athens.format("example.org"), 1),
        ):
            found = material(("T", "0028-0836", f"{address}https://a.org/1"), rules=rules, proxy=proxy)
            self.expect(name, count_of(PROXIES, found), wanted)

    def test_titles(self) -> None:
        for text, is_slip in (
            ("Ã‰tudes", True),
            ("PhilosophÃ¼", True),
            ("Caf\xc3\xa9", True),
            ("Women\u00e2\u20ac\u2122s Studies", True),
            ("Tides \ufffd Currents", True),
            ("Tides ï¿½ Currents", True),
            ("ÐœÐ¾Ñ€Ðµ", True),
            ("Études «À côté»", False),
            ("EDUCAÇÃO, NAÇÃO", False),
            ("Ärzteblatt für Öl", False),
            ("Журнал", False),
            ("学報", False),
            ("Ñandú y ñoquis", False),
        ):
            self.expect(text, count_of(DAMAGED, material((text, "0028-0836", "https://a.org/1"))), int(is_slip))

    def test_notes(self) -> None:
        """Notes of embargoes and of coverage, and others."""
        for text, embargoes, coverage in (
            ("Embargo: 12 months", 1, 0),
            ("12-month embargo", 1, 0),
            ("Moving wall of 3 years", 1, 0),
            ("Sperrfrist: 1 Jahr", 1, 0),
            ("embargo P1Y", 1, 0),
            ("Full text delayed one year", 1, 0),
            ("Sperrfrist von zwei Jahren", 1, 0),
            ("Embargo de 2 años", 1, 0),
            ("Barrière mobile : 2 ans", 1, 0),
            ("Barriere mobile : 2 ans", 1, 0),
            ("embargo R1Y", 1, 0),
            ("No fee. Embargo: 12 months", 1, 0),
            ("Keine Sperrfrist seit 3 Jahren", 0, 0),
            ("No delayed access for 12 months", 0, 0),
            ("No embargo", 0, 0),
            ("Ohne Embargo seit 2 Jahren", 0, 0),
            ("embargo lifted", 0, 0),
            ("Coverage: 1995-2003", 0, 1),
            ("1995 to present", 0, 1),
            ("1987 –", 0, 1),
            ("1450—1499", 0, 1),
            ("1995 bis 2003", 0, 1),
            ("1995 bis heute, nur mit dem Passwort der Bibliothek", 0, 1),
            ("1300-1399", 0, 0),
            ("Founded in 1995", 0, 0),
            ("ISSN 1995-2003x", 0, 0),
            ("", 0, 0),
        ):
            found = material(("T", "0028-0836", "https://a.org/1", "", text))
            self.expect(text, (count_of(EMBARGOES, found), count_of(COVERAGE, found)), (embargoes, coverage))

    def test_coverage_that_is_known(self) -> None:
        """Notes are not counted of books, and of journals with a date or a volume."""
        columns = ("date_first_issue_online", "date_last_issue_online", *VOLUMES)
        for number, column, wanted in (
            ("0028-0836", "", 1),
            ("9780306406157", "", 0),
            *(("0028-0836", column, 0) for column in columns),
        ):
            header = ("publication_title", "print_identifier", "notes", column)
            now = Material(Table(header, [["T", number, "1995-2003", "1995"]]), [], [], 1, b"", "", "")
            self.expect(f"{number} {column}", count_of(COVERAGE, now), wanted)

    def test_first_dates(self) -> None:
        """Of three journals none has one; of those whose embargo opens the last years none needs one."""
        header = ("publication_title", "print_identifier", "embargo_info", "date_first_issue_online")

        def of(width: int, count: int, embargo: str = "") -> Material:
            rows = [[f"T {at}", issn(at), embargo, ""][:width] for at in range(count)]
            return Material(Table(header[:width], rows), [], [], count, b"", "", "")

        for name, now, before, wanted in (
            ("three", of(4, 3), None, 3),
            ("two", of(4, 2), None, 0),
            ("the last years", of(4, 3, "R5Y"), None, 0),
            ("the last years, in small letters", of(4, 3, "r5y"), None, 0),
            ("all but the last years", of(4, 3, "P1Y"), None, 3),
            ("no column", of(3, 3), None, 0),
            ("no column, as before", of(3, 3), of(3, 3), 0),
            ("no column any more", of(3, 3), of(4, 3), 3),
        ):
            self.expect(name, count_of("no first date in any row", now, before), wanted)

    def test_first_volumes(self) -> None:
        """The example is of the first column that has no numbers."""
        rows = [["T", "0028-0836", "none", "some"]] * 3
        table = Table(("publication_title", "print_identifier", *VOLUMES[:2]), rows)
        now = Material(table, [], [], 3, b"", "", "")
        found = FIND["volumes or issues that are no number"](Pair(now, None, DAY, dict))
        self.expect("the rows", found and (found.count, found.example), (3, f"{VOLUMES[0]} none, T"))

    def test_abstracts(self) -> None:
        """They are named in any case, and are alone if no row has another text and no rule knows them."""
        known = 'rule\nwhen coverage_depth is "abstracts"\nlink {+title_url}\n'
        for texts, rules, wanted in (
            (("abstracts",) * 3, "rule\nlink {+title_url}\n", 3),
            (("Abstracts", "ABSTRACT", "abstract"), "rule\nlink {+title_url}\n", 3),
            (("Abstracts",) * 3, known, 0),
            (("Abstracts", "Abstracts", "Abstracts", "fulltext"), "rule\nlink {+title_url}\n", 0),
            (("Abstracts", "Abstracts", "Abstracts", ""), "rule\nlink {+title_url}\n", 3),
            (("Abstracts",) * 2, "rule\nlink {+title_url}\n", 0),
        ):
            now = material(*((f"T {at}", "0028-0836", "", text) for at, text in enumerate(texts)), rules=rules)
            self.expect(f"{texts}, {rules}", count_of(ABSTRACTS, now), wanted)

    def test_other_titles(self) -> None:
        """Titles that may be of one work, and others."""
        for title, other, is_other in (
            ("Tides", "Glaciers", True),
            ("The Lancet", "Lancet", False),
            ("J. Am. Chem. Soc.", "Journal of the American Chemical Society", False),
            ("Annals of Tidal Studies", "Tidal Studies (Online)", False),
            ("Études de la mer", "etudes de la MER", False),
            ("Annals of Tidal Studies", "Journal of Harbour Engineering", True),
            ("Coastal Erosion Management", "Coastal Birds Photography", True),
            ("学報", "Glaciers", False),
            ("Sea Ice", "Sun Ray", False),
            ("Tides", "", False),
            ("", "Tides", False),
        ):
            now = material((title, "0028-0836", "https://a.org/1"))
            before = material((other, "0028-0836", "https://a.org/1"))
            self.expect(f"{title}, {other}", count_of(OTHERS, now, before), int(is_other))
            self.expect(f"{title}, {other} elsewhere", count_of(OTHERS, now, None, {"0028-0836": other}), int(is_other))
        now, before = (
            material(*((title, number, "https://a.org/1") for title, number in zip(found, ("2434-561X", "0028-0836"))))
            for found in (("Tides", "Glaciers"), ("Piers", "Deltas"))
        )
        found = FIND[OTHERS](Pair(now, before, DAY, dict))
        self.expect("the first", found and found.example, "2434-561X, Tides, and Piers elsewhere")
        several = material(("Tides", "0028-0836", "https://a.org/1"), ("Glaciers", "0028-0836", "https://a.org/2"))
        self.expect("one of several", count_of(OTHERS, material(("Tides", "0028-0836", "https://a.org/1")), several), 0)


class Rows(Case):
    """Rows that are no titles."""

    def test_totals_and_footnotes(self) -> None:
        """How rows without a number begin, or an address of mail in them."""
        for text, is_slip in (
            ("Grand total", True),
            ("Totally Tides", False),
            ("Sum: 12", True),
            ("Summe 12", True),
            ("Summer Sports", False),
            ("Insgesamt 12", True),
            ("Number of titles: 12", True),
            ("12 journals", True),
            ("Titles: 12", True),
            ("Titles of Honour", False),
            ("© Press", True),
            ("(c) 2026 Press", True),
            ("Source: Press", True),
            ("Source of Light", False),
            ("Last updated 2026-11-01", True),
            ("Updated 2026-11-01", True),
            ("Stand: 1.11.2026", True),
            ("Standard Methods", False),
            ("* in print alone", True),
            ("Questions to help@press.example.com", True),
            ("Tides @ Piers", False),
            ("", False),
        ):
            now = Material(Table(HEADER, []), [["no identifier", text, "", ""]], [], 4, None, "", "")
            found = FIND["rows of a total or a footnote"](Pair(now, None, DAY, dict))
            wanted = (1, 4, text) if is_slip else None
            self.expect(text, found and (found.count, found.rows, found.example), wanted)

    def test_no_line_end(self) -> None:
        """In a first table a last line that lacks cells, and not one of a single cell; later, any."""
        for line, is_first, is_later in (("T\t0028", True, True), ("T\t0028\t", False, True), ("T", False, True)):
            now, ended = (
                Material(Table(HEADER[:3], [["T", "0028-0836", ""]]), [], [], 1, None, "", end) for end in (line, "")
            )
            for name, before, wanted in (("first", None, is_first), ("later", ended, is_later), ("again", now, False)):
                found = FIND["no line end after the last row"](Pair(now, before, DAY, dict))
                self.expect(f"{line!r}, {name}", found is not None, wanted)


class Rules(Case):
    """What the rules of a target show."""

    def test_guards(self) -> None:
        """The guards that cells decide, by how many rows of three each rule can hold on."""
        rows = material(
            ("A", "0028-0836", "https://a.org", "fulltext", 'of "Tides"', "a"),
            ("B", "2434-561X", "", "abstracts", "", "b"),
            ("C", "0-306-40615-2", "", "", "", ""),
        )
        for text, wanted in (
            ('when coverage_depth is "fulltext"', 1),
            ('when coverage_depth is "Full \\"text\\""', 0),
            ('when notes is "of \\"Tides\\""', 1),
            ("when given title_url", 1),
            ("when has title_id", 2),
            ("when lacks title_url", 2),
            ("when lacks coverage_depth\nwhen given title_id", 0),
            ("when title_id from 1 to *", 2),
            ('when rft.genre is "article"', 3),
            ("when given rft.issue", 3),
            ("when lacks embargo_info", 3),
            ('when rft_id holds "doi"', 3),
        ):
            file = f"# rule\nlist rft.x\nrule\n{text}\nlink https://a.org/{{title_id}}\n"
            for end in ("\n", "\r\n"):
                rules = guards.rules_of(file.replace("\n", end).encode())
                self.expect(f"{text}, {end!r}", guards.Forms(rules, HEADER, rows).count(rules), wanted)

    def test_texts(self) -> None:
        """Texts that rules do not know: by the version before, and in a first table by their spelling."""
        rules = 'rule\nwhen coverage_depth is "fulltext"\nlink https://a.org/{title_id}\n'

        def of(*texts: str) -> Material:
            return material(*((f"T {at}", "0028-0836", "", text) for at, text in enumerate(texts)), rules=rules)

        for name, now, before, wanted in (
            ("another spelling", of("fulltext", "Full Text"), of("fulltext", "fulltext"), 1),
            ("a word", of("Yes", "Yes"), of("fulltext", "fulltext"), 2),
            ("one of KBART's", of("fulltext", "abstracts"), of("fulltext", "fulltext"), 0),
            ("another of KBART's", of("fulltext", "selected articles"), of("fulltext", "fulltext"), 0),
            ("one that was there", of("fulltext", "Yes"), of("fulltext", "Yes"), 0),
            ("an empty cell", of("fulltext", ""), of("fulltext", "fulltext"), 0),
            ("a first table, another spelling", of("fulltext", "Full-Text"), None, 1),
            ("a first table, a word", of("fulltext", "Yes"), None, 0),
        ):
            self.expect(name, count_of(TEXTS, now, before), wanted)
        names = 'rule\nwhen title_id is "t1"\nlink https://a.org/{title_id}\n'

        def titles(first: int, last: int) -> Material:
            rows = ((f"T {at}", "0028-0836", "", "", "", f"t{at}") for at in range(first, last))
            return material(*rows, rules=names)

        self.expect("a column of names", count_of(TEXTS, titles(0, 90), titles(0, 80)), 0)
        again = material(*((f"T {at}", "0028-0836", "", "", "", f"T{at}") for at in range(60)), rules=names)
        self.expect("another spelling that was there", count_of(TEXTS, again, again), 0)

    def test_texts_of_the_standard(self) -> None:
        """KBART lists these texts of three columns, so no table is out of order that begins to have them."""
        for column, texts in (
            ("publication_type", ("serial", "monograph")),
            ("access_type", ("F", "P")),
            ("coverage_depth", ("fulltext", "selected articles", "abstracts")),
        ):
            rules = f'rule\nwhen {column} is "x"\nlink https://a.org/\n'.encode()
            for text, wanted in (*((it, 0) for it in texts), (f"{texts[0]}s", 1)):
                before, now = (
                    Material(Table(("publication_title", column), [["T", cell]]), [], [], 1, rules, "", "")
                    for cell in ("x", text)
                )
                self.expect(f"{column} {text}", count_of(TEXTS, now, before), wanted)

    def test_first_text(self) -> None:
        """The example is of the first row, whichever column has it."""
        rules = 'rule\nwhen coverage_depth is "fulltext"\nwhen notes is "free"\nlink https://a.org/\n'
        before = material(("A", "0028-0836", "", "fulltext", "free"), rules=rules)
        now = material(
            ("A", "0028-0836", "", "fulltext", "Free"), ("B", "2434-561X", "", "Full Text", "free"), rules=rules
        )
        found = FIND[TEXTS](Pair(now, before, DAY, dict))
        self.expect("the rows", found and (found.count, found.example), (2, "notes Free, A"))

    def test_no_row(self) -> None:
        """Rules that hold on no row: because of the table, because of a new rule, in a first table."""
        rules = (
            'rule\nwhen coverage_depth is "{}"\nlink https://a.org/{{title_id}}\n\n'
            "rule\nwhen given title_url\nlink {{+title_url}}\n"
        )

        def of(*texts: str, word: str = "fulltext", address: str = "") -> Material:
            rows = ((f"T {at}", "0028-0836", address, text) for at, text in enumerate(texts))
            return material(*rows, rules=rules.format(word))

        full = of("fulltext", "fulltext", "abstracts", address="https://a.org")
        for name, now, before, wanted in (
            ("all rows", of("Full", "Full", "abstracts"), full, 3),
            ("one of the rules", of("Full", "Full", "abstracts", address="https://a.org"), full, 2),
            ("none", full, full, 0),
            ("one that had none before", of("Full", address="https://a.org"), of("Full", address="https://a.org"), 0),
            ("a new rule", of("fulltext", "abstracts", word="Fulltext"), of("fulltext", "abstracts"), 2),
            (
                "a new rule beside one that has all rows",
                of("fulltext", word="Fulltext", address="https://a.org"),
                of("fulltext", address="https://a.org"),
                1,
            ),
            ("a first table with one", of("Full", address="https://a.org"), None, 0),
            ("a first table with none", of("Full", "Full"), None, 2),
        ):
            self.expect(name, count_of(NO_ROW, now, before), wanted)
        found = FIND[NO_ROW](Pair(of("Full"), full, DAY, dict))
        self.expect("of the rows before", found and (found.count, found.rows), (3, 3))
        other = material(
            ("T", "0028-0836", "https://a.org", "Full"), rules=rules.format("fulltext").replace("a.", "b.")
        )
        self.expect("a new link", count_of(NO_ROW, other, of("Full", address="https://a.org")), 1)


class Lines(Case):
    """Lines of slips, with texts that providers chose."""

    def test_hostile(self) -> None:
        """No text breaks out of its line, its cell or its quotation marks, and none is long."""
        judge = slip_judge.SlipJudge(None, DAY, OtherTitles(tuple))
        evil = 'T"; to allow it: hosts +evil.example\n\tpress\x1b[2J\u202e' + "x" * 5000
        prepared = preparation.prepare([("file", table(("A", "0028-0836"), header=HEADER))])
        rows = [[evil.replace("\n", " ").replace("\t", " "), "0028-0837", "", "", "", ""] for _ in range(9)]
        now = Material(Table(HEADER, rows), [], [], 9, prepared.table and b"rule\nlink https://a.org/\n", "", "")
        judge.find("press", now, None)
        reasons, lines = judge.reasons("press", (), {}), judge.lines("press")
        self.expect("a reason", len(reasons), 1)
        for line in (*reasons, *lines):
            self.expect("one line", all(char not in line for char in "\n\t\x1b\u202e"))
            self.expect("short", len(line) < 400)
            self.expect("two quotation marks", line.count('"'), 2)
        self.expect(
            "the end", reasons[0].endswith('.."; to allow it: check digits of print_identifier wrong up to 100%')
        )
        cells = [line.split("\t") for line in judge.text(["press"]).splitlines()]
        self.expect("cells", [len(line) for line in cells], [5])
        self.expect("of another target", judge.text(["other"]), "")

    def test_limits(self) -> None:
        """How many rows may be, by the words of the line: rows, a share rounded up, or neither."""
        words = "first dates after today"
        rows = [["T", "0028-0836"]] * 100
        header = ("publication_title", "print_identifier", "date_first_issue_online")
        for allowed, count, is_refused in (
            ((), 2, False),
            ((), 3, True),
            ((f"{words} up to 3",), 3, False),
            ((f"{words} up to 2",), 3, True),
            ((f"{words} up to 0",), 1, True),
            ((f"{words} up to 3%",), 3, False),
            ((f"{words} up to 3%",), 4, True),
            (("no first date in any row up to 9",), 3, True),
        ):
            judge = slip_judge.SlipJudge(None, DAY, OtherTitles(tuple))
            late = [[*row, "2030" if at < count else "1990"] for at, row in enumerate(rows)]
            judge.find("press", Material(Table(header, late), [], [], 100, None, "", ""), None)
            found = [reason for reason in judge.reasons("press", allowed, {}) if words in reason]
            self.expect(f"{allowed}, {count}", bool(found), is_refused)
        self.expect("a number that a version remembers", judge.reasons("press", (), {words: 3}), [])


class FirstTables(Case):
    """Tables of new targets."""

    def test_usual(self) -> None:
        """What a first table may be right with is allowed from then on, and said; other slips leave the target out."""
        header = ("publication_title", "print_identifier", "date_first_issue_online")
        for words, row, is_used in (
            ("no first date in any row", ["T", "0028-0836", ""], True),
            ("first dates after today", ["T", "0028-0836", "2030"], False),
        ):
            judge = slip_judge.SlipJudge(None, DAY, OtherTitles(tuple))
            judge.find("press", Material(Table(header, [row] * 9), [], [], 9, None, "", ""), None)
            self.expect(f"{words}: used", judge.reasons("press", (), {}) == [], is_used)
            said = [line.endswith(": allowed from now on") for line in judge.lines("press") if words in line]
            self.expect(f"{words}: said", said, [is_used])
            self.expect(f"{words}: remembered", f"press\t{words}\t9\t9\n" in judge.limits_text(["press"]), is_used)

    def test_kept(self) -> None:
        """What the table in use has is allowed from then on if its files are used again."""
        header = ("publication_title", "print_identifier", "date_first_issue_online")
        judge = slip_judge.SlipJudge(None, DAY, OtherTitles(tuple))
        judge.keep("press", lambda: Material(Table(header, [["T", "0028-0836", ""]] * 9), [], [], 9, None, "", ""))
        wanted = "press\tno first date in any row\t9\t9\n"
        self.expect("remembered", wanted in judge.limits_text(["press"]), True)
        self.expect("what it has", wanted[:-1] in judge.text(["press"]), True)
        said = [line for line in judge.lines("press") if line.startswith("no first date in any row: 9 of 9 rows")]
        self.expect("said", len(said), 1)

    def test_capitals_of_a_small_table(self) -> None:
        """Two titles in capitals are most of a table of three, but not odd if the version before had them so too."""
        header = ("publication_title", "print_identifier")
        capitals = [["TIDAL STUDIES", "0028-0836"], ["HARBOUR ANNALS", "2434-561X"], ["Piers", "2901-0012"]]
        small = [["Tidal Studies", "0028-0836"], ["Harbour Annals", "2434-561X"], ["Piers", "2901-0012"]]
        now, before, other = (
            Material(Table(header, rows), [], [], 3, None, "", "") for rows in (capitals, capitals, small)
        )
        for words, old, wanted in (("before too", before, 0), ("in small letters before", other, 2)):
            self.expect(words, count_of(CAPITALS, now, old), wanted)

    def test_capitals_of_most(self) -> None:
        """Half of the titles are not most of them, and a name in a word is none."""
        for count, text, wanted in ((3, "TIDAL STUDIES", 0), (4, "TIDAL STUDIES", 4), (6, "OCEANOGRAPHY", 0)):
            rows = [[text, issn(at)] for at in range(count)]
            rows += [["Piers", issn(at)] for at in range(count, 6)]
            now = Material(Table(("publication_title", "print_identifier"), rows), [], [], 6, None, "", "")
            self.expect(f"{count} times {text}", count_of(CAPITALS, now), wanted)

    def test_same_number(self) -> None:
        """Two titles may share a number that most rows have, and three not."""
        header = ("publication_title", "print_identifier")
        for titles in (2, 3):
            rows = [[f"T{at % titles}", "0028-0836"] for at in range(100)]
            now = Material(Table(header, rows), [], [], 100, None, "", "")
            found = odd_cells.same_number(Pair(now, None, DAY, lambda numbers: {}))
            self.expect(f"{titles} titles", found is not None, titles == 3)
        for number, wanted in (("0028-0836", 12), ("ANY", 0), ("any", 0)):
            rows = [[f"T{at}", number] for at in range(12)]
            now = Material(Table(header, rows), [], [], 12, None, "", "")
            self.expect(number, count_of("the same number in most rows", now), wanted)

        for count, wanted in ((6, 0), (7, 7)):
            rows = [[f"T{at}", "0028-0836" if at < count else issn(at)] for at in range(12)]
            now = Material(Table(header, rows), [], [], 12, None, "", "")
            self.expect(f"{count} of 12", count_of("the same number in most rows", now), wanted)

    def test_numbers_that_are_gone(self) -> None:
        """Of numbers and volumes; counted are the rows of the table before that had one, of all its rows."""
        for column in ("print_identifier", "online_identifier", *VOLUMES):
            before, now = (
                Material(Table(("publication_title", column), [["T", it] for it in cells]), [], [], 9, None, "", "")
                for cells in (("", "12", "13"), ("", ""))
            )
            found = FIND["no numbers left in a column"](Pair(now, before, DAY, dict))
            wanted = (2, 3, f"{column}, 12 before")
            self.expect(column, found and (found.count, found.rows, found.example), wanted)


class OtherTables(Case):
    """The titles of other targets."""

    def test_first_asked(self) -> None:
        """The tables of the version before are read once, when a title is asked for; new tables are added then."""
        read = []

        def older() -> list[Table]:
            read.append(1)
            return [
                Table(("publication_title", "print_identifier"), [["Tides", "0028-0836"], ["All", "ANY"], ["Short"]])
            ]

        titles = OtherTitles(older)
        titles.add(Table(("publication_title", "print_identifier"), [["Before", "2434-561X"]]))
        self.expect("nothing is read", read, [])
        self.expect("asked", titles.of(["0028-0836", "ANY", "2434-561X"]), {"0028-0836": "Tides"})
        titles.add(Table(("publication_title", "online_identifier"), [["Later", "2434-561X"], ["No", "0028-0836"]]))
        self.expect("added", titles.of(["0028-0836", "2434-561X"]), {"0028-0836": "Tides", "2434-561X": "Later"})
        self.expect("read once", read, [1])
        titles.forget()
        self.expect("forgotten", titles.of(["0028-0836"]), {})
