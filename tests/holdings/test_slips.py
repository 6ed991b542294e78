"""Slips of providers: each is planted in a good table, and seen in the week in which it comes."""
from __future__ import annotations

import dataclasses
import gc
import os
import re
from collections.abc import Callable
from pathlib import Path
from unittest import mock

from fixtures import needs
from fixtures import vendor_files
from fixtures import weeks as sample
from fixtures.cases import Case
from fixtures.made_titles import isbn
from fixtures.made_titles import issn
from fixtures.made_versions import DAY
from fixtures.made_versions import Weeks
from fixtures.made_versions import table
from holdings import shapes
from openlink_update import target_options
from openlink_update.slips import kinds
from openlink_update.slips import odd_rows
from openlink_update.slips import slip_judge
from openlink_update.slips.material import Found
from openlink_update.slips.material import Material
from openlink_update.slips.material import Pair
from openlink_update.slips.other_titles import OtherTitles
from openlink_update.tables import preparation
from openlink_update.versions import making

HEADER = (
    "publication_title",
    "print_identifier",
    "online_identifier",
    "date_first_issue_online",
    "date_last_issue_online",
    "num_first_vol_online",
    "title_url",
    "title_id",
    "embargo_info",
    "coverage_depth",
    "access_type",
    "publication_type",
    "notes",
)
PLACE = {name: place for place, name in enumerate(HEADER)}
RULES = """rule
when coverage_depth is "fulltext"
link https://press.example.com/{title_id}

rule
when access_type is "F"
link https://press.example.com/free/{title_id}
"""
ROWS = 100
PLAIN = "Harbours Currents Lagoons Estuaries Glaciers Deltas Marshes Canyons Meadows Orchards".split()
OTHER = "Painting Sculpture Opera Ballet Theatre Poetry Ceramics Weaving Drawing Printing".split()
OTHERS = "numbers known under other titles"

Rows = list[list[str]]
Plant = Callable[[Rows, int], Rows]


def good(first: int = 0, last: int = ROWS) -> Rows:
    """Journals with right check digits, in whose titles no two have a word in common but of one list."""
    return [
        [
            f"{PLAIN[at % 10]} and {OTHER[at // 10 % 10]} {at}",
            issn(2000000 + 2 * at),
            issn(2000001 + 2 * at),
            "1990",
            "2010" if at % 3 else "",
            "12",
            f"https://press.example.com/journals/{at}",
            f"t{at}",
            "",
            "fulltext",
            "P",
            "serial",
            "",
        ]
        for at in range(first, last)
    ]


def wrong(number: str) -> str:
    """The number with another last digit."""
    return number[:-1] + ("1" if number[-1] == "0" else "0")


def changed(column: str, change: Callable[[str], str]) -> Plant:
    """A plant that changes the cells of a column in the first rows."""

    def plant(rows: Rows, count: int) -> Rows:
        place = PLACE[column]
        return [
            [*row[:place], change(row[place]), *row[place + 1 :]] if at < count else row for at, row in enumerate(rows)
        ]

    return plant


def put(column: str, text: str) -> Plant:
    return changed(column, lambda _: text)


def several(*plants: Plant) -> Plant:
    def plant(rows: Rows, count: int) -> Rows:
        for one in plants:
            rows = one(rows, count)
        return rows

    return plant


def sorted_apart(rows: Rows, count: int) -> Rows:
    """The titles of the first rows, each beside the numbers of another one, which shares no word with it."""
    titles = [row[0] for row in rows[:count]]
    return [[titles[(at + 11) % count], *row[1:]] if at < count else row for at, row in enumerate(rows)]


def totals(rows: Rows, count: int) -> Rows:
    """Rows above the last one: those at the end of a file are no rows of its table."""
    return rows[:-1] + [[f"Total: {at} titles", *[""] * (len(HEADER) - 1)] for at in range(count)] + rows[-1:]


def visited(text: str) -> str:
    return f"{text};jsessionid=0123456789ABCDEF"


def proxied(text: str) -> str:
    return f"https://login.ezproxy.other.example.edu/login?url={text}"


@dataclasses.dataclass(frozen=True)
class _Planted:
    """A slip: its words, how it is planted, the numbers of rows below and above what may be, and its example."""

    words: str
    plant: Plant
    few: int  # 0: none below all or most rows
    many: int
    example: str
    of: int = ROWS
    base: Rows | None = None  # None: the good table


TITLE = "Harbours and Painting 0"
FREE = put("access_type", "F")(good(), 40)
CASES = (
    _Planted(
        "check digits of print_identifier wrong",
        changed("print_identifier", wrong),
        2,
        3,
        f"{wrong(issn(2000000))}, {TITLE}",
    ),
    _Planted(
        "check digits of online_identifier wrong",
        changed("online_identifier", wrong),
        2,
        3,
        f"{wrong(issn(2000001))}, {TITLE}",
    ),
    _Planted("no first date in any row", put("date_first_issue_online", ""), 0, 100, TITLE),
    _Planted("first dates after today", put("date_first_issue_online", "2026-11-28"), 2, 3, f"2026-11-28, {TITLE}"),
    _Planted("first dates after the last ones", put("date_last_issue_online", "1989-12"), 2, 3, "1990 and 1989-12"),
    _Planted(
        "session identifiers in addresses",
        changed("title_url", visited),
        2,
        3,
        "https://press.example.com/journals/0;jsessionid=0123456789ABCDEF",
    ),
    _Planted(
        "the proxy of another library in addresses",
        changed("title_url", proxied),
        2,
        3,
        "https://login.ezproxy.other.example.edu/login?url=https://press.example.com/journals/0",
    ),
    _Planted(
        "new texts that rules do not compare with",
        put("coverage_depth", "Full Text"),
        2,
        3,
        f"coverage_depth Full Text, {TITLE}",
    ),
    _Planted(
        "rules that hold on no row",
        put("access_type", "P"),
        0,
        40,
        'rule 2: access_type is "F"',
        base=FREE,
    ),
    _Planted(
        "volumes or issues that are no number",
        put("num_first_vol_online", "Vol. 12"),
        0,
        100,
        f"num_first_vol_online Vol. 12, {TITLE}",
    ),
    _Planted(
        "damaged letters in titles",
        changed("publication_title", lambda text: f"{text} Ã©tudes"),
        2,
        3,
        f"{TITLE} Ã©tudes, {TITLE} Ã©tudes",
    ),
    _Planted("titles in capitals", changed("publication_title", str.upper), 2, 3, TITLE.upper()),
    _Planted(
        "numbers known under other titles",
        sorted_apart,
        0,
        60,
        f"{issn(2000000)}, Currents and Sculpture 11, and {TITLE} elsewhere",
        of=2 * ROWS,
    ),
    _Planted("abstracts alone", put("coverage_depth", "abstracts"), 0, 100, f"abstracts, {TITLE}"),
    _Planted("embargoes in notes", put("notes", "Embargo: 12 months"), 2, 3, f"Embargo: 12 months, {TITLE}"),
    _Planted(
        "coverage in notes",
        several(
            put("notes", "1995-2003"),
            put("date_first_issue_online", ""),
            put("date_last_issue_online", ""),
            put("num_first_vol_online", ""),
        ),
        2,
        3,
        f"1995-2003, {TITLE}",
    ),
    _Planted(
        "no numbers left in a column",
        put("online_identifier", ""),
        0,
        100,
        f"online_identifier, {issn(2000001)} before",
    ),
    _Planted(
        "the same number in most rows", put("print_identifier", issn(2000000)), 0, 51, f"{issn(2000000)}, {TITLE}"
    ),
    _Planted("rows of a total or a footnote", totals, 2, 4, "Total: 0 titles"),
)


def said(case: _Planted, count: int) -> str:
    """What is said of the rows of a slip."""
    rows = case.of + count if case.plant is totals else case.of
    shown = 2 * count if case.plant is sorted_apart else count
    return f'{case.words}: {shown} of {rows} rows, the first "{case.example}"'.replace('"F"', "'F'")


def refused(case: _Planted, count: int) -> str:
    """How a reason begins, and how it ends."""
    line = said(case, count)
    number, rows = (int(it) for it in re.findall(r": (\d+) of (\d+) rows", line)[0])
    share = {"numbers known under other titles": 20, "the same number in most rows": 50}.get(case.words, 2)
    most = -(-rows * share // 100)
    part = -(-number * 100 // rows)
    return line.replace(" rows, the", f" rows, and {most} may be, the") + f"; to allow it: {case.words} up to {part}%"


def data_of(rows: Rows) -> bytes:
    return table(*rows, header=HEADER)


@needs.program()
class Planted(Case):
    """Each slip in a week of its own."""

    def test_above(self) -> None:
        """In more rows than may have it: the old table stays, until the words that the mail says allow it."""
        for case in CASES:
            with Weeks() as weeks:
                base = case.base or good()
                self.expect(f"{case.words}: a good table", weeks.week("press", data_of(base), rules=RULES), [])
                self.expect(f"{case.words}: no slip", weeks.read("slips.tsv"), b"")
                before = weeks.read("tables/press.txt")
                planted = data_of(case.plant(base, case.many))
                reasons = weeks.week("press", planted, "rule", rules=RULES)
                self.expect(
                    f"{case.words}: a reason", [it for it in reasons if case.words in it], [refused(case, case.many)]
                )
                self.expect(f"{case.words}: the old table", weeks.read("tables/press.txt"), before)
                self.expect(f"{case.words}: which has none", weeks.read("slips.tsv"), b"")
                allowed = "; ".join(
                    [
                        "rule",
                        *(it.rpartition("to allow it: ")[2].split(";")[0] for it in reasons if "to allow it: " in it),
                    ]
                )
                self.expect(f"{case.words}: allowed", weeks.week("press", planted, allowed, rules=RULES), [])
                self.expect(f"{case.words}: in use", weeks.read("received/press.txt") == planted, True)
                lines = [line.split("\t") for line in weeks.read("slips.tsv").decode().splitlines()]
                found = [cells[4] for cells in lines if cells[:2] == ["press", case.words]]
                self.expect(f"{case.words}: kept with the version", found, [case.example.replace('"', "'")])
                more = data_of([*case.plant(base, case.many), *good(300, 301)])
                taken_back = weeks.week("press", more, "rule; dropped up to 9", rules=RULES)
                self.expect(f"{case.words}: the words taken back", taken_back, [])
                again = [line for line in weeks.said if line.startswith(f"press: {case.words}")]
                self.expect(f"{case.words}: what was allowed is not said again", again, [])

    def test_few(self) -> None:
        """In two of a hundred rows: the table is used, and a line says it once."""
        for case in (case for case in CASES if case.few):
            with Weeks() as weeks:
                weeks.week("press", data_of(good()), "rule", rules=RULES)
                planted = case.plant(good(), case.few)
                allowed = "rule; hosts +login.ezproxy.other.example.edu"
                self.expect(f"{case.words}: used", weeks.week("press", data_of(planted), allowed, rules=RULES), [])
                lines = [line for line in weeks.said if case.words in line]
                wanted = [f"press: {said(case, case.few)}"]
                if case.words == "first dates after the last ones":
                    wanted = [f"  {case.words}: 2 rows, the first with 1990 and 1989-12"]
                self.expect(f"{case.words}: said", lines, wanted)
                more = data_of([*planted, *good(200, 201)])
                weeks.week("press", more, allowed, rules=RULES)
                lines = [line.split("\t") for line in weeks.read("slips.tsv").decode().splitlines()]
                counts = [cells[2] for cells in lines if cells[1] == case.words]
                compares = case.words in ("new texts that rules do not compare with", "titles in capitals")
                self.expect(f"{case.words}: old rows count too", counts, [] if compares else [str(case.few)])
                again = [line for line in weeks.said if line.startswith(f"press: {case.words}")]
                self.expect(f"{case.words}: not again", again, [])

    def test_had_before(self) -> None:
        """A table that has a slip when the update looks for it first keeps coming in, and so do its next ones."""
        for case in CASES:
            if case.words in ("rules that hold on no row", "no numbers left in a column"):
                continue  # these compare with a table that had none
            with Weeks() as weeks:
                base = case.plant(good(), ROWS if case.words == "titles in capitals" else case.many)
                first = f"rule; dropped up to 9; {case.words} up to 100%; rules that hold on no row up to 100%"
                self.expect(f"{case.words}: in use", weeks.week("press", data_of(base), first, rules=RULES), [])
                for name in (slip_judge.NAME, slip_judge.LIMITS):
                    os.unlink(f"{weeks.version}/{name}")
                self.expect(
                    f"{case.words}: the same table", weeks.week("press", data_of(base), "rule", rules=RULES), []
                )
                is_seen_alone = case.words not in ("numbers known under other titles",)
                lines = [line for line in weeks.said if "so it is allowed from now on" in line and case.words in line]
                self.expect(f"{case.words}: said", len(lines), int(is_seen_alone))
                more = data_of([*base, *good(200, 202)])
                self.expect(
                    f"{case.words}: more rows", weeks.week("press", more, "rule; dropped up to 9", rules=RULES), []
                )
                self.expect(f"{case.words}: not said again", [it for it in weeks.said if "from now on" in it], [])
                weeks.make(walls=True)
                self.expect(
                    f"{case.words}: after a run for walls", case.words in weeks.read("slip_limits.tsv").decode()
                )

    def test_had_before_and_more(self) -> None:
        """What a table had at that first look is allowed, be it with the same files in that week or with new ones."""
        for words, rows in (("check digits of online_identifier wrong", 0), ("session identifiers in addresses", 1)):
            case = next(case for case in CASES if case.words == words)
            with Weeks() as weeks:
                base = case.plant(good(), 10)
                first = f"rule; {words} up to 100%"
                self.expect(f"{words}: in use", weeks.week("press", data_of(base), first, rules=RULES), [])
                for name in (slip_judge.NAME, slip_judge.LIMITS):
                    os.unlink(f"{weeks.version}/{name}")
                for number, is_said in ((rows, 1), (rows + 1, 0)):
                    more = data_of([*base, *good(200, 200 + number)])
                    self.expect(f"{words}: {number} more rows", weeks.week("press", more, "rule", rules=RULES), [])
                    lines = [line for line in weeks.said if "so it is allowed from now on" in line]
                    self.expect(f"{words}: said with {number} more rows", len(lines), is_said)
                limits = [line.split("\t") for line in weeks.read("slip_limits.tsv").decode().splitlines()]
                kept = [cells[2:] for cells in limits if cells[1] == words]
                self.expect(f"{words}: what is allowed", kept, [["10", "100"]])


@needs.program()
class Versions(Case):
    """What a version remembers, and what judging leaves."""

    def test_same_files(self) -> None:
        """Two versions of which one knows of slips are not the same, so an upgrade puts a new one in use."""
        with Weeks() as weeks:
            weeks.week("press", data_of(good()), rules=RULES)
            first = weeks.version
            weeks.week("press", data_of(good()), rules=RULES)
            self.expect("nothing new", making.is_same(weeks.version, first), True)
            for name in (slip_judge.NAME, slip_judge.LIMITS):
                os.rename(f"{first}/{name}", f"{first}/x")
                self.expect(f"without {name}", making.is_same(weeks.version, first), False)
                os.rename(f"{first}/x", f"{first}/{name}")

    def test_kept_table(self) -> None:
        """What a table has is known as long as it is in use, also if an update has learned to look for something."""
        odd = changed("print_identifier", wrong)(good(), 2)
        words = "check digits of print_identifier wrong"
        with Weeks() as weeks:
            weeks.week("press", data_of(good()), rules=RULES)
            weeks.week("press", data_of(odd), rules=RULES)
            before, limits = weeks.read("slips.tsv"), weeks.read("slip_limits.tsv")
            self.expect("it has a slip", before.startswith(f"press\t{words}\t2\t100\t".encode()), True)
            for is_new_slip in (False, True):
                if is_new_slip:
                    kept = [line for line in limits.splitlines(True) if b"\tabstracts alone\t" not in line]
                    self.expect("one slip less", len(kept), len(limits.splitlines()) - 1)
                    Path(weeks.version, "slip_limits.tsv").write_bytes(b"".join(kept))
                reasons = weeks.week("press", data_of(good())[:-1], "least 200 rows", rules=RULES)
                self.expect("a table that is refused", reasons, ["100 rows, and at least 200 must be there"])
                self.expect("slips of the one in use", weeks.read("slips.tsv"), before)
                self.expect("what is allowed", weeks.read("slip_limits.tsv"), limits)
            weeks.week("press", data_of([*odd, *good(200, 201)]), rules=RULES)
            self.expect("not said again", [line for line in weeks.said if words in line], [])

    def test_collections(self) -> None:
        """Python looks for cycles again after a table was judged, also if that fails."""
        with Weeks() as weeks:
            weeks.week("press", data_of(good()), rules=RULES)
            self.expect("after a table", gc.isenabled(), True)
            with mock.patch.object(slip_judge.SlipJudge, "find", side_effect=ValueError):
                with self.assertRaises(ValueError):
                    weeks.week("press", data_of(good(0, 99)), rules=RULES)
            self.expect("after a failure", gc.isenabled(), True)

    def test_two_targets(self) -> None:
        """The second target of a first version has the numbers of the first under other titles."""
        with Weeks() as weeks:
            weeks.deliver("press", data_of(good()), rules=RULES)

            apart = sorted_apart(good(), ROWS)
            for name, rows in (("same", good()), ("apart", apart)):
                weeks.write(f"{name}.txt", data_of(rows))
            lines = [f"{name}\tpress.rules\t{name}.txt\n" for name in ("press", "same", "apart")]
            weeks.write("targets.tsv", "".join(lines).encode())
            said = weeks.make()
            reasons = [line for line in said if "numbers known under other titles: 200 of 200 rows, and 40" in line]
            self.expect(
                "targets", (weeks.maker.names, weeks.maker.left_out, len(reasons)), (["press", "same"], ["apart"], 1)
            )


class Judged(Case):
    """Which tables keep out of use what they have."""

    def test_new_targets(self) -> None:
        """What the first table of a target may be right with is allowed from then on; each other slip keeps it out."""
        usual = {
            "no first date in any row",
            "volumes or issues that are no number",
            "titles in capitals",
            "abstracts alone",
            "embargoes in notes",
            "coverage in notes",
        }
        count = 0
        for case in CASES:
            if case.words in ("rules that hold on no row", "no numbers left in a column", OTHERS):
                continue  # these compare with another table
            rows = ROWS if case.words == "titles in capitals" else case.many
            judge = slip_judge.SlipJudge(None, DAY, OtherTitles(tuple))
            judge.find("press", material_of(data_of(case.plant(good(), rows)), RULES.encode()), None)
            self.expect(f"{case.words}: found", case.words in judge.counts("press"))
            reasons = [reason for reason in judge.reasons("press", (), {}) if reason.startswith(case.words)]
            self.expect(f"{case.words}: kept out", len(reasons), int(case.words not in usual))
            count += case.words in usual
        self.expect("all usual ones", count, len(usual))

    def test_few_other_titles(self) -> None:
        """A fifth of the numbers may have other titles, and nothing is said of them."""
        before = material_of(data_of(good()), RULES.encode())
        for count, wanted in ((20, 0), (21, 1)):
            rows = put("publication_title", "Volcanic Zebras")(good(), count)
            judge = slip_judge.SlipJudge(None, DAY, OtherTitles(tuple))
            judge.find("press", material_of(data_of(rows), RULES.encode()), before)
            for name, lines in (("lines", judge.lines("press")), ("reasons", judge.reasons("press", (), {}))):
                self.expect(f"{count} rows: {name}", len([line for line in lines if line.startswith(OTHERS)]), wanted)


class LineEnds(Case):
    """A file that was cut within a line, and the least number of rows."""

    @needs.program()
    def test_cut(self) -> None:
        with Weeks() as weeks:
            weeks.week("press", data_of(good()), rules=RULES)
            cut = data_of(good())[:-1]
            self.expect("used", weeks.week("press", cut, rules=RULES), [])
            row = "\t".join(good()[-1])
            wanted = f'press: no line end after the last row: 1 of 100 rows, the first "{row[:100]}.."'.replace(
                "\t", " "
            )
            self.expect("said", [it for it in weeks.said if "line end" in it], [wanted])
            weeks.week("press", cut[:-1], rules=RULES)
            self.expect("not again", [it for it in weeks.said if "line end" in it], [])
        with Weeks() as weeks:
            weeks.week("press", data_of(good())[:-30], rules=RULES)
            self.expect("a first file whose last row is short", len([it for it in weeks.said if "line end" in it]), 1)

    @needs.program()
    def test_least(self) -> None:
        with Weeks() as weeks:
            self.expect("as many", weeks.week("press", data_of(good()), "least 100 rows", rules=RULES), [])
            before = weeks.read("tables/press.txt")
            fewer = data_of(good(0, 99))
            reason = "99 rows, and at least 100 must be there"
            self.expect("fewer", weeks.week("press", fewer, "least 100 rows", rules=RULES), [reason])
            self.expect("the old table", weeks.read("tables/press.txt"), before)
            self.expect("less demanded", weeks.week("press", fewer, "least 99 rows", rules=RULES), [])
            self.expect(
                "more demanded of the same",
                weeks.week("press", fewer, "least 200 rows", rules=RULES),
                ["99 rows, and at least 200 must be there"],
            )

    def test_bytes(self) -> None:
        for data, line in (
            (b"a\tb\nc\td\n", ""),
            (b"a\tb\nc\td\r", ""),
            (b"a\tb\nc\td", "c\td"),
            ("a\nü".encode("utf-16"), "ü"),
            ("a\nü\n".encode("utf-16"), ""),
            ("\ufeffa\nü".encode("utf-16-be"), "ü"),
            ("\ufeffa\nü\n".encode("utf-16-be"), ""),
            (b"a\tb\r\nc\td\r\n\x1a", ""),
            (shapes.zipped({"one": "a|b\nc|d"}), "c\td"),
            (shapes.zipped({"one": "a|b\nc|d\n"}), ""),
            (b"PK\x03\x04 damaged", ""),
            (b"<html>", ""),
            (b"", ""),
        ):
            self.expect(repr(data[:20]), odd_rows.unended_line(data), line)


def material_of(
    data: bytes, rules: bytes | None = None, options: target_options.Options = target_options.NONE
) -> Material:
    prepared = preparation.prepare([("file", data)], options)
    unended = odd_rows.unended_line(data)
    return Material(prepared.table, prepared.dropped, prepared.reversed, prepared.count, rules, options.proxy, unended)


def slips_of(now: Material, before: Material | None = None, others: dict[str, str] | None = None) -> dict[str, Found]:
    """The slips of a table, those that nothing is said of too."""
    pair = Pair(now, before, DAY, lambda numbers: {it: (others or {})[it] for it in numbers if it in (others or {})})
    found = ((kind.words, kind.find(pair)) for kind in kinds.KINDS)
    return {words: it for words, it in found if it is not None}


class GoodFiles(Case):
    """Tables that are as they should be have no slip."""

    def test_sample(self) -> None:
        """The sample library, and next to it the same tables a week later."""
        count = 0
        for name, path in sample.tables().items():
            rules, data = Path(f"{sample.SAMPLE}/{name}.rules").read_bytes(), Path(path).read_bytes()
            now = material_of(data, rules)
            self.expect(name, (slips_of(now), slips_of(now, now)), ({}, {}))
            count += len(now.table.rows)
        self.expect("rows", count > 20)

    def test_shapes(self) -> None:
        """Files of every shape; two have rows that are slips."""
        known = {
            "words after a number": {"check digits of online_identifier wrong"},
            "a first date after the last": {"first dates after the last ones"},
        }
        self.expect("files", len(shapes.FILES) > 30)
        for case, (came, _, _) in shapes.FILES.items():
            found = {words for words in slips_of(material_of(shapes.bytes_of(came))) if words not in QUIET}
            self.expect(case, found, known.get(case, set()))

    def test_vendors(self) -> None:
        """Forty files as vendors send them, with rules for articles and titles, in two weeks."""
        rules = (
            b'rule\nwhen publication_type is "serial"\nlink https://x.example/{title_id}\n\nrule\nlink {+title_url}\n'
        )
        self.expect("files", len(vendor_files.FILES) >= 40)
        for name, it in vendor_files.FILES.items():
            now = material_of(it.data, rules, target_options.parse(it.options)[0])
            self.expect(name, (slips_of(now), slips_of(now, now)), ({}, {}))

    def test_honest(self) -> None:
        """What may look like a slip, and is none."""
        books = [
            [row[0], isbn(1000 + at), "", "", "", "", *row[6:11], "monograph", ""] for at, row in enumerate(good())
        ]
        some = changed("publication_title", str.upper)(good(0, 400), 50)
        own = "proxy https://proxy.library.example.org/login?url="
        prefix = "https://proxy.library.example.org/login?url="
        behind = data_of(changed("title_url", lambda text: prefix + text)(good(), ROWS))
        rules = f"rule\nlink {prefix}{{+title_url}}\n".encode()
        for name, material in (
            ("journals in print alone", material_of(data_of(put("online_identifier", "")(good(), ROWS)))),
            ("books without first dates", material_of(data_of(books))),
            ("fifty titles in capitals", material_of(data_of(some))),
            ("short titles in capitals", material_of(data_of(put("publication_title", "PLOS ONE")(good(), ROWS)))),
            ("a target that answers every request", material_of(b"print_identifier\nANY\n")),
            ("one row", material_of(data_of(put("date_first_issue_online", "")(good(0, 1), 1)))),
            ("its own proxy, by an option", material_of(behind, None, target_options.parse(own)[0])),
            ("its own proxy, by its rules", material_of(behind, rules)),
            (
                "the last five years",
                material_of(
                    data_of(several(put("date_first_issue_online", ""), put("embargo_info", "R5Y"))(good(), ROWS))
                ),
            ),
            ("no embargo in notes", material_of(data_of(put("notes", "No embargo since 12 months")(good(), ROWS)))),
            (
                "an embargo in its column too",
                material_of(
                    data_of(several(put("notes", "Embargo: 12 months"), put("embargo_info", "P1Y"))(good(), ROWS))
                ),
            ),
            ("a title of 2010-2012", material_of(data_of(put("notes", "Title from 1995-2003: Tides")(good(), ROWS)))),
            (
                "letters with marks",
                material_of(data_of(put("publication_title", "MATEMÁTICA E EDUCAÇÃO, À côté «Été»")(good(), 1))),
            ),
            ("volumes of letters and numbers", material_of(data_of(put("num_first_vol_online", "12A")(good(), ROWS)))),
            (
                "a source in an address",
                material_of(data_of(put("title_url", "https://press.example.com/find?sid=google&id=1")(good(), ROWS))),
            ),
            (
                "its own login page",
                material_of(
                    data_of(
                        put("title_url", "https://press.example.com/login?url=https://press.example.com/1")(
                            good(), ROWS
                        )
                    )
                ),
            ),
            (
                "a journal in three rows",
                material_of(
                    data_of(
                        [good(0, 1)[0]] * 1
                        + [[*good(0, 1)[0][:3], str(year), *good(0, 1)[0][4:]] for year in range(1991, 2003)]
                    )
                ),
            ),
        ):
            self.expect(name, {words for words in slips_of(material) if words not in QUIET}, set())

    def test_honest_weeks(self) -> None:
        """Weeks that are in order."""
        unended = material_of(data_of(good())[:-1], RULES.encode())
        self.expect("a provider whose files have no last line end", slips_of(unended, unended), {})
        before = material_of(data_of(good()), RULES.encode())
        for name, rows in (
            ("titles of their own case", [[row[0].title(), *row[1:]] for row in good()]),
            (
                "ten of a hundred titles changed",
                [[f"Another {at}" if at < 10 else row[0], *row[1:]] for at, row in enumerate(good())],
            ),
            ("titles with more words", [[f"{row[0]}: the official organ of a society", *row[1:]] for row in good()]),
            ("abstracts beside texts", put("coverage_depth", "abstracts")(good(), 30)),
            ("twice as many rows", good(0, 2 * ROWS)),
        ):
            now = material_of(data_of(rows), RULES.encode())
            found = {words: it for words, it in slips_of(now, before).items() if words not in QUIET or it.count > 40}
            self.expect(name, found, {})


QUIET = {kind.words for kind in kinds.KINDS if kind.is_of_most}
