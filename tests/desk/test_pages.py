"""The pages of the desk: what each shows, that no text of a stranger breaks out, that they stay readable and bounded,
and that no link of theirs leads to nothing."""
from __future__ import annotations

import csv
import io
import re

from desk.made_desk import HOSTILE
from desk.made_desk import LINE
from desk.made_desk import MadeDesk
from desk.made_desk import NOW
from desk.made_desk import PROGRAM
from desk.made_desk import Page
from desk.made_desk import RULES
from desk.made_desk import hostile_probe
from desk.made_desk import hostile_state
from desk.made_desk import record
from fixtures import needs
from fixtures.cases import Case
from openlink_update.desk import targets
from openlink_update.desk import words_in
from openlink_update.desk.week import week_of
from openlink_update.run_notes import ProbeResult
from openlink_update.run_notes import TargetState
from openlink_update.run_records import RunRecord

ENGLISH = words_in.languages_of(["en"])[0]
# What the pages may have of HTML and SVG: nothing that runs, loads or sets a style.
ELEMENTS = set(
    """a bdi body caption code details div figcaption figure footer h1 h2 head header html li line link main meta nav ol
    p     pre rect strong summary svg table tbody td text th thead title tr ul""".split()
)
ATTRIBUTES = set(
    """anchor aria-current aria-hidden aria-label aria-labelledby charset class colspan content dir direction
    fill font-size height href hreflang id lang name open rel role scope stroke stroke-width tabindex text-anchor
    viewbox     width x x1 x2 y y1 y2""".split()
)
MOST_BYTES = 1_500_000  # of a page


def first_of(records: list[RunRecord], found: list[targets.Target]) -> list[str]:
    return [it.text for it in week_of(records, found, NOW, ENGLISH).first]


def cells_of(text: str) -> list[list[str]]:
    """The texts of the cells of all rows of a page, without rows that hold a table."""
    rows = re.findall(r"<tr[^>]*>((?:(?!<tr).)*?)</tr>", text, re.S)
    return [[Page(it).text.strip() for it in re.findall(r"<t[hd]\b[^>]*>.*?</t[hd]>", row, re.S)] for row in rows]


def check(case: Case, name: str, files: dict[str, str]) -> None:
    """What holds for each page of a desk."""
    pages = {file: Page(text) for file, text in files.items() if file.endswith(".html")}
    case.expect(f"{name}: pages", len(pages) >= 4, True)
    for file, page in pages.items():
        case.expect(f"{name}: {file}: faults", page.faults, [])
        case.expect(f"{name}: {file}: elements", set(page.elements) - ELEMENTS, set())
        case.expect(f"{name}: {file}: attributes", page.attributes - ATTRIBUTES, set())
        case.expect(f"{name}: {file}: headings", page.elements.count("h1"), 1)
        case.expect(f"{name}: {file}: ids", len(page.ids), len(set(page.ids)))
        case.expect(f"{name}: {file}: bytes", len(files[file].encode()) <= MOST_BYTES, True)
        inside = [it for it in page.links if not it.startswith(("/menu.css", "/why", "changes/", "dropped/", "#"))]
        case.expect(f"{name}: {file}: links", [it for it in inside if it not in files], [])
        case.expect(
            f"{name}: {file}: places", [it for it in page.links if it[:1] == "#" and it[1:] not in page.ids], []
        )


@needs.python_module("jinja2", "python3-jinja2")
class Pages(Case):
    def test_week(self) -> None:
        with MadeDesk() as desk:
            for name in ("good", "bad"):
                desk.add_target(name, 1234)
            desk.write("changes/good.txt", "change\n")
            desk.write("dropped/bad.txt", "reason\n")
            desk.write("slips.tsv", "good\tno first date in any row\t17\t1234\tAnnals <b>\n")
            desk.write("earlier.tsv", "good\tabc\t2026-11-02\ngood\tdef\t2026-11-23\n")
            states = (
                TargetState("good", "changed", 1234, 56, 7, ("good: 56 rows added, 7 gone",)),
                TargetState("bad", "kept", 1234, 0, 0, ("bad: kept", "  bad.txt: a web page, not a table")),
                TargetState("away", "gone"),
            )
            probes = (ProbeResult(1, "issn=2901-0012", "good", True), ProbeResult(2, "issn=1", "bad", False))
            fetches = (("good.txt", "changed, 7 bytes"), ("bad.txt", "kept the old file: status 500"))
            desk.records = [record(1, targets=states, probes=probes, fetches=fetches, lines=("the end",))]
            desk.records += [record(3, f"202611{day:02}T040000Z") for day in range(27, 10, -1)]
            files = desk.make()
            check(self, "a week", files)
            page = Page(files["week.en.html"])
            for part in (
                "bad kept its old table.",
                "a web page, not a table",
                "A probe does not hold: issn=1",
                "bad.txt was not fetched.",
                "good has slips.",
                "no first date in any row",
                "17 / 1,234",
                "Annals <b>",
                "2026-11-23",
                "no longer in the list",
                "the end",
                "2026-11-28 04:00",
            ):
                self.expect(f"the week has {part}", part in page.text, True)
            self.expect(
                "its lists",
                [it for it in page.links if it.startswith(("changes/", "dropped/"))],
                ["dropped/bad.txt", "changes/good.txt"],
            )
            shown = cells_of(files["week.en.html"])
            for row in (
                ["bad", "old table kept", "1,234", "0", "0", "", "dropped rows"],
                ["good", "changed", "1,234", "56", "7", "2026-11-23", "titles that came and went"],
                ["bad.txt", "kept the old file: status 500"],
                ["2026-11-28 04:00", "update", "1", "61"],
            ):
                self.expect(f"the row {row}", shown.count(row), 1)
            bad = re.findall(r'<tr(?: id="([^"]*)")? class="bad">', files["week.en.html"])
            self.expect("what is marked: a target, and runs that ended badly", bad, ["t-bad"] + [""] * 11)
            self.expect("what is open", re.findall("<details open>.*?<bdi>(.*?)</bdi>", files["week.en.html"]), ["bad"])
            self.expect("a link to the target", page.links.count("#t-bad"), 1)
            self.expect("runs", len(re.findall(r'<th scope="row" class="m">', files["week.en.html"])), 12)
            self.expect(
                "what needs her comes first", page.text.index("bad kept") < page.text.index("good has slips"), True
            )
            rows = list(csv.reader(io.StringIO(files["week.tsv"]), dialect="excel-tab"))
            self.expect(
                "the table",
                [row[:5] for row in rows[1:]],
                [
                    ["bad", "kept", "1234", "0", "0"],
                    ["good", "changed", "1234", "56", "7"],
                    ["away", "gone", "0", "0", "0"],
                ],
            )
            self.expect("its columns", rows[0], ["target", "state", "rows", "added", "gone", "table of", "lines"])
            self.expect(
                "days and lines",
                [row[5:] for row in rows[1:]],
                [
                    ["", "bad: kept |   bad.txt: a web page, not a table"],
                    ["2026-11-23", "good: 56 rows added, 7 gone"],
                    ["", ""],
                ],
            )
            self.expect("the first page", files["index.html"], files["week.en.html"])
            self.expect("when it was made", "Made on 2026-11-29 05:30 UTC" in page.text)

    def test_first_of_many(self) -> None:
        """Forty of what needs her, and how many more there are; without a version nothing is said to be well."""
        with MadeDesk() as desk:
            desk.records = [record(targets=tuple(TargetState(f"t{it}", "kept") for it in range(42)))]
            page = Page(desk.make()["week.en.html"])
            self.expect("more", "And 2 more, which are in the file." in page.text)
            desk.records = [record()]
            self.expect("all is well", "Nothing: all is well." in Page(desk.make()["week.en.html"]).text)
            text = Page(desk.make(has_version=False)["week.en.html"]).text
            said = [it in text for it in ("No version is in use yet.", "all is well")]
            self.expect("no version", said, [True, False])

    def test_year(self) -> None:
        """The numbers of a month, and of each list, beside their names."""
        with MadeDesk() as desk:
            line = LINE.replace("{month}", "2026-10").replace("{targets}", "press")
            lines = [line.format(found="1/2", source="WOS")] * 1005 + [line.format(found="0/2", source="WOS")] * 2
            lines += [line.format(found="0/0", source="DB")]
            lines += [line.format(found="1/1", source="WOS").replace("200 GET /find", "302 GET /go")] * 4
            lines += [line.format(found="0/0", source="").replace(" 200 ", " 404 ")] * 2
            desk.log("openlink.log", lines)
            desk.log("openlink-wanted.log", ["2026-10 2901-0012 2019\n"] * 7)
            files = desk.make()
            check(self, "a year", files)
            shown = cells_of(files["year.en.html"])
            for row in (
                ["Month", "Requests", "With full text", "Without full text", "Without a link", "Errors"],
                ["2026-10", "1,012", "1,009", "3", "1", "2"],
                ["WOS", "1,011", "2"],
                ["DB", "1", "1"],
                ["press", "1,008", "4"],
                ["2901-0012", "7"],
            ):
                self.expect(f"the row {row}", shown.count(row), 1)
            self.expect("its heading", re.findall("<h2>(.*?)</h2>", files["year.en.html"])[0], "2026-10")
            captions = re.findall("<figcaption>.*?</figcaption>", files["year.en.html"])
            self.expect(
                "captions",
                [" ".join(Page(it).text.split()) for it in captions],
                ["With full text Without full text", "Requests Without full text", "Shown Followed", "Requests"],
            )
            labels = re.findall('role="img" aria-label="(.*?)"', files["year.en.html"])
            self.expect("charts", labels, ["Requests, 2026-10", "By source", "By target", "Asked for in vain"])
            self.expect("the table", files["year.tsv"].split("\n")[0], "month\tcounted\tname\tnumber")

    def test_languages(self) -> None:
        """Each page leads to the pages in its language, and to itself in the others."""
        with MadeDesk() as desk:
            desk.add_target("press")
            files = desk.make(["en", "he"])
            check(self, "two languages", files)
            for name in ("week", "year", "collection", "rules", "target-press"):
                text, page = files[f"{name}.he.html"], Page(files[f"{name}.he.html"])
                self.expect(f"{name}: its language", text.split("\n")[1], '<html lang="he" dir="rtl">')
                others = [it for it in ("week", "year", "collection", "rules") if it != name]
                others += ["target-press"] * (name == "rules")
                wanted = [*(f"{it}.he.html" for it in others), f"{name}.en.html"]
                self.expect(f"{name}: links", [it for it in page.links if it.endswith(".html")], wanted)
                self.expect(f"{name}: English", 'hreflang="en" lang="en">English</a>' in text)
                self.expect(f"{name}: the library", page.text.count("Library"), 2)

    def test_frames(self) -> None:
        """The title and the heading of each page, its styles, and where its links lead beside other pages."""
        with MadeDesk() as desk:
            desk.add_target("press")
            months = ["2025-01"] * 7 + [f"2025-{it:02}" for it in range(2, 13)] + ["2026-01"]
            desk.log("openlink.log", [LINE.format(month=it, found="1/1", targets="press", source="s") for it in months])
            files = desk.make()
            head = '<meta charset="utf-8">\n<meta name="viewport" content="width=device-width, initial-scale=1">\n'
            for name, title, tables in (
                ("week", "This week", ["week.tsv"]),
                ("year", "The year", ["year.tsv"]),
                ("collection", "The collection", ["collection.tsv", "overlaps.tsv"]),
                ("rules", "Rules", []),
                ("target-press", "Rules: press", []),
            ):
                text, page = files[f"{name}.en.html"], Page(files[f"{name}.en.html"])
                line = f"<title>{title} – Librarian’s desk, Library</title>\n"
                self.expect(f"{name}: head", f"<head>\n{head}{line}" in text)
                headings = [Page(it).text for it in re.findall("<h1>.*?</h1>", text)]
                self.expect(f"{name}: heading", headings, [title])
                links = [it for it in page.links if not it.endswith(".html")]
                self.expect(f"{name}: links", links, ["/menu.css", "desk.css", "/why", *tables])
            shown, headings = cells_of(files["year.en.html"]), re.findall("<h2>(.*?)</h2>", files["year.en.html"])
            self.expect("the last months", headings[0], "The last 12 months")
            self.expect("an earlier year", shown.count(["2025-01", "7", "7", "0", "0", "0"]), 1)

    def test_what_needs_her(self) -> None:
        self.expect("no record", first_of([], []), ["There is no record of an update yet."])
        self.expect("all is well", first_of([record()], []), [])
        self.expect(
            "an update that ended badly",
            first_of([record(3), record(0, "20261121T040000Z")], []),
            ["The last update ended with status 3."],
        )
        self.expect(
            "an old one", first_of([record(0, "20261118T040000Z")], []), ["No update has ended well for 11 days."]
        )
        self.expect("nine days", first_of([record(0, "20261120T040000Z")], []), [])
        self.expect("walls are no update", first_of([record(work="walls", status=3), record()], []), [])

    def test_rules(self) -> None:
        with MadeDesk() as desk:
            desk.add_target("press")
            desk.add_target("code", rules=None)
            desk.records = [record(probes=(ProbeResult(1, "issn=2901-0012", "press other", True),))]
            files = desk.make()
            check(self, "rules", files)
            page = Page(files["target-press.en.html"])
            lines = page.text.replace("\n", "")
            self.expect(
                "the line of lint is beside its line",
                "2when given rft.isssnrule 1, guard 1: unknown name rft.isssn, did you mean rft.issn3when" in lines,
                True,
            )
            self.expect("its probe", ("issn=2901-0012" in lines, "holds" in lines), (True, True))
            self.expect("no rules", "code file" in Page(files["target-code.en.html"]).text, True)
            once = desk.notes.read_text()
            desk.make()
            self.expect("lint runs once for the same files", (once.count("lint"), desk.notes.read_text()), (1, once))
            desk.write("received/press.rules", "rule\nlink https://x.example.org/\n")
            desk.make()
            self.expect("and again for others", desk.notes.read_text().count("lint"), 2)

    def test_probes(self) -> None:
        """The last result of those that name the target; lines of lint about no line of the rules are above them."""
        with MadeDesk() as desk:
            for name in ("press", "press-two"):
                desk.add_target(name, rules=f"{RULES}rule\nlink https://{name}.example.org/\n")
            desk.program.write_text(PROGRAM.replace("echo 'rules 1'", "echo 'rule 9, link: no host'"))
            probes = ProbeResult(1, "issn=1", "press other", False), ProbeResult(2, "issn=2", "press-two", True)
            desk.records = [record(work="walls"), record(probes=probes)]
            desk.records.append(record(probes=(ProbeResult(1, "issn=1", "press", True),)))
            files = desk.make()
            for name, row, bad in (("press", ["issn=1", "does not hold"], 2), ("press-two", ["issn=2", "holds"], 1)):
                text = files[f"target-{name}.en.html"]
                self.expect(f"probes of {name}", cells_of(text)[-1:] + cells_of(text)[:1], [row, ["1", "rule"]])
                self.expect(f"{name}: what is said of no line", text.count("rule 9, link: no host"), 1)
                self.expect(f"{name}: its line of lint, and a probe that does not hold", text.count('class="bad"'), bad)

    def test_metrics(self) -> None:
        """Those of the month in which the desk is made, and the titles of all targets."""
        with MadeDesk() as desk:
            desk.add_target("press", rows=3)
            desk.add_target("other", rows=2)
            months = ["2026-10"] * 3 + ["2026-11"] * 2 + ["2025-11"] * 4
            desk.log("openlink.log", [LINE.format(month=it, found="1/1", targets="press", source="s") for it in months])
            desk.make()
            lines = (desk.out / "state/metrics.txt").read_text("utf-8").splitlines()
            for line in ("openlink_month_requests 2", "openlink_titles 1", 'openlink_target_rows{target="other"} 2'):
                self.expect(line, lines.count(line), 1)

    def test_collection(self) -> None:
        """The titles of two targets that share one, by hand; the chart of decades, and the tables."""
        head = "publication_title\tprint_identifier\tcoverage_from\tcoverage_to\n"
        rows = {
            "one": "A\t2901-0012\t19950101\t20051231\nB\t2915-0272\t20010101\t20031231\n",
            "two": "A\t2901-0012\t19950101\t19991231\nC\t2929-0538\t20110101\t99999999\nD\t2936-0667\t0\t0\n",
        }
        with MadeDesk() as desk:
            for name, text in rows.items():
                desk.add_target(name)
                desk.write(f"tables/{name}.txt", head + text)
            files = desk.make()
            check(self, "the collection", files)
            page = Page(files["collection.en.html"])
            self.expect("all titles", "Titles: 4" in page.text, True)
            shown = [row for row in cells_of(files["collection.en.html"]) if row[0][:3] in ("one", "two")]
            self.expect("numbers of titles, and of those alone", [row[1:] for row in shown], [["3", "2"], ["2", "1"]])
            self.expect("shared", [row[0].split()[-2:] for row in shown], [["one:", "1"], ["two:", "1"]])
            chart, decades, _ = files["collection.en.html"].split("</figure>")
            self.expect("decades have one part", ("part-b" in chart, "part-b" in decades), (True, False))
            bars = re.findall(r'<rect class="part-(.)" x="0" .*? width="([\d.]+)" .*? fill="(.*?)"', chart)
            wanted = [("a", "340.0", "#005a96"), ("b", "226.7", "#e69f00"), ("a", "226.7", "#005a96")]
            self.expect("bars", bars, [*wanted, ("b", "113.3", "#e69f00")])
            texts = re.findall(r'<text x="([\d.]+)" .*? text-anchor="(.*?)" .*?>(.*?)</text>', chart)
            self.expect("labels", texts[:2], [("0", "start", "two"), ("340", "end", "3 · 2")])
            lines = re.findall(r'<line .*? y1="(.*?)" y2="(.*?)"', files["collection.en.html"])
            self.expect("lines across", ([one for one, _ in lines] == [two for _, two in lines], len(lines)), (True, 3))
            table = list(csv.reader(io.StringIO(files["collection.tsv"]), dialect="excel-tab"))
            self.expect("its columns", table[0][:3], ["target", "titles", "in no other target"])
            self.expect("the targets", [row[:3] for row in table[1:]], [["one", "2", "1"], ["two", "3", "2"]])
            self.expect(
                "the decades",
                [table[0][3:], *(row[3:] for row in table[1:])],
                [["1990", "2000", "2010", "2020"], ["1", "2", "0", "0"], ["1", "0", "1", "1"]],
            )
            overlaps = list(csv.reader(io.StringIO(files["overlaps.tsv"]), dialect="excel-tab"))
            self.expect("overlaps", overlaps[1:], [["one", "two", "1", "50"], ["two", "one", "1", "33"]])
            self.expect("the charts", page.elements.count("figure"), 2)
            cells = [it.strip() for it in page.texts if it.strip()]
            order = [it for it in cells if it in rows]
            self.expect("in the chart and the table, the greatest target first", order[:4], ["two", "one"] * 2)
            at = cells.index("2020–2029")
            self.expect(
                "decades on the page",
                cells[at : at + 8],
                ["2020–2029", "1", "2010–2019", "1", "2000–2009", "2", "1990–1999", "1"],
            )

    def test_hostile_texts(self) -> None:
        """Names of targets are as a list of targets allows them; all other texts may be anything."""
        with MadeDesk() as desk:
            for name in ("..", "a.b", "-x", "T" * 64):
                desk.add_target(name, rules="\n".join(HOSTILE))
            lines = [f"..\t{text}\t1\t2\t{text}\n" for text in HOSTILE if "\t" not in text]
            desk.write("slips.tsv", "".join([*lines, "..\tx\t-1\t2\tx\n", "..\tx\t\u0661\t2\tx\n", "\n", "x\n"]))
            desk.write("earlier.tsv", f"..\tabc\t{HOSTILE[0]}\n")
            pairs = tuple((text, text) for text in HOSTILE)
            states = tuple(hostile_state(name) for name in ("..", "a.b", *HOSTILE))
            desk.records = [record(3, targets=states, fetches=pairs, lines=HOSTILE, probes=(hostile_probe("a.b"),))]
            odd = [LINE.format(month="2026-11", found="0/1", targets=text, source=text) for text in HOSTILE]
            desk.log("openlink.log", [*odd, LINE.format(month="2026-11", found="1/1", targets="..", source="-x")])
            desk.log("openlink-wanted.log", [f"2026-11 {text} 2019\n" for text in HOSTILE])
            files = desk.make(["en", "de"], library=HOSTILE[0] + HOSTILE[5] + HOSTILE[6])
            check(self, "hostile texts", files)
            self.expect("a slip is shown as it is", HOSTILE[0] in Page(files["week.en.html"]).text, True)
            self.expect("and a line of rules", HOSTILE[4] in Page(files["target-a.b.en.html"]).text, True)
            for name in ("week.tsv", "year.tsv"):
                cells = [cell for row in csv.reader(io.StringIO(files[name]), dialect="excel-tab") for cell in row]
                self.expect(f"{name}: formulas", [it for it in cells if it[:1] in "=+@-" and len(it) > 1], [])

    def test_many(self) -> None:
        """256 targets with all lines and slips, eight of them with long rules, 10,000 sources, and five years of
        months."""
        with MadeDesk() as desk:
            states, slips = [], []
            for number in range(256):
                name = f"target-{number:03}-{'n' * 50}"
                desk.add_target(name, rules="rule\n" + "when given rft.issn\n" * (2000 if number < 8 else 2))
                states.append(TargetState(name, "kept", 9, 9, 9, ("l" * 300,) * 40))
                slips += [f"{name}\tword {it}\t{it}\t9\t{'e' * 500}\n" for it in range(20)]
            desk.write("slips.tsv", "".join(slips))
            desk.records = [record(1, targets=tuple(states), lines=("z" * 500,) * 5000)] * 12
            lines = [
                LINE.format(
                    month=f"{2022 + it // 12}-{it % 12 + 1:02}", found="1/2", targets=states[it].name, source="a"
                )
                for it in range(60)
            ]
            lines += [LINE.format(month="2026-12", found="0/2", targets="x", source=f"s{it}") for it in range(10_000)]
            desk.log("openlink.log", lines)
            files = desk.make()
            check(self, "many", files)
            year = Page(files["year.en.html"])
            self.expect("months", len(re.findall(r'<th scope="row" class="m">', files["year.en.html"])), 60)
            self.expect("folded years", year.elements.count("details"), 4)
            self.expect(
                "others are in the file",
                ("And 9,981 more" in year.text, files["year.tsv"].count("\tsource\t")),
                (True, 59 + 10_001),
            )
            self.expect(
                "a long rule file", "The first 1,000 lines" in Page(files[f"target-{states[0].name}.en.html"]).text
            )

    def test_bounds(self) -> None:
        """Lines of rules, and probes of a target."""
        for lines, probes in ((1000, 50), (1001, 51)):
            with MadeDesk() as desk:
                desk.add_target("press", rules="rule\n" * lines)
                own = tuple(ProbeResult(it, f"issn={it}", "press", True) for it in range(probes))
                desk.records = [record(probes=own)]
                page = Page(desk.make()["target-press.en.html"])
                self.expect(
                    f"{lines} lines",
                    (page.text.count("rule\n"), "The file has more" in page.text),
                    (1000, lines > 1000),
                )
                self.expect(f"{probes} probes", page.text.count("issn="), 50)

    def test_damaged_version(self) -> None:
        """No file of the state or of the version that is missing or damaged ends the desk."""
        with MadeDesk() as desk:
            desk.add_target("press")
            desk.write("earlier.tsv", "one cell\n")
            desk.write("slips.tsv", "\x00" * 100)
            desk.before.mkdir()
            for name in ("months.tsv", "counted.tsv", "lint.tsv"):
                (desk.before / name).write_bytes(b"\xff\x00\tx\n" * 100 + b"2026-11\trequests\t\t" + b"9" * 400)
            check(self, "damaged", desk.make())
            desk.version = desk.top / "away"
            self.assertRaises(Exception, desk.make)
