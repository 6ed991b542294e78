"""Weeks in which all goes well, and going back by hand."""
from __future__ import annotations

import datetime
import json
import os
import re
import stat
import time

from fixtures import needs
from fixtures.cases import Case
from fixtures.library import Library
from fixtures.library import Reader
from fixtures.made_titles import issn
from fixtures.weeks import MENUS
from fixtures.weeks import TITLE
from fixtures.weeks import tables

ALL = list(tables())


def check_time(case, library):
    """The time of a run that ended well is beside the versions, whether or not anything was new; no other run has
    one."""

    def run(*options, **how):
        """Whether a run that comes an hour later writes its time, and its status."""
        with open(library.path("updated"), "w") as file:
            file.write("20200101T000000Z\n")
        os.chmod(library.path("updated"), 0o600)
        status = library.run(*options, **how)[0]
        with open(library.path("updated")) as file:
            text = file.read()
        return status, text != "20200101T000000Z\n"

    before = time.strftime("%Y%m%dT%H%M%SZ", time.gmtime())
    case.expect("nothing new", run(), (0, True))
    with open(library.path("updated")) as file:
        text = file.read()
    case.expect("it is the time", before <= text.rstrip("\n") <= time.strftime("%Y%m%dT%H%M%SZ", time.gmtime()))
    case.expect("all may read it", stat.S_IMODE(os.stat(library.path("updated")).st_mode), 0o644)
    case.expect("a trial", run("--dry-run"), (0, False))
    case.expect("walls", run("--walls"), (0, False))
    library.input.deliver("A")
    case.expect("a week that fails", run(restart="false"), (3, False))
    case.expect("something new", run(), (0, True))
    case.expect("back", run("--back"), (0, False))


def stop(supervisors):
    """Ends processes for good."""
    for it in supervisors:
        it.is_down = True
        it.child.kill()
        it.child.wait()


def shown(library, number, date):
    """The targets that the front door shows for a number and a date."""
    groups = json.loads(library.site.get(f"/find.json?issn={number}&date={date}").text)["groups"]
    return [link["target"] for group in groups for link in group["links"]]


@needs.nginx()
@needs.program()
class GoodWeeks(Case):
    def test_good_week(self) -> None:
        """The whole sample library: every target is new, then some have changed, then none."""
        with Library(ALL, processes=4, probes=33) as library:
            status, printed = library.first
            self.expect("the first version", (status, library.names(), library.weeks_served()), (0, ALL, {"A"}))
            self.expect_lines(
                "the first version",
                printed,
                "tidal-press: new, 3 rows",
                "33 probes hold",
                f"{library.current()} is in use",
            )
            first = library.current()
            library.input.deliver("B")
            with Reader(library) as reader:
                status, printed = library.run()
            self.expect("a good week", (status, library.weeks_served(), reader.faults), (0, {"B"}, []))
            self.expect_lines(
                "a good week",
                printed,
                "tidal-press: 1 row added, 0 gone",
                "  titles: 1 came, 0 gone: changes/tidal-press.txt",
                "coastal-law: rules changed",
                "33 probes hold",
            )
            self.expect(
                "nothing else has changed", re.findall(r"^([\w-]+): ", printed, re.M), ["tidal-press", "coastal-law"]
            )
            moved = [line for line in printed.splitlines() if " is now " in line]
            self.expect(
                "links that lead elsewhere",
                moved,
                [
                    "  coastal-law https://coastal.example.com/journals/rcl is now "
                    "https://coastal.example.com/titles/rcl"
                ],
            )
            second = library.current()
            self.expect("two versions", library.versions(), [first, second])
            self.expect("nothing new", library.run(), (0, f"nothing new: {second} stays in use\n"))
            self.expect("no other version", (library.versions(), library.left_behind()), ([first, second], []))
            check_time(self, library)

    def test_all_down(self) -> None:
        """If no process answers, the run says so, also if nothing is new."""
        with Library() as library:
            first, ports = library.current(), ", ".join(map(str, library.site.ports))
            self.expect(
                "one process is down",
                (stop(library.site.supervisors[:1]), library.run())[1],
                (0, f"nothing new: {first} stays in use\n"),
            )
            stop(library.site.supervisors)
            said = f"nothing new: {first} stays in use\n"
            self.expect(
                "all are down",
                library.run("--seconds", "1"),
                (4, f"{said}openlink-update: no process answers: ports {ports}\n"),
            )
            self.expect("a trial asks none", library.run("--dry-run", "--seconds", "1"), (0, said))

    def test_changes(self) -> None:
        """Rows added and gone, targets added and gone, links gained and lost, and a trial that changes nothing."""
        with Library() as library:
            first = library.current()
            rows = library.input.read("book-house.txt").splitlines(keepends=True)
            library.input.write(
                "book-house.txt", b"".join(rows[:1] + rows[2:] + [rows[1].replace(b"\tLi\t", b"\tLee\t")])
            )
            library.input.names = [name for name in library.input.names if name != "catalogue"]
            library.input.write(
                "extra.rules", b"rule\nwhen given rft.atitle\nlink https://extra.example.org/{rft.atitle}\n"
            )
            library.input.write("extra.txt", library.input.read("doi-resolver.txt"))
            library.input.names.append("extra")
            library.input.write_list()
            library.input.write(
                "probes.tsv", b"sid=google&issn=2901-0012&atitle=Storm&date=2003&volume=12\ttidal-press extra\n"
            )
            tried = library.run("--dry-run")
            self.expect("a trial", (tried[0], library.current(), library.versions()), (0, first, [first]))
            self.expect("a trial leaves nothing", library.left_behind(), [])
            status, printed = library.run()
            lines = [
                "catalogue: gone, since the list does not name it",
                "book-house: 1 row added, 1 gone",
                "extra: new, 1 row",
                "  gains extra https://extra.example.org/Storm",
                "  loses catalogue https://catalogue.example.org/search?index=number&term=2901-0012",
            ]
            labels = library.site.path("openlink/targets.json")
            lines += [
                f"{labels}: not named, so they are shown last and not as full text: extra",
                f"{labels}: named, and no target: catalogue",
            ]
            self.expect_lines("what has changed", printed, *lines, "1 probe holds")
            self.expect_lines("what a trial says", tried[1], *lines, "a trial: nothing was put in use")
            self.expect(
                "targets",
                (status, library.names()),
                (0, ["tidal-press", "coastal-law", "book-house", "doi-resolver", "extra"]),
            )

    def test_requests(self) -> None:
        """A thousand requests while versions change and processes are restarted."""
        with Library() as library:
            with Reader(library) as reader:
                week, runs = "A", []
                while reader.requests < 1000 or len(runs) < 3:
                    week = "B" if week == "A" else "A"
                    library.input.deliver(week)
                    runs.append(library.run()[0])
            self.expect("runs under a thousand requests", set(runs), {0})
            self.expect(
                "each has a reply", (reader.requests >= 1000, reader.faults[:3], reader.weeks), (True, [], set(MENUS))
            )

    def test_back(self) -> None:
        """The version before, by hand, and forward again; old versions go."""
        with Library() as library:
            stamps = [library.current()]
            for week in "BABAB":
                library.input.deliver(week)
                self.expect(f"week {week}", library.run()[0], 0)
                stamps.append(library.current())
            self.expect("four versions are kept", library.versions(), stamps[-4:])
            self.expect("back", library.run("--back"), (0, f"{stamps[-2]} is in use again\n"))
            self.expect(
                "the version before",
                (library.current(), library.weeks_served(), library.left_behind()),
                (stamps[-2], {"A"}, []),
            )
            # A new version may have the stamp of the one that is removed, if both were made within a second.
            open(library.path("versions", stamps[-1], "mark"), "w").close()
            self.expect("forward", library.run()[0], 0)
            kept = [stamp for stamp in library.versions() if os.path.exists(library.path("versions", stamp, "mark"))]
            self.expect("the version after", (library.weeks_served(), kept), ({"B"}, []))
            for _ in range(len(library.versions()) - 1):
                self.expect("back again", library.run("--back")[0], 0)
            status, printed = library.run("--back")
            self.expect("no version before", status, 3)
            self.expect_lines(
                "no version before", printed, "openlink-update: there is no version before the one in use"
            )

    def test_warnings(self) -> None:
        """A warning that the list allows, by its words; and walls that move with the month."""
        with Library() as library:
            library.input.add_row("book-house", b"A book\t\t9781234562427\t\t\t\t\t\t\tbooks.example.net/x")
            status, printed = library.run()
            self.expect("a warning", status, 1)
            self.expect_lines(
                "a warning",
                printed,
                f"  {library.input.path('book-house.txt')}: title_url not a web link 1, first 3 "
                '"books.example.net/x"',
            )
            library.input.allowed["book-house"] = "rows; title_url not a web link"
            library.input.write_list()
            self.expect("it is allowed", library.run()[0], 0)
            row = b"Walls\t3040-0007\t\t2000\t\t\t\t\t\thttps://x.example.org\t\tw\tP1Y\tfulltext"
            library.input.add_row("tidal-press", row)
            self.expect("a wall", library.run()[0], 0)
            with open(library.path("current", "tables", "tidal-press.txt")) as file:
                cells = file.read().splitlines()[-1].split("\t")
            self.expect(
                "its date", bool(re.fullmatch(r"20\d\d-\d\d", cells[6])) and len(cells) > 12 and cells[12] == "P1Y"
            )

    def test_walls(self) -> None:
        """The walls of the version in use, once they are not those of today: a new version takes its place, from the
        same files, whatever the input has by then."""
        with Library(probes=33) as library:
            first = library.current()
            self.expect("no walls", library.run("--walls"), (0, f"no walls of months or days: {first} stays in use\n"))
            row = "Walls\t3040-0007\t\t2000\t\t\t\t\t\thttps://x.example.org\t\tw\t{}\tfulltext"
            library.input.add_row("coastal-law", row.format("P1Y").encode())
            self.expect("a wall of years", library.run()[0], 0)
            stays = library.current()
            self.expect(
                "which moves every week",
                library.run("--walls"),
                (0, f"no walls of months or days: {stays} stays in use\n"),
            )
            library.input.replace("coastal-law.txt", "P1Y", "P12M")
            self.expect("a wall of months", library.run()[0], 0)
            second, today = library.current(), datetime.date.today()
            old, new = (today - datetime.timedelta(days) for days in (400, 20))
            for date, links in (
                (old, ["coastal-law"]),
                (old.year, ["coastal-law"]),
                (f"{old:%Y-%m}", ["coastal-law"]),
                (new, []),
                (f"{new}&coverage_to=99999999&x.from=20000101", []),
                ("", ["coastal-law"]),
                (1999, []),
            ):
                self.expect(f"readers of {date}", shown(library, "3040-0007", date), links)
            days = f"rft.date={new}&x.from={new:%Y%m%d}&x.to={new:%Y%m%d}&coverage_from=0&coverage_to=99999999"
            self.expect(
                "a request to the program", library.menu(library.site.ports[0], f"rft.issn=3040-0007&{days}"), {}
            )
            self.expect("walls of today", library.run("--walls"), (0, f"nothing new: {second} stays in use\n"))
            with open(library.path("current", "tables", "coastal-law.txt"), "r+", encoding="utf-8") as file:
                text = file.read()
                day = text.splitlines()[-1].split("\t")[-1]
                file.seek(0)
                file.write(text.replace(day, "20200229"))
            library.input.deliver("B")
            library.input.write("targets.tsv", b"a slip")
            library.input.write("probes.tsv", library.input.read("probes.tsv") + b"issn=3050-0001\tcatalogue\n")
            with Reader(library) as reader:
                status, printed = library.run("--walls")
            self.expect(
                "walls of another day",
                (status, library.weeks_served(), reader.faults, library.left_behind()),
                (0, {"A"}, [], []),
            )
            self.expect_lines(
                "walls of another day",
                printed,
                "coastal-law: moving walls changed",
                "33 probes hold",
                "not tried, since they differ with the version in use too: probes 34",
                f"{library.current()} is in use",
            )
            self.expect("it takes the place", library.versions(), [first, stays, library.current()])
            with open(library.path("current", "tables", "coastal-law.txt"), encoding="utf-8") as file:
                self.expect("the wall", file.read().splitlines()[-1].split("\t")[-2:], ["20000101", day])
            self.expect("back", (library.run("--back")[0], library.current()), (0, stays))

    def test_parts(self) -> None:
        """A table beyond 16 MiB is two targets for the processes and one for readers, forward and back."""
        with Library() as library:
            small = library.names()
            library.input.allowed["coastal-law"] = "gone up to 100%; less than half of the rows; came up to 15000%"
            library.input.write_list()
            cells = TITLE.split("\t")
            numbers = [issn(4000000 + number) for number in range(300)]
            library.input.add_row(
                "coastal-law",
                b"\n".join(
                    "\t".join([f"Large {number}", number, "", *cells[3:14], "x" * 59000, *cells[15:]]).encode()
                    for number in numbers
                ),
            )
            status, printed = library.run()
            at = small.index("coastal-law") + 1
            self.expect(
                f"two parts: {printed}",
                (status, library.names(), library.weeks_served()),
                (0, [*small[:at], "coastal-law.2", *small[at:]], {"A"}),
            )
            self.expect_lines(
                "two parts",
                printed,
                "coastal-law: 300 rows added, 0 gone",
                "  2 parts: coastal-law, coastal-law.2",
                "  titles: 300 came, 0 gone: changes/coastal-law.txt",
                "8 probes hold",
            )
            ports = [
                library.menu(library.site.ports[0], f"rft.issn={number}&x.from=19940101&x.to=19940101")
                for number in (numbers[0], numbers[-1])
            ]
            self.expect("for processes", [list(menu) for menu in ports], [["coastal-law"], ["coastal-law.2"]])
            self.expect(
                "for readers",
                [shown(library, number, 1994) for number in (numbers[0], numbers[-1])],
                [["coastal-law"]] * 2,
            )
            self.expect("nothing new", library.run(), (0, f"nothing new: {library.current()} stays in use\n"))
            self.expect("back", (library.run("--back")[0], library.names(), library.weeks_served()), (0, small, {"A"}))
            self.expect("forward", (library.run()[0], len(library.names())), (0, 6))
            rows = library.input.read("coastal-law.txt").splitlines(keepends=True)
            library.input.write("coastal-law.txt", b"".join(rows[:-300]))
            self.expect("one part again", (library.run()[0], library.names()), (0, small))

    def test_wrong_arguments(self) -> None:
        with Library() as library:
            self.expect("an unknown option", library.run("--backwards")[0], 2)
            self.expect("two modes", library.run("--back", "--dry-run")[0], 2)
            self.expect("two modes with walls", library.run("--walls", "--dry-run")[0], 2)
            os.rename(library.input.path("targets.tsv"), library.input.path("other.tsv"))
            status, printed = library.run()
            self.expect("no list", status, 4)
            self.expect_lines(
                "no list", printed, f"openlink-update: {library.input.path('targets.tsv')}: No such file or directory"
            )
            self.expect("a site without ports", library.run("--site", "/dev/null")[0], 4)
