"""The index of titles: it goes forward and back with the version, and changes with its format and the switch of the
list."""
from __future__ import annotations

import json
import os
import shutil

from fixtures import needs
from fixtures.cases import Case
from fixtures.library import HERE as FIXTURES
from fixtures.library import Library
from fixtures.library import ended
from fixtures.made_titles import issn
from fixtures.patience import wait_until
from fixtures.weeks import TITLE

LIST = "js_var $openlink_list {};"
BY_TITLE = "/find.json?title=papers+on+piers&volume=5&date=1994"


def names_of(library, *folder):
    path = library.path("current", "index", *folder)
    return sorted(os.listdir(path)) if os.path.isdir(path) else []


def targets(library, query=BY_TITLE):
    """The targets that the front door shows for a request without a number."""
    reply = json.loads(library.site.get(query).text)
    return [link["target"] for group in reply["groups"] for link in group["links"]]


@needs.nginx()
@needs.program()
class IndexWeeks(Case):
    def test_weeks(self) -> None:
        """A title that is known from one table, then from another, in the version in use and in the one before."""
        with Library() as library:
            library.input.write("probes.tsv", b"title=papers+on+piers&volume=5&date=1994\tcoastal-law\n")
            self.expect("a probe by title", library.run()[0], 0)
            self.expect("the index of the first week", targets(library), ["coastal-law"])
            first = library.current()
            library.input.replace("coastal-law.txt", "Papers on Piers", "Papers on Quays")
            status, printed = library.run()
            self.expect(
                "a probe whose title has gone",
                (status, library.current(), targets(library)),
                (3, first, ["coastal-law"]),
            )
            self.expect_lines("a probe whose title has gone", printed, "  missing coastal-law: no row")
            library.input.write("probes.tsv", b"title=papers+on+quays&volume=5&date=1994\tcoastal-law\n")
            status, printed = library.run()
            self.expect(f"the title of the second week: {printed}", (status, targets(library)), (0, []))
            self.expect("by its new name", targets(library, BY_TITLE.replace("piers", "quays")), ["coastal-law"])
            self.expect(
                "the links of both versions are known",
                [line for line in printed.splitlines() if " gains " in line],
                ["  gains coastal-law https://coastal.example.com/journals/pp"],
            )
            self.expect("back", (library.run("--back")[0], targets(library)), (0, ["coastal-law"]))

    def test_format(self) -> None:
        """A version whose index has another format, or none, is not the same, although its tables are."""
        with Library() as library:
            first = library.current()
            with open(library.path("current", "index", "format")) as file:
                text = file.read()
            self.expect("the format", text, "6 list\n")
            with open(library.path("current", "index", "named")) as file:
                named = dict(line.rstrip("\n").split("\t") for line in file)
            self.expect("what the rules name", named.get("coastal-law"), "date volume")
            with open(library.path("current", "index", "format"), "w") as file:
                file.write("0 list\n")
            status, printed = library.run()
            self.expect(
                f"an older format: {printed}",
                (status, library.current() != first, targets(library)),
                (0, True, ["coastal-law"]),
            )
            second = library.current()
            self.expect("nothing new", library.run(), (0, f"nothing new: {second} stays in use\n"))
            shutil.rmtree(library.path("current", "index"))
            self.expect("a version without an index", targets(library), [])
            status, printed = library.run()
            self.expect(
                f"then one with it: {printed}",
                (status, library.current() != second, targets(library)),
                (0, True, ["coastal-law"]),
            )

    def test_switch(self) -> None:
        """The list of titles is in the index unless the site is without it."""
        with Library() as library:
            path = library.site.path("openlink.conf")
            with open(path) as file:
                site = file.read()
            assert site.count(LIST.format("on")) == 1, "openlink.conf has no switch of the list"
            folders = ["format", "heads", "keys", "list", "named", "words"]
            self.expect("with the list", (names_of(library), names_of(library, "list")), (folders, ["b", "j"]))
            for state, expected in (("off", ["format", "heads", "keys", "named"]), ("on", folders)):
                with open(path, "w") as file:
                    file.write(site.replace(LIST.format("on"), LIST.format(state)))
                before = library.current()
                status, printed = library.run()
                self.expect(
                    f"{state}: {printed}", (status, library.current() != before, names_of(library)), (0, True, expected)
                )
                self.expect(f"titles are found, {state}", targets(library), ["coastal-law"])
                self.expect(f"nothing new, {state}", library.run()[0], 0)

    def test_title_pages(self) -> None:
        """Rules without a link for a title alone are said, and readers get the addresses of their rows, which go back
        with the version."""
        query = "/find.json?rft.genre=journal&rft.issn=3030-0002"

        def pages(library: Library) -> list[str]:
            return [page["url"] for page in json.loads(library.site.get(query).text).get("pages", [])]

        with Library() as library:
            self.expect("a rule has a link", (targets(library, query), pages(library)), (["coastal-law"], []))
            rules = library.input.read("coastal-law.rules").decode()
            library.input.write("coastal-law.rules", rules[: rules.rindex("rule\n")].encode())
            status, printed = library.run()
            self.expect(
                f"none has: {printed}",
                (status, targets(library, query), pages(library)),
                (0, [], ["https://press.example.com/pp"]),
            )
            said = 'coastal-law: no link without a date for journals, such as "Review of Coastal Law"'
            self.expect_lines("none has", printed, said)
            self.expect(
                "back", (library.run("--back")[0], targets(library, query), pages(library)), (0, ["coastal-law"], [])
            )

    def test_title_pages_while_processes_restart(self) -> None:
        """While the index is of the new version and the processes are of the one before, no page of a title is
        offered: it may be of a title that these do not have."""
        old, new = "rft.issn=3030-0002", "rft.issn=3030-0053"
        row = TITLE.replace("Papers on Piers", "Papers on Quays").replace("3030-0002", new[-9:])
        row = row.replace("3030-0010", "").replace("/pp", "/pq").replace("\tpp\t", "\tpq\t")

        def pages(library: Library, number: str) -> list[str]:
            data = json.loads(library.site.get(f"/find.json?rft.genre=journal&{number}").text)
            return [page["url"] for page in data.get("pages", [])]

        with Library() as library:
            rules = library.input.read("coastal-law.rules").decode()
            library.input.write("coastal-law.rules", rules[: rules.rindex("rule\n")].encode())
            self.expect("the first week", library.run()[0], 0)
            found = [pages(library, number) for number in (old, new)]
            self.expect("its pages", found, [["https://press.example.com/pp"], []])
            first = library.current()
            library.input.add_row("coastal-law", row.encode())
            with open(library.aside("stuck"), "w"):
                pass
            page = f"http://127.0.0.1:{library.site.report_port}/health"
            child = library.begin(restart=f"{FIXTURES}/restart_with_page {library.room} PORT {page}")
            self.expect("the first restart", wait_until(lambda: os.path.exists(library.aside("statuses"))), True)
            self.expect("the new version's index is in use", library.current() > first)
            found = [pages(library, number) for number in (old, new)]
            os.unlink(library.aside("stuck"))
            self.expect("pages before the processes are restarted", found, [[], []])
            status, printed = ended(child)
            found = [pages(library, number) for number in (old, new)]
            expected = [["https://press.example.com/pp"], ["https://press.example.com/pq"]]
            self.expect(f"pages after it: {printed}", (status, found), (0, expected))

    def test_abbreviations(self) -> None:
        """The library's own list: it goes forward and back with the version, and a slip is said."""
        query = "/find.json?title=PoP&volume=5&date=1994"
        with Library() as library:
            self.expect("without a list", targets(library, query), [])
            library.input.write("abbreviations.tsv", b"P.o.P.\tNone\nPoP\tPapers on Piers\nslip\n")
            status, printed = library.run()
            self.expect(f"with one: {printed}", (status, targets(library, query)), (0, ["coastal-law"]))
            place = library.input.path("abbreviations.tsv")
            self.expect_lines(
                "what is wrong",
                printed,
                "abbreviations.tsv: no table has None",
                f"{place}: line 3: not an abbreviation and a title with a tab between them",
            )
            self.expect("nothing new", library.run()[1].splitlines()[-1][:11], "nothing new")
            library.input.write("abbreviations.tsv", b"PoP\t\xff\n")
            status, printed = library.run()
            self.expect_lines("not readable", printed, f"{place}: not UTF-8: the old one is kept")
            self.expect("the old one", (status, targets(library, query)), (0, ["coastal-law"]))
            os.unlink(place)
            self.expect("no list any more", (library.run()[0], targets(library, query)), (0, []))
            self.expect("back", (library.run("--back")[0], targets(library, query)), (0, ["coastal-law"]))

    def test_many_titles(self) -> None:
        """As many titles as make a file in most places of keys/: all are there once the version is in use."""
        with Library() as library:
            rows = [
                TITLE.replace("Papers on Piers", f"Papers {number}")
                .replace("3030-0002", issn(4000000 + number))
                .replace("3030-0010", "")
                .encode()
                for number in range(3000)
            ]
            library.input.allowed["coastal-law"] = "came up to 150000%"
            library.input.write_list()
            library.input.add_row("coastal-law", b"\n".join(rows))
            status, printed = library.run()
            self.expect(f"3000 more titles: {printed}", (status, len(names_of(library, "keys")) > 3000), (0, True))
            self.expect("one of them", targets(library, "/find.json?title=papers+1234&date=1994"), ["coastal-law"])
