"""What goes with a version beside its links: targets.json, if the operator keeps it in the input, and the holdings for
others."""
from __future__ import annotations

import json
import os

from fixtures import needs
from fixtures.cases import Case
from fixtures.library import Library
from fixtures.patience import wait_until
from fixtures.weeks import QUERY


def sample():
    with open("front_door/targets.json") as file:
        return json.load(file)


def labelled(label, **more):
    """The sample's targets.json with another label of one target."""
    data = {**sample(), **more}
    data["targets"] = {**data["targets"], "coastal-law": {"label": label, "group": "Full text"}}
    return json.dumps(data).encode()


def label(library):
    """The label that readers see."""
    groups = json.loads(library.site.get(f"/find.json?{QUERY}").text)["groups"]
    return next((link["label"] for group in groups for link in group["links"] if link["target"] == "coastal-law"), None)


def shows(library, text):
    """Whether readers see this label; nginx reads its files again in its own time."""
    return bool(wait_until(lambda: label(library) == text, 10)) or label(library)


def put_in_use(library):
    """Edits the site as an operator does, so that it names the targets.json of the version in use."""
    site = library.site
    site.edit(
        (f"targets from {site.path('openlink/targets.json')};", f"targets from {library.path('current')}/targets.json;")
    )


def cells_in(library, *names):
    with open(library.path("current", "export", *names), encoding="utf-8") as file:
        return [line.rstrip("\n").split("\t") for line in file]


@needs.nginx()
@needs.program()
class SiteWeeks(Case):
    def test_names(self) -> None:
        """Forward and back with the version; one that is wrong, or that differs for a probe, changes nothing."""
        with Library() as library:
            path = library.input.path("targets.json")
            library.input.write("targets.json", labelled("One"))
            status, printed = library.run()
            self.expect(f"not yet in use: {printed}", (status, label(library)), (0, "Coastal Law Society"))
            self.expect_lines(
                "not yet in use",
                printed,
                f"{path} is not in use: {library.site.path('openlink.conf')} names "
                f"{library.site.path('openlink/targets.json')}",
            )
            put_in_use(library)
            self.expect("in use", shows(library, "One"))
            first = library.current()
            library.input.write("targets.json", labelled("Two"))
            status, printed = library.run()
            self.expect(
                f"another label alone: {printed}",
                (status, library.current() != first, shows(library, "Two")),
                (0, True, True),
            )
            second = library.current()
            # The sample's targets.json names targets that this library lacks, which is said first.
            status, printed = library.run()
            self.expect("nothing new", (status, printed.splitlines()[-1]), (0, f"nothing new: {second} stays in use"))
            self.expect("back", (library.run("--back")[0], shows(library, "One")), (0, True))
            self.expect("and forward", (library.run()[0], shows(library, "Two")), (0, True))
            second = library.current()
            library.input.write("targets.json", labelled("Three", group=[]))
            status, printed = library.run()
            self.expect(
                f"a wrong one: {printed}", (status, library.current(), shows(library, "Two")), (1, second, True)
            )
            self.expect_lines(
                "a wrong one",
                printed,
                "targets.json: the old one is kept",
                f'  {path}: unknown name "group"',
                f"nothing new: {second} stays in use; old files of targets.json kept",
            )
            hidden = [{"name": "Full text", "onlyWithout": "In the library"}, *sample()["groups"][1:]]
            library.input.write("targets.json", labelled("Four", groups=hidden))
            status, printed = library.run()
            self.expect(
                f"links that a probe lacks: {printed}",
                (status, library.current(), shows(library, "Two")),
                (3, second, True),
            )
            os.unlink(path)
            library.input.deliver("B")
            status, printed = library.run()
            self.expect(f"no longer in the input: {printed}", (status, shows(library, "Two")), (0, True))

    def test_reload(self) -> None:
        """Readers see the version before if nginx cannot be told of the new one."""
        with Library() as library:
            library.input.write("targets.json", labelled("One"))
            self.expect("one", library.run()[0], 0)
            put_in_use(library)
            first = library.current()
            library.input.write("targets.json", labelled("Two"))
            status, printed = library.run("--reload", "false")
            self.expect(f"a reload that fails: {printed}", (status, library.current()), (3, first))
            self.expect_lines(
                "a reload that fails",
                printed,
                "openlink-update: false: status 1, no message",
                f"{first} again: false: status 1, no message",
            )
            status, printed = library.run()
            self.expect(
                f"the run after it: {printed}", (status, shows(library, "Two"), library.left_behind()), (0, True, [])
            )

    def test_exports(self) -> None:
        """Each version has the holdings for others, as they were in its week."""
        with Library() as library:
            titles = [it[0] for it in cells_in(library, "kbart.txt")]
            self.expect("KBART", ("Annals of Tidal Studies" in titles, "Papers on Piers" in titles), (True, True))
            self.expect("a spreadsheet", "Papers on Piers" in [it[0] for it in cells_in(library, "titles.tsv")])
            self.expect(
                "Google Scholar",
                sorted(os.listdir(library.path("current", "export", "scholar"))),
                ["holdings-1.xml", "links.xml"],
            )
            library.input.replace("coastal-law.txt", "Papers on Piers", "Papers on Quays")
            self.expect("another week", library.run()[0], 0)
            for names in (("kbart.txt",), ("titles.tsv",), ("scholar", "holdings-1.xml")):
                with open(library.path("current", "export", *names), encoding="utf-8") as file:
                    text = file.read()
                self.expect(
                    f"{names[-1]} of that week", ("Papers on Quays" in text, "Papers on Piers" in text), (True, False)
                )
            library.run("--back")
            self.expect("the week before", "Papers on Piers" in [it[0] for it in cells_in(library, "kbart.txt")])
