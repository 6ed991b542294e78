"""A target whose table has parts: readers see one target, staff see the parts."""
from __future__ import annotations

import json
import subprocess
from typing import Any

from fixtures.nginx_site import Site
from fixtures.site_case import SiteCase

TITLES = {"aggregate-net": "issn=2929-0538&date=1998", "aggregate-net.2": "issn=3020-2353&date=1995"}


def row_of(row: str, first: int, last: int) -> str:
    """A row with another first and last year, from the first to the last day of which it is open."""
    cells = row.rstrip("\n").split("\t")
    cells[3], cells[6] = f"{first}-01-01", f"{last}-12-31"
    return "\t".join([*cells[:-2], f"{first}0101", f"{last}1231"]) + "\n"


class Parts(Site):
    """The site of the tests, with the table of one target in two parts."""

    def write_registry(self) -> None:
        super().write_registry()
        with open(self.path("registry.tsv"), encoding="utf-8") as file:
            lines = file.readlines()
        at = next(at for at, line in enumerate(lines) if line.startswith("aggregate-net\t"))
        _, code, table = lines[at].rstrip("\n").split("\t")
        with open(self.path(table), encoding="utf-8") as file:
            header, *rows = file.readlines()
        # Of the last title, the first part has a row in the place that a later one has in the second.
        older, row, later = (row_of(rows[-1], *years) for years in ((1980, 1985), (1990, 1999), (2000, 2008)))
        for name, part in (("tables/one.txt", [*rows[:3], older]), ("tables/two.txt", [*rows[3:-1], row, later])):
            with open(self.path(name), "w", encoding="utf-8") as file:
                file.writelines([header, *part])
        lines[at : at + 1] = [f"aggregate-net\t{code}\ttables/one.txt\n", f"aggregate-net.2\t{code}\ttables/two.txt\n"]
        with open(self.path("registry.tsv"), "w", encoding="utf-8") as file:
            file.writelines(lines)


def links(site: Site, query: str) -> list[dict[str, Any]]:
    groups = json.loads(site.get(f"/find.json?{query}").text)["groups"]
    return [link for group in groups for link in group["links"] if link["target"].startswith("aggregate-net")]


class DividedTables(SiteCase):

    """The table of one target has two parts."""

    @classmethod
    def new_site(cls) -> Site:
        return Parts(processes=1)

    def test_readers(self) -> None:
        for part, query in TITLES.items():
            found = [(link["target"], link["label"]) for link in links(self.site, query)]
            self.expect(f"the target of {part}", found, [("aggregate-net", "AggregateNet")])
        both = "rft.issn=2929-0538&rft.eissn=3020-2353&date=1998"
        found = [link["url"] for link in links(self.site, both)]
        self.expect("links of both parts", found, ["https://aggregator.example.net/titles/203"])

    def test_coverage(self) -> None:
        in_first = {"from": "1996-01-15", "to": "2000-10-15"}
        self.expect("coverage in the first part", links(self.site, TITLES["aggregate-net"])[0]["coverage"], in_first)
        for date, coverage in (
            ("1995", {"from": "1990-01-01", "to": "1999-12-31", "embargo": "P18M"}),
            ("2005", {"from": "2000-01-01", "to": "2008-12-31", "embargo": "P18M"}),
        ):
            found = links(self.site, f"issn=3020-2353&date={date}")[0]["coverage"]
            self.expect(f"coverage in the second, {date}", found, coverage)

    def test_staff(self) -> None:
        for part, query in TITLES.items():
            text = self.site.get(f"/report.txt?{query}", port=self.site.report_port).text
            report = dict(line.split("\t") for line in text.splitlines())
            of_parts = [name for name in TITLES if report[name].startswith("link ")]
            self.expect(f"the report of {part}", of_parts, [part])
        page = self.site.get(f"/why?{TITLES['aggregate-net.2']}", port=self.site.report_port).text
        self.expect("the page for staff", all(f'id="target-{name}"' in page for name in TITLES))

    def test_list(self) -> None:
        text = self.site.get("/journals/s/1").text
        self.expect("its label in the list", "AggregateNet: 2000 to 2008, without the last 18 months" in text)
        self.expect("no part in the list", "aggregate-net" in text, False)

    def test_probes(self) -> None:
        site = self.site
        site.write(
            "probes.tsv",
            f"{TITLES['aggregate-net.2']}\taggregate-net catalogue\n"
            "issn=2929-0538&date=2010\taggregate-net coastal-law\n"
            "issn=3020-2353&date=2026\taggregate-net catalogue\nissn=2943-081X&date=2012\taggregate-net\n",
        )
        doors = [f"http://127.0.0.1:{port}" for port in (site.port, site.report_port)]
        done = subprocess.run(["update/probe", site.path("probes.tsv"), *doors], capture_output=True, text=True)
        self.expect(
            "probes",
            [line for line in done.stdout.splitlines() if line.startswith("  missing")],
            ["  missing aggregate-net: no link"] * 2 + ["  missing aggregate-net: no row"],
        )
