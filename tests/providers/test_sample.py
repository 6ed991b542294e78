"""The sample library by its list of targets, most of which have rules that ship."""
from __future__ import annotations

import shutil
from pathlib import Path

from fixtures import needs
from fixtures.cases import Case
from fixtures.made_versions import Weeks

SAMPLE = Path("examples/library")
DATE = "&rft.date={0}&x.from={0}0101&x.to={0}1231"


@needs.program()
class Sample(Case):
    def test_list(self) -> None:
        with Weeks() as weeks:
            for path in SAMPLE.iterdir():
                if path.suffix in (".txt", ".csv", ".tsv", ".rules"):
                    shutil.copy(path, weeks.path("input"))
            shutil.copy("update/tables/ANY.tsv", weeks.path("input"))
            lines = weeks.make()
            self.expect("what is left out", (weeks.maker.left_out, weeks.maker.kept), ([], []))
            self.expect("the targets", weeks.maker.names[0], "open-shelf")
            self.expect("what is said", len([line for line in lines if ": new, " in line]), 7)
            proxy = "https://proxy.example.org/login?"
            for query, wanted in (
                ("rft.issn=2929-0538" + DATE.format(2015),
                 {"coastal-law": f"{proxy}url=https://coastal.example.com/journals/rcl"}),
                ("rft.issn=2929-0538" + DATE.format(1998), {}),
                ("rft.issn=2957-1057" + DATE.format(2016) + "&x.doi=10.5555/jlh.67.5",
                 {"lighthouse-society": f"{proxy}qurl=https%3A%2F%2Fdoi.org%2F10.5555%2Fjlh.67.5"}),
                ("rft.issn=ANY&x.doi=10.5555/a&rft.atitle=A+b",
                 {"doi-page": "https://doi.org/10.5555%2Fa",
                  "google-scholar": "https://scholar.google.com/scholar?q=%22A%20b%22"}),
            ):
                self.expect(query, weeks.menu(query), wanted)
