"""Abbreviated titles: of usual ones, which are found among some thousands of titles, and what is done with them."""
from __future__ import annotations

from pathlib import Path
from urllib.parse import quote_plus

from fixtures.index_reader import journal
from fixtures.index_reader import table
from fixtures.library_index import write_index
from fixtures.made_titles import issn
from fixtures.subject_titles import subject_titles
from fixtures.titles_case import TitlesCase
from fixtures.titles_case import main_of

# A title whose row has an address with a DOI, and a publisher.
SIGNED, SIGNS = "Revista Española de Cardiología", ("https://e.org/10.55551/rec", "The Spanish Press")
UNDATED, OPEN = "Yearbook of Yews", "Reports on Rivers"  # without dates, and without a last one
# A title with a publisher whose name has more than the sixty characters that count.
LONG, PUBLISHER = "Quarterly of Quays", "The Association of Harbour Masters and Pilots of the Northern Coasts"
FITTING = (
    "Oyster Natlings Yield",
    "Oyster National Yield",
)  # `Natl` begins a word of the first, and shortens the other
LIST = Path(__file__).parent / "abbreviations.tsv"


def pairs() -> list[tuple[str, str]]:
    lines = [line for line in LIST.read_text(encoding="utf-8").splitlines() if not line.startswith("#")]
    return [(line.split("\t")[0], line.split("\t")[1]) for line in lines]


class Many(TitlesCase):
    """The index has thousands of titles more."""

    titles: dict[str, str]  # by number

    @staticmethod
    def names() -> list[str]:
        return [*subject_titles(), *(title for _, title in pairs())]

    @classmethod
    def setUpClass(cls) -> None:
        super().setUpClass()
        site = cls.site
        cls.titles = {issn(number): name for number, name in enumerate(dict.fromkeys(cls.names()))}
        rows = [journal(name, number, first="1950", last="2010") for number, name in cls.titles.items()]
        rows = [(*row, *SIGNS) if row[0] == SIGNED else row for row in rows]
        rows = [journal(*row[:2]) if row[0] == UNDATED else row for row in rows]
        rows = [journal(*row[:2], first="1990") if row[0] == OPEN else row for row in rows]
        rows = [(*row, "", PUBLISHER) if row[0] == LONG else row for row in rows]
        Path(site.path("tables/many.txt")).write_bytes(table(*rows))
        site.write("many.tsv", f"{site.read('registry.tsv')}many\tnone.olk\ttables/many.txt\n")
        write_index(site.path("many.tsv"), site.folder, site.path("many"))

    def setUp(self) -> None:
        super().setUp()
        self.put_in_use("many")

    def found(self, query: str) -> tuple[str | None, list[str]]:
        """The title whose number a request gets, and those that it may mean."""
        data = self.data(query)
        return self.titles.get(data["citation"].get("issn")), [it["title"] for it in data.get("maybe", [])]


class Abbreviations(Many):
    @staticmethod
    def names() -> list[str]:
        """With fifty of one key, and 49 of another."""
        crowded = [f"Xylem Yam{at}" for at in range(49)] + [f"Zebra Yam{at}" for at in range(48)]
        return [*Many.names(), *crowded, "Xylem Yard", "Zebra Yard", UNDATED, OPEN, LONG, *FITTING]

    def test_crowded_keys(self) -> None:
        """Of as many lines as a key can have nobody knows whether there are more."""
        for short, wanted in (("Zebr+Yard", ("Zebra Yard", [])), ("Xyl+Yard", (None, ["Xylem Yard"]))):
            self.expect(short, self.found(f"jtitle={short}&date=1995"), wanted)

    def test_usual_ones(self) -> None:
        """With a year, a title that is alone is taken; without one it is only offered."""
        alone, among = 0, 0
        for short, title in pairs():
            offered = self.found(f"jtitle={quote_plus(short)}")
            self.expect(f"{short}: no number without another sign", offered[0], None)
            self.expect(f"{short}: offered", title in offered[1])
            taken, others = self.found(f"jtitle={quote_plus(short)}&date=1995")
            wanted = (title, []) if len(offered[1]) == 1 else (None, offered[1])
            self.expect(f"{short}: with a year", (taken, others), wanted)
            alone, among = alone + (taken == title), among + (taken is None)
        self.expect("right and alone, right among others", (alone, among), (35, 1))

    def test_signs(self) -> None:
        """The year, the publisher or the DOI; a year that the tables do not have is none."""
        short, title = "jtitle=Rev+Esp+Cardiol", SIGNED
        for sign, is_taken in (
            ("date=1995", True),
            ("date=20101231", True),
            ("date=2011", False),
            ("date=1949", False),
            ("rft.pub=The+Spanish+Press", True),
            ("rft.pub=The+Spanish+Press&date=2011", False),
            ("rft.pub=Another+Press", False),
            ("id=doi:10.55551/rec.1", True),
            ("id=doi:10.55552/rec.1", False),
            ("id=doi:10.5555/rec.1", False),
            ("volume=5", False),
            ("date=last+year", False),
            ("date=1995&genre=book", False),
            ("date=1995&issn=1234-5679", False),
        ):
            taken, offered = self.found(f"{short}&{sign}")
            self.expect(f"with {sign}", taken == title, is_taken)
            self.expect(f"with {sign}: offered", offered == [title], not is_taken and "book" not in sign)

    def test_long_publisher(self) -> None:
        """The first sixty characters of its name count."""
        for name, publisher, is_taken in (
            ("the whole name", PUBLISHER, True),
            ("60 characters", PUBLISHER[:60], True),
            ("59 characters", PUBLISHER[:59], False),
            ("another after 60", PUBLISHER[:60] + "x", True),
            ("another before", "x" + PUBLISHER, False),
        ):
            found = self.found(f"jtitle=Quart+Quays&rft.pub={quote_plus(publisher)}")
            self.expect(name, found, (LONG, []) if is_taken else (None, [LONG]))

    def test_numbers(self) -> None:
        """A request with a number that no table has gets no other one."""
        query = "jtitle=Rev+Esp+Cardiol&date=1995&issn=1234-5679"
        page = self.site.get(f"/find?{query}").text
        self.expect("a question", ("Found by its title" in page, "Do you mean one of them?" in page), (False, True))

    def test_no_dates(self) -> None:
        """A year agrees with no title whose first year is not known."""
        self.expect("with a year", self.found("jtitle=Yearb+Yews&date=1995"), (None, [UNDATED]))

    def test_two_titles(self) -> None:
        """The shorter one is the abbreviation; of two as long it is the first."""
        for query, title in (
            ("jtitle=Rev+Esp+Cardiol&stitle=Am+J+Epidemiol", "American Journal of Epidemiology"),
            ("jtitle=J+Biol+Chem&stitle=Rev+Esp+Cardiol", "Journal of Biological Chemistry"),
            ("jtitle=J+Biol+Chem&stitle=Commun.+ACM", "Journal of Biological Chemistry"),
        ):
            self.expect(query, self.found(f"{query}&date=1995"), (title, []))

    def test_no_last_date(self) -> None:
        """Every year from the first one on agrees."""
        for year, wanted in (("1989", (None, [OPEN])), ("1990", (OPEN, [])), ("2026", (OPEN, []))):
            self.expect(year, self.found(f"jtitle=Rep+Rivers&date={year}"), wanted)

    def test_beginnings_first(self) -> None:
        """A title whose words begin with those of the request comes before one that only has their letters."""
        self.expect("both", self.found("jtitle=Oyst+Natl+Yield&date=1995"), (FITTING[0], []))
        self.expect("the other alone", self.found("jtitle=Oyst+Nationl+Yield&date=1995"), (FITTING[1], []))

    def test_whole_titles(self) -> None:
        """A title that lacks only brackets, stop words or a subtitle is not abbreviated, and is only offered."""
        for query, title in (
            ("jtitle=Revista+Espa%C3%B1ola+Cardiolog%C3%ADa&date=1995", SIGNED),
            ("jtitle=Annals+of+Mathematics+(Princeton)&date=1995", "Annals of Mathematics"),
        ):
            self.expect(query, self.found(query), (None, [title]))

    def test_pages(self) -> None:
        query = "jtitle=Invent.+Math.&volume=5"
        main = main_of(self.site.get(f"/find?{query}"))
        self.expect(
            "a question", ("Do you mean one of them?" in main, "Inventiones Mathematicae</a>" in main), (True,) * 2
        )
        self.expect("no redirect", self.site.get(f"/go?{query}").status, 200)
        page = self.site.get(f"/find?{query}&date=1995")
        self.tidy("a page by an abbreviation", page.text)
        self.expect("what it was found by", "Found by its title: Inventiones Mathematicae, ISSN" in page.text)
        both = self.found("jtitle=Unknown+of+All&stitle=Invent+Math&date=1995")
        self.expect("the shorter of two titles", both, ("Inventiones Mathematicae", []))


class Others(Many):
    @staticmethod
    def names() -> list[str]:
        """Without the titles of the list."""
        whole = {title for _, title in pairs()}
        return [name for name in subject_titles() if name not in whole]

    def test_titles_that_are_not_there(self) -> None:
        """Of abbreviations whose title no table has, few are taken as another one."""
        found = {short: self.found(f"jtitle={quote_plus(short)}&date=1995")[0] for short, _ in pairs()}
        wrong = {short: title for short, title in found.items() if title is not None}
        self.expect(f"taken as another: {wrong}", len(wrong) <= 1)
