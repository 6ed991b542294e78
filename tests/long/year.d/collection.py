"""Forty made providers, and their tables week by week. A table is a list of rows; how it becomes the bytes of a file is
in tables.py."""
import dataclasses, os
from fixtures.made_titles import Made, isbn, issn

COUNT, HOSTS = 40, 8  # providers, and their hosts; the last provider has the last host for itself
PLAIN = 36  # from this one on they have plain tables of journals, for slips of their own
STABLE = 14  # titles that never change, for the probes
IS_SMALL = bool(os.environ.get("YEAR_SMALL"))
JOURNALS, BOOKS = (600, 150) if IS_SMALL else (2500, 600)
ROWS = (45, 80) if IS_SMALL else (50, 400)  # titles of a provider at first, from and to
DATES = ("1975", "1988-07", "1992-03-15", "2001-11", "2010-02-28", "2015-12-31", "2019", "2024-06-30")
EMBARGOES = ("", "", "", "P1Y", "P6M", "P30D", "R5Y", "R10Y;P3M", "P18M")


@dataclasses.dataclass(frozen=True)
class Row:
    title: str
    printed: str  # ISSN or ISBN
    online: str
    first: str = ""  # dates, as the standard writes them
    last: str = ""
    volume: str = ""  # the first one
    embargo: str = ""
    id: str = ""

    @property
    def is_journal(self):
        return len(self.printed) == 9


@dataclasses.dataclass
class Provider:
    name: str
    host: int
    form: str  # of its files: a name of tables.FORMS
    rules: str  # a name of links.RULES
    rows: tuple = ()
    edition: int = 1  # of its addresses

    @property
    def file(self):
        return f"{self.name}.txt"

    @property
    def label(self):
        return self.name.replace("-", " ").title()


class Collection:
    """The providers as they are in a week; `advance` makes the next one."""

    def __init__(self, source, forms, rules):
        self.source, made = source, Made(seed=source.randrange(10**6), vocabulary=3000)
        self.journals = [self.title(made, number, issn) for number in range(JOURNALS)]
        self.books = [self.title(made, number, isbn) for number in range(BOOKS)]
        self.stable = self.journals[:STABLE]
        self.providers = []
        for number in range(COUNT):
            host = HOSTS - 1 if number == COUNT - 1 else number % (HOSTS - 1)
            form, kind = forms[number % len(forms)], rules[number % len(rules)]
            if number >= PLAIN:
                form, kind = forms[0], rules[0]
            provider = Provider(f"press-{number:02}", host, form, kind)
            provider.rows = tuple(self.first_rows(provider, number))
            self.providers.append(provider)

    @staticmethod
    def title(made, number, write):
        """A title with a name of its own and letters that every encoding has, and its two numbers."""
        return f"{made.title()} é {number}", write(2 * number + 1000), write(2 * number + 1001)

    def first_rows(self, provider, number):
        pool = self.books if provider.rules == "books" else self.journals[STABLE:]
        rows = [
            row
            for title in self.source.sample(pool, self.source.randrange(*ROWS))
            for row in self.rows_of(title, f"t{number}")
        ]
        if provider.rules == "books":
            return rows
        own = [title for place, title in enumerate(self.stable) if place % 5 == number % 5]
        return [*(Row(*title, "1990", "", "1", "", f"s{number}x{title[1][-4:]}") for title in own), *rows]

    def rows_of(self, title, prefix):
        """One row of a title, or two with a gap between them."""
        mark = f"{prefix}x{title[1][-6:]}"
        if len(title[1]) != 9:
            return [Row(*title, id=mark)]
        choice = self.source.choice
        if self.source.random() < 0.2:
            return [Row(*title, "1970-01-01", "1979-12", "1", "", mark), Row(*title, "1991", "", "22", "", mark)]
        last = choice(("", "", "", "2012", "2021-08", "2022-02-28"))
        return [Row(*title, choice(DATES[:4]), last, choice(("1", "5", "12")), choice(EMBARGOES), mark)]

    def is_stable(self, row):
        return (row.title, row.printed, row.online) in self.stable

    def advance(self):
        """The next week: each provider has some titles more and some less, and some have other dates; a few have other
        addresses."""
        for number, provider in enumerate(self.providers):
            if self.source.random() < 0.3:
                continue
            rows = [row for row in provider.rows if self.is_stable(row) or self.source.random() > 0.012]
            pool = self.books if provider.rules == "books" else self.journals[STABLE:]
            known = {row.printed for row in rows}
            new = [title for title in self.source.sample(pool, 4) if title[1] not in known]
            rows += [row for title in new for row in self.rows_of(title, f"t{number}")]
            provider.rows = tuple(self.with_other_date(row) for row in rows)
            if self.source.random() < 0.02:
                provider.edition += 1

    def with_other_date(self, row):
        if self.is_stable(row) or not row.is_journal or self.source.random() > 0.01:
            return row
        return dataclasses.replace(row, last="" if row.last else "2025-05-31")
