"""The right page for a request in a state of the library, worked out from the made rows and not by the program."""
import calendar, copy, dataclasses, datetime, re
from urllib.parse import urlencode

# The rules of a provider, as the input has them; EDITION changes with its addresses.
RULES = {
    "days": """rule
when coverage_depth is "fulltext"
when given title_id
when x.to from coverage_from to *
when x.from from * to coverage_to
link https://NAME.example.com/EDITION/{title_id}
""",
    "undated": """rule
when coverage_depth is "fulltext"
when x.to from coverage_from to *
when x.from from * to coverage_to
link https://NAME.example.com/EDITION/{title_id}?year={rft.date:4}

rule
when has x.to
link none:out-of-coverage

rule
when coverage_to from coverage_from to *
link https://NAME.example.com/EDITION/{title_id}
""",
    "volume": """rule
when coverage_depth is "fulltext"
when rft.volume from num_first_vol_online to num_last_vol_online
link https://NAME.example.com/EDITION/{online_identifier}/{rft.volume}
""",
    "books": """rule
when given online_identifier
link https://NAME.example.com/EDITION/isbn/{online_identifier}
""",
}
LOAN_RULES = """rule
when given x.issn
link https://loans.example.org/?number={x.issn}

rule
when given x.isbn
link https://loans.example.org/?number={x.isbn}
"""
FULL, LOANS, OTHERS, LOAN = "Full text", "Request a copy", "More", "loan"
UNDATED = ("days", "volume")  # rules that have no link for a journal without a date
STEP = re.compile(r"([PR])(\d+)([YMD])")


def rules_of(provider):
    return RULES[provider.rules].replace("NAME", provider.name).replace("EDITION", f"e{provider.edition}")


@dataclasses.dataclass(frozen=True)
class Held:
    """What the library has of a provider."""

    rows: tuple
    rules: str
    edition: int
    label: str
    more: int = 0  # further rows, of titles that nobody asks for


@dataclasses.dataclass(frozen=True)
class Request:
    number: str
    date: str = ""  # a year, a month or a day
    volume: str = ""
    title: str = ""  # in place of the number
    source: str = ""  # that sends it

    def query(self):
        number = {"issn" if len(self.number) == 9 else "isbn": self.number}
        given = {**({"title": self.title} if self.title else number), "date": self.date, "volume": self.volume}
        given["sid"] = self.source
        return urlencode({name: text for name, text in given.items() if text})


def back(day, steps):
    """A month earlier as often as that: the same day of the month, or its last one."""
    year, month = day.year, day.month
    for _ in range(steps):
        year, month = (year, month - 1) if month > 1 else (year - 1, 12)
    return datetime.date(year, month, min(day.day, calendar.monthrange(year, month)[1]))


def days_of(date):
    """The first and the last day of a date."""
    parts = [int(part) for part in date.split("-")]
    if len(parts) == 3:
        return (datetime.date(*parts),) * 2
    first = datetime.date(parts[0], parts[1] if len(parts) == 2 else 1, 1)
    last_month = first.month if len(parts) == 2 else 12
    return first, datetime.date(parts[0], last_month, calendar.monthrange(parts[0], last_month)[1])


def open_days(row, today):
    """The first and the last day that are open on a day, or None if there is none."""
    start = days_of(row.first)[0] if row.first else datetime.date.min
    end = days_of(row.last)[1] if row.last else datetime.date.max
    for kind, number, unit in STEP.findall(row.embargo):
        steps = int(number) * (12 if unit == "Y" else 1)
        wall = today - datetime.timedelta(int(number)) if unit == "D" else back(today, steps)
        if kind == "P":
            end = min(end, wall)
        else:
            start = max(start, wall + datetime.timedelta(1))
    return (start, end) if start <= end else None


def days_around(row, today):
    """The first and the last open day, and the days before and after them."""
    days, one = open_days(row, today), datetime.timedelta(1)
    first, last = days or (datetime.date.min, datetime.date.max)
    found = [first - one, first] if first > datetime.date.min else []
    return [str(day) for day in found + ([last, last + one] if last < datetime.date.max else [])]


def path_of(row, held, request, today):
    """What comes after the edition in the link that a row gives, or None."""
    if held.rules == "books":
        return f"isbn/{row.online}"
    if held.rules == "volume":
        is_there = request.volume and row.volume and int(request.volume) >= int(row.volume)
        return f"{row.online}/{request.volume}" if is_there else None
    days = open_days(row, today)
    if days is None:
        return None
    if request.date:
        first, last = days_of(request.date)
        if last < days[0] or first > days[1]:
            return None
        return row.id if held.rules == "days" else f"{row.id}?year={request.date[:4]}"
    return row.id if held.rules == "undated" else None


def may_be_open(row, year):
    """Whether a row covers a part of a year, without an embargo, of which no page says what it closes."""
    return not row.embargo and (not row.first or row.first[:4] <= year) and (not row.last or year <= row.last[:4])


class State:
    """What the library serves: of each provider, since a day, and which of them targets.json does not name."""

    def __init__(self, name, day, providers, unnamed=frozenset()):
        self.name, self.day, self.providers, self.unnamed = name, day, providers, unnamed
        self.rows, self.titles, self.title_of = {}, {}, {}
        for name, held in providers.items():
            for row in held.rows:
                self.rows.setdefault(row.title, {}).setdefault(name, []).append(row)
                self.titles.setdefault(row.title, row)
                self.title_of.update({row.printed: row.title, row.online: row.title})

    def named_as(self, other):
        """The same with the names of another state."""
        found = copy.copy(self)
        found.unnamed = other.unnamed
        return found

    def number_of(self, request):
        """The number of a request, or that of its title; None if there is no such title."""
        if not request.title:
            return request.number
        row = self.titles.get(request.title)
        return row.printed if row else None

    def rows_of(self, request):
        """The rows of the title of the request's number, by provider: a row may have another number of the title."""
        return self.rows.get(self.title_of.get(self.number_of(request)), {})

    def pages(self, request):
        """The target, the label and the address of each page of the title that is offered: of targets without a link
        whose rules have none without a date, if they may have the year, and if the request may mean all of the title.
        """
        if request.date and request.volume:
            return set()
        linked = {link[1] for link in self.links(request)}
        return {
            (name, f"The journal at {self.label_of(name)}", f"https://{name}.example.com/journals/{row.id}")
            for name, rows in self.rows_of(request).items()
            if name not in linked and self.providers[name].rules in UNDATED
            for row in rows
            if not request.date or may_be_open(row, request.date[:4])
        }

    def label_of(self, name):
        return name if name in self.unnamed else self.providers[name].label

    def links(self, request):
        """The group, target, label, address and row of each link, in the order of the page."""
        number, found, more = self.number_of(request), [], []
        if number is None:
            return []
        of_number = self.rows_of(request)
        for name, held in self.providers.items():
            for row in of_number.get(name, ()):
                path = path_of(row, held, request, self.day)
                if path is not None:
                    place = (more, OTHERS) if name in self.unnamed else (found, FULL)
                    label = self.label_of(name)
                    place[0].append((place[1], name, label, f"https://{name}.example.com/e{held.edition}/{path}", row))
                    break
        loan = [] if found else [(LOANS, LOAN, "Loan", f"https://loans.example.org/?number={number}", None)]
        return found + loan + more
