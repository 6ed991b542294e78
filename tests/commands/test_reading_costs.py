"""The processor time of the service for a query of any source, as a multiple of that for an honest query of its size,
in the same run. On a slow or busy machine both take longer, and their ratio stays."""
from __future__ import annotations

from urllib.parse import quote_plus

from fixtures.program import ProgramCase
from fixtures.service import Service
from fixtures.targets import write_registry

SIZE = 8_000  # bytes of a query; those that are decoded and written again in UTF-8 get longer
# How many times the processor time of an honest query a query may take.
MOST = 4.0
ROUNDS, REQUESTS = 3, 20

RULES = "rule\nlink {+title_url}{?rft.volume}\n"
OWN = "print_identifier\ttitle_url\n0028-0836\thttp://e.org/a\n"
ANY = "print_identifier\ttitle_url\nANY\thttp://s.org/\n"

USUAL = (
    "ctx_ver=Z39.88-2004&url_ver=Z39.88-2004&rft_val_fmt=info%3Aofi%2Ffmt%3Akev%3Amtx%3Ajournal&rft.genre=article"
    "&rft.atitle=On+the+measure+of+whales&rft.jtitle=Journal+of+Marine+Letters&rft.date=1851-10-18&rft.volume=12"
    "&rft.issue=3&rft.spage=101&rft.epage=135&rft.issn=0028-0836&rft_id=info%3Adoi%2F10.1000%2F182"
)
AUTHOR = "&rft.au=" + quote_plus("Melville, Herman A.")
WORDS = "a+measure%2C+of+whales+and+of+sand+"

# Each is repeated, up to the size: the beginning of a pair, its part that is repeated, and how often in one pair.
FORMS = {
    "pairs": ("", "rft.issn=1234-567&", 1),
    "empty pairs": ("", "&", 1),
    "semicolons": ("", ";a=1", 1),
    "entities between pairs": ("", "&amp;a=1", 1),
    "question marks": ("", "?", 1),
    "latin letters": ("atitle=", "%E9", 1_000),
    "euro signs": ("ctx_enc=info:ofi/enc:windows-1252&rft.atitle=", "%80", 1_000),
    "escapes of escapes": ("rft.atitle=", "%2525", 500),
    "braces": ("rft.au=", "%7Ba%7D", 300),
    "accents": ("rft.au=", "%5C%22o", 300),
    "formulas": ("rft.au=", "%24a%7B", 300),
    "references": ("rft.atitle=", "%26amp%3B", 300),
    "unknown references": ("rft.atitle=", "%26a%3B", 300),
    "numbers of characters": ("rft.atitle=", "%26%2338%3B", 300),
    "tags": ("rft.atitle=", "%3Ci%3E", 300),
    "ends of tags": ("rft.atitle=", "%3E", 1_000),
    "open tags": ("rft.atitle=", "%3C", 1_000),
    "remarks": ("rft.atitle=", "(retracted+", 600),
    "identifiers in titles": ("title=", "10.5555/a)", 95),
    "identifiers in lines": ("rft.source=", "10.5555/%0A", 43),
    "titles with identifiers": ("", "rft.atitle=10.5555/a&", 1),
    "titles of numbers": ("rft.atitle=", "12345+", 160),
    "ISSNs among identifiers": ("", "rft_id=ISSN+2901-0012&", 1),
    "ISSNs in sources": ("rft.source=", "ISSN+", 100),
    "titles of issues": ("rft.source=Tides+Vol.+12+No.+3+(2012):", "Silt+", 40),
    "brackets": ("rft_id=", ")", 490),
    "identifiers": ("rft_id=", "doi:", 120),
    "sources": ("rft.source=", "1(1)+", 98),
    "names of sources": ("rft.source=", "J+1+", 98),
    "volumes": ("rft.volume=", "1+Suppl+", 25),
    "pages": ("rft.spage=", "1-", 100),
    "ISSNs": ("rft.issn=", "0028-0836+", 400),
    "ISBNs": ("rft.isbn=", "9783161484100+", 300),
    "dates": ("rft.date=", "1-", 2_000),
    "digits of another writing": ("rft.date=", "%D9%A1", 1_360),
    "dashes": ("rft.pages=", "%E2%80%93", 60),
}


def honest(size: int) -> str:
    """A usual query with many authors, and then with an abstract, of this many bytes."""
    authors = AUTHOR * ((size // 2 - len(USUAL)) // len(AUTHOR))
    return (USUAL + authors + "&rft.description=" + WORDS * (size // len(WORDS)))[:size]


def hostile(form: tuple[str, str, int], size: int) -> str:
    """A query of a form, of this many bytes."""
    beginning, part, count = form
    pair = beginning + part * count + ("&" if beginning else "")
    return (pair * (size // len(pair) + 1))[:size]


def nanoseconds(number: int) -> int:
    """The processor time of a process."""
    with open(f"/proc/{number}/schedstat", encoding="ascii") as file:
        return int(file.read().split()[0])


class ReadingCosts(ProgramCase):
    """No query costs much more than an honest one of its size."""

    def took(self, service: Service, query: str) -> int:
        request = f"GET /menu.json?{query} HTTP/1.0\r\n\r\n"
        before = nanoseconds(service.process.pid)
        for _ in range(REQUESTS):
            head = service.reply(request)[:15]
            if head != b"HTTP/1.1 200 OK":
                self.fail(f"{query[:60]}: {head!r}")
        return nanoseconds(service.process.pid) - before

    def test_costs(self) -> None:
        """The least time counts, since other processes make a time longer and never shorter."""
        write_registry(self.program, [("press", RULES, OWN), ("search", RULES, ANY)])
        queries = {"honest": honest(SIZE), **{name: hostile(form, SIZE) for name, form in FORMS.items()}}
        least: dict[str, int] = {}
        with Service(self.program, len(queries) * ROUNDS * REQUESTS) as service:
            for _ in range(ROUNDS):
                for name, query in queries.items():
                    took = self.took(service, query)
                    least[name] = min(took, least.get(name, took))
        self.expect("forms", len(least), len(FORMS) + 1)
        for name in FORMS:
            cost = least[name] / least["honest"]
            self.expect(f"{name}: {cost:.2f} times an honest query, and {MOST} are allowed", cost <= MOST)
