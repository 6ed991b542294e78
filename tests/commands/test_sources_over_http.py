"""The pages of a service for a query of any source, `/read` and `/menu.json`: their whole replies."""
from fixtures.program import ProgramCase
from fixtures.service import expect_replies, reply_of, request_of, to_head
from fixtures.targets import write_registry

RULES = "rule\nlink {+title_url}{?rft.volume}\n"
FIRST = "print_identifier\ttitle_url\n1234-567X\thttp://e.org/a\n"
SECOND = "print_identifier\ttitle_url\n2049-3630\thttp://e.org/n\n1234-567X\thttp://e.org/b\n"
BOOK = "online_identifier\ttitle_url\n9783161484100\thttp://e.org/c\n"
# A target that answers every request.
SEARCH = "print_identifier\ttitle_url\nANY\thttp://s.org/\n"
TARGETS = [("search", RULES, SEARCH), ("press", RULES, FIRST), ("press.2", RULES, SECOND), ("books", RULES, BOOK)]

NOT_FOUND = reply_of(404, "not found\n")
TOO_LONG = reply_of(400, "query: too long\n")


def json(body):
    return reply_of(200, body, "application/json")


# A query, and the pairs of its reading.
FORMAT = "rft_val_fmt=x"
PAIRS = '["rft_val_fmt","x"]'
READ = [
    ("", ""),
    (f"{FORMAT}&rft.volume=12", f'{PAIRS},["rft.volume","12"]'),
    (f"?{FORMAT}&amp;volume=Vol.%2012", f'["rft.volume","12"],["rft.volume","Vol. 12"],{PAIRS},["volume","Vol. 12"]'),
    (f"{FORMAT}&rft.aulast=Caf%E9", f'{PAIRS},["rft.aulast","Café"]'),
    (f"{FORMAT}&note=%22%5C%0A%1B", f'{PAIRS},["note","\\"\\\\\\n\\u001b"]'),
    # No version and no number of pairs is refused.
    ("ctx_ver=1&" + FORMAT, f'["ctx_ver","Z39.88-2004"],{PAIRS}'),
]


def reading(pairs, left_out=0, retracted="false"):
    return f'"notes":{{"left_out":{left_out},"retracted":{retracted}}},"pairs":[{pairs}]'


def link(target, address, query, part=None, row=0):
    part = part or target
    return f'{{"link":"{address}","part":"{part}","query":"{query}","row":{row},"target":"{target}"}}'


# What comes after `/menu.json`, its links, and the pairs of the reading.
ISSN = f'["x.issn","1234-567X"],["rft.issn","1234-567X"],["rft.issn","1234567x"],{PAIRS}'
OTHER = f'["x.issn","2049-3630"],["rft.issn","2049-3630"],{PAIRS}'
OWN = link("press", "http://e.org/a", "own")
ANY = link("search", "http://s.org/", "any")
LINKS = [
    ("", [ANY], ""),
    (f"?rft.issn=1234567x&{FORMAT}", [OWN, ANY], ISSN),
    (f"?rft.issn=2049-3630&{FORMAT}", [link("press", "http://e.org/n", "own", "press.2"), ANY], OTHER),
    # Further numbers: a link of the query's own request stays, and one of an earlier number does.
    (f"/2049-3630?rft.issn=1234567x&{FORMAT}", [OWN, ANY], ISSN),
    (
        f"/978-3-16-148410-0?rft.issn=1234567x&{FORMAT}",
        [OWN, link("books", "http://e.org/c", "978-3-16-148410-0"), ANY],
        ISSN,
    ),
    (
        "/2049-3630,1234567X,9783161484100",
        [
            link("press", "http://e.org/n", "2049-3630", "press.2"),
            link("books", "http://e.org/c", "9783161484100"),
            ANY,
        ],
        "",
    ),
]

# Paths that are no page.
OTHERS = [
    "/read/", "/READ", "/menu", "/menu.json/", "/menu.json/2049-363", "/menu.json/2049-3630,", "/menu.json/,2049-3630",
    "/menu.json/2049-363x", "/menu.json/2049%2D3630", "/menu.json/2049-3630/",
    "/menu.json/2049-3630,2049-3630,2049-3630,2049-3630",
]


class SourcesOverHttp(ProgramCase):
    def gives(self, cases):
        write_registry(self.program, TARGETS)
        expect_replies(self.program, cases)

    def test_readings(self):
        replies = [(request_of(f"/read?{query}"), json("{" + reading(pairs) + "}")) for query, pairs in READ]
        self.gives([*replies, (request_of("/read"), replies[0][1])])

    def test_many_pairs(self):
        """Of 4,097 pairs, which `/openurl` refuses, 300 are read."""
        pairs = ",".join([PAIRS, *['["n","1"]'] * 299])
        query = FORMAT + "&n=1" * 3_000
        self.gives([(request_of(f"/read?{query}"), json("{" + reading(pairs, 2_701) + "}"))])

    def test_links(self):
        replies = []
        for rest, links, pairs in LINKS:
            body = '{"links":[' + ",".join(links) + "]," + reading(pairs) + "}"
            replies.append((request_of(f"/menu.json{rest}"), json(body)))
        self.gives(replies)

    def test_replies_without_a_body(self):
        empty = '{"links":[' + ANY + "]," + reading("") + "}"
        self.gives([
            (request_of("/read", method="HEAD"), to_head(json("{" + reading("") + "}"))),
            (request_of("/menu.json", method="HEAD"), to_head(json(empty))),
            (request_of("/menu.json/", method="HEAD"), to_head(NOT_FOUND)),
        ])

    def test_other_paths(self):
        self.gives([(request_of(path), NOT_FOUND) for path in OTHERS])

    def test_queries_that_become_too_long(self):
        """The two bytes of each `é` are read as two characters of ISO 8859-1, whose escapes have 12 bytes."""
        query = ("ctx_enc=info:ofi/enc:ISO-8859-1&rft.title=" + "é" * 6_000).encode()
        pages = [page.encode() for page in ("/read", "/menu.json", "/menu.json/2049-3630")]
        self.gives([(b"GET " + page + b"?" + query + b" HTTP/1.0\r\n\r\n", TOO_LONG) for page in pages])
