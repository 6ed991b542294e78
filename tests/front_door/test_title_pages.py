"""Each title of the lists leads to its page at the providers: by the rules of the sample library, and by the addresses
of the index where rules have no link."""
from __future__ import annotations

import html
import re
from pathlib import Path

from fixtures.library_index import write_index
from fixtures.site_case import added
from fixtures.site_case import lines_of
from fixtures.titles_case import GERMAN
from fixtures.titles_case import TitlesCase
from fixtures.titles_case import main_of
from openlink_update.index.title_addresses import Offer

HOST = "piers.example.com"
# Titles of a target that the program does not know.
TABLE = (
    "publication_title\tprint_identifier\tpublication_type\tdate_first_issue_online\tdate_last_issue_online"
    "\tembargo_info\ttitle_url\n"
    f"Papers on Piers\t2901-0039\tserial\t1990\t2000\t\thttps://{HOST}/papers?a=1&b='2'\n"
    f"Letters on Locks\t2901-0047\tserial\t1990\t\tP1Y\thttps://{HOST}/locks\n"
    f"A Book of Buoys\t9781234561000\tmonograph\t\t\t\thttps://{HOST}/buoys\n"
)
PAPERS = ("The journal at piers", f"https://{HOST}/papers?a=1&b='2'")
LOCKS = ("The journal at piers", f"https://{HOST}/locks")
HARBOURS = ("The journal at Tidal Press", "https://press.example.com/2922-0408")
BUOYS = ("The book at piers", f"https://{HOST}/buoys")
# Requests, and the pages that they are offered.
REQUESTS = [
    ("rft.genre=journal&rft.issn=2901-0039", PAPERS),
    ("issn=2901-0039", PAPERS),
    ("jtitle=Papers+on+Piers", PAPERS),
    ("issn=2901-0039&atitle=Storms&volume=5", PAPERS),
    ("issn=2901-0039&date=1995", PAPERS),
    ("issn=2901-0039&date=2005", None),  # not in this year
    ("issn=2901-0039&date=1995&volume=5", None),  # a target that had it would have a link
    ("issn=2901-0047", LOCKS),
    ("issn=2901-0039&eissn=2901-0047", PAPERS),  # one page of a target
    ("issn=2901-0047&volume=5", LOCKS),
    ("issn=2901-0047&date=2025", None),  # nobody knows whether it is open
    ("rft.genre=book&isbn=9781234561000", BUOYS),
    ("isbn=9781234561000&date=2001", BUOYS),
    ("isbn=9781234561017", None),
    ("issn=2915-0272&date=2003", HARBOURS),
    ("issn=2915-0272", None),  # the target has a link
    ("issn=2915-0272&date=2003&volume=16", None),
    ("issn=1234-5679&jtitle=Papers+on+Piers", None),  # the page has a question first
]


def addresses_in(main: str, heading: str) -> list[tuple[str, str]]:
    """The links below a heading, as names without coverage and addresses."""
    found = re.search(rf"<h2>{heading}</h2>\n<ul>\n(.*?)\n</ul>", main, re.S)
    links = re.findall(r'<a href="([^"]*)">(.*?)(?: <span>.*?</span>)*</a>', found[1]) if found else []
    return [(html.unescape(text), html.unescape(address)) for address, text in links]


class Followed(TitlesCase):
    """The library is the sample as it is, with all its targets."""

    is_sample = True

    def titles(self, path: str) -> list[tuple[str, str]]:
        """The addresses and names of all titles of a list."""
        letters = re.findall(rf'<a href="({path}/[^"]*/1)">', self.site.get(path).text)
        self.expect(f"letters of {path}", len(letters) > 1)
        texts = [main_of(self.site.get(letter)) for letter in letters]
        pairs = re.findall(r'<a href="(/find\?[^"]*)">(.*?)</a>', "".join(texts))
        return [(html.unescape(address), html.unescape(title)) for address, title in pairs]

    def test_every_title(self) -> None:
        for path, count in (("/journals", 11), ("/books", 5)):
            titles = self.titles(path)
            self.expect(f"titles of {path}", len(titles), count)
            for address, title in titles:
                main = main_of(self.site.get(address))
                full = addresses_in(main, "Full text")
                self.expect(f"{title}: a link", len(full + addresses_in(main, "In the library")) > 0)
                if title not in ("Shipwreck Archaeology", "Charts of the Inner Sea"):  # these are on the shelves alone
                    self.expect(f"{title}: a link to a provider", len(full) > 0)

    def test_dates_and_volumes(self) -> None:
        """The last rule of no target is for a request with a date or a volume."""
        for query, wanted in (
            ("issn=2929-0538", "coastal-law aggregate-net"),
            ("issn=2929-0538&date=1980", ""),
            ("issn=2929-0538&volume=99", ""),
            ("issn=2901-0012", "tidal-press north-sea-archive doi-service aggregate-net"),
            ("issn=2901-0012&volume=2", ""),
            ("issn=2943-081X", "open-shelf estuary-online doi-service"),
            ("issn=2943-081X&volume=15", ""),
        ):
            full = [group["links"] for group in self.data(query)["groups"] if group["name"] == "Full text"]
            self.expect(query, " ".join(link["target"] for links in full for link in links), wanted)


class Offered(TitlesCase):
    """The program has no link for the titles of one target, and the index has their addresses."""

    @classmethod
    def setUpClass(cls) -> None:
        super().setUpClass()
        site = cls.site
        site.write("tables/piers.txt", TABLE)
        site.write("more.tsv", f"{site.read('registry.tsv')}piers\tnone.olk\ttables/piers.txt\n")
        offers = {"piers": Offer("jb", frozenset({HOST})), "tidal-press": Offer("j", frozenset({"press.example.com"}))}
        write_index(site.path("more.tsv"), site.folder, site.path("more"), offers)

    def setUp(self) -> None:
        super().setUp()
        self.put_in_use("more")

    def test_counted_link(self) -> None:
        """A link by /go leads to the page of a title too."""
        self.site.edit(("js_var $openlink_followed off;", "js_var $openlink_followed on;"))
        page = self.site.get("/find?issn=2901-0039").text
        self.expect("on the page", '"/go?target=piers&amp;issn=2901-0039"' in page)
        reply = self.site.get("/go?target=piers&issn=2901-0039")
        self.expect("where it leads", (reply.status, reply.headers["Location"]), (302, PAPERS[1]))

    def test_requests(self) -> None:
        for query, wanted in REQUESTS:
            data = self.data(query)
            found = [(page["label"], page["url"]) for page in data.get("pages", [])]
            self.expect(query, found, [wanted] if wanted else [])
            self.expect(f"no link of {query}", "piers" in self.targets(query).split(), False)
            reply = self.site.get(f"/find?{query}")
            self.expect(f"the page of {query}", addresses_in(main_of(reply), "The page of this title"), found)
            self.tidy(query, reply.text)

    def test_label_of_its_rules(self) -> None:
        """A target that targets.json does not name has the label of its head, also if no link needs one."""
        path = Path(self.site.version(), "index", "heads")
        self.addCleanup(path.unlink)
        path.write_bytes(b"piers\tFull text\t=Pier Press\n")
        found = [page["label"] for page in self.data("issn=2901-0039")["pages"]]
        self.expect("the label", found, ["The journal at Pier Press"])

    def test_other_addresses(self) -> None:
        """An address without TLS is not offered, whatever the index has."""
        folder = Path(self.site.version(), "index", "keys")
        path = next(path for path in folder.iterdir() if f"@piers https://{HOST}/locks" in path.read_text())
        data = path.read_bytes()
        self.addCleanup(path.write_bytes, data)
        self.expect("before", len(self.data("issn=2901-0047").get("pages", [])), 1)
        path.write_bytes(data.replace(b"@piers https:", b"@piers http:"))
        self.expect("without TLS", self.data("issn=2901-0047").get("pages"), None)

    def test_not_counted(self) -> None:
        """No redirect, and no count in the log, which names no target for it."""
        before = lines_of(self.site)
        for path in ("/go?first=1&issn=2901-0039", "/find?issn=2901-0039", "/find.json?issn=2901-0039"):
            self.expect(path, self.site.get(path).status, 200)
        lines = added(self.site, "openlink.log", 3, before)
        self.expect(
            "lines",
            [re.sub(r".*(found=\S+ targets=\S*) .*", r"\1", it) for it in lines],
            ["found=0/1 targets=interlibrary-loan"] * 3,
        )

    def test_texts(self) -> None:
        main = main_of(self.site.get("/find?issn=2901-0047", headers=GERMAN))
        self.expect(
            "in German", addresses_in(main, "Die Seite dieses Titels"), [("Die Zeitschrift bei piers", LOCKS[1])]
        )
        self.expect("what it has", "<span>ab 1990, ohne die letzten 12 Monate</span></a>" in main)
        for query in ("isbn=9781234561000", "issn=2901-0039"):
            main = main_of(self.site.get(f"/find?{query}"))
            said = [text in main for text in ("no link to the text itself", "no full text")]
            self.expect(f"what is said of {query}", said, [True, False])
