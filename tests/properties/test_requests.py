"""Requests as the program reads them for the front door: twice is once, and no key passes that must not."""
from __future__ import annotations

import re
import urllib.parse
from typing import Any

from fixtures import needs
from fixtures import readings
from properties.property_case import PropertyCase
from properties.property_case import cases_of
from properties.property_case import strategies as st

KEYS = """genre issn eissn isbn eisbn volume issue spage epage pages artnum date year atitle jtitle btitle stitle title
    au aulast aufirst part ssn quarter sici coden sid pid id doi pmid pmcid number identifier creator source
    type ctx_ver
    ctx_enc url_ver rft_id rft_dat rft_val_fmt rfr_id""".split()
COLUMNS = """publication_title print_identifier online_identifier date_first_issue_online num_first_vol_online
    num_first_issue_online date_last_issue_online num_last_vol_online num_last_issue_online title_url first_author
    title_id embargo_info coverage_depth notes publisher_name publication_type date_monograph_published_print
    date_monograph_published_online monograph_volume monograph_edition first_editor parent_publication_title_id
    preceding_publication_title_id access_type coverage_from coverage_to""".split()
# What a reading itself adds; a request's own have no effect.
ADDED = {"x.issn", "x.eissn", "x.isbn", "x.from", "x.to", "x.doi", "x.doi_encoded", "x.pmid", "x.oclc"}
NUMBERS = {"rft.issn", "rft.eissn", "rft.isbn", "issn", "eissn", "isbn"}
MOST_BYTES, MOST_PAIRS = 14_000, 300
VALUES = r"""2901-0012 29010012 2901-001X 0000-0000 9781234560102 0306406152 ANY a-n-y 12 53(2) Vol.+53 136+Suppl+1 Pt+8
    101-118 2344-55 e123 S12-20 xii-xx 12,+13 p.+101 N.PAG ARTN+e0123456 2901-0012 2013 2013-08 2013/8/1 25/12/2013
    1/2/2013 Aug+2013 Winter+2012/2013 2012;12(3):45-67 12(3),+45-67 Storm+surges Tides+%26+Storms Tides+&+Storms
    <i>Storm</i>+surges Storm%2Bsurges caf%E9 caf%C3%A9 %25 % %e doi:10.5555/x https://doi.org/10.5555/a
    info:doi/10.5555/b info:pmid/123 pmid:77 info:oclcnum/12 info:sid/google 10.5555/x(1)2 arXiv:2101.00001
    PMC12345 urn:ISSN:2901-0012
    book article journal info:ofi/fmt:kev:mtx:journal info:ofi/fmt:kev:mtx:book info:ofi/fmt:kev:mtx:dc
    Z39.88-2004 Z39.00
    info:ofi/enc:UTF-8 info:ofi/enc:ISO-8859-1 Retracted:+Storms Storm+surges.+12(3),+45-67 {\'e}t%C3%A9 &amp;
    Annals+of+Tidal+Studies,+12(3)""".split()


def _pairs() -> Any:
    keys = st.one_of(
        st.sampled_from(KEYS), st.sampled_from(KEYS), st.sampled_from(COLUMNS), st.text("abcx._RFT%5f", max_size=8)
    )
    prefixes = st.sampled_from(("", "", "rft.", "rft.", "x.", "RFT.", "amp;", "?"))
    values = st.one_of(
        st.sampled_from(VALUES),
        st.sampled_from(VALUES),
        st.lists(st.sampled_from(VALUES), max_size=3).map("+".join),
        st.text(max_size=12).map(lambda text: urllib.parse.quote(text.encode("utf-8", "ignore"))),
        st.text("0123456789-/.+;:(),aevpxSI", max_size=10),
    )
    numbers = st.builds(
        "{}={}".format,
        st.sampled_from(("issn", "rft.issn", "rft.eissn", "isbn", "rft.isbn", "rft_id", "id")),
        st.sampled_from(("2901-0012", "29080142", "9781234560102", "ANY", "urn:ISSN:2901-0012", "2901-0012,2908-0142")),
    )
    pages = st.builds(
        "rft.{}={}".format,
        st.sampled_from(("artnum", "artnum", "spage", "epage", "pages", "volume", "issue", "date")),
        st.one_of(st.sampled_from(VALUES[:40]), st.text("0123456789-", min_size=3, max_size=9)),
    )
    dropped = st.sampled_from(("x.note=Caf%E9", "notes=%E9", "x.a=b", "title_id=1", "rft_id=doi:"))
    others = st.builds("{}{}={}".format, prefixes, keys, values)
    return st.one_of(others, others, others, numbers, pages, dropped)


def _requests() -> Any:
    """Few pairs, or some that are repeated until they are long."""
    joined = st.sampled_from(("&", "&", "&", "&", ";", "&amp;"))
    short = st.tuples(st.lists(_pairs(), max_size=6), joined, st.just(1))
    long = st.tuples(st.lists(_pairs(), min_size=1, max_size=4), joined, st.sampled_from((40, 400)))
    return st.one_of(short, short, short, short, short, long).map(lambda it: it[1].join(it[0] * it[2]))


def passed(pairs: list[list[str]]) -> list[list[str]]:
    """The pairs that must not be in a reading."""
    return [
        [key, value]
        for key, value in pairs
        if key in COLUMNS
        or (key.startswith("x.") and key not in ADDED)
        or (key in NUMBERS and re.fullmatch(r"[- ]*a[- ]*n[- ]*y[- ]*", value, re.I))
    ]


def again(pairs: list[list[str]]) -> str:
    """The query with which the front door asks again."""
    return urllib.parse.urlencode([(key, value) for key, value in pairs if not key.startswith("x.")])


@needs.hypothesis()
@needs.program()
class Requests(PropertyCase):
    requests: list[str]
    read: list[list[list[str]]]
    once: list[list[list[str]]]
    twice: list[list[list[str]]]

    @classmethod
    def setUpClass(cls) -> None:
        super().setUpClass()
        cls.requests = [request[:MOST_BYTES] for request in cases_of(_requests())]
        with readings.service() as port:
            found = [readings.reading_of(port, request) for request in cls.requests]
            cls.read = [it["pairs"] for it in found]
            cls.once = [pairs for pairs in cls.read if len(pairs) <= MOST_PAIRS and len(again(pairs)) <= MOST_BYTES]
            cls.twice = [readings.reading_of(port, again(pairs))["pairs"] for pairs in cls.once]

    def setUp(self) -> None:
        super().setUp()
        self.expect("results", len(self.read), len(self.requests))
        self.expect_cases(len(self.requests))

    def test_twice_is_once(self) -> None:
        """A request that is asked again, since nothing else was found, is read as it was."""
        faults = [(one, two) for one, two in zip(self.once, self.twice) if one != two]
        self.expect_none("read twice", faults)
        self.expect(f"{len(self.once)} are not long", len(self.once) > len(self.requests) // 2)

    def test_no_key_passes_that_must_not(self) -> None:
        self.expect_none("passed", [(args, passed(it)) for args, it in zip(self.requests, self.read) if passed(it)])
        many = sum(any(key == "x.issn" for key, _ in it) for it in self.read)
        self.expect(f"{many} with a number", many > len(self.read) // 20)
