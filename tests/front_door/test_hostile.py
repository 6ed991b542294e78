"""Hostile texts in requests and in the files of the library: no page has them as HTML, as a header or as control
characters."""
from __future__ import annotations

import json
import re
from urllib.parse import quote

from fixtures.site_case import ARTICLE
from fixtures.site_case import FORM
from fixtures.site_case import HOSTILE
from fixtures.site_case import SiteCase
from openlink_update.site import targets_file as targets

KEYS = (
    "rft.atitle rft.jtitle rft.btitle rft.title rft.stitle rft.au rft.aulast rft.aufirst rft.aucorp rft.date"
    " rft.volume rft.issue rft.pages rft.spage rft.artnum rft.issn rft.eissn rft.isbn rft_id rfr_id rft.genre"
    " title id doi pmid sid pid date issn isbn ctx_ver ctx_enc rft_val_fmt first x.doi title_url"
).split()
# What a client may say of the site's name, which no page and no redirect has.
FORWARDED = {
    "X-Forwarded-Host": "evil.example",
    "X-Forwarded-Server": "evil.example",
    "X-Host": "evil.example",
    "Forwarded": "host=evil.example",
    "X-Original-URL": "/evil",
}
NO_HOSTS = ("evil'-alert(1)-'", 'evil"><script>', "evil&x", "evil%27x", "evil_x", "evil@x")
HEADING = re.compile(r"<h1>(Storm surges|Full text from [\w, -]+)</h1>")  # with and without groups of targets


class Hostile(SiteCase):
    """Each page is still well-formed."""

    def test_keys(self) -> None:
        for key in KEYS:
            for value in (HOSTILE, "%" * 20 + "$&$1{}" + HOSTILE[::-1]):
                query = f"{key}={quote(value)}&issn=2901-0012&id=doi:10.5555/{quote(value[:9])}"
                reply = self.site.get(f"/find?{query}")
                self.expect(
                    f"hostile {key}",
                    (reply.status, "<script" in reply.text, "<img" in reply.text, reply.headers["X-Evil"]),
                    (200, False, False, None),
                )
                self.expect(
                    f"hostile {key}: control characters",
                    re.findall("[\x00-\x09\x0b-\x1f\x7f-\x9f\ufffe\u2028]", reply.text),
                    [],
                )
            json.loads(self.site.get(f"/find.json?{query}").text)
            self.tidy(f"hostile {key}", reply.text)

    def test_raw_bytes(self) -> None:
        reply = self.site.send(
            b"GET /find?rft.atitle=\xe9\xff\x01<script> HTTP/1.1\r\nHost: a\r\nConnection: close\r\n\r\n"
        )
        self.expect("raw bytes", reply[:12] in (b"HTTP/1.1 200", b"HTTP/1.1 400") and b"<script>" not in reply)

    def test_form_with_line_ends(self) -> None:
        body = b"rft.atitle=a\r\nHost: b\r\n\r\nGET /report HTTP/1.1\xe9&issn=2901-0012"
        reply = self.site.get("/find.json", "POST", body, FORM)
        self.expect(
            "a form with line ends",
            (reply.status, json.loads(reply.text)["citation"]["title"]),
            (200, "a Host: b GET /report HTTP/1.1é"),
        )

    def test_addresses(self) -> None:
        """The page of an error has no markup of the address, and only that of a list leads back to it."""
        text = quote(HOSTILE.replace("\0", ""))
        for target in (f"/{text}", f"/{text}.svg", f"/export/{text}", f"/find/{text}", f"/journals/{text}/1"):
            reply, name = self.site.get(target), f"hostile address {target[:12]}"
            has_markup = "<script" in reply.text or "<img" in reply.text
            self.expect(name, (reply.status, has_markup, reply.headers["X-Evil"]), (404, False, None))
            is_list = target.startswith("/journals/")
            self.expect(f"{name}: its text", "alert" in reply.text, is_list)
            if not is_list:
                self.tidy(name, reply.text)

    def test_names_of_the_site(self) -> None:
        """Redirects lead to no host. A page has the host of its request, if that is one, and none that another header
        names."""
        for target, place in (("/", "/find"), ("/find/?a=b", "/find?a=b"), ("/openurl/?a=b", "/openurl?a=b")):
            reply = self.site.get(target, headers={**FORWARDED, "Host": "evil.example"})
            self.expect(f"a redirect of {target}", (reply.status, reply.headers["Location"]), (301, place))
        for target in ("/find", "/opensearch.xml", "/journals", "/none"):
            for host in ("links.library.example.org", *NO_HOSTS):
                reply = self.site.get(target, headers={**FORWARDED, "Host": host})
                found = "evil" in reply.text, "evil" in str(reply.headers)
                self.expect(
                    f"{target} of {host}: its names", (reply.status in (200, 404), *found), (True, False, False)
                )
        page = self.site.get("/find", headers={"Host": "other.example"}).text
        self.expect("the host of the request", "http://other.example/find" in page)

    def test_labels(self) -> None:
        words = {name: HOSTILE for name in targets.names_of_words()}
        german = {**words, "volume": 3, "heading": {"de": HOSTILE}, "issue": None}
        self.site.write("openlink/words/de.json", json.dumps(german))
        self.site.write_targets(
            {
                "languages": ["en", "de", HOSTILE],
                "words": words,
                "groups": [{"name": HOSTILE}, {"name": "B" + HOSTILE}],
                "targets": {
                    "tidal-press": {"label": HOSTILE, "note": HOSTILE},
                    "catalogue": {"label": HOSTILE, "group": "B" + HOSTILE},
                },
            }
        )
        for query in (ARTICLE, "", "id=doi:10.1000/a"):
            reply = self.site.get(f"/find?{query}")
            self.expect(
                "hostile labels",
                (reply.status, "<script" in reply.text, "<img" in reply.text, "&lt;script&gt;" in reply.text),
                (200, False, False, True),
            )
        reply = self.site.get(f"/find?{ARTICLE}", headers={"Accept-Language": "de"})
        self.expect(
            "hostile words",
            (reply.status, reply.headers["Content-Language"], "<script" in reply.text, reply.headers["X-Evil"]),
            (200, "de", False, None),
        )

    def test_slips(self) -> None:
        """Members of wrong types, which the module survives."""
        for data in (
            {},
            {"words": 3, "groups": {}, "targets": []},
            {"groups": [3, {"name": {}}], "targets": {"tidal-press": 7}},
            {"groups": [{"name": "A", "onlyWithout": "A"}], "words": {"heading": None}},
            [],
            "x",
            {"languages": {"length": 3}, "words": {"heading": {"en": 3}}},
            {"languages": [["de"], 3, None, "x" * 99]},
            {"targets": {"tidal-press": {"label": {}, "note": {"en": []}}}},
        ):
            self.site.write_targets(data)
            reply = self.site.get(f"/find?{ARTICLE}")
            self.expect(f"slips: {data}", (reply.status, bool(HEADING.search(reply.text))), (200, True))
            self.tidy(f"slips: {data}", reply.text)

    def test_no_json(self) -> None:
        self.site.write("openlink/targets.json", "{")
        self.expect("nginx refuses a targets.json that is no JSON", self.site.test_configuration()[0] != 0)
