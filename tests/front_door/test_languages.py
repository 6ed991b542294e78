"""The page and the JSON in the language that the header prefers, and in one that is read from right to left."""
from __future__ import annotations

import html
import json
import re

from fixtures.nginx_site import Reply
from fixtures.site_case import ARTICLE
from fixtures.site_case import SiteCase

HEADERS = [
    (None, "en"),
    ("", "en"),
    ("en-GB,en;q=0.9", "en"),
    ("de-AT,de;q=0.9,en;q=0.8", "de"),
    ("fr", "en"),
    ("fr;q=0.9,de;q=0.1", "de"),
    ("de;q=0", "en"),
    ("," * 8000, "en"),
    ("de" + ",x" * 3000, "de"),
    ("\u00e4\u00fc,de".encode().decode("latin-1"), "de"),
]
# A header of each language of the front door that the site does not offer at first.
HEADERS_OF_LANGUAGES = {
    "ar": "ar-EG,ar;q=0.9,en;q=0.5",
    "cs": "cs-CZ",
    "da": "da-DK,da;q=0.9",
    "el": "el-CY",
    "es": "es-419,es;q=0.9",
    "fr": "fr-CA,en;q=0.5",
    "he": "he-IL",
    "it": "it-CH",
    "ja": "ja-JP,ja;q=0.9,en;q=0.8",
    "nl": "nl-BE",
    "pl": "pl-PL",
    "pt": "pt-BR,pt;q=0.9",
    "sv": "sv-FI,fi;q=0.9",
    "tr": "tr-TR",
    "uk": "uk-UA,ru;q=0.5",
    "zh-Hans": "zh-CN,zh;q=0.9,en;q=0.8",
}
# Pages, and the name of a text that each has.
PAGES = {
    "/find": "formNote",
    f"/find?{ARTICLE}": "change",
    "/find?issn=3006-1962&atitle=x": "nothing",
    "/journals": "searchField",
    "/journals?q=tid": "oneTitle",
    "/none": "missing",
}
IN_GERMAN = [
    ">Problem melden (Ihre Anfrage wird an die Bibliothek gesendet)</a>",
    "<title>Storm surges – Bibliothek der Beispieluniversität</title>",
    "<h1>Volltext von Tidal Press, AggregateNet</h1>",
    "Bd. 12",
    "Nr. 3",
    "S. 101",
    "<h2>Volltext</h2>",
    ">Bibliothekskatalog <span>",
    ">Im Web suchen</a>",
]


class Languages(SiteCase):
    """What is in the language of the reader."""

    def reply_in(self, header: str | None, target: str = f"/find?{ARTICLE}") -> Reply:
        return self.site.get(target, headers={} if header is None else {"Accept-Language": header})

    def test_header(self) -> None:
        for header, language in HEADERS:
            reply, name = self.reply_in(header), f"Accept-Language {(header or '')[:20]}"
            self.expect(
                name,
                (reply.status, reply.headers["Content-Language"], reply.headers.get_all("Vary")),
                (200, language, ["Accept-Encoding", "Accept-Language"]),
            )
            self.expect(f"{name}: the page", f'<html lang="{language}" dir="ltr">' in reply.text)

    def test_german(self) -> None:
        reply = self.reply_in("de")
        self.tidy("a page in German", reply.text)
        for part in IN_GERMAN:
            self.expect(f"the page in German has {part}", part in reply.text)
        note = self.reply_in("de", "/find?issn=2943-081X&date=2012").text
        self.expect("a note in German", "Außerhalb des Campus" in note)
        nothing = self.reply_in("de", "/find?issn=3006-1962&atitle=x").text
        self.expect("no full text in German", "Fragen Sie die Auskunft" in nothing)

    def test_german_json(self) -> None:
        reply = self.reply_in("de", f"/find.json?{ARTICLE}")
        group = json.loads(reply.text)["groups"][1]
        self.expect(
            "JSON in German",
            (group["name"], group["label"], group["links"][0]["label"]),
            ("In the library", "In der Bibliothek", "Bibliothekskatalog"),
        )
        self.expect(
            "headers of JSON",
            (reply.headers["Content-Language"], reply.headers.get_all("Vary")),
            ("de", ["Accept-Encoding", "Accept-Language"]),
        )

    def test_german_errors(self) -> None:
        titles = {("/none", "GET"): "Seite nicht gefunden", ("/find", "DELETE"): "Methode nicht angenommen"}
        for (target, method), title in titles.items():
            reply = self.site.get(target, method, headers={"Accept-Language": "de"})
            vary = reply.headers.get_all("Vary") or []
            self.expect(
                f"an error in German: {method}",
                (f"<h1>{title}</h1>" in reply.text, reply.headers["Content-Language"], "Accept-Language" in vary),
                (True, "de", True),
            )

    def test_redirect(self) -> None:
        reply = self.site.get("/go?issn=2943-081X&date=2012")
        self.expect("a redirect has no language", (reply.status, reply.headers["Content-Language"]), (302, None))

    def switch_on(self, languages: list[str]) -> None:
        """Offers languages that the front door brings, as an operator does."""
        data = json.loads(self.site.read("openlink/targets.json"))
        self.site.write("openlink/targets.json", json.dumps({**data, "languages": ["en", "de", *languages]}))
        names = [f"js_preload_object words_{it.replace('-', '_')} " for it in languages]
        self.site.edit(*((f"#{name}", name) for name in names))

    def test_all_languages(self) -> None:
        """Each language that a site has switched on, by a header with a region."""
        self.switch_on(sorted(HEADERS_OF_LANGUAGES))
        for language, header in HEADERS_OF_LANGUAGES.items():
            words = json.loads(self.site.read(f"openlink/words/{language}.json"))
            for target, name in PAGES.items():
                reply = self.reply_in(header, target)
                got = (reply.headers["Content-Language"], re.findall('<html lang="(.*)" dir="(.*)">', reply.text))
                direction = "rtl" if language in ("ar", "he") else "ltr"
                self.expect(f"{header}: {target}", got, (language, [(language, direction)]))
                self.expect(f"{header}: {target} has {name}", words[name] in html.unescape(reply.text))
                self.tidy(f"{header}: {target}", reply.text)
        form = self.reply_in("ar", "/find").text
        directions = re.findall(r'<input id="(\w+)" [^>]* dir="(\w+)">', form)
        of_words = [name for name, it in directions if it == "auto"]
        self.expect("fields of words", of_words, ["title", "atitle", "au"])
        self.expect("fields from left to right", len([name for name, it in directions if it == "ltr"]), 6)
        names = re.findall("<bdi>AggregateNet</bdi>", self.reply_in("ar", "/journals/s/1").text)
        self.expect("names of targets in a list from right to left", len(names) > 0)
        data = json.loads(self.reply_in("uk-UA", f"/find.json?{ARTICLE}").text)
        self.expect("JSON in Ukrainian", [it["name"] for it in data["groups"]][:1], ["Full text"])

    def add_hebrew(self) -> None:
        """Adds Hebrew as an operator does, with one word in it."""
        self.site.write("openlink/words/he.json", json.dumps({"fullText": "חיפוש {}"}))
        data = json.loads(self.site.read("openlink/targets.json"))
        self.site.write("openlink/targets.json", json.dumps({**data, "languages": ["de", "he", "fr"]}))
        self.site.edit(("#js_preload_object words_he ", "js_preload_object words_he "))

    def test_hebrew(self) -> None:
        self.add_hebrew()
        reply = self.reply_in("he-IL, fr")
        self.tidy("a page from right to left, reader", reply.text)
        parts = (
            '<html lang="he" dir="rtl">',
            "<h1><bdi>חיפוש \u2068Tidal Press\u2069, \u2068AggregateNet\u2069</bdi></h1>",
            "Bd. 12",
        )
        self.expect("Hebrew", [part in reply.text for part in parts], [True] * 3)
        other = self.reply_in("en, fr", "/find")
        self.expect("another default", other.headers["Content-Language"], "de")
        reply = self.site.get(f"/why?{ARTICLE}", headers={"Accept-Language": "he-IL, fr"}, port=self.site.report_port)
        self.tidy("a page from right to left, staff", reply.text)
        of_staff = ('<html lang="he" dir="rtl">', "<h2>Berichte</h2>")
        self.expect("Hebrew for staff", [part in reply.text for part in of_staff], [True] * 2)
        turned = re.findall(r"<(?:pre|code)(?! (?:lang=\"en\" )?dir=\"ltr\")", reply.text)
        self.expect("commands and reports stay from left to right", turned, [])
