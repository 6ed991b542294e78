"""What a reader, a crawler or a browser gets at the addresses around /find: the site's root, an unknown address, an
icon, robots.txt, security.txt; and what is said where the program does not reply."""
from __future__ import annotations

import datetime
import re
import subprocess

from fixtures.site_case import FORM
from fixtures.site_case import SiteCase
from fixtures.site_case import added
from fixtures.site_case import lines_of

AROUND = ["/", "/favicon.ico", "/robots.txt", "/.well-known/security.txt"]
CONTACTS = [  # what the site says, and the contacts in security.txt
    ("security@library.example.org", ["mailto:security@library.example.org"]),
    (
        "https://library.example.org/security mailto:a@b.org tel:+49-30-1",
        ["https://library.example.org/security", "mailto:a@b.org", "tel:+49-30-1"],
    ),
    ("javascript:alert(1)", None),
    ("http://library.example.org/", None),
    ("a@b\nExpires:x", None),
    ("a", None),
]


class Addresses(SiteCase):
    """The program replies."""

    def test_root(self) -> None:
        """The root leads to the form, with what was asked for; so does a page that is none."""
        for target, location in (("/", "/find"), ("/?issn=2901-0012&lang=de", "/find?issn=2901-0012&lang=de")):
            reply = self.site.get(target)
            self.expect(f"{target}: where it leads", (reply.status, reply.headers["Location"]), (301, location))
        reply = self.site.get("/", "POST", b"issn=2901-0012", FORM)
        self.expect("a form at the root", (reply.status, reply.headers["Location"]), (308, "/find"))
        for lists in ("on", "off"):
            text = self.site.get("/none").text
            self.expect(
                f"links of an unknown address, lists {lists}",
                re.findall(r'<a href="(/[^"]*)"', text),
                ["/find", "/find"] + ["/journals", "/books"] * (lists == "on"),
            )
            self.tidy("an unknown address", text)
            if lists == "on":
                self.site.edit(("js_var $openlink_list on;", "js_var $openlink_list off;"))

    def test_browsers(self) -> None:
        """What browsers and crawlers ask for by themselves is no error in the counts."""
        before = lines_of(self.site)
        replies = [self.site.get(target) for target in AROUND[:3]]
        self.expect("statuses", [reply.status for reply in replies], [301, 204, 200])
        self.expect(
            "robots.txt",
            (replies[2].headers["Content-Type"], replies[2].text),
            ("text/plain; charset=utf-8", "User-agent: *\nAllow: /export/\nDisallow: /\n"),
        )
        self.site.write("openlink/favicon.ico", "icon")
        reply = self.site.get("/favicon.ico")
        self.expect("an icon of the library", (reply.status, reply.body), (200, b"icon"))
        self.site.get("/find?issn=2901-0012")
        lines = added(self.site, "openlink.log", 5, before)
        self.expect("the log", len(lines), 5)
        counted = subprocess.run(
            ["update/counts"], input="\n".join(lines) + "\n", capture_output=True, text=True
        ).stdout.splitlines()[1:]
        self.expect(
            "the counts",
            [line.split("\t")[1:] for line in counted if line.split("\t")[1] in ("requests", "errors")],
            [["requests", "", "1"]],
        )

    def test_security(self) -> None:
        """The contact that the site names, until a day within a year; no page if it names none."""
        line, before = 'js_var $openlink_security "{}";', ""
        self.expect("no contact", self.site.get(AROUND[3]).status, 404)
        for value, contacts in CONTACTS:
            self.site.edit((line.format(before), line.format(value)))
            before, reply = value, self.site.get(AROUND[3])
            if contacts is None:
                self.expect(f"{value}: no contact", reply.status, 404)
                continue
            *lines, last = reply.text.splitlines()
            self.expect(
                f"{value}: its type", (reply.status, reply.headers["Content-Type"]), (200, "text/plain; charset=utf-8")
            )
            self.expect(f"{value}: contacts", lines, [f"Contact: {it}" for it in contacts])
            end = datetime.datetime.strptime(last, "Expires: %Y-%m-%dT%H:%M:%SZ").replace(tzinfo=datetime.timezone.utc)
            days = (end - datetime.datetime.now(datetime.timezone.utc)).days
            self.expect(f"{value}: it expires within a year, not soon: {days} days", 90 < days < 365)


class WithoutProgram(SiteCase):
    """All processes have ended."""

    has_processes = False

    def test_without_program(self) -> None:
        """The page says no more than it knows, and offers the DOI of a request that has one."""
        for path in ("/find", "/go", "/openurl"):
            for query, link in (
                ("rft_id=info:doi/10.5555/a%3Cb%22%3E%26c", "https://doi.org/10.5555/a%3Cb%22%3E%26c"),
                ("doi=10.5555/good&issn=2901-0012", "https://doi.org/10.5555/good"),
                ("id=doi:10.5555/" + "a" * 293, None),
                ("issn=2901-0012&atitle=10.5555", None),
            ):
                for language, said in (
                    ("en", "The service is not available just now."),
                    ("de", "Der Dienst ist im Moment nicht erreichbar."),
                ):
                    reply = self.site.get(f"{path}?{query}", headers={"Accept-Language": language})
                    name = f"{path}?{query[:20]} without the program, {language}"
                    self.expect(name, (reply.status >= 502, said in reply.text), (True, True))
                    self.expect(f"{name}: of a restart", re.findall("restart|neu gestartet", reply.text), [])
                    self.expect(
                        f"{name}: its DOI",
                        re.findall('<a href="(https://doi.org/[^"]*)">', reply.text),
                        [link] if link else [],
                    )
                    self.tidy(name, reply.text)
