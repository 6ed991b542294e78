"""The page for staff, and the link with which a reader reports a problem."""
from __future__ import annotations

import html
import json
import os
import re
import socket
import subprocess
from pathlib import Path
from typing import Any
from urllib.parse import parse_qsl
from urllib.parse import quote
from urllib.parse import unquote
from urllib.parse import urlsplit

from fixtures.needs import PROGRAM
from fixtures.nginx_site import FOR_EVERY_REQUEST
from fixtures.nginx_site import Reply
from fixtures.site_case import ARTICLE
from fixtures.site_case import FORM
from fixtures.site_case import SiteCase

# A shell script in place of the program: prints its arguments, each with a NUL after it.
PRINTS_ARGUMENTS = "#!/bin/sh\nprintf '%s\\0' \"$@\"\n"
# Titles of a request that a shell, HTML or a command line could take for something else.
TITLES = [
    "'",
    "''",
    "'; echo x; '",
    "O'Neill & Sons",
    '"',
    "`id`",
    "$(id)",
    "${HOME}",
    "\\",
    "\\'",
    "a\\",
    "%27",
    "%2527",
    "%",
    "%2'7",
    "a\nb",
    "a\r\nb",
    "\t",
    "\x01\x1b[31m\x7f",
    "<script>alert(1)</script>",
    "</pre></code>",
    "&amp;&lt;",
    "é ü 漢字 \U0001f600",
    "\u202e\u2028",
    "-n",
    "!!",
    "#",
    "~",
    "*",
    "a=b",
    "{}",
    "$&",
    "--",
    "; rm -rf x",
    "|",
    ">x",
    "\x00",
]
# What the program reads in those that have markup or control characters, or are encoded twice.
READ = {
    "%27": "'", "a\nb": "a b", "a\r\nb": "a b", "\x01\x1b[31m\x7f": "[31m", "\x00": "",
    "<script>alert(1)</script>": "alert(1)", "&amp;&lt;": "&<",
}  # fmt: skip


def page_parts(text: str) -> tuple[list[str], dict[str, list[str]], dict[str, list[int]], dict[str, str]]:
    """The two queries, the reasons of each target for both, and the command of each target, as a reader sees them."""
    queries = [html.unescape(it) for it in re.findall(r'<pre dir="ltr">(.*?)</pre>', text, re.S)]
    rows = re.findall(
        r'<tr><th scope="row"><a href="#target-[^"]*">(.*?)</a></th><td>(.*?)</td><td>(.*?)</td></tr>', text
    )
    reasons = {name: [re.sub(r"<.*?>", "", it) for it in cells] for name, *cells in rows}
    bold = {name: [i for i, it in enumerate(cells) if it.startswith("<strong>")] for name, *cells in rows}
    commands = {
        name: html.unescape(it)
        for name, it in re.findall(
            r'<h3 id="target-([^"]*)">\1</h3>\n<p>.*</p>\n<pre dir="ltr" class="command">(.*)</pre>', text
        )
    }
    return queries, reasons, bold, commands


def address_in(page: str) -> str | None:
    """The address of "Report a problem" as the browser sees it; None if there is no such link."""
    found = re.search(
        r'<p class="problem"><a href="([^"]*)">Report a problem \(your request is sent ' r"to the library\)</a></p>",
        page,
    )
    return html.unescape(found[1]) if found else None


class Staff(SiteCase):
    """The site's targets.json names the folder of its registry."""

    script: str
    targets: dict[str, Any]

    @classmethod
    def setUpClass(cls) -> None:
        super().setUpClass()
        site = cls.site
        site.write("temp/openlink.sh", PRINTS_ARGUMENTS)
        cls.script = site.path("temp/openlink.sh")
        os.chmod(cls.script, 0o755)
        cls.targets = json.loads(site.read("openlink/targets.json"))
        site.write_targets({**cls.targets, "folder": site.folder})
        site.keep()

    def get(self, query: str, language: str = "en", method: str = "GET") -> Reply:
        return self.site.get(f"/why?{query}", method, headers={"Accept-Language": language}, port=self.site.report_port)

    def arguments_of(self, command: str) -> list[str]:
        """What a shell gives the program for a command that is pasted."""
        self.expect(
            f"a command: {command[:60]}", (command.startswith("openlink explain '"), "\n" in command), (True, False)
        )
        done = subprocess.run(
            ["sh", "-c", self.script + command[len("openlink") :]], capture_output=True, cwd=self.site.path("temp")
        )
        self.expect(f"the shell: {command[-60:]}", (done.returncode, done.stderr), (0, b""))
        return done.stdout.decode().split("\0")[:-1]

    def report(self, query: str) -> dict[str, str]:
        """The program's own report on a query of OpenURL 1.0."""
        reply = self.site.get(f"/report?{query}", port=self.site.report_port)
        return dict(line.split("\t") for line in reply.text.splitlines())

    def test_page(self) -> None:
        """Both queries, the reports that the program gives on them, and commands with the files and the query of each
        target."""
        reply = self.get(ARTICLE)
        self.tidy("the page for staff", reply.text)
        self.expect(
            "the page for staff",
            (reply.status, reply.headers["Content-Type"], reply.text.count("<h1>")),
            (200, "text/html; charset=utf-8", 1),
        )
        for part in (
            "<h1>Why a link is shown or missing</h1>",
            "<strong><bdi>Storm surges</bdi></strong>",
            "<h2>Query 1</h2>",
            "<h2>Query 2</h2>",
            "<h2>Reports</h2>",
            "<h2>Commands</h2>",
        ):
            self.expect(f"the page for staff has {part}", part in reply.text)
        queries, reasons, bold, commands = page_parts(reply.text)
        pairs = [parse_qsl(query) for query in queries]
        self.expect("the first query", [value for key, value in pairs[0] if key == "rft.issn"], ["2901-0012"])
        self.expect("the second query", [value for key, value in pairs[1] if key == "rft.issn"], ["ANY"])
        self.expect("both have the title", [dict(it)["rft.atitle"] for it in pairs], ["Storm surges"] * 2)
        reports = [self.report(query) for query in queries]
        self.expect("the reports", reasons, {name: [reports[0][name], reports[1][name]] for name in reports[0]})
        self.expect("the reports in bold", bold, {name: [1 if name in FOR_EVERY_REQUEST else 0] for name in reports[0]})
        lines = [line.split("\t") for line in self.site.read("registry.tsv").splitlines()]
        registry = {name: (code, table) for name, code, table in lines}
        with_row = [name for name in registry if {reports[0][name], reports[1][name]} != {"no row"}]
        without = [name for name in registry if name not in with_row]
        self.expect("some have a row, and some none", (len(with_row) > 3, len(without) > 3), (True, True))
        for what, names in (("commands", list(commands)), ("reports", list(reasons))):
            self.expect(f"{what}: those with a row first", names, [*with_row, *without])
        summary = f"<summary>Targets without a row: {len(without)}</summary>"
        self.expect("the others are folded", reply.text.count(f"<details>\n{summary}"), 2)
        for name, command in commands.items():
            word, rules, table, query = self.arguments_of(command)
            self.expect(
                f"the command for {name}", (word, query), ("explain", queries[1 if name in FOR_EVERY_REQUEST else 0])
            )
            self.expect(f"the table of {name}", table, self.site.path(registry[name][1]))
            code = self.site.path("temp/code.olk")
            subprocess.run([PROGRAM, "compile", rules, code], check=True, stdout=subprocess.DEVNULL)
            used = Path(self.site.path(registry[name][0])).read_bytes()
            self.expect(f"the rules of {name}", Path(code).read_bytes(), used)

    def test_what_to_do(self) -> None:
        """Beside each reason is what to do; and the form for another request leads to this page."""
        text = self.get("issn=2901-0012&date=2003&volume=12").text
        said = dict(re.findall(r'<h3 id="target-([^"]*)">.*</h3>\n<p>.*?: <code [^>]*>.*?</code> (.*)</p>', text))
        words = {
            "link": "Nothing to do",
            "no row": "The table has no row with a number",
            "no link": "The table has the title",
        }
        _, reasons, bold, _ = page_parts(text)
        used = {name: re.sub(r"^link .*", "link", reasons[name][bold[name][0]]) for name in reasons}
        self.expect("all kinds of reasons", set(used.values()), set(words))
        for name, reason in used.items():
            self.expect(f"what to do about {name}: {reason}", said[name].startswith(words[reason]), True)
        self.expect("the form", re.findall(r'<form action="([^"]*)" method="get"', text), ["/why"])
        self.expect("it is folded", "<details><summary>Find by citation</summary>" in text, True)
        self.expect(
            "but for no request", "<details open><summary>Find by citation</summary>" in self.get("").text, True
        )
        self.expect("the way to the desk", '<a href="/desk/">Librarian’s desk</a>' in text, True)

    def test_hostile_titles(self) -> None:
        """Each title is one pair of the one argument that the shell gives the program, with `'` as %27."""
        for title in TITLES:
            for key in ("atitle", "rft.atitle"):
                reply = self.get(f"{key}={quote(title, safe='')}&issn=2901-0012")
                queries, _, _, commands = page_parts(reply.text)
                self.expect(
                    f"hostile title {title!r}", (reply.status, len(queries), "<script" in reply.text), (200, 2, False)
                )
                self.expect(
                    f"control characters of {title!r}",
                    re.findall("[\x00-\x09\x0b-\x1f\x7f-\x9f\u2028]", reply.text),
                    [],
                )
                for name, query in (("tidal-press", queries[0]), ("web-search", queries[1])):
                    argument = self.arguments_of(commands[name])[3]
                    self.expect(f"{name}: the query of {title!r}", argument, query.replace("'", "%27"))
                    got = [
                        value
                        for key, value in parse_qsl(argument, keep_blank_values=True, errors="strict")
                        if key == "rft.atitle"
                    ]
                    # A title without a letter has no value, and its pair does not count.
                    expected = READ.get(title, title)
                    self.expect(f"{name}: the title {title!r}", got[:1], [expected] if expected.strip() else [])

    def test_raw_bytes(self) -> None:
        for raw in (b"'$(id)`\"\\<b>", b"\xe9'\xff", b"a'b%'%2'7"):
            head = b" HTTP/1.1\r\nHost: 127.0.0.1\r\nConnection: close\r\n\r\n"
            reply = self.site.send(b"GET /why?atitle=" + raw + b"&issn=2901-0012" + head, self.site.report_port)
            queries, _, _, commands = page_parts(reply.split(b"\r\n\r\n", 1)[1].decode())
            argument = self.arguments_of(commands["tidal-press"])[3]
            self.expect(f"the raw bytes {raw!r}", (argument, b"<b>" in reply), (queries[0].replace("'", "%27"), False))
            title = dict(reversed(parse_qsl(argument)))["rft.atitle"]
            expected = raw.decode("windows-1252") if raw[0] > 0x7F else unquote(raw.decode()).replace("<b>", "")
            self.expect(f"the title of {raw!r}", title, expected)

    def test_folders(self) -> None:
        """The folder of the registry has quotes in its name."""
        folder = self.site.path('temp/it\'s $(id) \\ "<b>" é')
        os.symlink(self.site.folder, folder)
        named = {
            **self.targets["targets"],
            "tidal-press": {"rules": "/o'/x y.rules"},
            "catalogue": {"rules": "own/c.rules"},
        }
        self.site.write_targets({**self.targets, "folder": folder, "targets": named})
        os.mkdir(self.site.path("received"))
        os.rename(self.site.path("rules/pubmed.rules"), self.site.path("received/pubmed.rules"))
        reply = self.get(ARTICLE)
        self.tidy("a folder with quotes", reply.text)
        commands = page_parts(reply.text)[3]
        for name, rules in (
            ("web-search", f"{folder}/rules/web-search.rules"),
            ("tidal-press", "/o'/x y.rules"),
            ("catalogue", f"{folder}/own/c.rules"),
            ("pubmed", f"{folder}/received/pubmed.rules"),
        ):
            self.expect(f"a folder with quotes: {name}", self.arguments_of(commands[name])[1], rules)
        self.expect("a table in it", self.arguments_of(commands["web-search"])[2], f"{folder}/tables/ANY.tsv")
        self.expect("HTML in it", "<b>" in reply.text, False)

    def test_no_folder(self) -> None:
        for other in (self.site.path("none"), 3, None, ""):
            self.site.write_targets({**self.targets, "folder": other})
            reply = self.get(ARTICLE)
            queries, reasons, _, commands = page_parts(reply.text)
            path = f"{other if isinstance(other, str) else '/etc/openlink/current'}/registry.tsv"
            self.expect(
                f"the folder {other}", (reply.status, len(queries), len(reasons) > 10, commands), (200, 2, True, {})
            )
            self.expect(
                f"the folder {other}: the notice", f"There are no commands, since {path} cannot be read." in reply.text
            )
            self.tidy(f"the folder {other}", reply.text)

    def test_registry_that_changes(self) -> None:
        text = self.site.read("registry.tsv")
        self.site.write("registry.tsv", text.replace("tidal-press\t", "tidal\t").replace("\n", "\r\n"))
        commands = page_parts(self.get(ARTICLE).text)[3]
        self.expect(
            "a target that the file no longer has",
            ("tidal-press" in commands, "tidal" in commands, "web-search" in commands),
            (False, False, True),
        )
        self.expect(
            "the line ends of the file", self.arguments_of(commands["web-search"])[2], self.site.path("tables/ANY.tsv")
        )
        self.expect("its notice", "this target is not in " in self.get(ARTICLE).text)

    def test_server(self) -> None:
        """The page is at the loopback address alone, and on no server of the readers."""
        for path in (
            "/why",
            "/why/",
            "//why",
            "/find/../why",
            "/%77hy",
            "/report",
            "/report.txt",
            "/_report",
            "/why?x",
        ):
            for host in ("a", "127.0.0.1", f"127.0.0.1:{self.site.report_port}"):
                reply = self.site.get(path, headers={"Host": host})
                self.expect(f"{path} for readers, {host}", (reply.status, "Query 1" in reply.text), (404, False))

    def test_other_address(self) -> None:
        address = f"http://127.0.0.1:{self.site.report_port}/why"
        reply = self.site.send(f"GET {address} HTTP/1.1\r\nHost: a\r\nConnection: close\r\n\r\n".encode())
        self.expect("an absolute address for readers", reply[:12], b"HTTP/1.1 404")
        with self.assertRaises(OSError, msg="the server of the reports is found at another address"):
            socket.create_connection(("127.0.0.2", self.site.report_port), 2).close()
        for method, status in (("HEAD", 200), ("POST", 405), ("DELETE", 405)):
            self.expect(f"{method} /why", self.get(ARTICLE, method=method).status, status)
        self.expect(
            "its style", self.site.get("/menu.css", port=self.site.report_port).headers["Content-Type"], "text/css"
        )

    def test_no_reference(self) -> None:
        for query in ("", "&&", "rft.isbn="):
            reply = self.get(query)
            self.expect(
                f"no reference: {query}",
                (reply.status, "No reference was given." in reply.text, len(page_parts(reply.text)[0])),
                (200, True, 2),
            )
            self.tidy("no reference", reply.text)

    def test_german(self) -> None:
        reply = self.get(ARTICLE, "de-AT")
        self.tidy("the page for staff in German", reply.text)
        for part in (
            '<html lang="de" dir="ltr">',
            "<h1>Warum ein Link erscheint oder fehlt</h1>",
            "<h2>Abfrage 2</h2>",
            "<h2>Berichte</h2>",
            "<h2>Befehle</h2>",
        ):
            self.expect(f"the page in German has {part}", part in reply.text)

    def test_problem_link(self) -> None:
        """The mail that the link begins has an address that staff open: it shows what the reader's request became."""

        def opened(name: str, address: str | None) -> Reply:
            self.expect(f"{name}: the address", re.fullmatch(r"mailto:[!-~]+", address or "") is not None)
            fields = dict(pair.split("=", 1) for pair in urlsplit(address or "").query.split("&"))
            self.expect(f"{name}: the fields", sorted(fields), ["body", "subject"])
            link = unquote(fields["body"], errors="strict")
            self.expect(f"{name}: the body", link.startswith("http://127.0.0.1:8079/why?"))
            return self.site.get(link[len("http://127.0.0.1:8079") :], port=self.site.report_port)

        for query in (
            ARTICLE,
            "atitle=a%27b%26c%3Cd%3E%25%0D%0A%C3%A9%E9&issn=2901-0012",
            "a&&b=1;c=2&amp;d=%&e='\"<>",
            "x=" + "%25" * 2500,
        ):
            self.expect(
                f"staff see the request {query[:30]}",
                opened(query[:30], address_in(self.site.get(f"/find?{quote(query, safe='=&%+;')}").text)).text,
                self.get(quote(query, safe="=&%+;")).text,
            )
        body = ("atitle=" + "%C3%A9" * 1300 + "&" + ARTICLE).encode()[:8192]
        reply = opened(
            "a form", address_in(self.site.get("/find?sid=form&rft.note=" + "a" * 5700, "POST", body, FORM).text)
        )
        self.expect("staff see a form", (reply.status, "rft.issn=ANY" in reply.text), (200, True))
        self.expect("a redirect's page has the link", address_in(self.site.get(f"/go?{ARTICLE}").text) is not None)

    def test_no_problem_link(self) -> None:
        for target in ("/find", "/none", f"/find.json?{ARTICLE}"):
            self.expect(f"{target[:12]} has no link", address_in(self.site.get(target).text), None)

    def test_request_with_an_apostrophe(self) -> None:
        """Nothing of a request is left to escape in a command of a mail program."""
        found = address_in(self.site.get(f"/find?{ARTICLE}&au=O'Neil").text)
        self.expect("in the link", found is not None and found.endswith("%26au%3DO%27Neil"))

    def test_forms_of_problem_link(self) -> None:
        words = self.targets["words"]
        cases: list[tuple[Any, bool]] = [
            (None, False),
            ("", False),
            (3, False),
            ("javascript:alert({})", False),
            ("https://e.org/problem", False),
            ("e.org/{}", False),
            ("https://e.org/ {}", False),
            ("https://e.org/p?q={}&l=en", True),
            ("HTTP://e.org/{}", True),
            ({"de": "mailto:a@b?body={}"}, False),
        ]
        for link, expected in cases:
            self.site.write_targets(
                {**self.targets, "words": {**words, "problemLink": link} if link is not None else {}}
            )
            got = address_in(self.site.get(f"/find?{ARTICLE}").text)
            self.expect(f"problemLink {link}", got, link.replace("{}", quote(ARTICLE, safe="")) if expected else None)
