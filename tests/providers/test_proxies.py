"""A proxy before the links of rules: what the update writes, which links readers get, and what it refuses."""
from __future__ import annotations

import tempfile
from pathlib import Path
from urllib.parse import unquote

from fixtures import needs
from fixtures.cases import Case
from fixtures.made_titles import issn
from fixtures.made_versions import Weeks
from fixtures.made_versions import table
from openlink_update.outcome import Refused
from openlink_update.rules import proxies
from openlink_update.tables.table import Table
from openlink_update.versions.program import Program
from fixtures.program import PATH

PLAIN = "https://proxy.example.org/login?url="
ENCODING = "https://proxy.example.org/login?qurl="
ATHENS = "https://go.openathens.net/redirector/library.example.org?url="
TABLE = Table(("title_id", "code"), [["abc-1", "a"], ["b.2", "b/c"]])
DOI = "rule\nwhen given x.doi\nlink https://doi.org/{x.doi}\n"
PAGE = "rule\nlink {+title_page}\n"
NO_PAGE = 'rule\nwhen title_page is "none:"\nlink none:\n'
SICI = "10.1002/(SICI)1096(1996)99:1<1::AID-A1>3.0.CO;2-1"
ENCODED_SICI = "&x.doi_encoded=10.1002%252F(SICI)1096(1996)99%253A1%253C1%253A%253AAID-A1%253E3.0.CO%253B2-1"
LATE = "&rft.date=2015&x.from=20150101&x.to=20151231"


def written(rules: str, prefix: str) -> str | list[str]:
    """The rules with a prefix, or why they are refused."""
    try:
        return proxies.with_proxy(rules.encode(), prefix, TABLE).decode()
    except Refused as refusal:
        return refusal.reasons


def twice(template: str) -> list[str]:
    return [f"proxy: rule 1: {{{template}}} may have to be encoded twice, and the proxy decodes it once"]


class Written(Case):
    def test_kinds(self) -> None:
        """Which prefixes are before an encoded address."""
        for prefix, is_encoding in (
            (PLAIN, False),
            (ENCODING, True),
            (ATHENS, True),
            ("https://p.example.org/login?user=1&qurl=", True),
            ("https://p.example.org/qurl?url=", False),
            ("https://p.example.org/", False),
        ):
            self.expect(prefix, proxies.is_encoding(prefix), is_encoding)

    def test_plain(self) -> None:
        """The prefix is before each template of a web link, and nothing else changes."""
        for name, rules, wanted in (
            ("a DOI", DOI, DOI.replace("https://d", f"{PLAIN}https://d")),
            ("a page", PAGE, NO_PAGE + f"rule\nlink {PLAIN}{{+title_page}}\n"),
            ("no web link", "rule\nlink none:away\n", "rule\nlink none:away\n"),
            ("in capitals", DOI.replace("https:", "HTTPS:"), DOI.replace("https:", f"{PLAIN}HTTPS:")),
            ("a web address after a scheme", "rule\nlink x:https://a.example/\n", "rule\nlink x:https://a.example/\n"),
            (
                "two guards",
                f"rule\nwhen given x.isbn\n{DOI[5:]}",
                f"rule\nwhen given x.isbn\nwhen given x.doi\nlink {PLAIN}https://doi.org/{{x.doi}}\n",
            ),
            (
                "lists, comments, line ends",
                "list s\r\n# c\r\n\r\nrule\r\nlink http://a.example/{?s*}\r\n",
                f"list s\nrule\nlink {PLAIN}http://a.example/{{?s*}}\n",
            ),
            ("for everyone", f"# proxy: never\n{DOI}", f"# proxy: never\n{DOI}"),
        ):
            self.expect(name, written(rules, PLAIN), wanted)
        self.expect("no proxy", written(DOI, ""), DOI)
        for prefix in ("https://p.example.org/%2f%C3?u=", "https://p.example.org/$-_.~:/@!&()*+,;?u="):
            self.expect(prefix, written(DOI, prefix), DOI.replace("https:", f"{prefix}https:"))

    def test_encoded(self) -> None:
        """The text is encoded, and a DOI may have a rule of its own."""
        doi = "https%3A%2F%2Fdoi.org%2F"
        encoded = f"rule\nwhen given x.doi\nwhen has x.doi_encoded\nlink {ENCODING}{doi}{{x.doi_encoded}}\n"
        for name, rules, wanted in (
            ("a DOI", DOI, f"list x.doi_encoded\n{encoded}rule\nwhen given x.doi\nlink {ENCODING}{doi}{{x.doi}}\n"),
            ("a page", PAGE, f"{NO_PAGE}rule\nlink {ENCODING}{{title_page}}\n"),
            ("a page and text", PAGE.replace("}", "}/b?"), f"{NO_PAGE}rule\nlink {ENCODING}{{title_page}}%2Fb%3F\n"),
            (
                "text",
                "rule\nlink https://a.example/%20é?a=b&c={x.isbn}\n",
                f"rule\nlink {ENCODING}https%3A%2F%2Fa.example%2F%2520%25C3%25A9%3Fa%3Db%26c%3D{{x.isbn}}\n",
            ),
            (
                "a column",
                "rule\nlink https://a.example/{title_id}\n",
                f"rule\nlink {ENCODING}https%3A%2F%2Fa.example%2F{{title_id}}\n",
            ),
            (
                "a year",
                "rule\nlink https://a.example/{rft.date:4}\n",
                f"rule\nlink {ENCODING}https%3A%2F%2Fa.example%2F{{rft.date:4}}\n",
            ),
        ):
            self.expect(name, written(rules, ENCODING), wanted)

    def test_refused(self) -> None:
        """What would not be right is refused, with the rule."""
        names = ("rft.volume", "rft.atitle", "+title_url", "+title_page")
        for template in (*names, "?x.isbn", "x.isbn,x.issn", "x.issn*", "/x.issn"):
            self.expect(template, written(f"rule\nlink https://a.example/{{{template}}}\n", ENCODING), twice(template))
        for digits, is_right in ((4, True), (5, False)):
            found = written(f"rule\nlink https://a.example/{{x.issn:{'1' * digits}}}\n", ENCODING)
            self.expect(f"{digits} digits", isinstance(found, str), is_right)
        for length, shown in ((60, "b" * 60), (61, "b" * 60 + "..")):
            found = written(f"rule\nlink https://a.example/{{{'b' * length}}}\n", ENCODING)
            self.expect(f"{length} characters", found, twice(shown))
        wanted = ['proxy: rule 2: {code}, such as "b/c", has to be encoded twice, and the proxy decodes it once']
        self.expect("a column", written(DOI + "rule\nlink https://a.example/{code}\n", ENCODING), wanted)
        for prefix in (PLAIN, ENCODING):
            wanted = ["proxy: rule 1: a link that begins with {+title_url}: write {+title_page}, which is never empty"]
            self.expect("a host of the request", written("rule\nlink {+title_url}\n", prefix), wanted)
        for prefix in (
            "https://p.example.org/{x}?url=",
            "https://p.example.org/#u=",
            "https://p.example.org/%zz",
            "https://p.example.org/'",
            'https://p.example.org/"',
            "https://p.example.org/<",
            "https://p/é",
        ):
            self.expect(prefix, str(written(DOI, prefix))[:14], "['proxy: only ")


@needs.program()
class Equal(Case):
    def test_links(self) -> None:
        """Behind each kind of proxy is the link that the rules have without it, encoded or as it is."""
        queries = ["", "x.isbn=9781234560102", "x.doi=10.5555/a", "rft.date=2015-03", f"x.doi={SICI}"]
        rules = (
            DOI + "rule\nwhen given x.isbn\nlink https://a.example/b%20c/{x.isbn}?q=1&r={title_id}\n"
            "rule\nwhen given rft.date\nlink http://a.example/{rft.date:4}/x\n" + PAGE
        )
        with tempfile.TemporaryDirectory() as folder:
            program = Program(PATH, folder)
            for cell in ("https://a.example/p?x=1&y=%20", "none:"):
                data = f"print_identifier\ttitle_id\ttitle_page\n2901-0012\tabc-1\t{cell}\n"
                Path(folder, "t.txt").write_text(data)
                shown = Table.parse(data.encode())
                for prefix in (PLAIN, ENCODING, ATHENS):
                    Path(folder, "plain.rules").write_text(rules)
                    Path(folder, "proxy.rules").write_bytes(proxies.with_proxy(rules.encode(), prefix, shown))
                    for query in queries:
                        sent = f"rft.issn=2901-0012&{query}{ENCODED_SICI if SICI in query else ''}"
                        one, other = (self.link(program, name, sent) for name in ("plain", "proxy"))
                        behind = other.removeprefix(prefix)
                        same = unquote(behind) if proxies.is_encoding(prefix) else behind
                        wanted, is_web = one, one.startswith("http")
                        self.expect(f"{prefix} {query}: the proxy", other.startswith(prefix), is_web)
                        self.expect(f"{prefix} {query}", self.plain(same), self.plain(wanted))

    @staticmethod
    def plain(link: str) -> str:
        """A link with the DOI as doi.org reads it."""
        return unquote(link) if "doi.org" in link else link

    @staticmethod
    def link(program: Program, name: str, query: str) -> str:
        text = program.run("explain", f"{name}.rules", "t.txt", query, most=1)[1]
        return text.split(" holds: ", 1)[1].splitlines()[0] if " holds: " in text else ""


def press(title: str, number: int, page: str) -> tuple[str, ...]:
    return (title, issn(number), "", "1990", "", page, f"t{number}")


@needs.program()
class InVersions(Case):
    def test_version(self) -> None:
        """The compiled rules have the proxy, `received` has them as they came, and each run uses the option."""
        rows = table(press("A", 1, "https://press.example.com/a"), press("B", 2, ""))
        number, other = issn(1), issn(2)
        with Weeks() as weeks:
            weeks.write("press.txt", rows)
            weeks.write("targets.tsv", b"press\tprovider:title-page\tpress.txt\n")
            weeks.make()
            page = "https://press.example.com/a"
            self.expect("without", weeks.menu(f"rft.issn={number}{LATE}"), {"press": page})
            weeks.write("targets.tsv", f"press\tprovider:title-page\tpress.txt\tproxy {ENCODING}\n".encode())
            self.expect("said", weeks.make(), ["press: proxy changed"])
            behind = {"press": "https://proxy.example.org/login?qurl=https%3A%2F%2Fpress.example.com%2Fa"}
            self.expect("with", weeks.menu(f"rft.issn={number}{LATE}"), behind)
            self.expect("no page", weeks.menu(f"rft.issn={other}{LATE}&title_url=https://evil.example/"), {})
            self.expect("as they came", b"proxy" in weeks.read("received/press.rules"), False)
            self.expect("as they are compiled", b"proxy.example.org" in weeks.read("rules/press.rules"))
            self.expect("for the next run", weeks.read("options.tsv"), f'press\tproxy "{ENCODING}"\n'.encode())
            self.expect("again", (weeks.make(), weeks.menu(f"rft.issn={number}{LATE}")), ([], behind))
            self.expect("walls", (weeks.make(walls=True), weeks.menu(f"rft.issn={number}{LATE}")), ([], behind))
            weeks.write("targets.tsv", b"press\tprovider:title-page\tpress.txt\n")
            self.expect(
                "no more",
                (weeks.make(), weeks.menu(f"rft.issn={number}{LATE}")),
                (["press: proxy changed"], {"press": page}),
            )
            self.expect("no rules of the proxy", (Path(weeks.version) / "rules/press.rules").exists(), False)

    def test_kept(self) -> None:
        """If new files are refused, the old ones have no proxy of theirs."""
        rules, page = "rule\nlink {+title_page}\n", "https://press.example.com/a"
        with Weeks() as weeks:
            weeks.week("press", table(press("A", 1, page)), rules=rules)
            evil = table(press("A", 1, "https://evil.example/a"))
            self.expect("refused", len(weeks.week("press", evil, f"proxy {PLAIN}", rules=rules)) > 0)
            self.expect("the old link", weeks.menu(f"rft.issn={issn(1)}"), {"press": page})
            self.expect("no rules of the proxy", (Path(weeks.version) / "rules/press.rules").exists(), False)

    def test_free(self) -> None:
        """`free` is as it is without a proxy."""
        with Weeks() as weeks:
            weeks.write("press.txt", table(press("A", 1, "https://press.example.com/a")))
            weeks.write("targets.tsv", f"press\tprovider:free\tpress.txt\tproxy {PLAIN}\n".encode())
            weeks.make()
            self.expect("the page", weeks.menu(f"rft.issn={issn(1)}"), {"press": "https://press.example.com/a"})

    def test_refused(self) -> None:
        """Rules that a proxy cannot have, and a code file, keep the target out, with the reason."""
        rows = table(press("A", 1, "https://press.example.com/a"))
        rules = "rule\nlink https://press.example.com/{rft.volume}\n"
        with Weeks() as weeks:
            wanted = [f"  {weeks.path('input', 'press.rules')}: {twice('rft.volume')[0]}"]
            weeks.deliver("press", rows, f"proxy {ENCODING}", rules)
            self.expect("twice", [line for line in weeks.make() if "proxy" in line], wanted)
            weeks.deliver("press", rows, "", rules)
            weeks.make()
            weeks.write("press.olk", weeks.read("code/press.olk"))
            weeks.write("targets.tsv", f"press\tpress.olk\tpress.txt\tproxy {PLAIN}\n".encode())
            wanted = [f"  {weeks.path('input', 'press.olk')}: proxy: only rules can have one, and this is a code file"]
            self.expect("a code file", [line for line in weeks.make() if "proxy" in line], wanted)

    def test_hosts(self) -> None:
        """A host that a request could choose is behind the proxy, so `lint` has nothing to say."""
        rules = "rule\nlink https://{+title_id}/x\n"
        row = ("A", issn(1), "", "1990", "", "https://press.example.com/a")
        with Weeks() as weeks:
            weeks.week("press", table(row), rules=rules)
            self.expect("without", weeks.maker.left_out, ["press"])
            weeks.week("press", table(row), f"proxy {PLAIN}", rules=rules)
            self.expect("behind it", weeks.maker.names, ["press"])

    def test_addresses(self) -> None:
        """The addresses of titles' pages that the index has are behind the same proxy."""
        rules = "rule\nwhen has x.to\nlink https://press.example.com/{title_id}\n"
        for prefix, wanted in (
            (PLAIN, f"{PLAIN}https://press.example.com/a"),
            (ATHENS, f"{ATHENS}https%3A%2F%2Fpress.example.com%2Fa"),
        ):
            with Weeks() as weeks:
                weeks.week("press", table(press("A", 1, "https://press.example.com/a")), f"proxy {prefix}", rules=rules)
                weeks.maker.make_index(True)
                keys = "".join(path.read_text() for path in Path(weeks.version, "index/keys").iterdir())
                self.expect(prefix, f"\t@press {wanted}\n" in keys)
