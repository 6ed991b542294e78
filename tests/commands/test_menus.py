"""Menus of small registries: their texts by `resolve`, and the reports and pages of a service."""
from fixtures.assembler import FAIL, LIST_FILE, TWENTY_TEXTS
from fixtures.program import ProgramCase
from fixtures.service import NO_LINKS, expect_replies, reply_of, request_of
from fixtures.targets import DATE_RULES, JOURNAL, write_registry

OF_A_SCRIPT = "rule\nlink javascript:x\n"
OF_AN_ISSN = "rule\nlink http://e.org/{rft.issn}\n"
OF_THE_ROW = "rule\nlink {+title_url}\n"


def shows(program, query, text, report, page):
    """The query has this menu: its text by `resolve`, its text, report and page by a service."""
    if text:
        program.gives(["resolve", "registry", query], 0, text, "")
    else:
        program.finds_no_link(["resolve", "registry", query])
    pages = [
        ("/openurl.txt", "text/plain", text),
        ("/report", "text/plain", report),
        ("/openurl", "text/html", page),
    ]
    expect_replies(program, [(request_of(f"{path}?{query}"), reply_of(200, body, kind)) for path, kind, body in pages])


def page(items):
    """The page with these items."""
    if not items:
        return NO_LINKS
    return f"<!DOCTYPE html>\n<title>Links</title>\n<ul>\n{items}</ul>\n"


# Targets that all have the journal, a query, the text of the menu, its report, and the items of its page.
MENUS = [
    # The first row with a web link.
    (
        [("alpha", DATE_RULES)],
        "rft.issn=1234567x&rft.date=2003",
        "alpha\thttp://e.org/b\n",
        "alpha\tlink 1\n",
        '<li><a href="http://e.org/b">alpha</a></li>\n',
    ),
    # A row comes before its request.
    (
        [("alpha", DATE_RULES), ("beta", OF_A_SCRIPT)],
        "rft.issn=1234567x&rft.date=2003&title_url=http%3A%2F%2Fevil.example",
        "alpha\thttp://e.org/b\n",
        "alpha\tlink 1\nbeta\tnot a web link\n",
        '<li><a href="http://e.org/b">alpha</a></li>\n',
    ),
    ([("alpha", DATE_RULES), ("beta", OF_A_SCRIPT)], "rft.issn=0000-0000", "", "alpha\tno row\nbeta\tno row\n", ""),
    # Two rounds: the second is without the target that has its link.
    (
        [("p", LIST_FILE), ("q", OF_AN_ISSN)],
        "rft.issn=1234567x" + "&list=a" * 40,
        "q\thttp://e.org/1234567x\n",
        "p\tnot a web link\nq\tlink 0\n",
        '<li><a href="http://e.org/1234567x">q</a></li>\n',
    ),
    ([("gamma", LIST_FILE)], "rft.issn=1234567x" + ("&list=" + "a" * 1_000) * 15, "", "gamma\tnot a web link\n", ""),
]

# A cell that a link is made of, and the link, if it is one of the web.
LINKS = [
    ("http://e.org/b", "http://e.org/b"),
    ("HTTPS://x", "HTTPS://x"),
    ("http://", "http://"),
    ("hTtPs://\u00e9", "hTtPs://%C3%A9"),
    ("httpx://", None),
    ("javascript:x", None),
    ("http:/e", None),
    ("ftp://e.org", None),
    ("\u00e9", None),
]


class Menus(ProgramCase):
    def test_menus_of_the_journal(self):
        for targets, query, text, report, items in MENUS:
            write_registry(self.program, [(name, code, JOURNAL) for name, code in targets])
            shows(self.program, query, text, report, page(items))

    def test_a_query_that_is_longer_than_a_head(self):
        write_registry(self.program, [("gamma", LIST_FILE, JOURNAL)])
        self.program.finds_no_link(["resolve", "registry", "rft.issn=1234567x" + ("&list=" + "a" * 1_000) * 20])
        write_registry(self.program, [("delta", TWENTY_TEXTS, JOURNAL)])
        self.program.finds_no_link(["resolve", "registry", "rft.issn=1234567x&x=" + "a" * 20_000])

    def test_a_menu_with_links(self):
        write_registry(
            self.program,
            [
                ("zeta", OF_THE_ROW, "print_identifier\ttitle_url\n1234-567X\thttps://e.org/?a=1&b='c'\n"),
                ("beta", OF_A_SCRIPT, JOURNAL),
                ("alpha", DATE_RULES, JOURNAL),
            ],
        )
        shows(
            self.program,
            "rft.issn=1234567x&rft.date=2003",
            "zeta\thttps://e.org/?a=1&b='c'\nalpha\thttp://e.org/b\n",
            "zeta\tlink 0\nbeta\tnot a web link\nalpha\tlink 1\n",
            "<!DOCTYPE html>\n<title>Links</title>\n<ul>\n"
            '<li><a href="https://e.org/?a=1&amp;b=&#39;c&#39;">zeta</a></li>\n'
            '<li><a href="http://e.org/b">alpha</a></li>\n</ul>\n',
        )

    def test_a_row_after_seven_others(self):
        write_registry(
            self.program,
            [
                ("zeta", OF_THE_ROW, "print_identifier\ttitle_url\n" + "1234-567X\tx:\n" * 7 + "1234-567X\thttp://\n"),
                ("beta", OF_A_SCRIPT, JOURNAL),
            ],
        )
        shows(
            self.program,
            "rft.issn=1234567x",
            "zeta\thttp://\n",
            "zeta\tlink 7\nbeta\tnot a web link\n",
            page('<li><a href="http://">zeta</a></li>\n'),
        )

    def test_a_menu_without_links(self):
        # By its last row, the text of 20,000 bytes, the cells and the ISSN: 60 times 20,035 bytes.
        letters = "a" * 20_000
        write_registry(
            self.program,
            [
                ("alpha", DATE_RULES, "print_identifier\ttitle_url\n0000-0000\thttp://e.org/a\n"),
                ("gamma", FAIL, JOURNAL),
                (
                    "delta",
                    TWENTY_TEXTS,
                    "print_identifier\ttitle_url\tdate_first_issue_online\tdate_last_issue_online\tx\n"
                    f"1234-567X\thttp://e.org/a\t1990\t1995\t{letters}\n1234-567X\thttp://e.org/b\t2000\t\t{letters}\n",
                ),
            ],
        )
        shows(
            self.program,
            "rft.issn=1234567x",
            "",
            "alpha\tno row\ngamma\tno link\ndelta\tover budget 1202100\n",
            NO_LINKS,
        )

    def test_links_of_the_web(self):
        for cell, link in LINKS:
            write_registry(self.program, [("alpha", OF_THE_ROW, f"print_identifier\ttitle_url\n1234-567X\t{cell}\n")])
            if link:
                self.program.prints(["resolve", "registry", "rft.issn=1234567x"], f"alpha\t{link}")
            else:
                self.program.finds_no_link(["resolve", "registry", "rft.issn=1234567x"])
