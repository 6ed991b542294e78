"""Pages of a service with one target, as whole replies."""
from fixtures.program import ProgramCase
from fixtures.service import expect_replies, to_head
from fixtures.targets import DATE_RULES, JOURNAL, write_registry


def reply(kind, length, body):
    """The whole reply with a page of `length` bytes."""
    return (
        f"HTTP/1.1 200 OK\r\nContent-Type: text/{kind}; charset=utf-8\r\nContent-Length: {length}\r\n"
        f"Connection: close\r\n\r\n{body}"
    ).encode()


LINKS = reply(
    "html", 92, "<!DOCTYPE html>\n<title>Links</title>\n<ul>\n" '<li><a href="http://e.org/b">alpha</a></li>\n</ul>\n'
)
NO_LINKS = reply("html", 53, "<!DOCTYPE html>\n<title>Links</title>\n<p>No links</p>\n")
TEXT = reply("plain", 21, "alpha\thttp://e.org/b\n")
NO_TEXT = reply("plain", 0, "")
REASON = reply("plain", 13, "alpha\tlink 1\n")
NO_ROW = reply("plain", 13, "alpha\tno row\n")

# A request, and the reply.
PAGES = [
    (b"GET /openurl.txt?rft.issn=1234567x&rft.date=2003 HTTP/1.1\r\nHost: a\r\n\r\n", TEXT),
    (b"GET /openurl?rft.issn=1234567x&rft.date=2003 HTTP/1.1\r\nHost: a\r\n\r\n", LINKS),
    (b"GET http://a/openurl.txt?rft.issn=1234567x&rft.date=2003 HTTP/1.1\r\nHost: a\r\n\r\n", TEXT),
    (b"GET /report?rft.issn=1234567x&rft.date=2003 HTTP/1.1\r\nHost: a\r\n\r\n", REASON),
    (b"GET /report?rft.issn=0000-0000 HTTP/1.1\r\nHost: a\r\n\r\n", NO_ROW),
    (b"GET /openurl?rft.issn=0000-0000 HTTP/1.1\r\nHost: a\r\n\r\n", NO_LINKS),
    (b"GET /openurl.txt HTTP/1.1\r\nHost: a\r\n\r\n", NO_TEXT),
    (b"GET /openurl HTTP/1.0\r\n\r\n", NO_LINKS),
    (b"HEAD /openurl HTTP/1.1\r\nHost: a\r\n\r\n", to_head(NO_LINKS)),
    (b"HEAD /openurl?rft.issn=1234567x&rft.date=2003 HTTP/1.1\r\nHost: a\r\n\r\n", to_head(LINKS)),
]

# A row whose link has 65,513 bytes: a page can be longer than a query or a row.
LONG_ROW = "print_identifier\ttitle_url\n1234-567X\thttp://e.org/" + "b" * 65_500 + "\n"
LONG_PAGE = reply(
    "html",
    65591,
    "<!DOCTYPE html>\n<title>Links</title>\n<ul>\n"
    '<li><a href="http://e.org/' + "b" * 65_500 + '">alpha</a></li>\n</ul>\n',
)


class PagesOverHttp(ProgramCase):
    def test_pages_of_a_menu(self):
        write_registry(self.program, [("alpha", DATE_RULES, JOURNAL)])
        expect_replies(self.program, PAGES)

    def test_a_long_page(self):
        write_registry(self.program, [("alpha", DATE_RULES, LONG_ROW)])
        expect_replies(
            self.program, [(b"GET /openurl?rft.issn=1234567x&rft.date=2003 HTTP/1.1\r\nHost: a\r\n\r\n", LONG_PAGE)]
        )
