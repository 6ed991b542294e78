"""Which targets of requests are pages, and what their query is: all after the first `?`, also a `#`."""
import string

from fixtures.program import ProgramCase
from fixtures.service import NO_LINKS, expect_replies, reply_of, request_of
from fixtures.targets import write_alpha

LINK = "alpha\thttp://e.org/b\n"
HTML = '<!DOCTYPE html>\n<title>Links</title>\n<ul>\n<li><a href="http://e.org/b">alpha</a></li>\n</ul>\n'
FOUND = "rft.date=2003&rft.issn=1234567x"
NOT_FOUND = reply_of(404, "not found\n")

# Each page, and its reply to a query without links and to one with a link.
PAGES = {
    "/openurl": (reply_of(200, NO_LINKS, "text/html"), reply_of(200, HTML, "text/html")),
    "/openurl.txt": (reply_of(200, ""), reply_of(200, LINK)),
    "/report": (reply_of(200, "alpha\tno row\n"), reply_of(200, "alpha\tlink 1\n")),
}

# What follows the path, and whether the link of FOUND is on the page.
QUERIES = [
    ("", False),
    ("?", False),
    ("?a#b", False),
    (f"?{FOUND}", True),
    (f"?{FOUND}#b", False),
    (f"?{FOUND}#", False),
    (f"?{FOUND}?", False),
    (f"?{FOUND}?b", False),
    (f"?{FOUND}/", False),
    (f"?{FOUND};b", False),
    (f"??&{FOUND}", True),
    (f"?#&{FOUND}", True),
    (f"?a#b&{FOUND}", True),
    (f"?a?b&{FOUND}", True),
    (f"?{FOUND}&a#b", True),
]

PATHS = [
    "/",
    "//openurl",
    "/openurl/",
    "/openurl.txt/",
    "/report/",
    "/openurl.html",
    "/openurl.xml",
    "/openurl.json",
    "/report.txt",
    "/report.html",
    "/openurl.TXT",
    "/OPENURL",
    "/Openurl.txt",
    "/REPORT",
    "/%6fpenurl",
    "/openurl%2Etxt",
    "/./openurl",
    "/a/../openurl",
    "/a/openurl",
    "/openurl/openurl",
    "/openurl.txt.txt",
    "/index.html",
    "/x",
]


class Pages(ProgramCase):
    def test_queries(self):
        write_alpha(self.program)
        cases = []
        for path, (without, with_link) in PAGES.items():
            for query, is_found in QUERIES:
                for target in (path + query, f"http://a{path}{query}"):
                    cases.append((request_of(target), with_link if is_found else without))
        expect_replies(self.program, cases)

    def test_other_paths(self):
        write_alpha(self.program)
        cases = [(request_of(path + query), NOT_FOUND) for path in PATHS for query in ("", f"?{FOUND}")]
        expect_replies(self.program, cases)

    def test_shorter_and_longer_paths(self):
        write_alpha(self.program)
        paths = [page[:length] for page in PAGES for length in range(1, len(page) + 1)]
        printable = string.ascii_letters + string.digits + string.punctuation
        paths += [page + character for page in PAGES for character in printable if character != "?"]
        cases = [(request_of(path), PAGES[path][0] if path in PAGES else NOT_FOUND) for path in paths]
        expect_replies(self.program, cases)
