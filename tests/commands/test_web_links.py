"""Which links are web links, and so on a menu: those that begin with `http://` or `https://`, in either case."""
import itertools

from fixtures.assembler import code
from fixtures.program import ProgramCase
from fixtures.service import expect_replies, reply_of, request_of
from fixtures.targets import write_registry

# Links that are none, though near to one.
OTHERS = [
    "",
    "/",
    "//",
    "//e.org",
    "///e.org",
    "/e.org/a",
    "e.org",
    "e.org/http://a",
    "www.e.org",
    "?http://e.org",
    "#http://e.org",
    "http",
    "https",
    "http:",
    "https:",
    "http:/",
    "https:/",
    "http:e",
    "https:e",
    "http:/e",
    "https:/e",
    "http//e.org",
    "https//e",
    "http;//e.org",
    "http%3A//e.org",
    "http:%2F/e.org",
    "http:%2F%2Fe.org",
    "%68ttp://e.org",
    "%20http://e.org",
    "%09http://e.org",
    "http+://e.org",
    "httpss://e.org",
    "httpx://e.org",
    "shttp://e.org",
    "xhttps://e.org",
    "http-s://e.org",
    "htp://e.org",
    "ttp://e.org",
    "tps://e.org",
    "://e.org",
    "s://e.org",
    "ftp://e.org",
    "ws://e.org",
    "file:///e",
    "mailto:a@e.org",
    "javascript:x",
    "javascript://e.org",
    "data:text/html,x",
    "urn:http://e.org",
    "info:doi/10.1000/1",
    "none:http://e.org",
]

# Links that are.
WEB = [
    "http://",
    "https://",
    "http:///",
    "https:///a",
    "http://e",
    "https://e.org/",
    "http://?",
    "http://#",
    "http://:80",
    "http://@",
    "http://%20",
    "https://%00",
]


def spellings(scheme):
    cases = itertools.product(*((letter, letter.upper()) for letter in scheme))
    return ["".join(letters) + "://e.org/" for letters in cases]


def cut_off(link):
    return [link[:length] for length in range(len(link))]


def code_of(link):
    return code([], [("link", link)], "EMIT l0, HALT")


def has_scheme(link):
    return link.lower().startswith(("http://", "https://"))


class WebLinks(ProgramCase):
    def test_web_links(self):
        links = (
            OTHERS + WEB + spellings("http") + spellings("https") + cut_off("http://e.org") + cut_off("HTTPS://e.org")
        )
        targets = [(f"t{number}", code_of(link), "print_identifier\n1\n") for number, link in enumerate(links)]
        write_registry(self.program, targets)
        menu = [f"t{number}\t{link}" for number, link in enumerate(links) if has_scheme(link)]
        self.program.prints(["resolve", "registry", "rft.issn=1"], "\n".join(menu))
        lines = [
            f"t{number}\t{'link 0' if has_scheme(link) else 'not a web link'}\n" for number, link in enumerate(links)
        ]
        expect_replies(self.program, [(request_of("/report?rft.issn=1"), reply_of(200, "".join(lines)))])

    def test_the_two_lists(self):
        """The lists above are sorted by hand; the rule of the scheme agrees with them."""
        self.program.expect("others", [link for link in OTHERS if has_scheme(link)], [])
        self.program.expect("web links", [link for link in WEB if not has_scheme(link)], [])
        write_registry(
            self.program, [(f"t{at}", code_of(link), "print_identifier\n1\n") for at, link in enumerate(OTHERS)]
        )
        self.program.finds_no_link(["resolve", "registry", "rft.issn=1"])

    def test_any_link_of_rules(self):
        """`link` and `run` print any link."""
        for link in ("//e.org", "http:", "https:e", "/", "javascript:x", ""):
            self.program.write("rules", f"rule\nlink {link}\n")
            self.program.prints(["link", "rules", ""], link)
            self.program.write("code", code_of(link))
            self.program.prints(["run", "code", ""], link)

    def test_rows_after_other_links(self):
        """A row that gives another link is passed over; the next row may give a web link."""
        column = code([("text", "url")], [], "TEXT r0 n0, UNDEF r0 3, PUT r0 ur, HALT")
        rows = "".join(f"1\t{link}\n" for link in OTHERS if link)
        write_registry(self.program, [("alpha", column, f"print_identifier\turl\n{rows}1\tHTTP://e\n1\thttps://f\n")])
        self.program.prints(["resolve", "registry", "rft.issn=1"], "alpha\tHTTP://e")
