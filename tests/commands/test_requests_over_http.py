"""Requests to a service with one target or with none: which page they request, or why they are rejected."""
from fixtures.program import ProgramCase
from fixtures.service import NO_LINKS, expect_replies, reply_of, to_head
from fixtures.targets import DATE_RULES, JOURNAL, write_registry

HTML = reply_of(200, NO_LINKS, "text/html")
TEXT = reply_of(200, "")
REPORT = reply_of(200, "alpha\tno row\n")
BAD = reply_of(400, "bad request\n")
NOT_FOUND = reply_of(404, "not found\n")
TOO_LARGE = reply_of(431, "head too large\n")
TOO_MANY_PAIRS = reply_of(400, "query: too many pairs\n")
WRONG_VERSION = reply_of(400, "query: wrong version\n")
METHOD = reply_of(405, "method not allowed\n", allow="Allow: GET, HEAD\r\n")


def gives(program, requests):
    write_registry(program, [("alpha", DATE_RULES, JOURNAL)])
    expect_replies(program, requests)


# A method with a target, in a request with one Host field, and the reply.
TARGETS = [
    ("HEAD http://a/openurl.txt?x", TEXT),
    ("GET hTTp://?x", BAD),
    ("GET http:///openurl", BAD),
    ("GET http://a", NOT_FOUND),
    ("GET http://a?/openurl", NOT_FOUND),
    ("GET http:/", BAD),
    ("GET ftp://a/openurl", BAD),
    ("GET *", BAD),
    ("OPTIONS *", METHOD),
    ("POST /openurl", METHOD),
    ("get /openurl", METHOD),
    ("GET /x", NOT_FOUND),
    ("GET /openurl/", NOT_FOUND),
    ("GET /%6fpenurl", NOT_FOUND),
    ("GET /%6Fpenurl", NOT_FOUND),
    ("GET /OPENURL", NOT_FOUND),
    ("GET  /openurl", BAD),
    ("GET http:///x", BAD),
    ("GET /openurl?ctx_ver=1", WRONG_VERSION),
    ("GET /report?url_ver=1", WRONG_VERSION),
]

# A request, and the reply. With no byte there is no reply.
REQUESTS = [
    (b"GET /openurl?a=b%20c?d HTTP/1.1\r\nHost: a\r\n\r\nmore", HTML),
    (b"\r\n\nGET /openurl.txt HTTP/1.1\nhost:\r\n\n", TEXT),
    (b"GET /report? HTTP/1.1\r\nA: b\r\nHOST: a\r\n\r\n", REPORT),
    (b"GET HTTPS://a:80/report HTTP/1.0\r\n\r\n", REPORT),
    (b"POST /openurl HTTP/1.1\r\n\r\n", BAD),
    (b"POST * HTTP/1.1\r\n\r\n", BAD),
    (b"GET /openurl HTTP/1.1\r\n\r\n", BAD),
    (b"GET /openurl HTTP/1.0\r\n\r\n", HTML),
    (b"get /x HTTP/1.0\r\n\r\n", METHOD),
    (b"GET /openurl HTTP/1.1\r\nHost: a\r\nHost: a\r\n\r\n", BAD),
    (b"GET /openurl HTTP/1.0\r\nHost: a\r\nhost: a\r\n\r\n", BAD),
    (b"GET /openurl HTTP/1.1\r\nHost: a\r\nhosT: b\r\nHOST: c\r\n\r\n", BAD),
    (b"GET /x HTTP/1.1\r\nHost: a\r\nHost: a\r\n\r\n", BAD),
    (b"GET /openurl HTTP/1.1\r\nHosts: a\r\n\r\n", BAD),
    (b"GET /openurl HTTP/1.1\r\nHost: a\r\n", BAD),
    (b"GET /openurl HTTP/1.2\r\nHost: a\r\n\r\n", BAD),
    (b"GET /openurl HTTP/2.0\r\nHost: a\r\n\r\n", BAD),
    (b"\r\nGET /x?ctx_ver=1 HTTP/1.1\nHost: a\n\n", NOT_FOUND),
    (b"\r\n\nGET hTTps://a:80/openurl HTTP/1.1\nhost:\r\n\n", HTML),
    (b"GET http://a/openurl HTTP/1.0\r\n\r\n", HTML),
    (b"GET /openurl HTTP/1.0\r\nHost: b\r\n\r\n", HTML),
    (b"GET /openurl?ctx_ver=1 HTTP/1.0\r\n\r\n", WRONG_VERSION),
    (b"POST /openurl HTTP/1.0\r\n\r\n", METHOD),
    (b"GET http://a/openurl HTTP/1.1\r\n\r\n", BAD),
    (b"GET /openurl HTTP/1.1\r\nHost: a\r\nhOST: a\r\n\r\n", BAD),
    (b"GET /openurl HTTP/1.1\r\nHost: a\r\nHost: a\r\nHost: a\r\n\r\n", BAD),
    (b"GET /openurl HTTP/1.0\r\nHost: a\r\nHost: a\r\n\r\n", BAD),
    (b"GET /openurl HTTP/1.0\r\nHost: a\r\nHost: a\r\nHost: a\r\n\r\n", BAD),
    (b"GET /openurl\r\nHost: a\r\n\r\n", BAD),
    (b"", b""),
]

# A request whose head has the method HEAD has no body in its reply; where there is no head, the method is not known.
TO_HEAD = [
    (b"HEAD /x HTTP/1.1\r\nHost: a\r\n\r\n", to_head(NOT_FOUND)),
    (b"HEAD /x HTTP/1.1\r\n\r\n", to_head(BAD)),
    (b"head /x HTTP/1.1\r\nHost: a\r\n\r\n", METHOD),
    (b"GET /x HTTP/1.1\r\nHost: a\r\n\r\n", NOT_FOUND),
    (b"HEAD /x HTTP/1.1\r\nHost: a\r\n", BAD),
    (b"HEAD /x HTTP/1.1\r\n", BAD),
    (b"HEAD http://a/openurl.txt?ctx_ver=1 HTTP/1.0\r\n\r\n", to_head(WRONG_VERSION)),
    (b"HEAD /openurl HTTP/1.0\r\n\r\n", to_head(HTML)),
    (b"HEAD /x HTTP/1.0\r\n\r\n", to_head(NOT_FOUND)),
    (b"HEAD * HTTP/1.0\r\n\r\n", to_head(BAD)),
    (b"HEAD * HTTP/1.1\r\n\r\n", to_head(BAD)),
    (b"HEAD /openurl HTTP/1.0\r\n", BAD),
    (b"HEAD /openurl HTTP/1.1\r\n", BAD),
    (b"head /openurl HTTP/1.0\r\n\r\n", METHOD),
]

# Requests to a service without targets, and the replies.
WITHOUT_TARGETS = [
    (b"GET /openurl HTTP/1.0\r\n\r\n", HTML),
    (b"GET /openurl.txt HTTP/1.0\r\n\r\n", TEXT),
    (b"GET /report HTTP/1.0\r\n\r\n", reply_of(200, "")),
    (b"HEAD /openurl HTTP/1.0\r\n\r\n", to_head(HTML)),
]

# The start of a request, what follows it, how often, the end, and the reply. The first, of 16,384 bytes, is open; the
# second has a byte fewer; the third has 16,384 bytes, and its head has ended and is none of the grammar.
LONG = [
    ("GET / HTTP/1.1\r\nX: ", "x", 16_384 - 19, "", TOO_LARGE),
    ("GET / HTTP/1.1\r\nX: ", "x", 16_384 - 20, "", BAD),
    ("GET / HTTP/1.1\r\nX ", "x", 16_384 - 22, "\r\n\r\n", BAD),
    ("GET / HTTP/1.1\r\nX: ", "x", 16_384 - 32, "\r\nHost: a\r\n\r\n", NOT_FOUND),
]

# The same, with fields beside Host: a head has 128 of them at most.
FIELDS = [
    ("GET /report HTTP/1.1\r\nHost: a\r\n", "A: b\r\n", 0, "\r\n", REPORT),
    ("GET /report HTTP/1.1\r\nHost: a\r\n", "A: b\r\n", 127, "\r\n", REPORT),
    ("GET /report HTTP/1.1\r\nHost: a\r\n", "A: b\r\n", 128, "\r\n", BAD),
    ("GET /x HTTP/1.1\r\nHost: a\r\n", "A: b\r\n", 128, "\r\n", BAD),
    ("GET /openurl.txt HTTP/1.1\r\nHost: a\r\n", "A: b\r\n", 0, "\r\n", TEXT),
    ("GET /openurl.txt HTTP/1.1\r\nHost: a\r\n", "A: b\r\n", 127, "\r\n", TEXT),
    ("GET /openurl.txt HTTP/1.1\r\nHost: a\r\n", "A: b\r\n", 128, "\r\n", BAD),
]

# The same, with a query of 4,097 pairs.
PAIRS = [
    ("GET /openurl?a", "&a", 4096, " HTTP/1.1\r\nHost: a\r\n\r\n", TOO_MANY_PAIRS),
    ("GET /openurl?a", "&a", 4096, " HTTP/1.0\r\n\r\n", TOO_MANY_PAIRS),
]

REQUEST = b"GET /x HTTP/1.1\r\nHost: a\r\n\r\n"


class RequestsOverHttp(ProgramCase):
    def test_methods_and_targets(self):
        gives(self.program, [(f"{line} HTTP/1.1\r\nHost: a\r\n\r\n", expected) for line, expected in TARGETS])

    def test_whole_requests(self):
        gives(self.program, REQUESTS)

    def test_replies_without_a_body(self):
        gives(self.program, TO_HEAD)

    def test_a_registry_without_targets(self):
        write_registry(self.program, [])
        expect_replies(self.program, WITHOUT_TARGETS)

    def test_the_query_is_decoded_once(self):
        """It is all after the first `?`."""
        write_registry(self.program, [("alpha", "rule\nlink http://e.org/{a}\n", JOURNAL)])
        request = b"GET /openurl.txt?rft.issn=1234567x&a=b%20c?d HTTP/1.1\r\nHost: a\r\n\r\nmore"
        expect_replies(self.program, [(request, reply_of(200, "alpha\thttp://e.org/b%20c%3Fd\n"))])

    def test_limits(self):
        for cases in LONG, FIELDS, PAIRS:
            gives(
                self.program, [(start + piece * count + end, expected) for start, piece, count, end, expected in cases]
            )

    def test_a_request_that_ends_too_soon(self):
        gives(self.program, [(REQUEST[:end], BAD) for end in range(1, 28)] + [(REQUEST, NOT_FOUND)])
