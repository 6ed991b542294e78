"""Which counts of Host fields a request may have: at most one, and one in HTTP/1.1 (RFC 9112, 3.2)."""
from fixtures.program import ProgramCase
from fixtures.service import NO_LINKS, expect_replies, reply_of, request_of
from fixtures.targets import write_alpha

BAD = reply_of(400, "bad request\n")
PAGE = reply_of(200, NO_LINKS, "text/html")
REFUSED = reply_of(405, "method not allowed\n", allow="Allow: GET, HEAD\r\n")

# Whether 0 to 3 Host fields are accepted, by the minor version.
ACCEPTED = {0: (True, True, False, False), 1: (False, True, False, False)}

# Fields, and how many of them are Host.
FIELDS = [
    (["host: a"], 1),
    (["HOST: a"], 1),
    (["Host:"], 1),
    (["Host: a", "hOST: b"], 2),
    (["Accept: */*", "Host: a", "User-Agent: x"], 1),
    (["Host: a", "Accept: */*", "Host: a"], 2),
    (["Hosts: a"], 0),
    (["X-Host: a"], 0),
    (["X: Host"], 0),
    (["Forwarded: host=a"], 0),
    (["Hos: a"], 0),
]


class Hosts(ProgramCase):
    def test_counts_of_host(self):
        write_alpha(self.program)
        cases = []
        for target in ("/openurl", "http://a/openurl", "HTTPS://b/openurl"):
            for minor, accepted in ACCEPTED.items():
                for count in range(4):
                    request = request_of(target, ["Host: a"] * count, version=f"HTTP/1.{minor}")
                    cases.append((request, PAGE if accepted[count] else BAD))
        expect_replies(self.program, cases)

    def test_which_fields_are_host(self):
        write_alpha(self.program)
        cases = []
        for fields, count in FIELDS:
            for minor, accepted in ACCEPTED.items():
                cases.append(
                    (request_of("/openurl", fields, version=f"HTTP/1.{minor}"), PAGE if accepted[count] else BAD)
                )
        expect_replies(self.program, cases)

    def test_hosts_are_counted_before_the_method_is_read(self):
        write_alpha(self.program)
        cases = []
        for minor, accepted in ACCEPTED.items():
            for count in range(4):
                request = request_of("/openurl", ["Host: a"] * count, "POST", f"HTTP/1.{minor}")
                cases.append((request, REFUSED if accepted[count] else BAD))
        expect_replies(self.program, cases)
