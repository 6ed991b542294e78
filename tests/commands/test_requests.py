"""Queries: their pairs, versions and limits, and which keys are lists, as `expand` and `link` show them."""
from urllib.parse import quote

from fixtures.program import ProgramCase


def list_lines(declared):
    return "".join(f"list {name}\n" for name in declared)


def has_text(program, declared, query, name, text):
    """By a guard the name has this text, where these names are declared as lists."""
    program.write("text.rules", f'{list_lines(declared)}rule\nwhen {name} is "{text}"\nlink http://e.org/\n')
    program.prints(["link", "text.rules", query], "http://e.org/")


# A query, a key, and its first value.
FIRST_VALUES = [
    ("x=1&y=2&x=3", "x", "1"),
    ("a=1&a=2", "a", "1"),
    ("a", "a", ""),
    ("&&a=1&&", "a", "1"),
    ("a=1=2", "a", "1=2"),
    ("t=x%2By+z", "t", "x+y z"),
    ("t=%FFx%E2%82", "t", "\ufffdx\ufffd"),
    # One for each difference from Z39.88-2004 that has to do with texts.
    ("ctx_enc=info:ofi/enc:ISO-8859-1&t=%E9", "t", "\ufffd"),
    ("rft_ref=http%3A%2F%2Fa.example%2Fm", "rft_ref", "http://a.example/m"),
    ("rft_val_fmt=info:ofi/fmt:kev:mtx:book", "rft_val_fmt", "info:ofi/fmt:kev:mtx:book"),
    ("rft_val_fmt=info:ofi/fmt:kev:mtx:book&rft.issue=1", "rft.issue", "1"),
    ("no.such=1", "no.such", "1"),
    ("svc_id=info:a&svc_id=info:b", "svc_id", "info:a"),
    ("rft.title=", "rft.title", ""),
    ("rft.title", "rft.title", ""),
]

# A query that is read, and the kind of the error of one that is not.
VERSIONS = [
    ("", None),
    ("ctx_ver=Z39.88-2004&url_ver=Z39.88-2004&x=1", None),
    ("ctx_ver=Z39%2E88%2D2004", None),
    ("url_ver=Z39.88-2004&url_ver=1", None),
    ("ctx_ver=Z39.88-2005&x=1", "WrongVersion"),
    ("url_ver=Z39.88-2005&x=1", "WrongVersion"),
    ("ctx_ver=1&ctx_ver=Z39.88-2004", "WrongVersion"),
    ("ctx_ver=Z39.88-2004&url_ver=", "WrongVersion"),
    ("ctx_ver", "WrongVersion"),
]

# The same of limits; empty pieces are no pairs.
LIMITS = [
    ("&".join(["a"] * 4096), None),
    ("&".join(["a"] * 4097), "TooManyPairs"),
    ("&".join(["a&&"] * 4096), None),
    ("a" * 65536, None),
    ("a" * 65537, "TooLong"),
]

TITLE = (
    "rft.au=Melville&rft_id=info:doi/10.1000/1&rft.au=Hawthorne"
    "&rft.title=Moby-Dick&rft.title=Typee&svc=full&svc=abstract&rft.isbn"
)

DECLARED = "c=1&a=2&b=3&a=4&bb=5&c=6&b=7&=8"

SERVICES = ["svc"]

LETTERS = ["c", "z", "a", "c"]

# Names of `list` lines, a query, the name of a list, and its members.
LISTS = [
    (SERVICES, TITLE, "rft.au", ["Melville", "Hawthorne"]),
    (SERVICES, TITLE, "rft_id", ["info:doi/10.1000/1"]),
    (SERVICES, TITLE, "svc", ["full", "abstract"]),
    (LETTERS, DECLARED, "a", ["2", "4"]),
    (LETTERS, DECLARED, "c", ["1", "6"]),
    (LETTERS, DECLARED, "z", []),
]

# Names of `list` lines, a query, the name of a text beside the lists, and its first value.
TEXTS = [
    (SERVICES, TITLE, "rft.title", "Moby-Dick"),
    (SERVICES, "rft.isbn=9780142437247&" + TITLE, "rft.isbn", "9780142437247"),
    (LETTERS, DECLARED, "b", "3"),
    (LETTERS, DECLARED, "bb", "5"),
]

# Names of `list` lines, a query, and the values of all of its pairs, which are those of these lists.
PAIRS = [
    ([], "", []),
    (["x", "y"], "x=1&y=2&x=3", ["x=1", "x=3", "y=2"]),
    (
        ["ctx_ver", "url_ver", "x"],
        "ctx_ver=Z39.88-2004&url_ver=Z39.88-2004&x=1",
        ["ctx_ver=Z39.88-2004", "url_ver=Z39.88-2004", "x=1"],
    ),
    (["ctx_ver"], "ctx_ver=Z39%2E88%2D2004", ["ctx_ver=Z39.88-2004"]),
    (["url_ver"], "url_ver=Z39.88-2004&url_ver=1", ["url_ver=Z39.88-2004", "url_ver=1"]),
    (["a"], "a&&&a&&", ["a=", "a="]),
]


class Requests(ProgramCase):
    def test_first_values(self):
        for query, key, value in FIRST_VALUES:
            has_text(self.program, [], query, key, value)

    def test_absent_key(self):
        self.program.write("absent.rules", "rule\nwhen has z\nlink http://e.org/\n")
        self.program.finds_no_link(["link", "absent.rules", "x=1&y=2&x=3"])

    def test_refused_queries(self):
        for query, kind in VERSIONS + LIMITS:
            if kind:
                self.program.fails(["expand", "read", query], 3, f"query: {kind}")
            else:
                self.program.prints(["expand", "read", query], "read")

    def test_lists(self):
        for declared, query, name, members in LISTS:
            count = f"{name} counts {len(members)} to {len(members)}"
            rules = f"{list_lines(declared)}rule\nwhen {count}\nlink http://e.org/{{?{name}*}}\n"
            self.program.write("list.rules", rules)
            expected = "&".join(f"{name}={quote(member, safe='')}" for member in members)
            self.program.prints(["link", "list.rules", query], "http://e.org/" + ("?" + expected if expected else ""))

    def test_texts_beside_lists(self):
        for declared, query, name, text in TEXTS:
            has_text(self.program, declared, query, name, text)

    def test_all_pairs(self):
        for declared, query, pairs in PAIRS:
            options = [argument for name in declared for argument in ("--list", name)]
            names = ",".join(f"{name}*" for name in declared) or "none"
            self.program.prints(["expand", *options, f"{{?{names}}}", query], "?" + "&".join(pairs) if pairs else "")
