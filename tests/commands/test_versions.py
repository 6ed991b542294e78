"""Versions of a request: a defined `ctx_ver` or `url_ver` is Z39.88-2004, to the letter; other keys are free."""
from fixtures.program import ProgramCase

VERSION = "Z39.88-2004"
KEYS = ["ctx_ver", "url_ver"]

# Values that are not the version; `%2B` is a `+`, and `+` a space.
OTHERS = [
    "z39.88-2004",
    "Z39.88-2005",
    "Z39.88-1993",
    "Z3988-2004",
    "Z39.88",
    "Z39.88-200",
    "39.88-2004",
    "Z39.88-20040",
    "ZZ39.88-2004",
    "Z39.88+2004",
    "Z39.88%2B2004",
    "+Z39.88-2004",
    "Z39.88-2004+",
    "Z39.88-2004%00",
    "Z39.88-2004%0A",
    "%22Z39.88-2004%22",
    "Z39.88%E2%80%932004",
    "ANSI/NISO+Z39.88-2004",
    "info:ofi/Z39.88-2004",
    "1",
    "0.1",
    "%20",
    "",
]

# Keys that say nothing of the version.
FREE = [
    "rft_ver",
    "rfe_ver",
    "rfr_ver",
    "req_ver",
    "svc_ver",
    "res_ver",
    "rft.ver",
    "ver",
    "version",
    "ctx_vers",
    "ctx_ve",
    "ctx.ver",
    "ctx-ver",
    "ctxver",
    "CTX_VER",
    "Ctx_ver",
    "URL_VER",
    "url.ver",
    "ctx_ver+",
    "+ctx_ver",
    "ctx_enc",
    "ctx_id",
    "ctx_tim",
    "url_ctx_fmt",
    "url_tim",
    "rft_val_fmt",
    "sid",
]

# Queries, and whether their version is right.
QUERIES = [
    ("", True),
    ("ctx_ver=Z39.88-2004&url_ver=Z39.88-2004", True),
    ("ctx_ver=%5A39%2E88%2D2004", True),
    ("ctx%5Fver=Z39.88-2004", True),
    ("&&ctx_ver=Z39.88-2004&", True),
    ("ctx%5Fver=1", False),
    ("%63tx_ver=1", False),
    ("&&url_ver=1&", False),
    ("ctx_ver", False),
    ("url_ver", False),
    ("rft_ver=1&ctx_ver=1", False),
    ("ctx_ver=Z39.88-2004=", False),
]

# Queries, and their first error: the length, the number of pairs, the versions.
FAULTS = [
    ("ctx_ver=1" + "&a" * 4096, "TooManyPairs"),
    ("a&" * 4096 + "ctx_ver=1", "TooManyPairs"),
    ("ctx_ver=1" + "&a" * 4095, "WrongVersion"),
    ("a&" * 4095 + "ctx_ver=1", "WrongVersion"),
    ("ctx_ver=1" + "&&a" * 4095 + "&" * 4096, "WrongVersion"),
    ("ctx_ver=1&" + "a" * 65527, "TooLong"),
    ("ctx_ver=1&" + "a" * 65526, "WrongVersion"),
    ("ctx_ver=1" + "&a" * 32764, "TooLong"),
    ("ctx_ver=1" + "&a" * 32763, "TooManyPairs"),
    ("&" * 65537, "TooLong"),
]


class Versions(ProgramCase):
    def test_queries(self):
        cases = list(QUERIES)
        cases += [(f"{key}={VERSION}", True) for key in KEYS]
        cases += [(f"{key}={value}", False) for key in KEYS for value in OTHERS]
        cases += [(f"{key}=1", True) for key in FREE]
        for query, is_right in cases:
            if is_right:
                self.program.prints(["expand", "e", query], "e")
            else:
                self.program.fails(["expand", "e", query], 3, "query: WrongVersion")

    def test_each_character_of_the_version(self):
        for at in range(len(VERSION)):
            for other in "xX0.- ":
                value = VERSION[:at] + other + VERSION[at + 1 :]
                if value != VERSION:
                    self.program.fails(["expand", "e", f"ctx_ver={value}"], 3, "query: WrongVersion")

    def test_first_values(self):
        """Of several values of a key the first counts. This holds for each of the two keys separately."""
        values = [VERSION, "1", ""]
        for key in KEYS:
            for first in values:
                for second in values:
                    arguments = ["expand", "e", f"{key}={first}&{key}={second}"]
                    if first == VERSION:
                        self.program.prints(arguments, "e")
                    else:
                        self.program.fails(arguments, 3, "query: WrongVersion")
        for first, second in [KEYS, KEYS[::-1]]:
            self.program.fails(["expand", "e", f"{first}={VERSION}&{second}=1"], 3, "query: WrongVersion")

    def test_first_faults(self):
        for query, fault in FAULTS:
            self.program.fails(["expand", "e", query], 3, f"query: {fault}")
        self.program.prints(["expand", "e", "a" + "&a" * 4095], "e")
        self.program.prints(["expand", "e", "&" * 65536], "e")
