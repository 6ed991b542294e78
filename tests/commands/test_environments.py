"""Environments of requests and of rows over requests: their texts, their members in order, and how much they count."""
from urllib.parse import urlencode

from fixtures.assembler import code
from fixtures.program import ProgramCase
from fixtures.service import expect_replies, reply_of, request_of
from fixtures.targets import write_registry

# Codes that write 1,048,576 bytes, the most that a link may have, and 3 bytes for each byte of the environment, or one
# for each of its members. So they are over budget, by a number that tells how many there are.
MOST = 1048576
LITERALS = [("link", "l" * 32768), ("link", "m")]
BYTES = code([("text", "none")], LITERALS, ["EMIT l0"] * 32 + ["TEXT r0 n0", "UNDEF r0 35", "PUT r0 u", "HALT"])
MEMBERS = code(
    [("list", "rft.au")], LITERALS, ["EMIT l0"] * 32 + ["LIST r0 n0", "EACH r1 r0 36", "EMIT l1", "NEXT", "HALT"]
)


def listing(*names):
    """Code that prints an address, the text or the members of each name with a `,` after each, and a `;` after them."""
    lines = ["EMIT l0"]
    for number, (kind, _) in enumerate(names):
        start = len(lines)
        if kind == "text":
            lines += [f"TEXT r0 n{number}", f"UNDEF r0 {start + 4}", "PUT r0 u", "EMIT l1"]
        else:
            lines += [f"LIST r0 n{number}", f"EACH r1 r0 {start + 5}", "PUT r1 u", "EMIT l1", "NEXT"]
        lines.append("EMIT l2")
    return code(names, [("link", "http://e.org/"), ("link", ","), ("link", ";")], lines + ["HALT"])


def texts(*names):
    return [("text", name) for name in names]


def lists(*names):
    return [("list", name) for name in names]


# Names of which some begin with others, and two that no rule can have, in an order that is not theirs.
NAMES = ["rft.title", "", "rft", "rft.a", "é", "rft.titles", "a", "rft.au"]
OTHER_NAMES = ["b", "rft.", "rft.b", "zz"]

REPEATED = "c=1&a=2&b=3&a=4&bb=5&c=6&b=7&=8&rft.issn=1"

# Tables with rows of 3 and of 5 bytes. A cell hides the value of its name, if it is that of the name's first column.
TWICE = "print_identifier\ta\tb\ta\t\t\n1\t\tB\tx\tD\tE\tF\n"
LETTERS = "print_identifier\ta\tb\tc\n1\t1\t22\t3\n"

# A key, with a value of two bytes, and the bytes of the two rows over it.
HIDDEN = [("a", 6, 6), ("b", 4, 6), ("c", 6, 6), ("", 4, 8), ("A", 6, 8), (" a", 6, 8), ("B", 6, 8), ("1", 6, 8)]


class Environments(ProgramCase):
    def test_members_keep_the_order_of_the_values(self):
        query = urlencode(
            [
                ("rft.au", "Müller"),
                ("rft_id", "info:doi/10.1000/182"),
                ("rft.au", "佐藤"),
                ("rft_id", ""),
                ("rft.au", "Ångström"),
            ]
        )
        authors = "M%C3%BCller,%E4%BD%90%E8%97%A4,%C3%85ngstr%C3%B6m,"
        self.program.write("code", listing(*lists("rft.au", "rft_id", "rft.title")))
        self.program.prints(["run", "code", query], f"http://e.org/{authors};info%3Adoi%2F10.1000%2F182,,;;")
        self.program.write("bytes", BYTES)
        self.program.fails(["run", "bytes", query], 3, f"over budget: {MOST + 3 * 43}")
        self.program.write("members", MEMBERS)
        self.program.fails(["run", "members", query], 3, f"over budget: {MOST + 5}")

    def test_keys_are_decoded(self):
        self.program.write("code", listing(*texts("t=", "x", "z")))
        self.program.prints(["run", "code", "x=1&y=2&x=3&%74%3D=1"], "http://e.org/1,;1,;;")

    def test_names_are_found_in_any_order(self):
        """The first text of each stays; the authors are a list."""
        found = ["rft.title", "rft", "rft.a", "rft.titles", "a"]
        query = urlencode([(name, name) for name in NAMES] + [(name, "late") for name in NAMES if name != "rft.au"])
        self.program.write("code", listing(*texts(*found), *lists("rft.au"), *texts(*OTHER_NAMES)))
        printed = "".join(f"{name},;" for name in found + ["rft.au"]) + ";" * len(OTHER_NAMES)
        self.program.prints(["run", "code", query], f"http://e.org/{printed}")
        self.program.write("code", listing(*lists(*OTHER_NAMES)))
        self.program.prints(["run", "code", query], "http://e.org/" + ";" * len(OTHER_NAMES))

    def test_texts_do_not_become_lists(self):
        """The cells of a row are texts, also where the request has a list of their name, which no rule sees then."""
        header = "\t".join(["print_identifier"] + NAMES)
        self.program.write("table", f"{header}\n" + "\t".join(["1"] + [name or "empty" for name in NAMES]) + "\n")
        seen = [name for name in NAMES if name not in ("", "é")]
        rules = [f"list {name}\n" for name in seen] + [f"rule\nwhen has {name}\nlink http://e.org/\n" for name in seen]
        self.program.write("rules", "".join(rules))
        query = urlencode([("rft.issn", "1")] + [(name, "late") for name in NAMES])
        lines = "".join(
            f"  rule {number}, guard 1 fails: has {name}\n    {name} undefined\n" for number, name in enumerate(seen, 1)
        )
        printed = f"row 0\n{lines}  no rule holds\n"
        self.program.gives(["explain", "rules", "table", query], 1, printed, "")

    def test_values_of_each_key(self):
        table = "print_identifier\n1\n"
        names = ["a", "b", "bb", "c", "z"]
        write_registry(
            self.program, [("lists", listing(*lists(*names)), table), ("texts", listing(*texts(*names)), table)]
        )
        menu = "lists\thttp://e.org/2,4,;3,7,;5,;1,6,;;\ntexts\thttp://e.org/2,;3,;5,;1,;;"
        self.program.prints(["resolve", "registry", REPEATED], menu)
        # The first value of each key, the one without a name too, and the cell, of a byte each.
        write_registry(self.program, [("bytes", BYTES, table)])
        report = reply_of(200, f"bytes\tover budget {MOST + 3 * 7}\n")
        expect_replies(self.program, [(request_of(f"/report?{REPEATED}"), report)])

    def test_columns_of_all_tables(self):
        write_registry(self.program, [("twice", BYTES, TWICE), ("letters", BYTES, LETTERS)])
        cases = []
        for key, twice, letters in HIDDEN:
            lines = f"twice\tover budget {MOST + 3 * twice}\nletters\tover budget {MOST + 3 * letters}\n"
            query = urlencode([(key, "xx"), ("rft.issn", "1")])
            cases.append((request_of(f"/report?{query}"), reply_of(200, lines)))
        expect_replies(self.program, cases)
