"""The files of nginx: each directive of the front door is one that its table explains, in its order. A directive that
an operator may take out of a comment counts too."""
from __future__ import annotations

import glob

from fixtures.cases import Case
from packaging import declarations
from packaging import spoiling

# What must be among the files that are found.
NAMES = ["balancer", "http", "library", "local", "machine", "openlink", "pages", "readers", "why"]
POD = "packaging/kubernetes/base/openlink.conf"


def files() -> list[str]:
    return sorted(glob.glob("front_door/*.conf")) + [POD]


class FrontDoor(Case):
    """What the files declare."""

    def test_each_directive_is_as_its_table_says(self) -> None:
        found = files()
        self.expect("files that are missing", [it for it in NAMES if f"front_door/{it}.conf" not in found], [])
        spoiling.check_files(self, *found)

    def test_each_spoilt_line_is_a_fault(self) -> None:
        spoiling.check_spoilt(self, *files())

    def test_no_location_drops_the_headers_of_the_site(self) -> None:
        """nginx takes the add_header of the server away from a location that has one of its own."""
        count = 0
        for path in files():
            with open(path, encoding="utf-8") as file:
                entries = declarations.nginx(file.read())
            count += sum(it.name == "add_header" for it in entries)
            self.expect(path, [it for it in entries if it.name == "add_header" and "location" in it.place], [])
        self.expect(f"{count} headers", count >= 10)


class Reader(Case):
    """What the reader of nginx's files takes, and what it refuses."""

    def test_blocks_and_tokens(self) -> None:
        text = 'a {  # one\n  b "c; {" d;\n  #e ${f}g;\n  # for people;\n}\n'
        self.expect(
            "entries",
            [tuple(it) for it in declarations.nginx(text)],
            [("", "a", "{"), ("a", "b", '"c; {" d'), ("a", "#e", "${f}g")],
        )

    def test_what_is_no_file_of_nginx(self) -> None:
        for text in ("a", "a {", "}", "a { b }", ";", 'a "b;', "a; }"):
            with self.assertRaises(ValueError, msg=text):
                declarations.nginx(text)
            self.compared += 1
