"""The tables of request_encodings are those of Python's codecs. A byte that has no character there is the control
character with its number, as in the WHATWG Encoding Standard."""
from __future__ import annotations

import re
from pathlib import Path

from fixtures.cases import Case

TABLES = "crates/request_encodings/specs/Tables.antt"
CODECS = {
    "windows_1250": "cp1250",
    "windows_1251": "cp1251",
    "windows_1252": "cp1252",
    "iso_8859_2": "iso8859-2",
    "iso_8859_5": "iso8859-5",
    "iso_8859_15": "iso8859-15",
    "koi8_r": "koi8-r",
}
DEFINITION = re.compile(r"^(\w+) =\n((?:    .*\n?)+)", re.MULTILINE)
PART = re.compile(r'codes "([^"]*)"|(0x[0-9a-f]+) ∷')


def tables_of(text: str) -> dict[str, str]:
    """The characters of each table; a space stands for the character with the number of the byte."""
    found = {}
    for name, definition in DEFINITION.findall(text):
        parts = [chr(int(number, 16)) if number else part for part, number in PART.findall(definition)]
        listed = "".join(parts)
        found[name] = "".join(chr(0x80 + at) if it == " " else it for at, it in enumerate(listed))
    return found


def upper_half(codec: str) -> str:
    def character(byte: int) -> str:
        try:
            return bytes([byte]).decode(codec)
        except UnicodeDecodeError:
            return chr(byte)

    return "".join(character(byte) for byte in range(0x80, 0x100))


class Encodings(Case):
    def test_each_byte(self) -> None:
        found = tables_of(Path(TABLES).read_text(encoding="utf-8"))
        self.expect("the encodings", sorted(found), sorted(CODECS))
        for name, codec in CODECS.items():
            self.expect(name, found.get(name), upper_half(codec))

    def test_another_table_is_seen(self) -> None:
        text = Path(TABLES).read_text(encoding="utf-8").replace("€ ‚ƒ", "€ ‚f")
        self.expect("a wrong character", tables_of(text)["windows_1252"] == upper_half("cp1252"), False)
