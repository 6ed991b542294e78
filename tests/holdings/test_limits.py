"""The limits of a table and of an archive: each at its last good value and one beyond, and files that are small as they
come and large when they are read."""
from __future__ import annotations

import base64
import gzip
import io
import os
import struct
import zipfile
import zlib
from collections.abc import Callable
from collections.abc import Iterator

from fixtures.cases import Case
from holdings.measured import MOST_MB
from holdings.measured import prepared
from openlink_update.outcome import Refused
from openlink_update.outcome import Unreadable
from openlink_update.received import archives
from openlink_update.received import headers
from openlink_update.received import texts
from openlink_update.tables import preparation

HERE = os.path.dirname(os.path.abspath(__file__))
TOO_LARGE = "more than 256 MB when unpacked: ask the provider for smaller files"
MB_256, COLUMNS, LINE_BYTES, LINES = 268_435_456, 500, 100_000, 2_000_000
NAMES = ("publication_title", "print_identifier", "online_identifier", "title_url")


def reason(read: Callable[..., object], *given: object) -> str:
    """Why a file cannot be read; '' if it can."""
    try:
        read(*given)
    except Unreadable as fault:
        return str(fault)
    return ""


def zip_of(stream: bytes, method: int, size: int) -> bytes:
    """A zip with one member, whose bytes are packed already."""
    name = b"table.txt"
    head = struct.pack("<HHHHHIIIHH", 20, 0, method, 0, 0x21, 0, len(stream), size, len(name), 0)
    local = b"PK\x03\x04" + head + name + stream
    entry = b"PK\x01\x02" + struct.pack("<H", 20) + head + bytes(14) + name
    return local + entry + b"PK\x05\x06" + struct.pack("<HHHHIIH", 0, 0, 1, 1, len(entry), len(local), 0)


def deflated(megabytes: int) -> bytes:
    """A stream of zeros by method deflate: the same block again and again."""
    packer = zlib.compressobj(9, zlib.DEFLATED, -15)
    block = packer.compress(bytes(2**20)) + packer.flush(zlib.Z_FULL_FLUSH)
    return block * megabytes + packer.flush()


def bombs() -> Iterator[tuple[str, bytes, str | None]]:
    """Small files that unpack to 700 MB, and why they are refused."""
    with open(f"{HERE}/bombs.tsv", encoding="ascii") as file:
        for name, number, text in (line.split("\t") for line in file if not line.startswith("#")):
            stream = zlib.decompress(base64.b64decode(text))
            yield name, zip_of(stream, int(number), 700 << 20), (
                f"a zip file packed by {name}: pack it with the usual method, deflate, or as .gz"
            )
    yield "deflate", zip_of(deflated(700), 8, 700 << 20), TOO_LARGE
    yield "deflate that says a smaller size", zip_of(deflated(700), 8, 99), None
    yield "gzip", gzip.compress(bytes(2**20)) * 700, TOO_LARGE
    yield "method 95", zip_of(b"x", 95, 1), (
        "a zip file packed by method 95: pack it with the usual method, deflate, or as .gz"
    )


class Limits(Case):
    """Files at a limit, and beyond it."""

    def test_bombs(self) -> None:
        count = 0
        for name, data, why in bombs():
            said, megabytes = prepared(data)
            if why is not None:
                self.expect(f"a bomb by {name}", said, [f"file: {why}"])
            self.expect(
                f"a bomb by {name} of {len(data)} bytes is refused: {said}", len(said) == 1 and said[0][:6], "file: "
            )
            self.expect(f"a bomb by {name} takes {megabytes} MB", 0 < megabytes <= MOST_MB)
            count += 1
        self.expect("bombs", count, 6)

    def test_lines_of_one_letter(self) -> None:
        """8 MB of lines, and 250 KB that are 256 MB of them when they are unpacked."""
        for name, data, lines in (
            ("8 MB", b"a\n" * 4_000_000, "4,000,000"),
            ("256 MB", gzip.compress(b"a\n" * 524_288) * 256, "134,217,728"),
        ):
            said, megabytes = prepared(data)
            self.expect(
                f"{name} of lines",
                said,
                [f"file: it has {lines} lines, and a table may have 2,000,000: is it a table of holdings?"],
            )
            self.expect(f"{name} of lines take {megabytes} MB", 0 < megabytes <= MOST_MB)
        said, megabytes = prepared(gzip.compress((b"\t" * 500 + b"\n") * 2000) * 267)
        self.expect("256 MB of tabs", said, ["file: line 1 has 501 cells, and a table may have 500 columns"])
        self.expect(f"256 MB of tabs take {megabytes} MB", 0 < megabytes <= MOST_MB)

    def test_size(self) -> None:
        """A file of 256 MB is unpacked, and not one byte more."""
        self.expect("256 MB as gzip", len(archives.unpacked(gzip.compress(bytes(2**20)) * 256)), MB_256)
        self.expect(
            "one byte more as gzip",
            reason(archives.unpacked, gzip.compress(bytes(2**20)) * 256 + gzip.compress(b"x")),
            TOO_LARGE,
        )
        for extra, expected in ((b"", ""), (b"x", TOO_LARGE)):
            data = io.BytesIO()
            with zipfile.ZipFile(data, "w", zipfile.ZIP_DEFLATED, compresslevel=1) as archive:
                archive.writestr("table", bytes(MB_256) + extra)
            self.expect(f"256 MB and {len(extra)} bytes as zip", reason(archives.unpacked, data.getvalue()), expected)
        stored = zip_of(b"stored", 0, 6).replace(
            bytes(4) + struct.pack("<II", 6, 6), struct.pack("<I", zlib.crc32(b"stored")) + struct.pack("<II", 6, 6)
        )
        self.expect("a member that is not packed", archives.unpacked(stored), b"stored")

    def test_members(self) -> None:
        def of(count: int) -> str:
            data = io.BytesIO()
            with zipfile.ZipFile(data, "w") as archive:
                for number in range(count):
                    archive.writestr(f"{number}.txt", b"")
            return reason(archives.unpacked, data.getvalue(), "7.txt")

        self.expect("10,000 members", of(10_000), "")
        self.expect("one member more", of(10_001), "a zip file with more than 10,000 members: pack the table alone")

    def test_lines(self) -> None:
        """Lines are counted with each end of line, and the last one may lack it."""
        says = "it has 2,000,001 lines, and a table may have 2,000,000: is it a table of holdings?"
        for end, encoding, is_ended in (
            ("\n", "utf-8", True),
            ("\n", "utf-8", False),
            ("\r\n", "utf-8", True),
            ("\r", "utf-8", False),
            ("\r\n", "utf-16", True),
        ):
            for count, expected in ((LINES, ""), (LINES + 1, says)):
                text = end * count if is_ended else f"{end * (count - 1)}a"
                self.expect(
                    f"{count} lines with {end!r}, {encoding}, {'' if is_ended else 'not '}ended",
                    reason(texts.text_of, text.encode(encoding)),
                    expected,
                )

    def test_bytes_of_lines(self) -> None:
        says = "line 3 has 100,001 bytes, and 100,000 are possible: is it a table, with an end of line after each row?"
        for end in ("\n", "\r\n", "\r"):
            for after in ("", end, f"{end}b"):
                for letter in ("x", "é"):
                    long = letter * (LINE_BYTES // len(letter.encode()))
                    for more, expected in (("", ""), ("x", says)):
                        data = f"a{end}{end}{long}{more}{after}".encode()
                        self.expect(
                            f"a line of {len(long)} times {letter}{more}, {end!r}, {after!r}",
                            reason(texts.text_of, data),
                            expected,
                        )
        wide = "a\n\n" + "x" * (LINE_BYTES // 2)
        self.expect("a line of UTF-16", reason(texts.text_of, wide.encode("utf-16")), "")
        self.expect(
            "a longer one", reason(texts.text_of, f"{wide}x".encode("utf-16")), says.replace("100,001", "100,002")
        )

    def test_columns(self) -> None:
        """The header and each row have at most 500 cells; what is in quotes is one of them."""
        for separator, name in (("\t", "tabs"), (",", "commas"), (";", "semicolons")):
            for line in (1, 2, 3):
                for count, expected in (
                    (COLUMNS, ""),
                    (COLUMNS + 1, f"line {line} has 501 cells, and a table may have 500 " "columns"),
                ):
                    lines = [separator.join(NAMES), separator.join("abcd"), separator.join("efgh")]
                    lines[line - 1] += separator * (count - 4)
                    self.expect(
                        f"{count} cells, with {name}, in line {line}",
                        reason(preparation.read, "\n".join(lines).encode()),
                        expected,
                    )
        quoted = ",".join(NAMES) + '\n"' + "," * 600 + '",2901-0012,,\n'
        self.expect("commas in quotes", reason(preparation.read, quoted.encode()), "")
        self.expect(
            "a row of many lines",
            reason(preparation.read, (",".join(NAMES) + '\n"' + '\n","' * 40_000).encode()),
            "line 2: quotes that do not match",
        )

    def test_refused(self) -> None:
        """The reason names the file; the same limit holds for each file of a target."""
        try:
            preparation.prepare([("one.txt", b"a\tb\n"), ("two.txt", b"a\n" + b"\t" * 500)])
            said = None
        except Refused as refusal:
            said = refusal.reasons
        self.expect("of two files", said, ["two.txt: line 2 has 501 cells, and a table may have 500 columns"])
        self.expect("a header that is found", headers.find(["x", "\t".join(NAMES)]), (1, "\t"))
