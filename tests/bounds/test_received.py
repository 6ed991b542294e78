"""Files of providers as they came: how large a table, a line and an archive may be."""
from __future__ import annotations

import gzip
import io
import zipfile
from collections.abc import Callable
from unittest import mock

from bounds.refusals import reason
from fixtures.cases import Case
from openlink_update.received import archives
from openlink_update.received import headers
from openlink_update.received import limits
from openlink_update.received import texts
from openlink_update.tables import preparation

NAMES = "publication_title,print_identifier,online_identifier"


def zipped(names: list[str], data: bytes = b"text") -> bytes:
    file = io.BytesIO()
    with zipfile.ZipFile(file, "w", zipfile.ZIP_DEFLATED) as archive:
        for name in names:
            archive.writestr(name, data)
    return file.getvalue()


class Tables(Case):
    def test_columns(self) -> None:
        said = "line 2 has 501 cells, and a table may have 500 columns"
        for name, separator in (("tabs", "\t"), ("commas", ","), ("semicolons", ";")):
            head = NAMES.replace(",", separator) + "\n"
            for count, wanted in ((500, ""), (501, said)):
                row = separator.join("x" * count) + "\n"
                self.expect(f"{count}, {name}", reason(preparation.read, f"{head}{row}".encode()), wanted)
        self.expect(
            "what is in quotes separates nothing",
            reason(preparation.read, f'{NAMES}\n"{",".join("x" * 501)}",a,b\n'.encode()),
            "",
        )

    def test_bytes_of_a_line(self) -> None:
        said = (
            "line 2 has 100,{:03} bytes, and 100,000 are possible: is it a table, with an end of line after each row?"
        )
        head = NAMES.replace(",", "\t") + "\n"
        for name, data, wanted in (
            ("100,000", head + "x" * 100_000, ""),
            ("100,001", head + "x" * 100_001, said.format(1)),
            ("100,000 of two bytes each", head + "ä" * 50_000, ""),
            ("100,002 of two bytes each", head + "ä" * 50_001, said.format(2)),
            ("a line end counts for nothing", f"{head}{'x' * 100_000}\r\n", ""),
            ("100,001 with lines after it", head + "x" * 100_001 + "\r\na\r\nb", said.format(1)),
            ("100,001 after CR LF", head.replace("\n", "\r\n") + "x" * 100_001, said.format(1)),
        ):
            self.expect(name, reason(preparation.read, data.encode()), wanted)
        for count, wanted in ((50_000, ""), (50_001, said.format(2))):
            self.expect(
                f"{count} characters of UTF-16", reason(preparation.read, (head + "x" * count).encode("utf-16")), wanted
            )

    def test_bytes_of_a_row_in_lines(self) -> None:
        """A cell in quotes may have lines, as one has whose quote is not closed."""
        for count, wanted in ((99_998, ""), (99_999, "line 2: quotes that do not match")):
            cell = "\n".join(["x" * 1000] * 99 + ["x" * (count - 99_000)])
            self.expect(
                f"{count} and two quotes",
                reason(preparation.read, f'{NAMES}\n"{cell}",\n'.encode()[:-2] + b"\n"),
                wanted,
            )
        rows = f'"{"x" * 60_000}",a,b\n' * 3
        self.expect("each row counts alone", len(preparation.read(f"{NAMES}\n{rows}".encode()).rows), 3)

    def test_numbers_of_lines(self) -> None:
        """Those of the file, whatever is above the header, and however many lines a row has."""
        for above in (0, 2):
            start = "about\n" * above + f'{NAMES}\n"a\nb",c,d\n'
            said = f"line {above + 4}: quotes that do not match"
            self.expect(f"quotes, {above} above", reason(preparation.read, f'{start}"e'.encode()), said)
            said = f"line {above + 4} has 501 cells, and a table may have 500 columns"
            self.expect(f"cells, {above} above", reason(preparation.read, f"{start}{',' * 500}".encode()), said)

    def test_lines(self) -> None:
        said = "it has 2,000,001 lines, and a table may have 2,000,000: is it a table of holdings?"
        for name, end in (("LF", b"\n"), ("CR LF", b"\r\n"), ("CR", b"\r")):
            self.expect(f"2,000,000, {name}", reason(limits.check_bytes, end * 2_000_000), "")
            self.expect(f"2,000,001, {name}", reason(limits.check_bytes, end * 2_000_001), said)
            self.expect(f"2,000,000 without a last end, {name}", reason(limits.check_bytes, end * 1_999_999 + b"x"), "")
            beyond = reason(limits.check_bytes, end * 2_000_000 + b"x")
            self.expect(f"2,000,001 without a last end, {name}", beyond, said)
        self.expect("a text", reason(limits.check_text, "\n" * 2_000_001, 1), said)

    def test_header(self) -> None:
        """It is among the first twenty lines, and has three names of the standard."""
        head = "publication_title\tprint_identifier\tonline_identifier"
        self.expect("in line 20", headers.find(["x"] * 19 + [head]), (19, "\t"))
        self.expect("in line 21", headers.find(["x"] * 20 + [head]), (None, "\t"))
        self.expect("two names", headers.find([head.rpartition("\t")[0] + "\tmine"]), (None, "\t"))
        table = preparation.read(f"{'about' * 3}\n{head}\na\tb\tc\n".encode())
        self.expect("what stands above it is left out", table.rows, [["a", "b", "c"]])

    def test_web_page(self) -> None:
        """It begins within the first 10,000 characters."""
        around = len("<!---->")
        for end, wanted in ((10_000, True), (10_001, False)):
            data = f"<!--{'x' * (end - around - len('<html'))}--><html>"
            self.expect(f"its name ends with character {end}", texts.is_web_page(data), wanted)

    def test_beginnings_of_a_web_page(self) -> None:
        """Its first tag, whatever comes before it; and what only looks like one."""
        tags = "html head body title meta script link div p h1 table".split()
        texts_of_pages = [
            *(f"<{tag}>" for tag in tags),
            *(f"<{tag.upper()} a='b'>" for tag in tags),
            "<!-- a --><html><!-- b -->",
            "<?xml version='1.0'?><html><?b ?>",
            "<!DOCTYPE html>",
            "<!doctype\n  html SYSTEM 'about:legacy-compat'>",
            "\ufeff \n<!-- a --> <!-- b -->\n<?xml version='1.0'?>\n<html>",
            f"<!--{'é' * 9_900}--><html>",
            f"<!--{'😀' * 9_900}--><html>",
        ]
        others = [f"<{tag}s>" for tag in tags] + ["<h2>", "<!doctype book>", "a <html>", "", "<?xml version='1.0'?><a>"]
        for text, wanted in (*((it, True) for it in texts_of_pages), *((it, False) for it in others)):
            for encoding in ("utf-8", "utf-16"):
                start = texts.beginning_of(text.removeprefix("\ufeff" * (encoding == "utf-16")).encode(encoding))
                self.expect(f"{text[:30]!r}, {encoding}", texts.is_web_page(start), wanted)

    def test_texts(self) -> None:
        """Line ends of each kind, an encoding for each line, and how many lines of UTF-16 were read."""
        windows = "not UTF-8, read as windows-1252: {}".format
        for data, text, lines in (
            (b"a\rb\xe9\r\n\xc3\xa9\rc", "a\nbé\né\nc", [windows("1 line")]),
            (b"\xef\xbb\xbf\x80\r\x82\xe9", "€\n‚é", [windows("2 lines")]),
            ("a\rb\r\n\n".encode("utf-16"), "a\nb\n\n", ["UTF-16: 2 lines"]),
            (b"\xfe\xff" + "a\nb".encode("utf-16-be"), "a\nb", ["UTF-16: 2 lines"]),
            ("a\n".encode("utf-16"), "a\n", ["UTF-16: 1 line"]),
        ):
            self.expect(f"{data!r}", texts.text_of(data), (text, lines))
        said = "line 3 is neither UTF-8 nor windows-1252"
        self.expect("neither", reason(texts.text_of, b"a\r\xe9\n\x81"), said)
        for text, wanted in (("<?xml version='1.0'?>", True), (" \n<?xml?>", True), ("a <?xml?>", False), ("", False)):
            self.expect(f"XML: {text!r}", texts.is_xml(text), wanted)

    def test_lines_of_a_web_page(self) -> None:
        """The lines of a page are none of its table, and may be longer."""
        text = f"<html>{'x' * 100_001}</html>"
        for encoding in ("utf-8", "utf-16"):
            data = text.encode(encoding)
            self.expect(f"a page in {encoding}", texts.text_of(data, is_page=True)[0], text)
            said = reason(texts.text_of, data)
            self.expect(f"a table in {encoding}", said.endswith("with an end of line after each row?"))


class Archives(Case):
    def test_bytes(self) -> None:
        """Of the file that is unpacked, while it is unpacked."""
        said = "more than 256 MB when unpacked: ask the provider for smaller files"
        self.expect("256 MB", (limits._MOST_BYTES, reason(limits.check_size, 256 * 2**20)), (268_435_456, ""))
        self.expect("and a byte", reason(limits.check_size, 256 * 2**20 + 1), said)
        packers: dict[str, Callable[[bytes], bytes]] = {
            "gzip": gzip.compress,
            "zip": lambda data: zipped(["table.txt"], data),
        }
        with mock.patch.object(limits, "_MOST_BYTES", 5000):
            for name, pack in packers.items():
                self.expect(f"the last, {name}", archives.unpacked(pack(bytes(5000))), bytes(5000))
                self.expect(f"beyond, {name}", reason(archives.unpacked, pack(bytes(5001))), said)
                with mock.patch.object(archives, "_CHUNK", 100):
                    self.expect(f"in pieces, {name}", reason(archives.unpacked, pack(bytes(5001))), said)

    def test_members(self) -> None:
        names = [f"{number}.txt" for number in range(10_000)]
        self.expect("10,000", archives.unpacked(zipped(names), "77.txt"), b"text")
        self.expect(
            "10,001",
            reason(archives.unpacked, zipped([*names, "other"]), "77.txt"),
            "a zip file with more than 10,000 members: pack the table alone",
        )
        none = "a zip file with 0 members: name one by `member PATTERN` in sources.tsv"
        self.expect("none", reason(archives.unpacked, zipped([])), none)
        self.expect("a folder alone", reason(archives.unpacked, zipped(["a/"], b"")), none)
        self.expect("a folder that macOS adds to others", archives.unpacked(zipped(["a/__MACOSX/b"])), b"text")
        self.expect("that it adds", reason(archives.unpacked, zipped(["__MACOSX/b"])), none)

    def test_kinds(self) -> None:
        """Which archives are spreadsheets, which members are said to be left out, and one that is damaged."""
        for names, wanted in (
            (["[Content_Types].xml", "a.txt"], True),
            (["content.xml", "mimetype"], True),
            (["content.xml"], False),
            (["mimetype"], False),
            ([], False),
        ):
            self.expect(f"{names}", archives.is_spreadsheet(zipped(names)), wanted)
            self.expect(f"{names} after a text", archives.is_spreadsheet(b"text\n" + zipped(names)), False)
        inside = archives.unpacked(zipped(["[Content_Types].xml", "a.txt"]), "a.txt")
        self.expect("a member that is named", inside, b"text")
        data = io.BytesIO(zipped(["a.csv", "__MACOSX/a.txt", "b.txt"]))
        with zipfile.ZipFile(data, "a") as archive:
            archive.writestr("t.txt", b"table")
        found = archives.opened(data.getvalue(), "*.txt", b"table".__eq__)
        self.expect("others", found, (b"table", ["other members of the zip file, left out: 1 file"]))
        said = "a gzip file that is cut short or damaged"
        whole = gzip.compress(b"text")
        for name, spoilt in (
            ("cut", whole[:-3]),
            ("no block", whole[:10] + b"\xff" * 20),
            ("other bytes", whole[:-8] + bytes(8)),
        ):
            self.expect(name, reason(archives.unpacked, spoilt), said)
