"""A web page that holds a table, where the line of a target says so; and pages that are made to take long."""
from __future__ import annotations

import tempfile
import time
from pathlib import Path

from fixtures.cases import Case
from fixtures.patience import patience
from fixtures.spreadsheet_files import archive_of
from fixtures.spreadsheet_files import xlsx
from openlink_update.fetch import fetching
from openlink_update.fetch import sources
from openlink_update.fetch.sources import Source
from openlink_update.input_files import InputFolder
from openlink_update.outcome import Refused
from openlink_update.outcome import Unreadable
from openlink_update.received.column_names import IDENTIFIERS
from openlink_update.tables import preparation
from openlink_update.target_options import Options

HEAD = "<tr><th>publication_title<th>print_identifier<th>online_identifier<th>title_url</tr>"
ROW = "<tr><td>Tides<td>2901-0012<td><td>https://press.example.com/t</tr>"
TABLE = f"<table>{HEAD}{ROW}</table>"
PAGE = f"<html><body>{TABLE}</body></html>"
CELLS = ["Tides", "2901-0012", "", "https://press.example.com/t"]
HTML = Options(is_html=True)
MANY = 400_000
LOGIN = (
    "<html><form><table><tr><td>Name<td><input></tr><tr><td>Word<td><input type=password></tr></table></form></html>"
)


def read(page: str | bytes, options: Options = HTML) -> list[list[str]] | str:
    try:
        data = page if isinstance(page, bytes) else page.encode()
        return preparation.prepare([("page", data)], options).table.rows
    except Refused as refusal:
        return refusal.reasons[0].removeprefix("page: ")


def fetched(page: str, *, is_html: bool, least: int = 1) -> str:
    """What a fetch takes of a reply: nothing, or a reason."""
    try:
        source = Source("a.txt", "https://example.com/", is_html=is_html, least=least)
        return "" if fetching.table_in(page.encode(), source) == page.encode() else "other bytes"
    except Unreadable as fault:
        return str(fault)


class Tables(Case):
    def test_only_where_it_is_said(self) -> None:
        self.expect("without the option", read(PAGE, Options()), "a web page, not a table")
        self.expect("with it", read(PAGE), [CELLS])
        self.expect("a table alone", read(TABLE), [CELLS])
        self.expect("a table alone, without it", read(TABLE, Options()), "a web page, not a table")
        self.expect("in a zip", read(archive_of({"list.xls": PAGE, "readme.txt": "x"})), [CELLS])
        self.expect("UTF-16", read(b"\xff\xfe" + PAGE.encode("utf-16-le")), [CELLS])
        text = "\n".join("\t".join(it) for it in (["publication_title", *IDENTIFIERS, "title_url"], CELLS))
        self.expect("beside a text in a zip", read(archive_of({"a.htm": PAGE, "b.txt": text}), Options()), [CELLS])
        windows = PAGE.replace("Tides", "Études").encode("cp1252")
        said = ["not UTF-8, read as windows-1252: 1 line"]
        self.expect("what is said", preparation.prepare([("page", windows)], HTML).lines[:1], said)
        self.expect("a long line", read(PAGE.replace(ROW, ROW * 3000)), [CELLS])

    def test_cells(self) -> None:
        for name, cell, wanted in (
            ("marks in it", "<td><b>Ti</b>des", "Tides"),
            ("lines", "<td>\n  Tides \n\tand<br>Piers<p>more</td>", "Tides and Piers more"),
            ("entities", "<td>Tides &amp; Piers&nbsp;&#8211; &lt;x&gt;", "Tides & Piers – <x>"),
            ("a character with many digits", f"<td>a&#{'9' * 5000};", f"a&#{'9' * 5000};"),
            ("a comment", "<td>Ti<!-- <td>x --->des", "Tides"),
            ("a condition of a browser", "<td>Ti<![if !vml]>des<![endif]>", "Tides"),
            ("an instruction", "<td>Ti<?xml x?>des", "Tides"),
            ("a script", "<td>Ti<script>if (a < b) { '</td>' }</script>des", "Tides"),
            ("a script that ends in capitals", "<td>Ti<script>x</SCRIPT>des", "Tides"),
            ("a template", "<td>Ti<template><td>x</template>des", "Tides"),
            *((tag, f"<td>Ti<{tag}>x</{tag}>des", "Tides") for tag in ("style", "textarea", "title", "noscript")),
            ("attributes of a script", "<td data-colspan=2 data-rowspan=2 x-colspan=3>Tides", "Tides"),
            ("parts of the page", "<td>Tides<div>and Piers</div>", "Tides and Piers"),
            ("a list", "<td><li>Tides<li>and Piers", "Tides and Piers"),
            ("attributes in a value", "<td title=' colspan=2 ' data-x='rowspan=3'>Tides", "Tides"),
            ("a span of none", "<td colspan=0 rowspan='0'>Tides", "Tides"),
            ("a sign in quotes", "<td title='a > b'>Tides", "Tides"),
            ("a lone sign", "<td>1 < 2", "1 < 2"),
            ("capitals", "<TD>Tides</TD>", "Tides"),
            ("a text after a cell", "<td>Tides</td> and more", "Tides"),
            ("a text after a cell of a header", "<th>Tides</th> and more", "Tides"),
        ):
            page = PAGE.replace("<td>Tides", cell, 1)
            got = read(page)
            self.expect(name, got[0][0] if isinstance(got, list) else got, wanted)

    def test_spans(self) -> None:
        rows = (
            "<tr><td rowspan=3>Tides<td rowspan='2'>2901-0012<td>2908-0142<td>a</tr>"
            "<tr><td COLSPAN=' 2'>b</tr><tr><td>2915-0272<td><td>c</tr><tr><td>d<td>2922-0408</tr>"
        )
        wanted = [
            ["Tides", "2901-0012", "2908-0142", "a"],
            ["Tides", "2901-0012", "b", "b"],
            ["Tides", "2915-0272", "", "c"],
            ["d", "2922-0408"],
        ]
        self.expect("rows", read(f"<table>{HEAD}{rows}</table>"), wanted)
        last = f"{ROW.replace('<td>https', '<td rowspan=2>https')}<tr><td>Piers<td>2915-0272<td></tr>"
        wanted = [CELLS, ["Piers", "2915-0272", "", CELLS[3]]]
        self.expect("the last column", read(f"<table>{HEAD}{last}</table>"), wanted)
        wide = read(f"<table>{HEAD}<tr><td colspan=999999999>x</tr></table>")
        self.expect("a wide cell", wide, "row 2 has 999,999,999 cells, and a table may have 500 columns")
        high = read(f"<table>{HEAD}<tr><td rowspan=999999999>Tides<td>2901-0012</tr></table>")
        self.expect("a high cell", high, [["Tides", "2901-0012"]])

    def test_addresses(self) -> None:
        for name, cell, wanted in (
            ("a link", "<td><a href='https://a.example.com/?x=1&amp;y=2'>open</a>", "https://a.example.com/?x=1&y=2"),
            ("without TLS", "<td><a href='http://a.example.com/'>open</a>", "http://a.example.com/"),
            ("a host alone", "<td><a href='www.a.example.com'>open</a>", "https://www.a.example.com"),
            (
                "an attribute of a script",
                "<td><a data-href='https://b.example.com/' href='https://a.example.com/'>open</a>",
                "https://a.example.com/",
            ),
            (
                "another in a value",
                "<td><a title='href=https://b.example.com/' href='https://a.example.com/'>open</a>",
                "https://a.example.com/",
            ),
            (
                "two",
                "<td><a href='https://a.example.com/' href='https://b.example.com/'>open</a>",
                "https://a.example.com/",
            ),
            ("no space before it", '<td><a class="x"href="https://a.example.com/">open</a>', "https://a.example.com/"),
            ("a slash before it", "<td><a/href='https://a.example.com/'>open</a>", "https://a.example.com/"),
            ("spaces", '<td><a href = "https://a.example.com/">open</a>', "https://a.example.com/"),
            ("spaces around it", "<td><a href=' https://a.example.com/ '>open</a>", "https://a.example.com/"),
            ("a line end in it", "<td><a href='https://a.example.com/&#10;x'>open</a>", "https://a.example.com/ x"),
            ("without quotes", "<td><a class=x href=https://a.example.com/>open</a>", "https://a.example.com/"),
            (
                "its text is an address",
                "<td><a href='https://a.example.com/'>https://b.example.com/</a>",
                "https://b.example.com/",
            ),
            ("capitals", "<td><A HREF='HTTPS://a.example.com/'>open</A>", "HTTPS://a.example.com/"),
            (
                "its text is one in capitals",
                "<td><a href='https://a.example.com/'>HTTPS://b.example.com/</a>",
                "HTTPS://b.example.com/",
            ),
            ("no web address", "<td><a href='javascript:alert(1)'>open</a>", "open"),
            (
                "the first of two",
                "<td><a href='https://a.example.com/'>x</a><a href='https://b.example.com/'>y</a>",
                "https://a.example.com/",
            ),
        ):
            got = read(PAGE.replace("<td>https://press.example.com/t", cell))
            self.expect(name, got[0][3] if isinstance(got, list) else got, wanted)

    def test_which_table(self) -> None:
        layout = f"<table><tr><td>Menu<td>{TABLE}</tr><tr><td>x<td>y</tr></table>"
        self.expect("a table in another", read(layout), [CELLS])
        other = "<table><tr><td>a<td>b</tr><tr><td>c<td>d</tr></table>"
        self.expect("beside others", read(other + TABLE + other), [CELLS])
        self.expect("one row is no table", read(f"<table>{HEAD}</table>"), "a web page without a table")
        self.expect("none", read("<html><p>Sign in</p></html>"), "a web page without a table")
        self.expect("a login", read(LOGIN), "a web page that asks for a password")
        loud = LOGIN.replace("type=password", "TYPE = 'PASSWORD'")
        self.expect("a login in capitals", read(loud), "a web page that asks for a password")
        tight = LOGIN.replace("<input type", "<input class='x'type")
        self.expect("a login without spaces", read(tight), "a web page that asks for a password")
        self.expect("a login beside one", read(PAGE + LOGIN), "a web page that asks for a password")
        for kind in ("type=search", "data-type=password", "type=text class=password", "title='type=password'"):
            self.expect(f"a search beside one, {kind}", read(f"{PAGE}<input {kind}>"), [CELLS])
        says = "a web page with 2 tables, of which {} have a header of known names"
        self.expect("two without a header", read(other + other), says.format(0))
        self.expect("two with one", read(TABLE + TABLE), says.format(2))
        unknown = 'a web page whose table has no header of known names; it has: "a", "b"'
        self.expect("no header", read(other), unknown)
        line = "<tr><td>c<td>d</tr>"
        above = f"<table><tr><td>Titles<td></tr>{line * 18}"
        late = unknown.replace('"a", "b"', '"c", "d"')
        self.expect("a header in row 20", read(f"{above}{HEAD}{ROW}</table>"), [CELLS])
        self.expect("in row 21", read(f"{above}{line}{HEAD}{ROW}</table>"), late)
        names = Options(is_html=True, header=("publication_title", "print_identifier"))
        self.expect(
            "a line that gives one",
            read(
                f"<table>{ROW.replace('<td><td>https://press.example.com/t', '')}<tr><td>Piers<td>2915-0272</table>",
                names,
            ),
            [["Tides", "2901-0012"], ["Piers", "2915-0272"]],
        )

    def test_limits(self) -> None:
        self.expect(
            "a long row", read(PAGE.replace("Tides", "x" * 100_001))[:40], "row 2 has 100,001 bytes, and 100,000 are"
        )
        deep = "<table><tr><td>" * 65 + TABLE
        self.expect("tables in tables", read(deep), "a web page with tables more than 64 deep")

    def test_hostile_pages(self) -> None:
        """Each takes about as long as a page of its size, and none takes its square."""
        pages = {
            "comments that are open": "<!--" * MANY,
            "tags that are open": "<a" * MANY,
            "quotes that are open": "<a b='" * MANY,
            "quotes and ends": "<a '>" * MANY,
            "ends": "</" * MANY,
            "declarations": "<!" * MANY,
            "instructions": "<?x" * MANY,
            "sections": "<![CDATA[" * MANY,
            "characters": "&" * MANY,
            "references": "&#1" * MANY,
            "scripts": "<script>" * MANY,
            "cells": "<td>" * MANY,
            "attributes": "<td " + "colspan " * 2000 + ">",
        }
        for name, text in pages.items():
            begun = time.process_time()
            got = read(f"<html><table><tr><td>{text}")
            took = time.process_time() - begun
            self.expect(f"{name}: refused", isinstance(got, str))
            self.expect(f"{name} took {took:.1f} s", took < patience(5))


class Fetching(Case):
    def test_pages(self) -> None:
        says = "a web page, not a table: the address may want a login"
        self.expect("without the option", fetched(PAGE, is_html=False), says)
        self.expect("with it", fetched(PAGE, is_html=True), "")
        self.expect("a login", fetched(LOGIN, is_html=True), "a web page that asks for a password")
        self.expect("no table", fetched("<html>Sign in</html>", is_html=True), "a web page without a table")
        self.expect("rows", fetched(PAGE, is_html=True, least=2), "1 row, and at least 2 must be there")

    def test_option(self) -> None:
        with tempfile.TemporaryDirectory() as folder:
            address = "https://press.example.com/list"
            Path(folder, "sources.tsv").write_text(
                f"a.txt\t{address}\thtml table; least 2 rows\nb.txt\t{address}\thtml tables\n"
            )
            found, wrong = sources.read(InputFolder(folder))
            self.expect("the source", [(it.file, it.is_html, it.least) for it in found], [("a.txt", True, 2)])
            self.expect("another word", [line.rpartition(": ")[2] for line in wrong], ["unknown option html"])

    def test_spreadsheets(self) -> None:
        """They are fetched as they come, and their first sheet has the rows that are counted."""
        source = Source("a.xlsx", "https://example.com/", least=2)
        head = ["publication_title", "print_identifier", "online_identifier"]
        for count, wanted in ((2, ""), (1, "1 row, and at least 2 must be there")):
            data = xlsx([["Titles"], head, *[["Tides", "2901-0012", ""]] * count])
            try:
                got = "" if fetching.table_in(data, source) == data else "other bytes"
            except Unreadable as fault:
                got = str(fault)
            self.expect(f"{count} rows", got, wanted)
        try:
            fetching.table_in(b"\xd0\xcf\x11\xe0\xa1\xb1\x1a\xe1" + bytes(99), source)
            got = ""
        except Unreadable as fault:
            got = str(fault)
        self.expect("the old form", got.startswith("a spreadsheet in the old form"))
