"""Tables and the lines that the index has of them, by hand."""
from __future__ import annotations


from fixtures.cases import Case
from fixtures.index_reader import COLUMNS
from fixtures.index_reader import Index
from fixtures.index_reader import book
from fixtures.index_reader import check_form
from fixtures.index_reader import journal
from fixtures.index_reader import table
from openlink_update.index.title_addresses import Offer


class Lines(Case):
    """Each index is of a few tables."""

    def test_titles(self) -> None:
        """Rows are of one title by key and number; two editions of one kind are joined, and no others."""
        with Index(
            {
                "one": table(
                    journal("The Tides", "2901-0012", "2908-0142", "1995", "2000-12"),
                    journal("Waves", "2915-0272"),
                    journal("Nets", "2943-081X"),
                    journal("Nets", "", "2950-0923"),
                    journal("Nets", "", "2957-1057"),
                    book("Waves", "", "9781234560102"),
                    journal("Shells", "2964-1187"),
                    journal("Shells", "2971-1312"),
                ),
                "two": table(
                    journal("Tides", "", "2908-0142"),
                    journal("Tides at Sea", "2901-0012"),
                    journal("Waves", "", "2922-0408"),
                    journal("Gulls", "2978-1442", "2985-1572"),
                    journal("Gulls", "", "2992-183X"),
                    journal("Ebb", "3006-2098"),
                    journal("Ebb", "3013-2223"),
                    journal("Ebb", "3013-2223", "3006-2098"),
                    journal("Shells", "", "2971-1312"),
                ),
            }
        ) as found:
            for name, key, expected in [
                ("rows in two tables", "=tides", [["j", "The Tides", "2901-0012 2908-0142"]]),
                (
                    "a number of two titles",
                    "2901-0012",
                    [
                        ["j", "The Tides", "2901-0012 2908-0142", "one 0 1995 2000-12;two 0"],
                        ["j", "Tides at Sea", "2901-0012", "two 1"],
                    ],
                ),
                (
                    "print and online are joined, within a kind",
                    "=waves",
                    [["b", "Waves", "9781234560102"], ["j", "Waves", "2915-0272 2922-0408"]],
                ),
                (
                    "which of two online editions is not known",
                    "=nets",
                    [["j", "Nets", "2943-081X"], ["j", "Nets", "2950-0923"], ["j", "Nets", "2957-1057"]],
                ),
                (
                    "a title with both numbers is joined to none",
                    "=gulls",
                    [["j", "Gulls", "2978-1442 2985-1572"], ["j", "Gulls", "2992-183X"]],
                ),
                ("one number in both columns", "=shells", [["j", "Shells", "2964-1187"], ["j", "Shells", "2971-1312"]]),
                ("an unknown number", "2915-0280", []),
            ]:
                self.expect(name, found.of_key(key), expected)
            ebb = found.of_key("3006-2098")
            self.expect(
                "a row with the numbers of two titles joins them",
                (len(ebb), sorted(ebb[0][2].split(" ")), sorted(ebb[0][3].split(";"))),
                (1, ["3006-2098", "3013-2223"], ["two 5", "two 6", "two 7"]),
            )

    def test_numbers(self) -> None:
        """Numbers have the form that finds their rows."""
        with Index(
            {
                "one": table(
                    book("Atlas", "1-234-56010-6", "9781234560874"),
                    book("Atlas", "123456552x"),
                    book("Charts", "9781234564728", "978-1-234-56501-9"),
                    book("Maps", "1234560106"),
                    journal("Tides", "2943081x", " 2950 0923 "),
                    journal("Nothing", "unknown", "2943-0817X"),
                    ("Yearbook", "9781234567033", "", "", "", "", "serial"),
                    ("Series", "9781234567804", "2901-0012"),
                    ("Report", "9781234565497"),
                    ("Annual", "2901-0020", "", "", "", "", " Monograph "),
                ),
                "two": table(book("Atlas", "9781234560102")),
            }
        ) as found:
            for name, key, expected in [
                (
                    "ten and thirteen digits of one number",
                    "9781234560102",
                    [
                        ["b", "Atlas", "1234560106 9781234560874 9781234560102", "one 0;two 0"],
                        ["b", "Maps", "1234560106", "one 3"],
                    ],
                ),
                ("a check character", "9781234565527", [["b", "Atlas", "123456552X", "one 1"]]),
                ("hyphens", "9781234565019", [["b", "Charts", "9781234564728 9781234565019", "one 2"]]),
                ("small letters and spaces", "2943-081X", [["j", "Tides", "2943-081X 2950-0923", "one 4"]]),
                ("no number", "=nothing", []),
                ("a serial with an ISBN alone", "=yearbook", [["b", "Yearbook", "9781234567033"]]),
                ("an ISSN, and no type", "=series", [["j", "Series", "9781234567804 2901-0012"]]),
                ("an ISBN, and no type", "=report", [["b", "Report", "9781234565497"]]),
                ("an ISSN of a book", "=annual", [["b", "Annual", "2901-0020"]]),
            ]:
                self.expect(name, found.of_key(key), expected)

    def test_rows(self) -> None:
        """Rows are counted as the program counts them, and cells read as it reads them."""
        lines = [
            "",
            "\t".join((*COLUMNS, COLUMNS[0])),
            "",
            "Tides\t2901-0012\t\t1990",
            "",
            "",
            "No number",
            "\t",
            "Waves\t2908-0142",
            "Nets\t2915-0272" + "\t" * 7 + "\tanother title\ttoo many cells",
        ]
        expected = {"2901-0012": "one 0 1990", "2908-0142": "one 3", "2915-0272": "one 4"}
        for name, end in (("LF", "\n"), ("CR LF", "\r\n"), ("CR", "\r")):
            with Index({"one": b"\xef\xbb\xbf" + end.join(lines).encode()}) as found:
                self.expect(f"rows, {name}", {number: found.coverage_of(number)[0] for number in expected}, expected)
                self.expect(f"the first column of a name, {name}", found.of_key("2915-0272")[0][1], "Nets")
        with Index(
            {
                "empty": b"",
                "blank": b"\n\r\n",
                "header": table(),
                "other": b"a\tb\nc\td\n",
                "any": b"print_identifier\nANY\n",
            }
        ) as found:
            self.expect(
                "tables without a title",
                (found.names("keys"), found.names("list", "j"), found.letters("j")),
                ([], ["letters", "starts"], ([0, 1], {})),
            )

    def test_cells(self) -> None:
        """Dates and embargoes as a provider writes them, and titles with markup."""
        cells = [
            ("1995-03-01", "2000", "P1Y", "1995-03-01 2000 P1Y"),
            ("03/1995", "", "R10Y;P30D", "1995 - R10Y,P30D"),
            (" 1995-03 ", "1995-3-1", "p18m", "1995-03 1995 P18M"),
            ("12345", "19951", "", ""),
            ("", "", "one year", ""),
            ("", "", "R5Y; P6M", "- - R5Y,P6M"),
            ("unknown", "2004-12-31", "P1Y;", "- 2004-12-31"),
        ]
        rows = [
            journal(f"Title {number}", f"300{number}-0000", "", first, last, embargo)
            for number, (first, last, embargo, _) in enumerate(cells)
        ]
        with Index({"t": table(*rows)}) as found:
            for number, (first, last, embargo, expected) in enumerate(cells):
                self.expect(
                    f"coverage of {first!r}, {last!r}, {embargo!r}",
                    found.coverage_of(f"300{number}-0000"),
                    [f"t {number} {expected}".strip(" ")],
                )
        titles = [
            ("<i>E. coli</i> &amp; R&amp;amp;D", "E. coli & R&D"),
            ("A  B\u00a0C\u2028D\u3000E", "A B C D E"),
            ("Bell\x07\x00\x1b", "Bell"),
            ("&#10;x&#9;y", "x y"),
            ('"Q" <script>', '"Q"'),
            ("x" * 600, "x" * 500),
            ("<i>" * 200 + "E. coli", "E. coli"),
            ("<b></b>", None),
            ("", None),
        ]
        rows = [journal(title, f"300{number}-0000") for number, (title, _) in enumerate(titles)]
        with Index({"t": table(*rows)}) as found:
            for number, (title, shown) in enumerate(titles):
                self.expect(
                    f"the title {title[:30]!r}",
                    [cells[1] for cells in found.of_key(f"300{number}-0000")],
                    [] if shown is None else [shown],
                )
            self.expect("a form for the halving", list(check_form(found)), [])

    def test_titles_that_rows_join(self) -> None:
        """Rows of one name join their numbers one after the other: all of them are of one title then."""
        rows = (
            journal("Tides", "2901-0012", "2908-0142"),
            journal("Tides", "2915-0272", "2922-0408"),
            journal("Tides", "2929-0538", "2936-0668"),
            journal("Tides", "2901-0012", "2915-0272"),
            journal("Tides", "2929-0538", "2901-0012"),
            journal("Tides", "2922-0408", "2943-081X"),
            journal("Tides", "2950-0923"),
        )
        with Index({"t": table(*rows)}) as found:
            of_all = {" ".join(sorted(cells[2].split(" "))) for cells in found.of_key("=tides")}
            joined = "2901-0012 2908-0142 2915-0272 2922-0408 2929-0538 2936-0668 2943-081X"
            self.expect("its numbers, and one of its own", of_all, {joined, "2950-0923"})
            for number in joined.split(" "):
                found_numbers = [sorted(cells[2].split(" ")) for cells in found.of_key(number)]
                self.expect(f"the title of {number}", found_numbers, [joined.split(" ")])

    def test_related(self) -> None:
        """Earlier and later titles, within a table and all its parts."""
        one = table(
            journal("Old", "2901-0012", title_id="o"),
            journal("New", "2908-0142", title_id="n", preceding="o"),
            journal("New", "2908-0142", title_id="n", preceding="o"),
            journal("Last", "2915-0272", preceding="n"),
            journal("Self", "2922-0408", title_id="s", preceding="s"),
            journal("Lone", "2929-0538", preceding="x"),
            (*book("Part", "1234560106"), "p", "o"),
        )
        with Index(
            {
                "one": one,
                "one.2": table(journal("Next", "2943-081X", preceding="o")),
                "two": table(journal("Other", "2936-0668", preceding="o")),
            }
        ) as found:
            for number, expected in [
                ("2901-0012", [">2908-0142 New", ">9781234560102 Part", ">2943-081X Next"]),
                ("2943-081X", ["<2901-0012 Old"]),
                ("2908-0142", ["<2901-0012 Old", ">2915-0272 Last"]),
                ("2915-0272", ["<2908-0142 New"]),
                ("9781234560102", ["<2901-0012 Old"]),
                ("2922-0408", []),
                ("2929-0538", []),
                ("2936-0668", []),
            ]:
                self.expect(f"titles before and after {number}", found.of_key(number)[0][4:], expected)

    def test_related_of_joined_titles(self) -> None:
        """Those of a title that rows or its two editions join are those of the whole title."""
        rows = (
            journal("Tides", "2901-0012"),
            journal("Tides", "2908-0142", title_id="t"),
            journal("Tides", "2901-0012", "2908-0142"),
            journal("Waves", "2915-0272", preceding="t"),
            journal("Nets", "2943-081X"),
            journal("Nets", "", "2950-0923", title_id="n"),
            journal("Gulls", "2978-1442", preceding="n"),
        )
        with Index({"one": table(*rows)}) as found:
            for number, expected in (
                ("2901-0012", [">2915-0272 Waves"]),
                ("2915-0272", ["<2901-0012 Tides"]),
                ("2943-081X", [">2978-1442 Gulls"]),
                ("2978-1442", ["<2943-081X Nets"]),
            ):
                self.expect(f"titles before and after {number}", found.of_key(number)[0][4:], expected)

    def test_addresses(self) -> None:
        """Of titles of a target and its parts, of the kinds that are offered; related titles come after them."""
        page = "https://press.example.com/"
        one = table(
            (*journal("Old", "2901-0012", title_id="o"), f"{page}old"),
            (*book("Buoys", "9781234560102"), "", "", f"{page}buoys"),
        )
        second = table((*journal("New", "2908-0142", preceding="o"), f"{page}new"))
        offers = {"one": Offer("j", frozenset({"press.example.com"}))}
        with Index({"one": one, "one.2": second, "two": one}, offers=offers) as found:
            for number, expected in (
                ("2901-0012", [f"@one {page}old", ">2908-0142 New"]),
                ("2908-0142", [f"@one {page}new", "<2901-0012 Old"]),
                ("9781234560102", []),
            ):
                self.expect(f"cells of {number}", found.of_key(number)[0][4:], expected)

    def test_short_keys(self) -> None:
        with Index(
            {
                "one": table(
                    journal("Acta: X", "2901-0012"),
                    journal("Acta: Y", "2908-0142"),
                    journal("Acta", "2915-0272"),
                    journal("Acta (Online)", "2922-0408"),
                )
            }
        ) as found:
            self.expect(
                "titles of a short key",
                [cells[1] for cells in found.of_key("~acta")],
                ["Acta (Online)", "Acta: X", "Acta: Y"],
            )
            self.expect("the title of that key", [cells[1] for cells in found.of_key("=acta")], ["Acta"])

    def test_umlauts(self) -> None:
        """A title with umlauts is found by their two letters too, by its key and by its words."""
        rows = [
            journal("Küstenforschung: Berichte", "2901-0012"),
            journal("Kuestenforschung", "2908-0142"),
            journal("Cœur", "2915-0272"),
        ]
        with Index({"one": table(*rows)}) as found:
            for key, expected in (
                ("~kustenforschung", 1),
                ("~kuestenforschung", 1),
                ("~kuestenforschung berichte", 0),
                ("=kuestenforschung", 1),
                ("~kustenforschung berichte", 0),
                ("~coeur", 0),
            ):
                self.expect(f"titles of {key}", len(found.of_key(key)), expected)
            listed = found.listed("j")
            for start, wanted in (
                ("kuest", ["Kuestenforschung", "Küstenforschung: Berichte"]),
                ("kust", ["Küstenforschung: Berichte"]),
            ):
                titles = sorted(listed[place] for place in found.places("j", start))
                self.expect(f"words that begin with {start}", titles, wanted)

    def test_list(self) -> None:
        """Letters in their order, each with pages of its own."""
        names = [
            "Zoo",
            "The Ant",
            "Älter",
            "Bee",
            "Émile",
            "1848",
            "42 Days",
            "Ωmega",
            "Журнал",
            "中国",
            "...",
            "Ant Hill",
            "Ants",
            "العلوم",
            "٤٢",
        ]
        rows = [journal(name, f"30{number:02}-0000") for number, name in enumerate(names)]
        rows += [journal(f"Crab {number:03}", f"31{number:02}-0000") for number in range(99)]
        rows += [journal("Crab 099", "3199-0000"), journal("Crab 100", "3200-0000"), book("Book", "9781234560102")]
        with Index({"one": table(*rows)}) as found:
            listed = found.listed("j")
            order = [
                "Älter",
                "The Ant",
                "Ant Hill",
                "Ants",
                "Bee",
                "Émile",
                "Zoo",
                "1848",
                "42 Days",
                "Ωmega",
                "Журнал",
                "العلوم",
            ]
            self.expect(
                "the order",
                [name for name in listed.values() if not name.startswith("Crab")],
                [*order, "...", "٤٢", "中国"],
            )
            self.expect(
                "the letters",
                found.letters("j"),
                (
                    [116, 1],
                    {
                        "a": (0, 1, 4),
                        "b": (1, 1, 1),
                        "c": (2, 3, 101),
                        "e": (5, 1, 1),
                        "z": (6, 1, 1),
                        "0-9": (7, 1, 2),
                        "ω": (8, 1, 1),
                        "ж": (9, 1, 1),
                        "ا": (10, 1, 1),
                        "other": (11, 1, 3),
                    },
                ),
            )
            self.expect(
                "pages",
                [len(found.page("j", number)) for number in range(13)],
                [4, 1, 50, 50, 1, 1, 1, 2, 1, 1, 1, 3, 0],
            )
            self.expect("a line", found.page("j", 6), [["Zoo", "3000-0000", "one 0"]])
            self.expect(
                "books",
                (found.letters("b"), found.page("b", 0)),
                (([1, 1], {"b": (0, 1, 1)}), [["Book", "9781234560102", "one 116"]]),
            )
            for start, expected in [
                ("an", ["Ant Hill", "Ants", "The Ant"]),
                ("ants", ["Ants"]),
                ("the", ["The Ant"]),
                ("alte", ["Älter"]),
                ("жур", ["Журнал"]),
                ("中国", ["中国"]),
                ("antsy", []),
                ("qq", []),
                ("42", ["42 Days"]),
            ]:
                self.expect(
                    f"words that begin with {start}",
                    sorted(listed[place] for place in found.places("j", start)),
                    expected,
                )
            for start in ("cr", "crab"):
                self.expect(f"places of a frequent word, {start}", found.places("j", start), list(range(100, 201)))
            self.expect("a form for the halving", list(check_form(found)), [])
        with Index({"one": table(*rows)}, has_list=False) as found:
            self.expect(
                "without the list",
                (found.names(), found.read("format"), len(found.of_key("=zoo"))),
                (["format", "keys"], b"6 no list\n", 1),
            )

    def test_rows_of_the_list(self) -> None:
        """Rows that differ for readers, once each, of targets whose rows all have room; whole letters of a title."""
        tides = [journal("Tides", "2901-0012", first=year) for year in ("1990", "1990", "2001")]
        tables = {
            "one": table(*tides, journal("中" * 400, "2908-0142")),
            "one.2": table(tides[0]),
            "two": table(tides[0]),
            "many": table(*[journal("Tides", "2901-0012")] * 201),
        }
        with Index(tables) as found:
            self.expect("rows", found.page("j", 0), [["Tides", "2901-0012", "one 0 1990;one 2 2001;two 0 1990"]])
            self.expect("1,000 bytes of a title", found.page("j", 1), [["中" * 333, "2908-0142", "one 3"]])
