"""Slips of providers: what comes in place of a good file, what the library has after it, and what the mail of the week
says. Those of the library's own staff are in operator_slips.py."""
import collections, dataclasses
import tables
from fixtures.made_titles import issn

KEPT, USED, NOT_FETCHED = "the old table stays", "the table is used", "the file is not fetched"
SENT = "ended after 3,145,728 of 8,000,000 bytes"
NO_PAGE = "a web page, not a table"


@dataclasses.dataclass
class Slip:
    """What a kind of slip makes of a provider's file."""

    outcome: str
    says: tuple  # parts of lines of the mail, which begin with spaces if the update says them
    reply: str = ""  # how the server replies in place of the file
    data: bytes = None  # the file
    rows: tuple = None  # what is served of a file that is used
    more: int = 0  # rows beside those
    counted: tuple = ()  # how many rows have what the update calls by these words


def cells(provider):
    return tables.table_of(provider)


def text(lines, **how):
    return tables.text_of(lines, **how).encode()


def reply(kind, *says):
    return lambda provider, source: Slip(NOT_FETCHED, says, reply=kind)


def no_table(make, *says):
    return lambda provider, source: Slip(NOT_FETCHED, says, data=make(provider))


def bad_table(make, *says):
    return lambda provider, source: Slip(KEPT, says, data=make(cells(provider)))


def other_form(form):
    """A form that the provider did not have before, which is read all the same."""
    return lambda provider, source: Slip(USED, tables.FORMS[form][1], data=tables.file_of(provider, form=form))


def changed(lines, column, change, share=1.0):
    """The cells of a column are changed in that share of the rows, the last ones."""
    place, first = tables.COLUMNS.index(column), 1 + round((len(lines) - 1) * (1 - share))
    return [
        line[:place] + [change(line[place])] + line[place + 1 :] if number >= first else line
        for number, line in enumerate(lines)
    ]


def half(lines):
    data = text(lines)
    return data[: len(data) * 2 // 5]


def shifted(lines):
    return [lines[0], *(line[1:] + [""] for line in lines[1:])]


def renamed(lines):
    names = {"print_identifier": "ISSN", "online_identifier": "E-ISSN"}
    return [[names.get(name, name) for name in lines[0]], *lines[1:]]


def without_numbers(lines, share=0.9):
    for column in ("print_identifier", "online_identifier"):
        lines = changed(lines, column, lambda _: "", share)
    return lines


def rounded(lines):
    for column in ("print_identifier", "online_identifier"):
        lines = changed(lines, column, lambda _: "2.91E+07", 0.7)
    return lines


def swapped(lines):
    """The first date in place of the last, and the other way round; an open end becomes this year's."""
    one, other = (tables.COLUMNS.index(f"date_{it}_issue_online") for it in ("first", "last"))
    for line in lines[1:]:
        line[one], line[other] = line[other] or "2026-12", line[one]
    return lines


def unquoted(lines):
    return text(lines, separator=",") + b'"Tides" and more,2901-0012' + b"," * 15 + b"\n"


def doubled(provider, source):
    lines = cells(provider)
    again = len(lines) - 1
    return Slip(
        USED,
        (f"  the same as an earlier row, left out: {again} rows",),
        data=text(lines + lines[1:]),
        rows=provider.rows,
    )


def few_without_numbers(provider, source):
    rows = [row for row in provider.rows if row.first != "1990"]  # the probes' titles stay
    counts = collections.Counter(row.id for row in rows)
    single = [row.id for row in rows if counts[row.id] == 1]
    lost = set(source.sample(single, max(1, len(provider.rows) // 100)))
    lines = cells(provider)
    place = tables.COLUMNS.index("title_id")
    data = text([[*line[:1], "", "", *line[3:]] if line[place] in lost else line for line in lines])
    count = sum(line[place] in lost for line in lines)
    return Slip(
        USED, (f"  dropped: {count} row",), data=data, rows=tuple(row for row in provider.rows if row.id not in lost)
    )


def embargo_in_words(provider, source):
    lines = changed(cells(provider), "embargo_info", lambda cell: "six months" if cell else "")
    rows = tuple(dataclasses.replace(row, embargo="P6M" if row.embargo else "") for row in provider.rows)
    return Slip(USED, ("  embargoes in words written as KBART does: ",), data=text(lines), rows=rows)


def dates_of_two_readings(provider, source):
    lines = changed(
        cells(provider), "date_first_issue_online", lambda cell: f"03/01/{cell[:4]}" if len(cell) == 10 else cell
    )
    rows = tuple(
        dataclasses.replace(row, first=row.first[:4] if len(row.first) == 10 else row.first) for row in provider.rows
    )
    return Slip(USED, ("  dates cut to their year: ",), data=text(lines), rows=rows)


def too_large(provider, source):
    """The provider's rows and 200,000 more, without titles: two parts."""
    more = [["", issn(number), *[""] * 14, "serial"] for number in range(3_000_000, 3_200_000)]
    data, says = text(cells(provider) + more), (f"  2 parts: {provider.name}, {provider.name}.2",)
    return Slip(USED, says, data=data, rows=provider.rows, more=len(more))


def wrong(number):
    """The number with another last digit."""
    return number[:-1] + ("1" if number[-1] == "0" else "0") if number else number


def visited(address):
    return f"{address};jsessionid=0123456789ABCDEF"


def proxied(address):
    return f"https://login.ezproxy.other.example.edu/login?url={address}"


def damaged(text):
    """As UTF-8 reads in the encoding of Western Europe."""
    return text.encode().decode("iso-8859-1")


def sorted_apart(lines):
    """The titles go seven rows further, and the numbers stay."""
    rows = lines[1:]
    return [lines[0], *([rows[at - 7][0], *row[1:]] for at, row in enumerate(rows))]


def in_notes(lines):
    """The coverage is in the notes and nowhere else."""
    places = [
        tables.COLUMNS.index(name)
        for name in ("date_first_issue_online", "num_first_vol_online", "date_last_issue_online")
    ]
    for line in lines[1:]:
        line[tables.COLUMNS.index("notes")] = "1995-2003"
        for place in places:
            line[place] = ""
    return lines


def embargoes_in_notes(lines):
    lines = changed(lines, "embargo_info", lambda _: "")
    return changed(lines, "notes", lambda _: "Embargo: 12 months")


def one_wrong_digit(provider, source):
    """A number that no title has, in one row."""
    stable = {row.printed for row in provider.rows if row.first == "1990"}  # the probes' titles
    at = next(at for at, row in reversed([*enumerate(provider.rows)]) if row.printed not in stable)
    row = dataclasses.replace(provider.rows[at], printed=wrong(provider.rows[at].printed))
    rows = (*provider.rows[:at], row, *provider.rows[at + 1 :])
    return Slip(
        USED, ("check digits of print_identifier wrong: 1 of ",), data=tables.file_of(provider, rows), rows=rows
    )


def total_among_rows(provider, source):
    lines = cells(provider)
    lines.insert(2, ["Total: 120 titles", *[""] * (len(tables.COLUMNS) - 1)])
    says = ("rows of a total or a footnote: 1 of ", "  dropped: 1 row")
    return Slip(USED, says, data=text(lines), rows=provider.rows)


def without_line_end(provider, source):
    return Slip(USED, ("no line end after the last row: 1 of ",), data=text(cells(provider))[:-1], rows=provider.rows)


def bad_cells(column, change, says, share=1.0):
    """A slip in the cells of a column, in a share of the rows."""

    def made(provider, source):
        lines, place = cells(provider), tables.COLUMNS.index(column)
        data = changed(lines, column, change, share)
        count = sum(new[place] not in (old[place], "") for old, new in zip(lines, data))
        counted = (says, count) if says in COUNTED else ()
        return Slip(KEPT, (f"  {{file}}: {says}: ",), data=text(data), counted=counted)

    return made


# Of these slips each row that is changed is one.
COUNTED = (
    "check digits of print_identifier wrong",
    "check digits of online_identifier wrong",
    "first dates after today",
    "session identifiers in addresses",
    "the proxy of another library in addresses",
    "damaged letters in titles",
)
# The slip of each kind that the update knows, by what a line of targets.tsv says to allow it.
OF_UPDATE = {
    "check digits of print_identifier wrong": "check digits of print numbers",
    "check digits of online_identifier wrong": "check digits of online numbers",
    "no first date in any row": "no first dates",
    "first dates after today": "first dates to come",
    "first dates after the last ones": "dates swapped",
    "session identifiers in addresses": "sessions in addresses",
    "the proxy of another library in addresses": "the proxy of another library",
    "new texts that rules do not compare with": "a text in another spelling",
    "rules that hold on no row": "rules without rows",
    "volumes or issues that are no number": "volumes in words",
    "damaged letters in titles": "damaged letters",
    "titles in capitals": "titles in capitals",
    "numbers known under other titles": "titles sorted apart",
    "abstracts alone": "abstracts alone",
    "embargoes in notes": "embargoes in notes",
    "coverage in notes": "coverage in notes",
    "no line end after the last row": "no line end",
    "no numbers left in a column": "no online numbers",
    "the same number in most rows": "one number for all",
    "rows of a total or a footnote": "a total among the rows",
}

KINDS = {
    "status 401": reply("401", "401 Unauthorized"),
    "status 403": reply("403", "403 Forbidden"),
    "status 404": reply("404", "404 Not Found"),
    "status 500": reply("500", "500 Internal Server Error"),
    "status 503 with Retry-After": reply("503", "503 Service Unavailable"),
    "no content": reply("204", "204 No Content"),
    "a redirect to http": reply("to-http", "a redirect that leads to no https: address"),
    "a loop of redirects": reply("loop", "more than 5 redirects"),
    "a login page": reply("login", f"{NO_PAGE}: the address may want a login"),
    "a transfer that is cut": reply("cut", SENT),
    "a transfer that is cut between pieces": reply("cut-pieces", "ended after 1,024 bytes, too early"),
    "a slow transfer": reply("drip", "no end, after "),
    "a file of 300 MB": reply("large", "more than 256 MB"),
    "an expired certificate": reply("expired", "the certificate has expired"),
    "an empty file": no_table(lambda provider: b"", "empty"),
    "the header alone": no_table(lambda provider: text(cells(provider)[:1]), "0 rows, and at least 20 must be there"),
    "a page as a table": no_table(lambda provider: b"\n<!DOCTYPE html><html><body>Sorry</body></html>", NO_PAGE),
    "two tables in an archive": no_table(
        lambda provider: tables.zipped({"journals.txt": text(cells(provider)), "books.txt": text(cells(provider))}),
        "a zip file with 2 members: name one by `member PATTERN` in sources.tsv",
    ),
    "half of a gzip file": no_table(
        lambda provider: tables.gzipped(text(cells(provider)))[:-200], "a gzip file that is cut short or damaged"
    ),
    "a spreadsheet": no_table(
        lambda provider: tables.zipped({"[Content_Types].xml": "x", "xl/workbook.xml": "x"}),
        "a spreadsheet whose XML is cut short or damaged",
    ),
    "UTF-16 without its mark": no_table(
        lambda provider: tables.text_of(cells(provider)).encode("utf-16-le"), "it has bytes of zero"
    ),
    "half of a file": bad_table(half, "  {file}: numbers gone ", "  {file}: less than half of the rows: "),
    "cells shifted by one": bad_table(lambda lines: text(shifted(lines)), "  {file}: "),
    "other names of columns": bad_table(
        lambda lines: text(renamed(lines)),
        "  {file}: no column print_identifier",
        "  {file}: no column online_identifier",
        "  {file}: identifiers 0",
    ),
    "a collapse of numbers": bad_table(lambda lines: text(without_numbers(lines)), " rows dropped, and "),
    "rounded numbers": bad_table(lambda lines: text(rounded(lines)), " rows dropped, and "),
    "dates swapped": bad_table(lambda lines: text(swapped(lines)), "  {file}: first dates after the last ones: "),
    "dates in words": bad_table(
        lambda lines: text(changed(lines, "date_first_issue_online", lambda _: "soon")),
        "  {file}: date_first_issue_online not a date ",
    ),
    "addresses without https": bad_table(
        lambda lines: text(changed(lines, "title_url", lambda cell: cell.removeprefix("https://"))),
        "  {file}: title_url not a web link ",
    ),
    "tabs in cells": bad_table(
        lambda lines: text(changed(lines, "notes", lambda _: "a\tb")), "  {file}: rows longer than the header "
    ),
    "quotes that do not match": bad_table(unquoted, ": quotes that do not match"),
    "a column of the update": bad_table(
        lambda lines: text([[*lines[0], "coverage_from"], *([*line, "0"] for line in lines[1:])]),
        "  {file}: it has a column coverage_from, which only the update may write",
    ),
    "another form: windows-1252": other_form("windows-1252"),
    "another form: UTF-16": other_form("UTF-16"),
    "another form: commas": other_form("commas"),
    "another form: lines above the header": other_form("lines above"),
    "doubled rows": doubled,
    "a few rows without numbers": few_without_numbers,
    "an embargo in words": embargo_in_words,
    "dates of two readings": dates_of_two_readings,
    "a table too large": too_large,
    "check digits of print numbers": bad_cells(
        "print_identifier", wrong, "check digits of print_identifier wrong", 0.5
    ),
    "check digits of online numbers": bad_cells(
        "online_identifier", wrong, "check digits of online_identifier wrong", 0.5
    ),
    "no first dates": bad_cells("date_first_issue_online", lambda _: "", "no first date in any row"),
    "first dates to come": bad_cells("date_first_issue_online", lambda _: "2041-05", "first dates after today", 0.5),
    "sessions in addresses": bad_cells("title_url", visited, "session identifiers in addresses", 0.5),
    "the proxy of another library": bad_cells("title_url", proxied, "the proxy of another library in addresses", 0.5),
    "a text in another spelling": bad_cells(
        "coverage_depth", lambda _: "Full Text", "new texts that rules do not compare with", 0.5
    ),
    "rules without rows": bad_cells("coverage_depth", lambda _: "selected articles", "rules that hold on no row"),
    "volumes in words": bad_cells(
        "num_first_vol_online", lambda cell: cell and f"Vol. {cell}", "volumes or issues that are no number"
    ),
    "damaged letters": bad_cells("publication_title", damaged, "damaged letters in titles", 0.5),
    "titles in capitals": bad_cells("publication_title", str.upper, "titles in capitals"),
    "titles sorted apart": bad_table(
        lambda lines: text(sorted_apart(lines)), "  {file}: numbers known under other titles: "
    ),
    "abstracts alone": bad_cells("coverage_depth", lambda _: "abstracts", "abstracts alone"),
    "embargoes in notes": bad_table(lambda lines: text(embargoes_in_notes(lines)), "  {file}: embargoes in notes: "),
    "coverage in notes": bad_table(lambda lines: text(in_notes(lines)), "  {file}: coverage in notes: "),
    "no online numbers": bad_cells("online_identifier", lambda _: "", "no numbers left in a column"),
    "one number for all": bad_cells("print_identifier", lambda _: "1000-0007", "the same number in most rows"),
    "a number with a wrong digit": one_wrong_digit,
    "a total among the rows": total_among_rows,
    "no line end": without_line_end,
}
