"""The bytes of a provider's file in the form in which it sends its table, and what the mail says of such a file."""
import csv, gzip, io, zipfile

COLUMNS = (
    "publication_title",
    "print_identifier",
    "online_identifier",
    "date_first_issue_online",
    "num_first_vol_online",
    "num_first_issue_online",
    "date_last_issue_online",
    "num_last_vol_online",
    "num_last_issue_online",
    "title_url",
    "first_author",
    "title_id",
    "embargo_info",
    "coverage_depth",
    "notes",
    "publisher_name",
    "publication_type",
)
ABOVE = "Titles of this year\n\nSent by the provider\n"


def cells_of(row, host):
    return [
        row.title,
        row.printed,
        row.online,
        row.first,
        row.volume,
        "",
        row.last,
        "",
        "",
        f"https://{host}/journals/{row.id}",
        "",
        row.id,
        row.embargo,
        "fulltext",
        "",
        "Press",
        "serial" if row.is_journal else "monograph",
    ]


def text_of(cells, separator="\t", end="\n"):
    if separator == "\t":
        return "".join("\t".join(line) + end for line in cells)
    file = io.StringIO()
    csv.writer(file, delimiter=separator, lineterminator=end).writerows(cells)
    return file.getvalue()


def zipped(members):
    data = io.BytesIO()
    with zipfile.ZipFile(data, "w", zipfile.ZIP_DEFLATED) as archive:
        for name, text in members.items():
            archive.writestr(zipfile.ZipInfo(name), text, zipfile.ZIP_DEFLATED)
    return data.getvalue()


def gzipped(data):
    return gzip.compress(data, mtime=0)


def ten_digits(number):
    """An ISBN as it was written before 2007, with hyphens."""
    if len(number) != 13:
        return number
    rest = -sum(int(digit) * (10 - place) for place, digit in enumerate(number[3:12])) % 11
    return f"{number[3]}-{number[4:8]}-{number[8:12]}-{'X' if rest == 10 else rest}"


def spoken(date):
    """The 15th of March 1992 as 15/03/1992: the day is none of a month."""
    return f"{date[8:]}/{date[5:7]}/{date[:4]}" if len(date) == 10 and int(date[8:]) > 12 else date


def in_other_words(cells):
    header, rows = cells[0], cells[1:]
    return [
        header,
        *(
            [
                f'"{row[0]}"',
                f"{row[1].replace('-', chr(0x2013))} ",
                f"{row[2]} (online)",
                spoken(row[3]),
                *row[4:6],
                spoken(row[6]) or "present",
                *row[7:],
            ]
            for row in rows
        ),
    ]


def with_old_numbers(cells):
    return [cells[0], *([row[0], ten_digits(row[1]), ten_digits(row[2]), *row[3:]] for row in cells[1:])]


def with_other_names(cells):
    return [[name.replace("_", " ").title() for name in cells[0]], *cells[1:]]


# The bytes of a table in each form, and the beginnings of the lines that the mail has for it.
FORMS = {
    "tabs": (lambda cells: text_of(cells).encode(), ()),
    "gzip": (lambda cells: gzipped(text_of(cells).encode()), ()),
    "commas": (lambda cells: text_of(cells, ",").encode(), ("commas between cells: ",)),
    "zip": (lambda cells: zipped({"table.txt": text_of(cells)}), ()),
    "UTF-16": (lambda cells: text_of(cells, end="\r\n").encode("utf-16"), ("UTF-16: ",)),
    "windows-1252": (lambda cells: text_of(cells, end="\r\n").encode("cp1252"), ("not UTF-8, read as windows-1252: ",)),
    "semicolons": (lambda cells: text_of(cells, ";").encode(), ("semicolons between cells: ",)),
    "lines above": (
        lambda cells: (ABOVE + text_of(with_other_names(cells))).encode(),
        ("above the header, left out: ", "names of columns as the standard spells them: "),
    ),
    "other words": (
        lambda cells: text_of(in_other_words(cells)).encode(),
        (
            "quotes around a cell removed: ",
            "spaces at the ends removed: ",
            "dashes in identifiers replaced by hyphens: ",
            "words after an identifier removed: ",
            "dates in the standard's form: ",
            "last dates that mean today removed: ",
        ),
    ),
    "old numbers": (
        lambda cells: text_of(with_old_numbers(cells)).encode(),
        ("ISBNs of ten digits written with thirteen: ",),
    ),
}


def table_of(provider, rows=None):
    """The header and the cells of a provider's table."""
    host = f"{provider.name}.example.com"
    return [list(COLUMNS), *(cells_of(row, host) for row in (provider.rows if rows is None else rows))]


def file_of(provider, rows=None, form=None):
    return FORMS[form or provider.form][0](table_of(provider, rows))


def said_of(provider):
    return FORMS[provider.form][1]
