"""What the fourth cell of a line of targets.tsv says of a target, with semicolons between: options, which this module
reads, and words that allow warnings. The options of a target are stored in each version, since its tables are prepared
again from the files that came.

    columns Titel=publication_title, "ISSN, print"=print_identifier, Verlag=-    names of columns in the files; - drops
                                                                                 a column
    no header publication_title, print_identifier    the names of the columns of a file that has none
    sheet Journals         the sheet of a spreadsheet; without it the first
    html table             a web page that holds one table is one
    proxy https://proxy.example.org/login?url=    the text that rules that ship put before each link
    filter NAME            a program of the library that changes a file before it is read
    least 500 rows         with fewer the old table stays

A name with a comma, a semicolon, an equals sign or spaces at its ends is in double quotes, in which "" is one of them.
Columns get names of KBART, or names of the library's own that begin with x_ and that its rules may use."""
import dataclasses
import re
from collections.abc import Callable, Iterable, Mapping, Sequence
from pathlib import Path

from openlink_update import shown_text
from openlink_update.input_files import cells_in
from openlink_update.outcome import Refused
from openlink_update.received.column_names import DROPPED, is_known, plain_name

NAME = "options.tsv"  # of a version: a target, and its options
_QUOTE = '"'
_MOST_CHARACTERS = 100  # of a cell in a line
_ROWS = re.compile(r"(\d{1,9}) rows?", re.A)
_FILE = re.compile(r"[A-Za-z0-9_][A-Za-z0-9_.-]{0,63}", re.A)
_PREFIX = re.compile(r"https://[A-Za-z0-9.-]{1,253}(:\d{1,5})?/[!-~]{0,500}", re.A)


@dataclasses.dataclass(frozen=True)
class Options:
    columns: tuple[tuple[str, str], ...] = ()  # the name in a file, and the one of KBART, or DROPPED
    header: tuple[str, ...] = ()  # of a file that has none
    sheet: str = ""
    is_html: bool = False
    proxy: str = ""
    filter: str = ""  # a name in the folder of filters
    least: int = 0  # rows

    def text(self) -> str:
        """The options as a cell has them; '' if there are none."""
        pairs = [f"{_quoted(name)}={_quoted(standard)}" for name, standard in self.columns]
        parts = [
            f"columns {', '.join(pairs)}" if pairs else "",
            f"no header {', '.join(map(_quoted, self.header))}" if self.header else "",
            f"sheet {_quoted(self.sheet)}" if self.sheet else "",
            "html table" if self.is_html else "",
            f"proxy {_quoted(self.proxy)}" if self.proxy else "",
            f"filter {self.filter}" if self.filter else "",
            f"least {self.least} rows" if self.least else "",
        ]
        return "; ".join(filter(None, parts))

    def changes_reading(self) -> bool:
        """Whether the same bytes are another table by these options."""
        return bool(self.columns or self.header or self.sheet or self.is_html or self.filter)

    def reads_as(self, other: "Options") -> bool:
        """Whether the same bytes are the same table by other options."""
        return dataclasses.replace(self, proxy=other.proxy, least=other.least) == other


NONE = Options()


def parse(cell: str) -> tuple[Options, frozenset[str]]:
    """The options of a cell, and its other parts, the words that allow something. Refused if an option is not of its
    form, or occurs again."""
    options, words, seen = NONE, set(), set()
    for part in _split(cell, ";"):
        name = next((name for name in _READERS if f"{part} ".startswith(f"{name} ")), None)
        if name is None:
            words.add(part)
            continue
        if name in seen:
            raise Refused([f"{name}: twice"])
        seen.add(name)
        options = _READERS[name](options, part.removeprefix(name).strip())
    return options, frozenset(words)


def options_in(version: Path) -> dict[str, Options]:
    """By target, the options that a version was made with; none in an older one."""
    path = version / NAME
    return {target: parse(cell)[0] for target, cell in (cells_in(path, 2) if path.exists() else ())}


def text_of(options: Mapping[str, Options], targets: Iterable[str]) -> str:
    """What the next version has to know of the options of these targets."""
    pairs = ((target, options[target].text()) for target in targets)
    return "".join(f"{target}\t{text}\n" for target, text in pairs if text)


def _split(text: str, separator: str) -> list[str]:
    """The parts of a text between separators that are not in quotes, without those that are empty."""
    parts, is_quoted = [""], False
    for character in text:
        is_quoted ^= character == _QUOTE
        if character == separator and not is_quoted:
            parts.append("")
        else:
            parts[-1] += character
    if is_quoted:
        raise Refused([f"a quotation mark without a second one: {shown_text.line_of(text, _MOST_CHARACTERS)}"])
    return list(filter(None, map(str.strip, parts)))


def _quoted(name: str) -> str:
    if name and name == name.strip() and not set(name) & set(f"{_QUOTE},;="):
        return name
    return _QUOTE + name.replace(_QUOTE, _QUOTE * 2) + _QUOTE


def _unquoted(text: str) -> str:
    text = text.strip()
    if len(text) > 1 and text[0] == text[-1] == _QUOTE:
        return text[1:-1].replace(_QUOTE * 2, _QUOTE)
    return text


def _check_names(option: str, names: Sequence[str]) -> None:
    """Refused if a name is one that no column may get, or that two would get."""
    for name in names:
        if name != DROPPED and not is_known(name):
            raise Refused(
                [f"{option}: {shown_text.line_of(name, _MOST_CHARACTERS)} is no column of KBART, and none of x_NAME"]
            )
    _check_once(option, [name for name in names if name != DROPPED])


def _check_once(option: str, names: Sequence[str]) -> None:
    twice = next((name for number, name in enumerate(names) if name in names[:number]), None)
    if twice is not None:
        raise Refused([f"{option}: {shown_text.line_of(twice, _MOST_CHARACTERS)} twice"])


def _columns(options: Options, text: str) -> Options:
    columns = []
    for part in _split(text, ","):
        pair = _split(part, "=")
        if len(pair) != 2:
            raise Refused([f"columns: not NAME=NAME: {shown_text.line_of(part, _MOST_CHARACTERS)}"])
        columns.append((_unquoted(pair[0]), _unquoted(pair[1])))
    if not columns:
        raise Refused(["columns: no names follow"])
    _check_once("columns", [plain_name(name) for name, _ in columns])
    _check_names("columns", [standard for _, standard in columns])
    return dataclasses.replace(options, columns=tuple(columns))


def _header(options: Options, text: str) -> Options:
    names = tuple(map(_unquoted, _split(text, ",")))
    if not names:
        raise Refused(["no header: no names follow"])
    _check_names("no header", names)
    return dataclasses.replace(options, header=names)


def _sheet(options: Options, text: str) -> Options:
    if not text:
        raise Refused(["sheet: no name follows"])
    return dataclasses.replace(options, sheet=_unquoted(text))


def _html(options: Options, text: str) -> Options:
    if text:
        raise Refused([f"html table: nothing may follow: {shown_text.line_of(text, _MOST_CHARACTERS)}"])
    return dataclasses.replace(options, is_html=True)


def _proxy(options: Options, text: str) -> Options:
    prefix = _unquoted(text)
    if not _PREFIX.fullmatch(prefix):
        raise Refused(["proxy: an address that begins with https:// and a host must follow"])
    return dataclasses.replace(options, proxy=prefix)


def _filter(options: Options, text: str) -> Options:
    if not _FILE.fullmatch(text):
        raise Refused(["filter: the name of a file in the folder of filters must follow"])
    return dataclasses.replace(options, filter=text)


def _least(options: Options, text: str) -> Options:
    found = _ROWS.fullmatch(text)
    if not found:
        raise Refused(["least: a number of rows must follow, such as 500 rows"])
    return dataclasses.replace(options, least=int(found[1]))


_READERS: dict[str, Callable[[Options, str], Options]] = {
    "columns": _columns,
    "no header": _header,
    "sheet": _sheet,
    "html table": _html,
    "proxy": _proxy,
    "filter": _filter,
    "least": _least,
}
NAMES = tuple(_READERS)
