"""The list of sources, sources.tsv: a line for each file that is fetched, with its path below the folder of the list, a
tab, its address, a tab, and options separated by semicolons; the last cell may be missing.

    header NAME: VALUE   a line of the request
    member PATTERN       the file is the member of a .zip whose name fits
    every N days         it is not fetched again before
    least N rows         with fewer it is not used
    html table           a web page that holds one table is one
    plain http           the address may begin with http:

{NAME} in an address or a header stands for a value of secrets.tsv, whose lines have a name, a tab and the value. Empty
lines and lines that begin with # are skipped in both."""
import dataclasses
import re
import stat
from urllib.parse import quote, urlsplit

from openlink_update.input_files import InputFolder, Line, lines_in

LIST, SECRETS = "sources.tsv", "secrets.tsv"
_LISTS = ("targets.tsv", "probes.tsv", LIST, SECRETS)
_SECRET = re.compile(r"\{([A-Za-z0-9_.-]{1,64})\}")
_HEADER = re.compile(r"header +([A-Za-z0-9-]+): *(.*\S)")
_EVERY, _LEAST = re.compile(r"every (\d{1,5}) days?"), re.compile(r"least (\d{1,9}) rows?")
_PRINTABLE = re.compile(r"[!-~]+")


class Wrong(Exception):
    """A line, or a value that it needs, is wrong; the text says how."""


@dataclasses.dataclass(frozen=True)
class _Header:
    """A line of a request. {NAME} in its value stands for a secret."""

    name: str
    value: str


@dataclasses.dataclass(frozen=True)
class Source:
    file: str  # below the folder of the list
    address: str  # {NAME} stands for a secret
    headers: tuple[_Header, ...] = ()
    member: str = ""
    every: int = 0  # days
    least: int = 1  # rows
    is_plain: bool = False
    is_html: bool = False

    def text(self) -> str:
        """What the reply depends on, without secrets."""
        return "\t".join([self.address, self.member, *(f"{header.name}: {header.value}" for header in self.headers)])

    def names(self) -> set[str]:
        """The names of the secrets that it needs."""
        texts = (self.address, *(header.value for header in self.headers))
        return {name for text in texts for name in _SECRET.findall(text)}

    def address_with(self, secrets: dict[str, str]) -> str:
        """Its address. The characters of a secret cannot change what the other parts of it mean."""
        return _SECRET.sub(lambda match: quote(secrets[match[1]], safe=""), self.address)

    def headers_with(self, secrets: dict[str, str]) -> list[str]:
        return [
            f"{header.name}: {_SECRET.sub(lambda match: secrets[match[1]], header.value)}" for header in self.headers
        ]


def _lines(folder: InputFolder, name: str, data: bytes) -> list[Line]:
    """The lines of a list with these bytes. Wrong if it has another encoding."""
    try:
        return list(lines_in(data))
    except UnicodeDecodeError as fault:
        raise Wrong(f"{folder.place(name)}: not UTF-8") from fault


def read(folder: InputFolder) -> tuple[list[Source], list[str]]:
    """The sources of a folder's list, and a line for each line of it that is wrong."""
    sources: dict[str, Source] = {}
    faults = []
    try:
        lines = _lines(folder, LIST, folder.read(LIST))
    except Wrong as fault:
        return [], [str(fault)]
    for line in lines:
        try:
            source = _source_of([cell.strip() for cell in line.cells])
            if source.file in sources:
                raise Wrong(f"a second source of {source.file}")
            sources[source.file] = source
        except Wrong as fault:
            faults.append(f"{folder.place(LIST)}: line {line.number}: {fault}")
    return list(sources.values()), faults


def _source_of(cells: list[str]) -> Source:
    if len(cells) not in (2, 3) or not all(cells[:2]):
        raise Wrong("not a file, an address and options, with tabs between them")
    file, address = cells[:2]
    parts = file.split("/")
    if "" in parts or any(part.startswith(".") for part in parts) or file in _LISTS:
        raise Wrong(f"{file} cannot be fetched: not a path below the folder, or a list")
    source = Source(file, address)
    for text in filter(None, map(str.strip, cells[2].split(";") if len(cells) == 3 else ())):
        source = _with_option(source, text)
    _check_address(address, source.is_plain)
    return source


def _with_option(source: Source, text: str) -> Source:
    """The source with one more option."""
    header, every, least = (form.fullmatch(text) for form in (_HEADER, _EVERY, _LEAST))
    if header:
        return dataclasses.replace(source, headers=(*source.headers, _Header(header[1], header[2])))
    if every:
        return dataclasses.replace(source, every=int(every[1]))
    if least:
        return dataclasses.replace(source, least=int(least[1]))
    if text.startswith("member "):
        return dataclasses.replace(source, member=text[7:].strip())
    if text == "html table":
        return dataclasses.replace(source, is_html=True)
    if text == "plain http":
        return dataclasses.replace(source, is_plain=True)
    raise Wrong(f"unknown option {text.split(' ')[0]}")


def _check_address(address: str, is_plain: bool) -> None:
    try:
        parts = urlsplit(address)
        has_place = bool(parts.hostname) and parts.port != 0
    except ValueError:
        has_place = False
    if not has_place or not _PRINTABLE.fullmatch(address):
        raise Wrong("not an address")
    if parts.scheme not in (("https", "http") if is_plain else ("https",)):
        raise Wrong("not an address that begins with https:" + (" or http:" if is_plain else ""))
    if "@" in parts.netloc or "{" in parts.netloc:
        raise Wrong("an address with a name or a secret in its host")


def read_secrets(folder: InputFolder) -> dict[str, str]:
    """The secrets of a folder, none if there is no file of them. Wrong if others than its owner may read it."""
    path = folder.place(SECRETS)
    try:
        file = folder.file(SECRETS)
    except FileNotFoundError:
        return {}
    if stat.S_IMODE(file.mark.st_mode) & 0o077:
        raise Wrong(f"{path}: others than its owner may read it: chmod 600")
    secrets = {}
    for line in _lines(folder, SECRETS, file.data):
        name, value = line.cells if len(line.cells) == 2 else ("", "")
        if not _SECRET.fullmatch(f"{{{name}}}") or not value.strip() or not value.isprintable():
            raise Wrong(f"{path}: line {line.number}: not a name, a tab and a value")
        secrets[name] = value.strip()
    return secrets
