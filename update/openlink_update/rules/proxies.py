"""A proxy before the links of a target: the text of the option `proxy`, which the update writes into the rules that it
compiles, before the template of each web link. So the host of a link stays fixed, and it is the proxy's.

    https://proxy.example.org/login?url=      EZproxy, and others: the address after it stays as it is
    https://proxy.example.org/login?qurl=     EZproxy: the address after it is encoded
    https://go.example.org/redirector/..?url= OpenAthens: the same

The proxy decodes an encoded address once. RFC 6570 encodes a value once, so that it is right there only if the address
has it as it is: a variable is allowed whose values need no encoding. A DOI may need some: then the front door sends it
as `x.doi_encoded` too. All else is refused. A row without a page keeps its link that is none."""
import dataclasses
import re
from collections.abc import Iterator
from urllib.parse import quote

from openlink_update import shown_text
from openlink_update.outcome import Refused
from openlink_update.rules import heads
from openlink_update.rules.pages import COLUMN, NO_PAGE
from openlink_update.tables.table import Table, cell

# What a template can have as text, but no fragment, which no proxy would get.
_PREFIX = re.compile(r"(?:[A-Za-z0-9._~:/?@!$&()*+,;=-]|%[0-9A-Fa-f]{2})+")
_ENCODED_ENDS, _ENCODED_PATH = ("?qurl=", "&qurl="), "/redirector/"
_RULE, _LINK, _GUARD = "rule", "link ", "when "
_WEB = re.compile(r"https?://", re.I)
_EXPRESSION = re.compile(r"\{([^{}]*)\}")
_SIMPLE = re.compile(r"([A-Za-z0-9_.%]+)(?::\d{1,4})?")
_PAGE, _DOI, _ENCODED_DOI = f"{{+{COLUMN}}}", "{x.doi}", "x.doi_encoded"
_SAFE = ":/?#[]@!$&'()*+,;=-._~%"  # in a text of a template
_UNRESERVED = re.compile(r"[A-Za-z0-9._~-]*")
# Names that have nothing that needs to be encoded, as the update and the front door write them.
_PLAIN = frozenset(
    "print_identifier online_identifier coverage_from coverage_to x.issn x.eissn x.isbn x.pmid x.oclc x.from x.to "
    "rft.date x.doi_encoded".split()
)
_MOST_CHARACTERS = 60  # of an expression or a cell in a line


def is_encoding(prefix: str) -> bool:
    """Whether the address after a prefix is encoded."""
    return prefix.endswith(_ENCODED_ENDS) or _ENCODED_PATH in prefix


@dataclasses.dataclass
class _Rule:
    """The lines of a rule before its link, and the template."""

    number: int
    lines: list[str]
    template: str


def with_proxy(rules: bytes, prefix: str, table: Table) -> bytes:
    """Rules, which the program accepts, with a prefix before each web link, for a table. They are the same if there is
    no prefix, or if their head says that they need none. Refused if a link behind it would not be right."""
    if not prefix or not heads.parse(rules).has_proxy:
        return rules
    if not _PREFIX.fullmatch(prefix):
        raise Refused(["proxy: only letters, digits, %HH and -._~:/?@!$&()*+,;= are possible"])
    declared, parts = _parts_of(rules.decode("utf-8"))
    made, reasons = list(declared), []
    for rule in parts:
        try:
            made += _behind(rule, prefix, table)
        except Refused as refusal:
            reasons += [f"proxy: rule {rule.number}: {reason}" for reason in refusal.reasons]
    if reasons:
        raise Refused(reasons)
    is_listed = any(_ENCODED_DOI in line for line in made)
    return "".join(f"{line}\n" for line in [*([f"list {_ENCODED_DOI}"] if is_listed else []), *made]).encode()


def _parts_of(text: str) -> tuple[list[str], list[_Rule]]:
    """The lines before the first rule, and the rules. Comments and empty lines are left out."""
    declared: list[str] = []
    rules: list[_Rule] = []
    guards: list[str] = []
    for line in (line.removesuffix("\r") for line in text.split("\n")):
        if line.startswith(_LINK):
            rules.append(_Rule(len(rules) + 1, guards, line.removeprefix(_LINK)))
        elif line == _RULE:
            guards = []
        elif line.startswith(_GUARD):
            guards.append(line)
        elif line and not line.startswith("#"):
            declared.append(line)
    return declared, rules


def _written(guards: list[str], template: str) -> list[str]:
    return [_RULE, *guards, f"{_LINK}{template}"]


def _behind(rule: _Rule, prefix: str, table: Table) -> list[str]:
    """The lines of a rule whose link is behind a prefix, after those of rules that hold in other cases."""
    template = rule.template
    lines: list[str] = []
    if template.startswith(_PAGE):
        lines += _written([*rule.lines, f'when {COLUMN} is "{NO_PAGE}"'], NO_PAGE)
    elif template.startswith("{"):
        raise Refused([f"a link that begins with {_shown(template)}: write {_PAGE}, which is never empty"])
    elif not _WEB.match(template):
        return _written(rule.lines, template)
    if not is_encoding(prefix):
        return [*lines, *_written(rule.lines, prefix + template)]
    if _DOI in template:
        other = template.replace(_DOI, f"{{{_ENCODED_DOI}}}")
        lines += _written([*rule.lines, f"when has {_ENCODED_DOI}"], prefix + "".join(_encoded(other, table)))
    return [*lines, *_written(rule.lines, prefix + "".join(_encoded(template, table)))]


def _encoded(template: str, table: Table) -> Iterator[str]:
    """The pieces of a template whose expansion is the encoded one of this."""
    at = 0
    for found in _EXPRESSION.finditer(template):
        yield _encoded_text(template[at : found.start()])
        at = found.end()
        if found[0] == _PAGE and found.start() == 0:
            yield f"{{{COLUMN}}}"
        else:
            fault = "" if found[0] == _DOI else _fault_of(found[1], table)
            if fault:
                raise Refused([f"{fault}, and the proxy decodes it once"])
            yield found[0]
    yield _encoded_text(template[at:])


def _encoded_text(text: str) -> str:
    """A text of a template, as it is in a link, encoded."""
    return quote(quote(text, safe=_SAFE), safe="")


def _fault_of(expression: str, table: Table) -> str:
    """Why an expression may need to be encoded twice; '' if it never does."""
    name = _SIMPLE.fullmatch(expression)
    if name and name[1] in _PLAIN:
        return ""
    place = table.place(name[1]) if name else None
    if place is None:
        return f"{{{_shown(expression)}}} may have to be encoded twice"
    wrong = next((text for text in (cell(row, place) for row in table.rows) if not _UNRESERVED.fullmatch(text)), None)
    return "" if wrong is None else f'{{{_shown(expression)}}}, such as "{_shown(wrong)}", has to be encoded twice'


def _shown(text: str) -> str:
    return shown_text.line_of(text, _MOST_CHARACTERS)
