"""Slips of addresses: what belongs to one reader's visit, or to another library."""
import re
from collections.abc import Callable, Iterable

from openlink_update.slips.material import Found, Material, Pair
from openlink_update.tables.link_hosts import Templates, texts_before_addresses

_PAGE = "title_url"
# What a column has in small letters if an address in it may be one of these: quicker than to look at each cell.
_SESSION_SIGNS = ("sess", "cftoken", "sid=", "/(s(")
_PROXY_SIGNS = ("proxy", "idm.oclc.org", "//0-", "openathens", "url=http", "target=http")
_SESSION = re.compile(
    r"[;?&](?:jsessionid|phpsessid|(?:asp)?sessionid\w*|session[_-]?id|sessid|cftoken)=[\w.!%-]{6,}"
    r"|[;?&]sid=[0-9a-f-]{20,}|/\(S\(\w{20,}\)\)",
    re.I | re.A,
)
_ADDRESS = re.compile(r"https?://(?:[^/?#@]*@)?([^/?#]*)([^?#]*)(.*)", re.I)
_PASSED_ON = re.compile(r"[?&](?:q?url|target)=https?(?:://|%3a%2f%2f)([^/?#&%:]*)", re.I)
_OPEN_ATHENS = "openathens.net"
_OF_A_HOST = re.compile(r"\w+-[\w-]+")  # a host as a label, such as www-jstor-org


def sessions(pair: Pair) -> Found | None:
    """Addresses with the number of a visit, which ends with it."""
    return _found(pair.now, _SESSION_SIGNS, lambda text: _SESSION.search(text) is not None)


def other_proxies(pair: Pair) -> Found | None:
    """Addresses behind a proxy that neither the rules nor the target's line name."""
    own = [text for text, _ in texts_before_addresses(pair.now.rules or b"")]
    own = [text.lower().partition("?")[0] for text in (*own, pair.now.proxy) if text]
    fixed = Templates.parse(pair.now.rules or b"").fixed

    def is_other(text: str) -> bool:
        match = _ADDRESS.match(text)
        if match is None or not _is_proxied(match[1].lower(), match[2].lower(), match[3]):
            return False
        is_shared = match[1].lower().endswith(_OPEN_ATHENS)  # by libraries, which its paths distinguish
        start = text.lower().partition("?")[0]
        if is_shared:
            return start not in own
        return match[1].lower() not in fixed and not any(match[1].lower() == it.split("/")[2] for it in own)

    return _found(pair.now, _PROXY_SIGNS, is_other)


def _is_proxied(host: str, path: str, query: str) -> bool:
    passed_on = _PASSED_ON.search(query)
    if "ezproxy" in host or "libproxy" in host or host.endswith(".idm.oclc.org") or host.startswith("0-"):
        return True
    if host.endswith(_OPEN_ATHENS):
        return "/redirector/" in path or "proxy" in host
    labels = host.split(".")
    if any("proxy" in label for label in labels):
        return passed_on is not None or any(map(_OF_A_HOST.fullmatch, labels))
    return passed_on is not None and path.endswith("/login") and passed_on[1].lower() != host


def _found(material: Material, signs: Iterable[str], is_slip: Callable[[str], bool]) -> Found | None:
    """The rows of which a cell that links have is a slip."""
    names = Templates.parse(material.rules).names if material.rules is not None else frozenset(material.table.columns)
    found: dict[int, str] = {}
    for column in dict.fromkeys((_PAGE, *material.table.columns)):
        if column != _PAGE and column not in (names or ()):
            continue
        small, cells = material.small_text(column), material.cells(column)
        if not any(sign in small for sign in signs):
            continue
        for place, cell in enumerate(cells):
            if "://" in cell and place not in found and is_slip(cell):
                found[place] = cell
    if not found:
        return None
    first = min(found)
    return Found(len(found), len(material.table.rows), found[first])
