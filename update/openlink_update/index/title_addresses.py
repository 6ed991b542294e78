"""The addresses of the pages that providers have for their titles (title_url), as the index has them. The front door
offers one where the rules of the target have no link for a request without a date, and so only those of such targets
are in the index. An address begins with https and a host that is accepted for the target, and has only printable ASCII.
If the target is behind a proxy, it is the proxy's with this address in it."""
import dataclasses
import re
from urllib.parse import quote

_MOST_CHARACTERS = 500  # of an address, with that of the proxy
_ADDRESS = re.compile(r"https://([A-Za-z0-9.-]+(?::[0-9]+)?)(?:[/?#][!-~]*)?")


@dataclasses.dataclass(frozen=True)
class Proxy:
    """What stands before each address of a target."""

    prefix: str = ""
    is_encoded: bool = False  # whether the address behind it is


@dataclasses.dataclass(frozen=True)
class Offer:
    """Which addresses of a target the index has."""

    kinds: str = ""  # `j`, `b` or both
    hosts: frozenset[str] = frozenset()
    proxy: Proxy | None = Proxy()  # None: it is not known which one, so there is no address

    def address(self, kind: str, text: str) -> str:
        """The address that the index has for a cell of a title of a kind; '' if it has none."""
        if kind not in self.kinds or self.proxy is None:
            return ""
        match = _ADDRESS.fullmatch(text.strip())
        if match is None or match[1].lower() not in self.hosts:
            return ""
        address = match[0]
        whole = self.proxy.prefix + (quote(address, safe="") if self.proxy.is_encoded else address)
        return whole if len(whole) <= _MOST_CHARACTERS else ""


NO_OFFER = Offer()
