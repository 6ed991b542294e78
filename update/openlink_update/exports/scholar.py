"""The library's journals as Google Scholar reads them: institutional_holdings, in parts, and institutional_links, which
names the parts and the base URL. Each ISSN of each row has an item: the format may allow several in one, but is not
described in full."""
import datetime
import html
import re
from collections.abc import Iterable, Iterator

from openlink_update.exports.site_names import SiteNames
from openlink_update.index.titles import plain
from openlink_update.tables.embargo import Embargo
from openlink_update.tables.identifiers import form_of, is_issn
from openlink_update.tables.row_dates import DATE, NONE, date_in

_MOST_BYTES = 1_000_000  # of a part
_NOT_FULL_TEXT = ("abstracts", "print")
_NUMBER = re.compile(r"[1-9]\d{0,5}", re.A)
_NO_XML = re.compile("[\x00-\x08\x0b\x0c\x0e-\x1f\ud800-\udfff\ufffe\uffff]")
_HEAD = """<?xml version="1.0" encoding="UTF-8"?>
<!DOCTYPE {0} PUBLIC "-//GOOGLE//{1} 1.0" "http://scholar.google.com/scholar/{0}.dtd">
<{0}>
"""
_HOLDINGS, _LINKS = ("institutional_holdings", "Institutional Holdings"), ("institutional_links", "Institutional Links")
_OPTIONS = ("doi", "pmid", "journal-title")


def _element(name: str, text: str) -> str:
    return f"<{name}>{html.escape(_NO_XML.sub('', text), quote=False)}</{name}>" if text else ""


def _date_element(name: str, cell: str, volume: str, issue: str) -> str:
    """A `from` or `to`; '' if the cell has no date."""
    date = date_in(cell)
    if not DATE.fullmatch(date):
        return ""
    parts = _element("year", date[:4]) + _element("month", date[5:7].lstrip("0"))
    numbers = "".join(
        _element(kind, cell.strip())
        for kind, cell in (("volume", volume), ("issue", issue))
        if _NUMBER.fullmatch(cell.strip())
    )
    return f"<{name}>{parts}{numbers}</{name}>"


def _coverage_of(row: dict[str, str], provider: str, day: datetime.date) -> str | None:
    """What a row covers on a day; None if nothing."""
    embargo = Embargo.parse(row.get("embargo_info", ""))
    first, last = row.get("date_first_issue_online", ""), row.get("date_last_issue_online", "")
    start = [row.get(f"num_first_{kind}_online", "") for kind in ("vol", "issue")]
    opens = closes = closed = None
    if embargo is not None:
        opens, closes, closed = embargo.first_open(day), embargo.last_open(day), embargo.days_closed()
    if opens:
        opened = opens.isoformat()
        if date_in(first) == NONE or date_in(first) < opened:
            first, start = opened, ["", ""]
    end = (closes or day).isoformat()
    limit = min(end, f"{date_in(last)}-99") if date_in(last) != NONE else end
    if date_in(first) != NONE and date_in(first) > limit:
        return None
    days = _element("days_not_available", "" if closed is None else str(closed))
    return "".join(
        (
            "<coverage>",
            _date_element("from", first, *start),
            _date_element("to", last, *(row.get(f"num_last_{kind}_online", "") for kind in ("vol", "issue"))),
            f"<embargo>{days}</embargo>" if days else "",
            _element("comment", provider),
            "</coverage>",
        )
    )


def items(rows: Iterable[dict[str, str]], provider: str, day: datetime.date) -> Iterator[str]:
    """Yields an item for each ISSN of each row of full text."""
    for row in rows:
        if row.get("coverage_depth", "").strip().lower() in _NOT_FULL_TEXT:
            continue
        forms = dict.fromkeys(form_of(row.get(f"{kind}_identifier", "")) for kind in ("print", "online"))
        issns = [form for form in forms if is_issn(form)]
        coverage = _coverage_of(row, provider, day) if issns else None
        if coverage:
            title = _element("title", plain(row["publication_title"]))
            for issn in issns:
                yield f'<item type="electronic">{title}{_element("issn", issn)}{coverage}</item>\n'


def holdings(items: Iterable[str]) -> Iterator[str]:
    """Yields documents with all items, each of at most _MOST_BYTES."""
    head, end = _HEAD.format(*_HOLDINGS), f"</{_HOLDINGS[0]}>\n"
    parts: list[str] = []
    size = 0
    for item in items:
        length = len(item.encode())
        if parts and len(head) + size + length + len(end) > _MOST_BYTES:
            yield head + "".join(parts) + end
            parts, size = [], 0
        parts.append(item)
        size += length
    yield head + "".join(parts) + end


def links(names: SiteNames, base: str, addresses: list[str]) -> str:
    """The document for the library's entry in Google Scholar; '' if targets.json has no `scholar`."""
    if not names.scholar("label"):
        return ""
    lines = [
        _element("institution", names.library()),
        _element("keywords", names.scholar("keywords")),
        _element("contact", names.scholar("contact")),
        _element("electronic_link_label", names.scholar("label")),
        _element("other_link_label", names.scholar("otherLabel") or names.scholar("label")),
        _element("openurl_base", f"{base}/find"),
        *(_element("openurl_option", it) for it in _OPTIONS),
        f"<electronic_holdings>{''.join(_element('url', it) for it in addresses)}</electronic_holdings>",
        *(_element("patron_ip_range", it) for it in names.scholar("addresses").split()),
    ]
    return _HEAD.format(*_LINKS) + "".join(f"{line}\n" for line in lines if line) + f"</{_LINKS[0]}>\n"
