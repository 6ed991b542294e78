"""The formats of the exports, written down from their descriptions and not from the program.

KBART: the data fields of NISO RP-9-2014, "Knowledge Bases and Related Tools (KBART) Recommended Practice", April 2014,
in their order.

Google Scholar: the elements of "Institutional Holdings 1.0" and "Institutional Links 1.0", whose document types are
http://scholar.google.com/scholar/institutional_holdings.dtd and institutional_links.dtd, as libraries and their
software describe them; noted on 2026-11-27 without access to these addresses. A file has less than 1 MB."""
from __future__ import annotations

import xml.etree.ElementTree as xml

KBART = """publication_title
print_identifier
online_identifier
date_first_issue_online
num_first_vol_online
num_first_issue_online
date_last_issue_online
num_last_vol_online
num_last_issue_online
title_url
first_author
title_id
embargo_info
coverage_depth
notes
publisher_name
publication_type
date_monograph_published_print
date_monograph_published_online
monograph_volume
monograph_edition
first_editor
parent_publication_title_id
preceding_publication_title_id
access_type""".split(
    "\n"
)

# For each element, its children in their order: `?` at most once, `*` any number, `+` at least one, else exactly one.
HOLDINGS = {
    "institutional_holdings": "item*",
    "item": "title issn? coverage",
    "coverage": "from? to? embargo? comment?",
    "from": "year month? volume? issue?",
    "to": "year month? volume? issue?",
    "embargo": "days_not_available",
}
LINKS = {
    "institutional_links": "institution keywords? contact? electronic_link_label other_link_label openurl_base "
    "openurl_option* electronic_holdings patron_ip_range*",
    "electronic_holdings": "url+",
}
DOCTYPE = '<!DOCTYPE {0} PUBLIC "-//GOOGLE//{1} 1.0" "http://scholar.google.com/scholar/{0}.dtd">'
MOST_BYTES = 1_000_000


def faults_of(element: xml.Element, model: dict[str, str]) -> list[str]:
    """Where an element and what is in it have other children than the model."""
    expected = model.get(element.tag, "")
    rest = [child.tag for child in element]
    for part in expected.split():
        name, many = part.rstrip("?*+"), part[-1]
        count = 0
        while rest and rest[0] == name and (count == 0 or many in "*+"):
            rest.pop(0)
            count += 1
        if count == 0 and many not in "?*":
            return [f"{element.tag} has no {name}"]
    if rest:
        return [f"{element.tag} has {rest[0]} where it may not"]
    return [fault for child in element for fault in faults_of(child, model)]
