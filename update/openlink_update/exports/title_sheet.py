"""The titles of the index as a table for a spreadsheet: title, numbers, coverage and targets, in the order of the
alphabet, journals first."""
from collections.abc import Iterable, Iterator

from openlink_update import shown_text
from openlink_update.exports.site_names import SiteNames
from openlink_update.index.title_groups import Title
from openlink_update.tables.identifiers import is_issn
from openlink_update.tables.parts import base_of

_HEADER = ("title", "numbers", "coverage", "targets")
_BYTE_ORDER_MARK = "\ufeff"  # by which a spreadsheet knows that the file is UTF-8


def _numbers_text(numbers: Iterable[str]) -> str:
    return "; ".join(f"{'ISSN' if is_issn(number) else 'ISBN'} {number}" for number in numbers)


def _period(first: str, last: str, embargo: str) -> str:
    dates = f"{first} to {last}" if first and last else f"since {first}" if first else f"until {last}" if last else ""
    return ", ".join(filter(None, (dates, embargo and f"embargo {embargo.replace(',', ';')}")))


def _coverage_of(text: str, names: SiteNames) -> tuple[str, str]:
    """The coverage and the labels of the targets of a title's entries in the index, without repetitions."""
    entries: list[str] = []
    labels: list[str] = []
    for entry in text.split(";") if text else ():
        target, _, *rest = entry.split(" ")
        first, last, embargo = ("" if it == "-" else it for it in (rest + ["-"] * 3)[:3])
        labels.append(" ".join(names.label(base_of(target)).split()))
        entries.append(": ".join(filter(None, (labels[-1], _period(first, last, embargo)))))
    return "; ".join(dict.fromkeys(entries)), "; ".join(dict.fromkeys(labels))


def lines(titles: Iterable[Title], names: SiteNames) -> Iterator[str]:
    """Yields the lines of the table."""
    yield _BYTE_ORDER_MARK + "\t".join(_HEADER)
    for title in sorted(titles, key=lambda title: (not title.is_journal, title.key, title.name, title.forms)):
        coverage = _coverage_of(title.coverage_text(), names)
        yield shown_text.row((title.name, _numbers_text(title.numbers()), *coverage))
