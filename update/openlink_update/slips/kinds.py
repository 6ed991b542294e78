"""The slips of providers that harm readers, each with the words that allow it. A slip that more than a share of the
rows have keeps the old table: see slip_judge.py."""
import dataclasses
from collections.abc import Callable

from openlink_update.slips import addresses, compared_cells, odd_cells, odd_rows, titles
from openlink_update.slips.material import Found, Pair
from openlink_update.tables import date_order

_SHARE = 2  # in 100 rows


@dataclasses.dataclass(frozen=True)
class Kind:
    words: str
    find: Callable[[Pair], Found | None]
    share: int = _SHARE  # in 100: what is no more keeps no table out
    # Whether a first table may be in order with it: then it is used, with a line.
    is_usual: bool = False
    is_of_most: bool = False  # whether it is none below the share
    is_said: bool = True  # by this judge


KINDS = (
    Kind(odd_cells.words_of_digits("print_identifier"), odd_cells.wrong_digits("print_identifier")),
    Kind(odd_cells.words_of_digits("online_identifier"), odd_cells.wrong_digits("online_identifier")),
    Kind("no first date in any row", odd_cells.no_first_date, is_usual=True),
    Kind("first dates after today", odd_cells.after_today),
    Kind(date_order.WORDS, odd_cells.reversed_dates, is_said=False),  # preparation says it
    Kind("session identifiers in addresses", addresses.sessions),
    Kind("the proxy of another library in addresses", addresses.other_proxies),
    Kind("new texts that rules do not compare with", compared_cells.new_texts),
    Kind("rules that hold on no row", compared_cells.rules_without_rows),
    Kind("volumes or issues that are no number", odd_cells.no_volumes, is_usual=True),
    Kind("damaged letters in titles", titles.damaged),
    Kind("titles in capitals", titles.capitals, is_usual=True),
    Kind("numbers known under other titles", titles.other_titles, share=20, is_of_most=True),
    Kind("abstracts alone", odd_cells.abstracts_alone, is_usual=True),
    Kind("embargoes in notes", odd_cells.embargo_in_notes, is_usual=True),
    Kind("coverage in notes", odd_cells.coverage_in_notes, is_usual=True),
    Kind("no line end after the last row", odd_rows.no_line_end),
    Kind("no numbers left in a column", odd_cells.empty_columns),
    Kind("the same number in most rows", odd_cells.same_number, share=50, is_of_most=True),
    Kind("rows of a total or a footnote", odd_rows.totals_and_footnotes),
)
WORDS = frozenset(kind.words for kind in KINDS)
