"""The words by which a target's line in targets.tsv allows something: those of the warnings of `inspect` and `lint`, of
what the update finds itself, and of slips. Any other text beside the options is an error of the line, since it would
allow nothing."""
import difflib
import re
from collections.abc import Collection

from openlink_update import shown_text, target_options
from openlink_update.slips import kinds, slip_judge

ANY_OF_LINT, GONE, CAME, FEWER = "rule", "gone", "came", "less than half of the rows"
SAME, HOSTS = "same address", "hosts"
UP_TO = re.compile(r"(.*\S) up to (\d{1,9})%?", re.A)
_OF_INSPECT = frozenset(
    (
        "rows",
        "identifiers",
        "unknown column",
        "ignored column",
        "rows without an identifier",
        "not an ISSN or ISBN",
        "date_first_issue_online not a date",
        "date_last_issue_online not a date",
        "title_url not a web link",
        "rows longer than the header",
    )
)
_OF_LINT = frozenset(("rules", "is never reached", "never holds", "a row may give no host, or one with @"))
_BEFORE_NAMES = ("no column", "unknown name", "a request can set the host by")  # of inspect and lint
_OF_UPDATE = frozenset((ANY_OF_LINT, GONE, CAME, FEWER, SAME, "dropped"))
_OF_STATUS = frozenset(f"openlink {command} has status" for command in ("inspect", "lint"))
_NUMBER = re.compile(r"(.*?\S)(?: *up *to)? *(\d{1,9}%?)", re.A | re.I)
_NAME = re.compile(r" [!-~]{0,300}(?:, did you mean [!-~]{0,300})?", re.A)
_MOST_CHARACTERS = 100  # of a text in a line
_MOST_SAID = 5  # of a line of the list
_LIKE = 0.6  # from which on two texts are alike


def is_word_of_hosts(text: str) -> bool:
    """Whether a text of a target's line allows hosts."""
    return text.split(" ")[0] == HOSTS and " +" in text


def _is_known(text: str) -> bool:
    match = UP_TO.fullmatch(text)
    words = match[1] if match else text
    if words in _OF_INSPECT | _OF_LINT | _OF_UPDATE | _OF_STATUS or slip_judge.is_word(text):
        return True
    if is_word_of_hosts(text):
        return all(word.startswith("+") for word in text.split()[1:])
    rest = next((words[len(start) :] for start in _BEFORE_NAMES if words.startswith(start)), None)
    return rest == "" or rest is not None and _NAME.fullmatch(rest) is not None


def unknown(texts: Collection[str]) -> list[str]:
    """What is wrong with those of the texts of a line that are neither options nor such words, each with what is near
    it."""
    odd = sorted(text for text in texts if not _is_known(text))
    lines = [f"neither an option nor words that allow something: {_with_likeness(text)}" for text in odd[:_MOST_SAID]]
    return lines + ([f"{len(odd) - _MOST_SAID} more of them"] if len(odd) > _MOST_SAID else [])


def _with_likeness(text: str) -> str:
    text = shown_text.line_of(text, _MOST_CHARACTERS)
    match = _NUMBER.fullmatch(text)
    words, number = (match[1], f" up to {match[2]}") if match else (text, "")
    names = _OF_INSPECT | _OF_LINT | _OF_UPDATE | {*kinds.WORDS, *_BEFORE_NAMES, *target_options.NAMES}
    small = {name.lower(): name for name in names}
    for it in (words, *(" ".join(words.split()[:count]) for count in (2, 1))):
        near = difflib.get_close_matches(it.lower(), sorted(small), 1, _LIKE)
        if near:
            return f"{text}, did you mean {small[near[0]]}{number if it is words else ''}"
    return f"{text}, did you mean hosts +HOST" if words.lower().startswith("host") else text
