"""The head of a rule file: its comments before the first other line. Some of them say what readers see of a target that
targets.json does not name, and whether a proxy is put before the links:

    # label: Library catalogue
    # label de: Bibliothekskatalog
    # group: In the library
    # proxy: never

The rules may be anybody's, so a text is one line of few characters, without those that are not safe to show."""
import dataclasses
import re

from openlink_update import shown_text

_MOST_BYTES = 16_384  # of a file, in which its head is looked for
_MOST_CHARACTERS = 100  # of a label or the name of a group
_MOST_LANGUAGES = 24
_ENTRY = re.compile(r"# ?(label|group|proxy)(?: ([A-Za-z]{2,8}(?:-[A-Za-z0-9]{1,8}){0,4}))? ?:(.*)", re.A)
_NEVER = "never"


@dataclasses.dataclass(frozen=True)
class Head:
    labels: tuple[tuple[str, str], ...] = ()  # a language, '' for all others, and the label
    group: str = ""
    has_proxy: bool = True  # unless the links are for everyone

    def is_empty(self) -> bool:
        return not self.labels and not self.group


def parse(rules: bytes) -> Head:
    """The head of a rule file. Of two lines of one name the first counts."""
    labels: dict[str, str] = {}
    others: dict[str, str] = {}
    for line in rules[:_MOST_BYTES].decode("utf-8-sig", "replace").split("\n"):
        if line.strip() and not line.startswith("#"):
            break
        found = _ENTRY.fullmatch(line.rstrip("\r"))
        text = _plain(found[3]) if found else ""
        if found and text and found[1] == "label" and len(labels) < _MOST_LANGUAGES:
            labels.setdefault(found[2] or "", text)
        elif found and text and not found[2]:
            others.setdefault(found[1], text)
    return Head(tuple(labels.items()), others.get("group", ""), others.get("proxy") != _NEVER)


def _plain(text: str) -> str:
    """A text as readers may see it: on one line, without a replaced byte, and cut."""
    return " ".join(shown_text.printable(text.replace("\ufffd", " ")).split())[:_MOST_CHARACTERS].strip()
