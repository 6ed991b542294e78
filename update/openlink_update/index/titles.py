"""The key of a title, by which two ways to write it are compared. front_door/titles.js makes the same keys. Run as a
program it prints fold.json, the table that both need: letters with marks, and the entities of HTML.

1. Tags are removed, and entities are read. `&` is `and`.
2. All letters are small, without marks.
3. A leading l', un' or gl' is removed; other apostrophes are too, and the letters around them are one word.
4. Other punctuation, symbols and spaces are one space.
5. One leading article is removed, if another word follows: in English, German, French, Spanish or Italian. So is a
   definite article after the last comma (`Tides, The`).

Only the first MOST_CHARACTERS of a title count. Without its subtitle, a title ends before the first `:` or `=`, before
a dash or slash between spaces, or before brackets at its end."""
import html.entities
import json
import re
import unicodedata

MOST_CHARACTERS = 500
_TAG = re.compile(r"</?[A-Za-z][A-Za-z0-9:-]{0,19}(?: [^<>]{0,200})?/?>")
_ENTITY = re.compile(r"&(?:#([0-9]{1,7})|#[xX]([0-9A-Fa-f]{1,6})|([A-Za-z][A-Za-z0-9]{1,9}));")
_SPACES = re.compile("[\x00-\x20\x7f-\xa0\u1680\u2000-\u200a\u2028\u2029\u202f\u205f\u3000]+")
_APOSTROPHES = "'`\xb4\u02b9-\u02bd\u2018\u2019\u201b\u2032\uff07"
# What is removed within a word: marks, soft hyphens, characters without a width, and apostrophes.
_REMOVED = re.compile(f"[{_APOSTROPHES}\xad\u0300-\u036f\u200b-\u200f\u202a-\u202e\u2060-\u2064\ufeff]+")
# ASCII and Latin-1, then the blocks of punctuation and symbols.
_SEPARATORS = re.compile(
    "[\x00-/:-@\\[-`{-\xbf\xd7\xf7\u02c2-\u02df\u2000-\u206f\u207a-\u207e\u208a-\u208e"
    "\u20a0-\u20cf\u2100-\u214f\u2190-\u2bff\u2e00-\u2e7f\u3000-\u3004\u3008-\u303f\u30fb"
    "\uff00-\uff0f\uff1a-\uff20\uff3b-\uff40\uff5b-\uff65\ufffd]+"
)
_LEADING = re.compile(f"^{_SEPARATORS.pattern[:-2]}{_APOSTROPHES}]+")
_ELIDED = re.compile(f"(gl|un|l)[{_APOSTROPHES}] *(?=[aeiouhy])")
_ARTICLES = frozenset(
    "the a an der die das den dem des ein eine einen einem einer eines le la les un une el lo los las "
    "una unos unas il i gli uno".split()
)
# Those that a catalogue may put behind a title, after a comma.
_LAST_ARTICLES = frozenset("the der die das le la les el los las il gli".split())
# Where a title ends without its subtitle, its authors or the brackets at its end.
_END = re.compile(" *(?:[:=].*| [-/\u2013\u2014] .*|[(\\[][^()\\[\\]]*[)\\]] *)$")
_MAY_END = re.compile("[-/:=)\\]\u2013\u2014]")  # what _END needs, found in a tenth of its time
# Umlauts, whole and of two characters, as two letters.
_UMLAUTS = {
    f"{letter}{mark}": f"{plain}e"
    for letters, mark in (("äöü", ""), ("aou", "\u0308"))
    for letter, plain in zip(letters, "aou")
}

# Small letters that Unicode does not decompose, and the form of sigma that only ends a word.
_LETTERS = {
    "ß": "ss",
    "æ": "ae",
    "ø": "o",
    "œ": "oe",
    "ł": "l",
    "đ": "d",
    "þ": "th",
    "ð": "d",
    "ı": "i",
    "ħ": "h",
    "ŉ": "n",
    "ŋ": "n",
    "ŧ": "t",
    "ς": "σ",
}
# Latin-1, Latin, Greek and Cyrillic letters, superscripts, Roman numerals, ligatures, and wide letters and digits.
_RANGES = (
    (0xAA, 0xBA),
    (0xDF, 0x24F),
    (0x386, 0x52F),
    (0x1E00, 0x1FFF),
    (0x2070, 0x209C),
    (0x2170, 0x217F),
    (0xFB00, 0xFB06),
    (0xFF10, 0xFF5A),
)


def letters() -> dict[str, str]:
    """What each small letter with a mark is without it, and likewise letters and digits of another form."""
    table = dict(_LETTERS)
    for char in (chr(code) for first, last in _RANGES for code in range(first, last + 1)):
        parts = unicodedata.normalize("NFKD", char)
        plain = "".join(part for part in parts if not unicodedata.combining(part))
        if char not in table and char == char.lower() and plain != char and plain.isalnum():
            table[char] = "".join(table.get(part, part) for part in plain.lower())
    return table


def entities() -> dict[str, str]:
    """The characters of the entities of HTML 4, and of &apos;."""
    return {"apos": "'", **{name: chr(code) for name, code in html.entities.name2codepoint.items()}}


_FOLD = str.maketrans(letters())
_ENTITIES = entities()
_ASCII = {code: None if _REMOVED.fullmatch(chr(code)) else " " for code in range(128) if not chr(code).isalnum()}


def _character(found: re.Match[str]) -> str:
    """What an entity stands for; the entity itself, if it is none."""
    decimal, hexadecimal, name = found.groups()
    if name:
        return _ENTITIES.get(name) or _ENTITIES.get(name.lower()) or found[0]
    code = int(decimal) if decimal else int(hexadecimal, 16)
    return chr(code) if 0 < code < 0xD800 or 0xDFFF < code < 0x110000 else found[0]


def plain(title: str) -> str:
    """A title without markup; some providers escape it twice."""
    if "&" in title:
        title = _ENTITY.sub(_character, _ENTITY.sub(_character, title))
    if "<" in title:
        title = _TAG.sub("", title)
    if "  " in title or not title.isprintable():  # of all spaces, only that of ASCII is printable
        title = _SPACES.sub(" ", title)
    return title.strip(" ")


def article_and_key(title: str) -> tuple[str, str]:
    """The leading article of a title ('' if there is none), and its key."""
    text = plain(title[:MOST_CHARACTERS]).lower().replace("&", " and ")
    if not text.isascii():
        text = text.translate(_FOLD)
    text, last = _without_last_article(text)
    if not text[:1].isalnum():
        text = _LEADING.sub("", text)
    elided = _ELIDED.match(text)
    if elided:
        return elided[1], " ".join(_words_of(text[elided.end() :]))
    words = _words_of(text)
    has_article = len(words) > 1 and words[0] in _ARTICLES
    return (words[0], " ".join(words[1:])) if has_article else (last, " ".join(words))


def _without_last_article(text: str) -> tuple[str, str]:
    """A title without an article after its last comma, and this article."""
    title, _, end = text.rpartition(",")
    words = _words_of(end) if title else []
    return (title, words[0]) if len(words) == 1 and words[0] in _LAST_ARTICLES else (text, "")


def _words_of(text: str) -> list[str]:
    return (text.translate(_ASCII) if text.isascii() else _SEPARATORS.sub(" ", _REMOVED.sub("", text))).split()


def key_of(title: str) -> str:
    return article_and_key(title)[1]


def written_out(title: str) -> str:
    """A title whose umlauts are written as two letters."""
    text = plain(title[:MOST_CHARACTERS]).lower()
    for umlaut, both in _UMLAUTS.items():
        text = text.replace(umlaut, both)
    return text


def written_key(title: str) -> str:
    """The key of a title whose umlauts are written as two letters; '' if it has none."""
    text = "" if title.isascii() and "&" not in title else written_out(title)
    return key_of(text) if text and text != plain(title[:MOST_CHARACTERS]).lower() else ""


def short(title: str) -> str:
    """A title without its subtitle, or without brackets at its end; '' if there are none."""
    text = plain(title[:MOST_CHARACTERS])
    if not _MAY_END.search(text):
        return ""
    found = _END.sub("", text, count=1)
    return found if found != text else ""


def short_key(title: str) -> str:
    """The key without the subtitle, or without brackets at the end; '' if there are none."""
    return key_of(short(title))


if __name__ == "__main__":
    print(json.dumps({"letters": letters(), "entities": entities()}, ensure_ascii=False, sort_keys=True))
