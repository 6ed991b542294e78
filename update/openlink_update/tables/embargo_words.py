"""Embargoes in words, as KBART writes them where one reading is possible: a number, a unit, and words that only say
that the last months are closed. What else is in the cell leaves it as it is, such as `last 5 years only`."""
import functools
import re
import unicodedata

_UNITS = {
    "Y": "year years yr yrs jahr jahre jahren an ans annee annees ano anos anno anni jaar jaren",
    "M": "month months mo mos mth mths monat monate monaten mois mes meses mese mesi maand maanden",
    "W": "week weeks wk wks woche wochen semaine semaines semana semanas settimana settimane weken",
    "D": "day days tag tage tagen jour jours dia dias giorno giorni dag dagen",
}
_UNIT_OF = {word: unit for unit, words in _UNITS.items() for word in words.split()}
_NUMBERS = {
    1: "one ein eine einem un une uno una een",
    2: "two zwei deux dos due twee",
    3: "three drei trois tres tre drie",
    4: "four vier quatre cuatro quattro",
    5: "five funf cinq cinco cinque vijf",
    6: "six sechs seis sei zes",
    9: "nine neun neuf nueve nove negen",
    10: "ten zehn dix diez dieci tien",
    12: "twelve zwolf douze doce dodici twaalf",
    18: "eighteen achtzehn dieciocho diciotto achttien",
    24: "twentyfour vierundzwanzig vingtquatre veinticuatro ventiquattro",
}
_NUMBER_OF = {word: number for number, words in _NUMBERS.items() for word in words.split()}
_ROUND = set(
    "embargo embargoed delay delayed delays moving rolling wall period after publication publisher of by "
    "sperrfrist verzogerung verzug nach erscheinen von retard decalage barriere mobile apres parution de d "
    "retraso demora tras publicacion ritardo dopo di vertraging na".split()
)
_NONE = {"none", "no embargo", "keine", "kein embargo", "aucun", "aucun embargo", "sin embargo", "nessuno", "geen", "0"}
_ALLOWED = re.compile(r"[a-z0-9 :().'-]*", re.A)
_PIECES = re.compile(r"[a-z]+|\d+", re.A)
_MOST_DIGITS, _MOST_CHARACTERS = 5, 60
_DAYS_OF_WEEK = 7


def standard(cell: str) -> str:
    """The embargo of a cell as KBART writes it; '' if the cell says that there is none; the cell itself if it has no
    embargo in words, or one with two readings."""
    return _standard(cell) if len(cell) <= _MOST_CHARACTERS else cell


@functools.lru_cache(maxsize=4096)  # the same cells come again
def _standard(cell: str) -> str:
    letters = unicodedata.normalize("NFKD", cell.lower())
    text = " ".join("".join(it for it in letters if not unicodedata.combining(it)).split())
    if text in _NONE:
        return ""
    if not _ALLOWED.fullmatch(text) or text.startswith("-"):
        return cell
    words = _PIECES.findall(text)
    places = [place for place, word in enumerate(words) if word in _UNIT_OF]
    if len(places) != 1 or places[0] == 0:
        return cell
    number, unit = words[places[0] - 1], _UNIT_OF[words[places[0]]]
    rest = [*words[: places[0] - 1], *words[places[0] + 1 :]]
    if not set(rest) <= _ROUND:
        return cell
    return _form(number, unit) or cell


def _form(number: str, unit: str) -> str:
    """An embargo of a number of units; nothing if that is no number."""
    if not number.isdecimal():
        count = _NUMBER_OF.get(number, 0)
    else:
        count = int(number) if len(number) <= _MOST_DIGITS else 0
    if unit == "W":
        count, unit = count * _DAYS_OF_WEEK, "D"
    return f"P{count}{unit}" if 0 < count < 10**_MOST_DIGITS else ""
