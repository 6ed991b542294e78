"""ISSNs and ISBNs as the cells of a table have them. The program ignores hyphens, spaces and case, but an ISBN of ten
digits is never one of thirteen."""
import re

_COMMON = re.compile(r"\d{4}-\d{3}[\dX]", re.A).fullmatch
_ISSN = re.compile(r"\d{7}[\dX]", re.A)
_ISBN_10 = re.compile(r"\d{9}[\dX]", re.A)
_ISBN_13 = re.compile(r"97[89]\d{10}", re.A)


def form_of(cell: str) -> str:
    """The number in a cell in the form that finds its row: an ISSN with its hyphen, or an ISBN of ten or thirteen
    digits; '' if there is none."""
    if not cell or _COMMON(cell):
        return cell
    text = cell.replace("-", "").replace(" ", "").upper()
    if len(text) == 8:
        return f"{text[:4]}-{text[4:]}" if _ISSN.fullmatch(text) else ""
    return text if len(text) > 8 and (_ISBN_13.fullmatch(text) or _ISBN_10.fullmatch(text)) else ""


def is_issn(form: str) -> bool:
    return len(form) == 9


def standard(form: str) -> str:
    """The form by which two forms of one number are compared: an ISBN has thirteen digits."""
    if len(form) != 10:
        return form
    body = "978" + form[:9]
    total = sum(int(digit) * (3 if place % 2 else 1) for place, digit in enumerate(body))
    return f"{body}{-total % 10}"
