"""The dates of a row as the index, the coverage and the exports read them: YYYY, YYYY-MM or YYYY-MM-DD."""
import re

DATE = re.compile(r"\d{4}(?:-\d\d(?:-\d\d)?)?", re.A)
_YEAR = re.compile(r"(?<!\d)[12]\d{3}(?!\d)", re.A)
NONE = "-"


def date_in(cell: str) -> str:
    """A date as the provider gives it; its year, if it has another form; NONE if the cell has no date."""
    if not cell or DATE.fullmatch(cell):
        return cell or NONE
    match = DATE.fullmatch(cell.strip()) or _YEAR.search(cell)
    return match[0] if match else NONE
