"""Slips that the rules of a target show: texts that they do not know, and rules that no row reaches."""

from openlink_update.slips.guards import Forms, Rule, compared, rules_of
from openlink_update.slips.material import Found, Pair

# What KBART lists for a column, which no table is out of order to begin with.
_STANDARD = {
    "publication_type": {"serial", "monograph"},
    "access_type": {"F", "P"},
    "coverage_depth": {"fulltext", "selected articles", "abstracts"},
}
_MOST_TEXTS = 50  # of a column that are kinds of rows, and not names of them


def _bare(text: str) -> str:
    return "".join(filter(str.isalnum, text)).casefold()


def new_texts(pair: Pair) -> Found | None:
    """Rows with a text that no row had before, in a column that rules compare with others. In a first table, a text
    that differs from one of these by its spelling alone."""
    now = pair.now
    found: dict[int, str] = {}
    for column, texts in compared(rules_of(now.rules or b"")).items():
        cells = now.cells(column) if now.has(column) else []
        known = texts | _STANDARD.get(column, set())
        odd = {text for text in set(cells) if text and text not in known}
        if not odd:
            continue
        had = set(pair.before.cells(column)) if pair.before is not None and pair.before.has(column) else set()
        if had and len(had) <= _MOST_TEXTS:
            odd -= had
        else:
            spellings = set(map(_bare, known))
            odd = {text for text in odd - had if _bare(text) in spellings}
        for place in (place for place, text in enumerate(cells) if text in odd):
            found.setdefault(place, f"{column} {cells[place]}")
    if not found:
        return None
    first = min(found)
    title = now.cells("publication_title")[first]
    return Found(len(found), len(now.table.rows), ", ".join(filter(None, (found[first], title))))


def rules_without_rows(pair: Pair) -> Found | None:
    """Rules that hold on no row, and did on rows of the version before: how many of these they have lost. Of rules that
    are new, the rows that no rule has; in a first table all rows, if no rule has one."""
    now, before = pair.now, pair.before
    rules = rules_of(now.rules or b"")
    if not rules or not now.table.rows:
        return None
    columns = [*now.table.columns, *(before.table.columns if before is not None else ())]
    forms, rows = Forms(rules, columns, now), len(now.table.rows)
    dead = [rule for rule in rules if not forms.count([rule])]
    if not dead:
        return None
    if before is None:
        return Found(rows, rows, _shown(dead[0])) if len(dead) == len(rules) else None
    lost = Forms(rules, columns, before)
    had = [rule for rule in dead if lost.count([rule])]
    if had:
        return Found(lost.count(had), len(before.table.rows), _shown(had[0]))
    known = {rule.lines for rule in rules_of(before.rules or b"")}
    new = [rule for rule in dead if rule.lines not in known]
    return Found(max(1, rows - forms.count(rules)), rows, _shown(new[0])) if new else None


def _shown(rule: Rule) -> str:
    guards = [guard.line.removeprefix("when ") for guard in rule.guards]
    return f"rule {rule.number}: {'; '.join(guards)}".removesuffix(": ")
