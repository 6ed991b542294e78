"""How many rows of a table were added, and are gone."""
import collections

from openlink_update.tables.table import Table


def changes(old: Table, new: Table) -> tuple[int, int]:
    """The numbers of rows that are only in the new table, and only in the old one."""
    left = collections.Counter(map("\t".join, old.rows))
    added = 0
    for line in map("\t".join, new.rows):
        if left.get(line, 0):
            left[line] -= 1
        else:
            added += 1
    return added, left.total()
