"""What the librarian's desk and openlink-counts must show of a week: each target as the run has left it, the titles of
the version in use, and the numbers that readers know of."""
import re
import seen

RUNS = re.compile(r'<h2 id="runs">.*?<th scope="row" class="m">(\d{4}-\d\d-\d\d)', re.S)
CHANGED = ("changed", "new")


def faults_of_week(machine, state, before, kept):
    """Lines about the page of the week after a run which put a state in use in place of another one, and kept the old
    tables of some targets; and how many targets were compared."""
    rows = {cells[0]: cells[1:] for cells in machine.desk_table("week.tsv") if len(cells) > 4}
    found = []
    for name, held in state.providers.items():
        if name not in rows:
            found.append(f"the desk has no {name}")
            continue
        what, count = rows[name][0], int(rows[name][1])
        if count != len(held.rows) + held.more:
            found.append(f"the desk has {count} rows of {name}, which has {len(held.rows)} + {held.more}")
        if (what == "kept") != (name in kept):
            found.append(f"the desk says of {name}: {what}")
        elif name not in kept and set(held.rows) != set(before.providers[name].rows) and what not in CHANGED:
            found.append(f"the desk says of {name}, which has other rows: {what}")
    page = machine.desk("week.en.html") or ""
    day = RUNS.search(page)
    if day is None or day[1] != str(machine.day):
        found.append(f"the last run of the desk is of {day and day[1]}, and not of {machine.day}")
    return found, len(rows)


def faults_of_titles(machine, state):
    """Lines about the titles of each target, and those that no other has; and how many targets were compared. A title
    of the made tables has one online number."""
    titles = {name: {row.online for row in held.rows} for name, held in state.providers.items()}
    rows = {cells[0]: cells[1:3] for cells in machine.desk_table("collection.tsv")}
    found = []
    for name, own in titles.items():
        others = set().union(*(its for other, its in titles.items() if other != name))
        more = state.providers[name].more
        wanted = [str(len(own) + more), str(len(own - others) + more)]
        if rows.get(name) != wanted:
            found.append(f"the desk has of {name} {rows.get(name)} titles and those that no other has, not {wanted}")
    return found, len(rows)


class Counts:
    """The numbers of the desk at the end of a week, and those that the week has added."""

    def __init__(self):
        self.before = seen.collections.Counter()

    def faults(self, machine, own, slack):
        """Lines about what openlink-counts and the desk say of a week; and how many numbers were compared."""
        status, text = machine.counts()
        if status != 0:
            return [f"openlink-counts ended with status {status}: {text}"], 0
        counted = seen.of_json(text)
        now = seen.of_table(machine.desk_table("year.tsv"))
        of_week = now.copy()
        of_week.subtract(self.before)
        self.before = now
        found = [f"openlink-counts: {line}" for line in seen.differences(own, counted, slack)]
        kinds = seen.bounded_in(of_week)
        joined = [seen.together(numbers, kinds) for numbers in (own, of_week)]
        found += [f"the desk: {line}" for line in seen.differences(*joined, slack)]
        return found, sum(1 for key in own if counted[key] and of_week[key])
