"""What readers have met in a week, by what they sent and got: the numbers that the logs must have, and so
openlink-counts and the desk."""
import collections, json, threading
from asking import CLICK, IN_SWITCH, PAGES, SETTLED, json_links, page_links, target_in
from links import FULL

# What openlink-counts counts, as it names it.
REQUESTS, WITHOUT_FULL_TEXT, WITHOUT_LINK = "requests", "without full text", "without a link"
ERRORS, SOURCE, SOURCE_WITHOUT = "errors", "source", "source without full text"
SHOWN, FOLLOWED, FOLLOWED_TITLE, IN_VAIN = "shown", "followed", "followed title", "asked in vain"
OTHERS = "(others)"
KINDS = (
    *(REQUESTS, WITHOUT_FULL_TEXT, WITHOUT_LINK, ERRORS, SOURCE, SOURCE_WITHOUT),
    *(SHOWN, FOLLOWED, FOLLOWED_TITLE, IN_VAIN),
)


class Seen:
    def __init__(self):
        self.counts = collections.Counter()  # by kind and name
        self.compared = collections.Counter()  # replies
        self.without_reply = 0  # requests that may have a line or none
        self.lock = threading.Lock()

    def lines(self):
        """How many lines each log has."""
        totals = collections.Counter()
        for (kind, _), number in self.counts.items():
            totals[kind] += number
        return totals[REQUESTS] + totals[ERRORS], totals[FOLLOWED_TITLE], totals[IN_VAIN]

    def add_unanswered(self, reply):
        with self.lock:
            if reply is None:
                self.without_reply += 1
            else:
                self.counts[ERRORS, str(reply[0])] += 1

    def add(self, kind, target, request, reply, state, when):
        """Counts a reply. The state says which number the title of a request has."""
        with self.lock:
            self.compared[f"a link that was followed: {reply[0]}" if target else f"{kind}: {reply[0]}"] += 1
            pages = len(state.pages(request)) if reply[0] == 200 else 0
            self.compared["pages of titles"] += pages if when == SETTLED else 0
            self.compared["pages of titles that are not offered in a switch"] += pages if when == IN_SWITCH else 0
            self._add(kind, target, request, reply, state)

    def _add(self, kind, target, request, reply, state):
        status, text, location = reply
        number, source = state.number_of(request), request.source and f"info:sid/{request.source}" or "(none)"
        if status >= 400:
            self.counts[ERRORS, str(status)] += 1
        elif status == 302 and kind == CLICK:
            self.counts[FOLLOWED, target] += 1
            self.counts[FOLLOWED_TITLE, f"{target} {number or '-'}"] += 1
        else:
            self.counts[REQUESTS, ""] += 1
            self.counts[SOURCE, source] += 1
            if status == 302:
                self.counts[FOLLOWED, target_in(location)] += 1
            else:
                self._add_page(shown_in(kind, text), request, number, source)

    def _add_page(self, shown, request, number, source):
        for _, target in shown:
            self.counts[SHOWN, target] += 1
        if not shown:
            self.counts[WITHOUT_LINK, ""] += 1
        if not any(group == FULL for group, _ in shown):
            self.counts[WITHOUT_FULL_TEXT, ""] += 1
            self.counts[SOURCE_WITHOUT, source] += 1
            if number:
                self.counts[IN_VAIN, number] += 1


def shown_in(kind, text):
    """The group and the target of each link of a page, the pages of the title aside."""
    if kind == "/find.json":
        return [link[:2] for link in json_links(text)[0]]
    return [(group, target_in(address)) for group, _, address in page_links(text) if group != PAGES]


def differences(own, found, slack):
    """Lines about numbers that differ from the readers' own by more than lines that may be lost."""
    return [
        f"{kind} {name}: {found[kind, name]}, and readers know of {own[kind, name]}"
        for kind, name in sorted({*own, *found})
        if abs(own[kind, name] - found[kind, name]) > slack
    ]


def bounded_in(found):
    """The kinds of which some names were counted together, since there are more than are kept."""
    return {kind for kind, name in found if name == OTHERS and found[kind, name]}


def together(counts, kinds):
    """The numbers, with one for all names of each of these kinds."""
    joined = collections.Counter()
    for (kind, name), number in counts.items():
        joined[kind, OTHERS if kind in kinds else name] += number
    return joined


def of_table(rows):
    """The numbers of year.tsv or of openlink-counts, whatever the month."""
    counts = collections.Counter()
    for _, kind, name, number in rows:
        counts[kind, name] += int(number)
    return counts


def of_json(text):
    """The same of openlink-counts --format json."""
    tables, counts = json.loads(text), collections.Counter()
    for row in tables["months"]:
        for kind in (REQUESTS, WITHOUT_FULL_TEXT, WITHOUT_LINK):
            counts[kind, ""] += row[kind]
    for row in tables["sources"]:
        counts[SOURCE, row["source"]] += row["requests"]
        counts[SOURCE_WITHOUT, row["source"]] += row["without full text"]
    for row in tables["targets"]:
        counts[SHOWN, row["target"]] += row["shown"]
        counts[FOLLOWED, row["target"]] += row["followed"]
    for row in tables["followed"]:
        counts[FOLLOWED_TITLE, f"{row['target']} {row['number']}"] += row["followed"]
    for row in tables["errors"]:
        counts[ERRORS, str(row["status"])] += row["errors"]
    for row in tables[IN_VAIN]:
        counts[IN_VAIN, row["number"]] += row["requests"]
    return counts
