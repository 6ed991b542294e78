"""Readers who ask the front door all the time, follow links of its pages, and compare each reply with the right one of
a state that was allowed while they waited."""
import html, http.client, json, random, re, threading, time
from urllib.parse import parse_qs, urlencode, urlsplit
from links import FULL, Request

SECONDS = 30  # for a reply
PAGES = "The page of this title"
COVERAGE = re.compile(r" <span>[^<]*</span>$")  # which the name of a link has
HEADING = re.compile(r'<h2>(.*?)</h2>|<ul class="actions">|<li><a href="((?:http|/go\?)[^"]*)">(.*?)</a>')
DATES = (
    "1976",
    "1979-12",
    "1984-05",
    "1991-02-03",
    "2003",
    "2011-07",
    "2012-12-31",
    "2021",
    "2022-03-01",
    "2025",
    "2026-07",
    "2026-12-15",
    "2027-05",
    "",
)
BY_TITLE, BY_STRANGER = 0.1, 0.05  # shares of requests by a title, and for what nobody has
OF_WEEK = 0.3  # the share of requests for what the week changes, half of them for a title as a whole
SOURCES = ("", "", "made.example.org", "other-source")
KINDS = ("/find.json", "/find.json", "/find", "/find", "/go")
CLICK = "/go?target="  # the kind of a link that a reader follows
FOLLOWED = 0.5  # the share of pages of which a link is followed
# When a reader has asked: while one state was allowed, or several; or while an update put a version in use.
SETTLED, CHANGING, IN_SWITCH = "settled", "changing", "in a switch"


class Allowed:
    """The states whose pages are right, each from a time on and up to another."""

    def __init__(self, state):
        self.spans, self.lock = [[state, time.monotonic(), None]], threading.Lock()

    def add(self, state):
        with self.lock:
            self.spans.append([state, time.monotonic(), None])

    def settle(self, state):
        """From now on this one alone."""
        with self.lock:
            now = time.monotonic()
            for span in self.spans:
                span[2] = span[2] or now
            self.spans = [span for span in self.spans if span[2] > now - 2 * SECONDS] + [[state, now, None]]

    def between(self, start, end):
        """The states, each with the times since when and until when it was allowed."""
        with self.lock:
            return [tuple(it) for it in self.spans if it[1] <= end and (it[2] is None or it[2] >= start)]


def request_of(source, titles, changed=()):
    """A request for a title that was ever sold, one in ten by its name alone, or for one that the week has changed."""
    if changed and source.random() < OF_WEEK:
        title, *numbers = source.choice(changed)
        return Request(source.choice(numbers), source.choice((source.choice(DATES), "")), source=source.choice(SOURCES))
    title, printed, online = source.choice(titles)
    date, sender = source.choice(DATES), source.choice(SOURCES)
    chance = source.random()
    if chance < BY_STRANGER:
        return Request("1000-000X", date, source=sender)
    number = source.choice((printed, online))
    volume = str(source.randrange(1, 40)) if source.random() < 0.5 else ""
    is_named = chance < BY_STRANGER + BY_TITLE and len(number) == 9
    return Request(number, date, volume, title if is_named else "", sender)


def json_links(text):
    """The group, target, label, address and coverage of each link; and the pages of the title."""
    data = json.loads(text)
    if "groups" not in data:
        raise ValueError(text)
    links = [
        (group["name"], link["target"], link["label"], link["url"], link.get("coverage"))
        for group in data["groups"]
        for link in group["links"]
    ]
    return links, {(page["target"], page["label"], page["url"]) for page in data.get("pages", ())}


def page_links(text):
    """The group, label and address of each link of a page."""
    if "</html>" not in text:
        raise ValueError("half a page")
    found, group = [], None
    for heading, address, label in HEADING.findall(text):
        if address and group:
            found.append((group, html.unescape(COVERAGE.sub("", label)), html.unescape(address)))
        else:
            group = html.unescape(heading) or None
    return found


def target_in(address):
    """The target of a link that leads through /go, or of the address of a provider."""
    parts = urlsplit(address)
    return parse_qs(parts.query)["target"][0] if parts.path == "/go" else parts.hostname.partition(".")[0]


def coverage_of(row):
    """What JSON says beside the link of a row."""
    if row is None:
        return None
    found = {"from": row.first, "to": row.last, "embargo": row.embargo.replace(";", ",")}
    return {name: text for name, text in found.items() if text} or None


def state_text(request, span, start, end):
    """A state that was allowed while a reader waited: when, its links and pages, and the rows of the number."""
    state, since, until = span
    until = "on" if until is None else f"to {until - end:+.3f} s from the reply"
    rows = {
        name: [(row.first, row.last, row.volume, row.embargo, row.id) for row in rows]
        for name, rows in state.rows_of(request).items()
    }
    return "\n    ".join(
        [
            f"  right is {state.name}, from {since - start:+.3f} s from the request {until}:",
            str([link[:4] for link in state.links(request)]),
            f"pages {sorted(state.pages(request))}",
            str(rows),
        ]
    )


def address_on_page(target, address, request, is_followed):
    """Where a link of a page leads: through /go if the site counts what is followed."""
    return f"/go?{urlencode({'target': target})}&{request.query()}" if is_followed else address


def are_right_pages(found, pages, when):
    """Whether these are the pages of the title, of which none is offered while a version is put in use."""
    return not found if when == IN_SWITCH else found == pages if when == SETTLED else found <= pages


def is_right(kind, request, reply, state, when, is_followed=False):
    """Whether a reply is the one of a state, and has no other pages of the title. Beside a link may be the coverage of
    another version meanwhile."""
    status, text, location = reply
    expected, pages = state.links(request), state.pages(request)
    if kind == "/go":
        full = [link for link in expected if link[0] == FULL]
        if len(full) == 1:
            return status == 302 and location == full[0][3]
    if status != 200:
        return False
    if kind == "/find.json":
        links, found = json_links(text)
        return (
            [link[:4] for link in links] == [link[:4] for link in expected]
            and are_right_pages(found, pages, when)
            and (when != SETTLED or [it[4] for it in links] == [coverage_of(it[4]) for it in expected])
        )
    links = page_links(text)
    found = {(label, address) for group, label, address in links if group == PAGES}
    shown = {(label, address_on_page(name, url, request, is_followed)) for name, label, url in pages}
    full = [
        (group, label, address_on_page(name, address, request, is_followed))
        for group, name, label, address, _ in expected
    ]
    return [link for link in links if link[0] != PAGES] == full and are_right_pages(found, shown, when)


def is_right_click(target, request, reply, state, when):
    """Whether a link that a reader follows leads to what the page shows for its target, and otherwise to the page."""
    status, _, location = reply
    for link in state.links(request):
        if link[1] == target:
            return status == 302 and location == link[3]
    page = next((url for name, _, url in state.pages(request) if name == target), None)
    if page and (when == SETTLED or status == 302):
        return status == 302 and location == page and when != IN_SWITCH
    return is_right("/find", request, reply, state, when, True)


class Reader(threading.Thread):
    def __init__(self, machine, allowed, titles, seed, pause, seen, changed):
        """`seen` gives what counts the replies of this week, and `changed` the titles that it changes."""
        super().__init__(daemon=True)
        self.machine, self.allowed, self.titles, self.pause, self.seen = machine, allowed, titles, pause, seen
        self.changed = changed
        self.source, self.is_told = random.Random(seed), False
        self.replies, self.longest, self.unanswered, self.slowest = 0, 0.0, 0, 0.0
        self.wrong, self.told = [], 0  # wrong pages, and how many of them have been reported
        self.since = None  # the time of the first of the last requests that had no answer
        self.lock = threading.Lock()  # which a request has, and what waits for its end

    def run(self):
        while not self.is_told:
            with self.lock:
                self.ask(request_of(self.source, self.titles, self.changed()))
            time.sleep(self.pause)

    def ask(self, request, kind=None):
        kind = kind or self.source.choice(KINDS)
        reply = self.asked(kind, "", request)
        if kind == "/find" and reply and reply[0] == 200 and self.source.random() < FOLLOWED:
            links = [address for _, _, address in page_links(reply[1]) if address.startswith(CLICK)]
            if links:
                self.asked(CLICK, target_in(self.source.choice(links)), request)

    def asked(self, kind, target, request):
        """Sends a request, or follows a link to a target, and compares the reply. Returns it, or None."""
        start, switch = time.monotonic(), self.machine.switch()
        try:
            reply = self.reply(f"{kind}{target}&{request.query()}" if target else f"{kind}?{request.query()}")
        except (OSError, http.client.HTTPException):
            reply = None
        end = time.monotonic()
        if reply is None or reply[0] == 503:
            self.unanswered += 1
            self.since = self.since or start
            self.seen().add_unanswered(reply)
            return None
        self.replies += 1
        self.slowest = max(self.slowest, end - start)
        if self.since:
            self.longest, self.since = max(self.longest, end - self.since), None
        is_in_switch = switch is not None and switch == self.machine.switch()
        self.compare(kind, target, request, reply, start, end, is_in_switch)
        return reply

    def compare(self, kind, target, request, reply, start, end, is_in_switch):
        spans = self.allowed.between(start, end)
        when = IN_SWITCH if is_in_switch else SETTLED if len(spans) == 1 else CHANGING
        # nginx reads targets.json again once all processes serve the new version.
        states = [state.named_as(other) for state, _, _ in spans for other, _, _ in spans]
        try:
            for state in states:
                if target:
                    is_one = is_right_click(target, request, reply, state, when)
                else:
                    is_one = is_right(kind, request, reply, state, when, True)
                if is_one:
                    self.seen().add(kind, target, request, reply, state, when)
                    return
        except (ValueError, LookupError) as fault:
            reply = (*reply, repr(fault))
        self.seen().add(kind, target, request, reply[:3], spans[-1][0], CHANGING)
        texts = [state_text(request, span, start, end) for span in spans]
        self.wrong.append(
            "\n".join(
                [
                    f"{kind}{target} {request.query()}: {str(reply)[:1500]}",
                    f"  the reply took {end - start:.3f} s, {when}",
                    *texts,
                ]
            )
        )

    def reply(self, target):
        # From an address of its own: nginx goes on counting the connections of a worker that was killed as open.
        address = ".".join(["127", *(str(self.source.randrange(1, 255)) for _ in range(3))])
        peer = http.client.HTTPConnection(
            "127.0.0.1", self.machine.site.port, timeout=SECONDS, source_address=(address, 0)
        )
        try:
            peer.request("GET", target)
            reply = peer.getresponse()
            return reply.status, reply.read().decode("utf-8", "replace"), reply.headers.get("Location")
        finally:
            peer.close()

    def end(self):
        self.is_told = True
        self.join()
