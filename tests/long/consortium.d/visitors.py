"""Readers of the consortium, each on an address of its own and of one library, who compare every page with the right
one of their library."""
import http.client, random, re, threading, time
from asking import CHANGING, SETTLED, is_right, request_of

SECONDS = 10  # for a reply
MOST_SECONDS = 3  # after which a reply counts as none


class Visitor(threading.Thread):
    def __init__(self, number, member, address, balancer, pause):
        super().__init__(daemon=True)
        self.member, self.address, self.balancer, self.pause = member, address, balancer, pause
        self.source, self.is_over = random.Random(number), False
        self.replies, self.wrong, self.strange = 0, [], []
        self.faults, self.since = [], None  # when each began and ended, and why it began
        self.seconds = []

    def run(self):
        while not self.is_over:
            self.ask()
            time.sleep(self.pause)

    def end(self):
        self.is_over = True
        if self.is_alive():
            self.join()

    def ask(self):
        request = request_of(self.source, self.member.titles)
        kind = self.source.choice(("/find.json", "/find.json", "/find", "/go"))
        start = time.monotonic()
        try:
            reply, why = self.reply(f"{kind}?{request.query()}"), ""
        except (OSError, http.client.HTTPException) as fault:
            reply, why = None, repr(fault)
        end = time.monotonic()
        if reply and reply[0] in (200, 302) and end - start <= MOST_SECONDS:
            self.replies += 1
            self.seconds.append(end - start)
            states = [state for state, _, _ in self.member.allowed.between(start, end)]
            self.compare(kind, request, reply, states)
            self.end_fault(end)
        else:
            why = why or f"status {reply[0]} after {end - start:.2f} s"
            self.since = self.since or (start, why)

    def end_fault(self, end):
        if self.since:
            self.faults.append((self.since[0], end, self.since[1]))
            self.since = None

    def compare(self, kind, request, reply, states):
        when = SETTLED if len(states) == 1 else CHANGING
        try:
            if any(is_right(kind, request, reply, state, when) for state in states):
                return
        except (ValueError, LookupError) as fault:
            reply = (*reply, repr(fault))
        others = set(re.findall(r"lib-\d+", str(reply))) - {self.member.name}
        (self.strange if others else self.wrong).append(
            f"{self.member.name} {kind}?{request.query()}: {str(reply)[:600]}\n  right are: "
            f"{[[link[:4] for link in state.links(request)] for state in states]}"
        )

    def reply(self, target):
        peer = http.client.HTTPConnection(*self.balancer, timeout=SECONDS, source_address=(self.address, 0))
        try:
            peer.request("GET", target, headers={"Host": self.member.host})
            reply = peer.getresponse()
            return reply.status, reply.read().decode("utf-8", "replace"), reply.headers.get("Location")
        finally:
            peer.close()


class Visitors:
    """All readers, and what they met in a trial."""

    def __init__(self, members, addresses, balancer, pause):
        self.all = [
            Visitor(number, members[number % len(members)], address, balancer, pause)
            for number, address in enumerate(addresses)
        ]
        self.begun, self.before = 0, {}
        for it in self.all:
            it.start()

    def counts(self):
        return {
            "replies": sum(it.replies for it in self.all),
            "wrong": sum(len(it.wrong) for it in self.all),
            "strange": sum(len(it.strange) for it in self.all),
        }

    def begin(self):
        """Begins a trial."""
        self.begun, self.before = time.monotonic(), self.counts()
        for it in self.all:
            it.seconds.clear()

    def met(self):
        """What they met since then: the numbers, the faults with their length, and the slowest reply."""
        now = time.monotonic()
        found = {name: count - self.before[name] for name, count in self.counts().items()}
        faults = [(end - start, why) for it in self.all for start, end, why in list(it.faults) if end >= self.begun]
        faults += [(now - it.since[0], it.since[1]) for it in self.all if it.since]
        seconds = sorted(time_ for it in self.all for time_ in list(it.seconds))
        return {
            **found,
            "faults": sorted(faults, reverse=True),
            "median": seconds[len(seconds) // 2] if seconds else 0,
            "slowest": seconds[-1] if seconds else 0,
        }

    def examples(self):
        return [text for it in self.all for text in (*it.strange, *it.wrong)]

    def end(self):
        for it in self.all:
            it.is_over = True
        for it in self.all:
            it.end()
