"""A library's year: what each week brings, the runs that are made of it, and what must be right after them."""
import collections, contextlib, datetime, os, random, re, resource, time
import desk, links, slips, tables
from openlink_update import children
from asking import Allowed, Reader, request_of
from collection import PLAIN, Collection
from links import Held, State
from machine import Machine, Vendors, ended, names_of
from mail import AFTER_A_KILL, Week
from seen import KINDS, Seen
from fixtures.patience import patience, wait_until

MONDAY = datetime.date(2027, 1, 4)
SECRET = PLAIN + 1  # the provider whose address has a token
ALLOWED = {PLAIN + 2: "gone up to 100%; came up to 500000%; less than half of the rows"}
KEY = "s3cr3t/+&token"
READERS, PAUSE, PROCESSES = 3, 0.04, 3
ASKED_AFTER = 50  # requests after a run, when only one page is right
SECONDS = 8  # for a file
MOST_SHOWN = 20  # wrong pages, and other faults of a kind in a week
# What every run must have compared.
COMPARED = (
    *(f"{kind}: 200" for kind in ("/find", "/find.json", "/go")),
    *("/go: 302", "a link that was followed: 302", "pages of titles"),
    "pages of titles that are not offered in a switch",
    *("sections of mails", "lines that mails must have of slips"),
    *("targets on pages of a week", "targets with their titles", "numbers of openlink-counts and the desk"),
)


class Year:
    def __init__(self, seed):
        self.source, self.number, self.faults = random.Random(seed), 0, []
        self.collection = Collection(self.source, list(tables.FORMS), list(links.RULES))
        self.secret = self.collection.providers[SECRET]
        self.vendors = Vendors(children.free_port)
        self.names = names_of({it.name: it.label for it in self.collection.providers})
        self.machine = Machine(PROCESSES, self.vendors.path("authority.pem"), self.names)
        self.before = {}  # the tables of last week
        self.used = {it.name: collections.deque(maxlen=8) for it in self.collection.providers}  # files without a slip
        self.delivered, self.meant, self.more, self.unnamed, self.states = {}, {}, {}, frozenset(), {}
        self.counts, self.peaks, self.compared = (collections.Counter() for _ in range(3))
        self.seen, self.desk, self.kills = (
            Seen(),
            desk.Counts(),
            0,
        )  # of this week: replies, and killed workers of nginx
        self.busy, self.kinds = set(), set()  # providers with a slip in the last week; kinds of slips that were made
        self.changed = []  # titles whose rows the week changes
        self.numbers = set()  # kinds of numbers of openlink-counts that readers knew of
        self.readers, self.allowed, self.state, self.mail = [], None, None, None
        self.seconds = {"fetch": 2.0, "update": 6.0}  # that the last whole runs took

    def path(self, name):
        return self.machine.input.path(name)

    def fault(self, text):
        self.faults.append(f"week {self.number}: {text}")
        print(f"tests/long/year: {self.faults[-1]}", flush=True)

    def expect(self, *patterns):
        """Lines with which the mail of this week must have a section, and others that it may have."""
        self.mail.explained += map(re.compile, patterns)
        self.mail.required.append(re.compile(patterns[0].split("\\n")[0]))

    # ------------------------------------------------------------------------------------------------ what comes

    def begin_week(self, number):
        self.number, self.machine.day = number, MONDAY + datetime.timedelta(7 * number)
        self.before = {it.name: it.rows for it in self.collection.providers}
        if number:
            self.collection.advance()
        self.changed = [
            (row.title, row.printed, row.online)
            for provider in self.collection.providers
            for row in sorted(set(provider.rows) ^ set(self.before[provider.name]), key=repr)
        ]
        self.mail, self.printed = Week(self.collection.providers, self.path), []
        self.mail.mended = frozenset(self.busy)
        for provider in self.collection.providers:
            self.machine.input.write(f"{provider.name}.rules", links.rules_of(provider))

    def write_lists(self):
        providers = self.collection.providers
        write = self.machine.input.write
        write(
            "targets.tsv",
            "".join(
                f"{it.name}\t{it.name}.rules\t{it.file}\t{ALLOWED.get(number, '')}\n"
                for number, it in enumerate(providers)
            )
            + "loan\tloan.rules\tANY.tsv\n",
        )
        write("ANY.tsv", "print_identifier\nANY\n")
        write("loan.rules", links.LOAN_RULES)
        write("secrets.tsv", f"TOKEN\t{KEY}\n")
        os.chmod(self.path("secrets.tsv"), 0o600)
        write(
            "sources.tsv",
            "".join(
                f"{it.file}\t{self.vendors.address_of(it)}"
                f"{'?token={TOKEN}' if it is self.secret else ''}\tleast 20 rows\n"
                for it in providers
            ),
        )
        write("targets.json", self.names)
        write("probes.tsv", "".join(map(self.probe_of, self.collection.stable)))

    def probe_of(self, title):
        """A title that never changes, in a year in which all of its providers have it."""
        names = [it.name for it in self.collection.providers if any(row.title == title[0] for row in it.rows)]
        return f"issn={title[1]}&date=2001-05&volume=7\t{' '.join(names) or 'loan'}\n"

    def deliver(self):
        """What the providers' server has from now on."""
        when = datetime.datetime.combine(self.machine.day, datetime.time()).timestamp()
        for provider in self.collection.providers:
            slip = self.mail.slips.get(provider.name)
            data = slip.data if slip and slip.data is not None else tables.file_of(provider)
            if data != self.delivered.get(provider.name):
                self.vendors.deliver(provider, data, when)
                self.delivered[provider.name] = data
            if slip and slip.reply:
                self.vendors.reply(provider, slip.reply)

    def reply_well(self):
        for provider in self.collection.providers:
            slip = self.mail.slips.get(provider.name)
            if slip and slip.reply:
                self.vendors.reply_well(provider, slip.reply)

    # ------------------------------------------------------------------------------------------------ what is right

    def next_state(self):
        """What the library serves once the files of this week are in use."""
        held = {}
        for provider in self.collection.providers:
            name, slip = provider.name, self.mail.slips.get(provider.name)
            if slip and slip.outcome == slips.KEPT:
                held[name] = self.state.providers[name]
                continue
            if not slip or slip.outcome != slips.NOT_FETCHED:
                self.meant[name] = slip.rows if slip and slip.rows is not None else provider.rows
                self.more[name] = slip.more if slip else 0
            held[name] = Held(self.meant[name], provider.rules, provider.edition, provider.label, self.more[name])
        return State(f"the files of week {self.number}", self.machine.day, held, self.unnamed)

    def settle(self, state):
        """From now on only this state's pages are right: nginx has its targets.json too."""
        start = time.monotonic()
        if not self.machine.wait_for_nginx():
            self.fault("nginx has not ended its workers after a reload")
        self.peaks["reload"] = max(self.peaks["reload"], time.monotonic() - start)
        self.state = state
        self.states[self.machine.current()] = state
        self.allowed.settle(state)

    def end_week(self):
        for provider in self.collection.providers:
            if provider.name not in self.mail.slips:
                self.used[provider.name].append(provider.rows)

    def ask_after(self):
        """Asks for titles while only one page is right, and above all for those that have just changed."""
        reader = self.reader((), 0)
        for _ in range(ASKED_AFTER):
            reader.ask(request_of(self.source, self.titles))
        for provider in self.collection.providers:
            changed = set(self.before[provider.name]) ^ set(provider.rows)
            for row in self.source.sample(sorted(changed, key=repr), min(2, len(changed))):
                reader.ask(links.Request(row.online, row.first or "2003", "7"), "/find.json")
            held = self.state.providers[provider.name].rows
            for row in self.source.sample(held, 1) if provider.rules in ("days", "undated") else ():
                for date in links.days_around(row, self.state.day):
                    reader.ask(links.Request(row.printed, date, "7"), "/find.json")
        self.readers.append(reader)
        if reader.unanswered:
            self.fault(f"{reader.unanswered} requests without an answer after the run")

    def reader(self, titles, pause):
        seed = self.source.random()
        return Reader(self.machine, self.allowed, titles, seed, pause, lambda: self.seen, lambda: self.changed)

    @contextlib.contextmanager
    def quiet(self):
        """No reader asks for anything."""
        with contextlib.ExitStack() as stack:
            for reader in self.readers:
                stack.enter_context(reader.lock)
            yield

    def faults_found(self, found):
        for text in found[:MOST_SHOWN]:
            self.fault(text)

    def check_week(self, before):
        """The desk's page of the week after a run, which has written it."""
        kept = {name for name, slip in self.mail.slips.items() if slip.outcome == slips.KEPT}
        found, count = desk.faults_of_week(self.machine, self.state, before, kept)
        self.compared["targets on pages of a week"] += count
        self.faults_found(found)

    def check_counts(self):
        """What the logs of the week have, and the desk that is written every day. Then the logs are rotated."""
        with self.quiet():
            own = self.seen
            slack = self.kills * (READERS + 1) + own.without_reply
            wait_until(lambda: slack or self.machine.lines() == own.lines())
            status, printed = ended(self.machine.begin_desk())
            if status != 0 or printed:
                self.fault(f"openlink-desk ended with status {status}: {printed}")
            found, count = self.desk.faults(self.machine, own.counts, slack)
            self.compared["numbers of openlink-counts and the desk"] += count
            of_titles, count = desk.faults_of_titles(self.machine, self.state)
            self.compared["targets with their titles"] += count
            self.faults_found(found)
            self.faults_found(of_titles)
            self.compared.update(own.compared)
            self.numbers |= {kind for kind, _ in own.counts}
            if not self.machine.rotate():
                self.fault("nginx writes to logs that were rotated")
            self.seen, self.kills = Seen(), 0

    def check_compared(self, is_whole):
        """Nothing that should be compared was left out; in a whole year, no slip that the update knows."""
        missing = [name for name in COMPARED if not self.compared[name]]
        missing += sorted(set(slips.OF_UPDATE.values()) - self.kinds) if is_whole else []
        missing += [kind for kind in KINDS if kind not in self.numbers | {"errors"}]
        if missing:
            self.fault(f"nothing was compared: {', '.join(missing)}")

    def check_rest(self):
        for text in self.machine.left_over(self.vendors):
            self.fault(f"left over: {text}")
        program, workers = self.machine.pids()
        self.peaks["program"] = max([self.peaks["program"], *map(most_megabytes, program)])
        self.peaks["nginx"] = max([self.peaks["nginx"], *map(most_megabytes, workers)])
        self.peaks["disk"] = max(self.peaks["disk"], self.machine.megabytes_in_use())

    def check_mail(self):
        text = "".join(self.printed)
        if KEY[:6] in text:
            self.fault("a secret in the mail")
        for fault in self.mail.faults(text):
            self.fault(fault)
        self.compared.update(self.mail.compared)

    def is_unsettled(self):
        """Whether a run has ended without going back, so that the next one does so first."""
        return os.path.lexists(self.machine.path("before"))

    def check_pages(self):
        for reader in self.readers:
            for text in reader.wrong[reader.told :]:
                self.counts["wrong pages"] += 1
                if self.counts["wrong pages"] <= MOST_SHOWN:
                    self.fault(f"a wrong page: {text}")
            reader.told = len(reader.wrong)

    # ------------------------------------------------------------------------------------------------ runs

    def run(self, name, child, statuses):
        """Waits for a run, keeps what it says for the mail, and returns its status, which should be one of these."""
        start = time.monotonic()
        status, printed = ended(child)
        if name in self.seconds and status in (0, 1):
            self.seconds[name] = time.monotonic() - start
        self.printed.append(printed)
        show(f"{name}, status {status}\n{printed}")
        self.counts[f"{name}, status {status}"] += 1
        if status not in statuses:
            self.fault(f"{name} ended with status {status}:\n{printed}")
        return status

    def outcomes(self):
        return {slip.outcome for slip in self.mail.slips.values()}

    def begin_fetch(self):
        return self.machine.begin_fetch(patience(SECONDS))

    def fetch(self, status=None):
        wanted = int(slips.NOT_FETCHED in self.outcomes()) if status is None else status
        return self.run("fetch", self.begin_fetch(), (wanted,))

    def status_of_update(self):
        return int(slips.KEPT in self.outcomes() or any("old one is kept" in it.pattern for it in self.mail.required))

    def update(self, *options):
        """A run that puts the files of this week in use, or, with --fetch, gets them first."""
        state, wanted = self.next_state(), self.status_of_update()
        if "--fetch" in options:
            wanted = max(wanted, int(slips.NOT_FETCHED in self.outcomes()))
        before = self.state
        self.allowed.add(state)
        self.run("update", self.machine.begin(*options), (wanted,))
        self.settle(state)
        self.check_week(before)

    def refused_update(self, status):
        """A run that puts nothing in use."""
        self.run("update", self.machine.begin(), (status,))

    def first_week(self):
        self.begin_week(0)
        self.write_lists()
        self.deliver()
        self.run("fetch", self.begin_fetch(), (0,))
        status, printed = self.machine.start()
        if status != 0:
            raise SystemExit(f"tests/long/year: the first version: {printed}")
        self.state = self.next_state()
        self.titles = self.collection.journals + self.collection.books
        self.allowed = Allowed(self.state)
        self.settle(self.state)
        self.readers = [self.reader(self.titles, PAUSE) for _ in range(READERS)]
        for reader in self.readers:
            reader.start()
        self.end_week()

    def explain_kill(self):
        self.mail.explained += AFTER_A_KILL

    def end(self):
        for reader in self.readers:
            if reader.is_alive():
                reader.end()
        self.peaks["update"] = resource.getrusage(resource.RUSAGE_CHILDREN).ru_maxrss * 1024 / 1e6

    def close(self):
        self.vendors.stop()
        self.machine.__exit__()


def show(text):
    if os.environ.get("YEAR_SHOWN"):
        print(text, flush=True)


def most_megabytes(pid):
    """The most memory that a process has had."""
    try:
        with open(f"/proc/{pid}/status") as status:
            return next(int(line.split()[1]) for line in status if line.startswith("VmHWM:")) * 1024 / 1e6
    except (OSError, StopIteration):
        return 0
