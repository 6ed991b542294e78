"""Which slips and which events come in which week, and the runs of a week in their order."""
import dataclasses, signal
import events, operator_slips, slips, tables
from collection import PLAIN

OWN = {"a table too large": PLAIN + 2, "an expired certificate": PLAIN + 3}  # the providers whose slips these are
AN_OLD_FILE = "an old file"
ONE_OF = (
    {"a name that targets.json lacks", "targets.json without its end"},  # in a week
    {"secrets that others may read", "a secret that is missing"},
)
KINDS = [*slips.KINDS, *operator_slips.USABLE, AN_OLD_FILE]
BEFORE_FETCH = {
    "the fetch is killed": lambda year: events.ended_fetch(year, signal.SIGKILL),
    "the fetch is ended": lambda year: events.ended_fetch(year, signal.SIGTERM),
    "the input's disk is full": lambda year: events.full_disk(year, "input"),
}
BEFORE_UPDATE = {
    "the update is killed": lambda year: events.ended_update(year, signal.SIGKILL),
    "the update is ended": lambda year: events.ended_update(year, signal.SIGTERM),
    "the library's disk is full": lambda year: events.full_disk(year, "library"),
    **{name: (lambda year, slip=slip: events.unusable(year, slip)) for name, slip in operator_slips.UNUSABLE.items()},
}
FULL_DISKS = ("the input's disk is full", "the library's disk is full")
IN_PLACE = {
    "the update fetches": lambda year: year.update("--fetch"),
    "kills beside the update": events.sabotaged_update,
    "a file that is written": events.update_beside_a_writer,
}
AFTER = {"back": events.back_and_forward, "walls": events.move_walls}
# How often each event comes in 52 weeks; the others twice.
OFTEN = {
    "the update is killed": 9,
    "the update is ended": 6,
    "kills beside the update": 8,
    "the fetch is killed": 4,
    "back": 4,
    "walls": 12,
    "the update fetches": 3,
}
QUIET = 10  # of 52 weeks have no slip and no event
SLIPS = 100  # in 52 weeks
RETRIED = (
    "status 500",
    "status 503 with Retry-After",
    "a transfer that is cut",
    "an address of no host",
    "a transfer that is cut between pieces",
    "a slow transfer",
)


@dataclasses.dataclass
class Plan:
    kinds: list = dataclasses.field(default_factory=list)
    events: list = dataclasses.field(default_factory=list)


def weeks(source, count):
    """A plan of each week. Every kind of slip and every event comes, if there are enough weeks."""
    plans = [Plan() for _ in range(count)]
    busy = [plan for place, plan in enumerate(plans) if count < 20 or place % 5 != 4]
    kinds = KINDS + source.choices(KINDS, k=max(0, SLIPS - len(KINDS)))
    for number, kind in enumerate(source.sample(kinds, len(kinds))[: 3 * len(busy)]):
        plan = busy[number % len(busy)]
        if not any(kind in group and group & set(plan.kinds) for group in (*ONE_OF, {kind})):
            plan.kinds.append(kind)
    every = [*BEFORE_FETCH, *BEFORE_UPDATE, *IN_PLACE, *AFTER]
    found = [name for name in every for _ in range(OFTEN.get(name, 2))]
    source.shuffle(found)
    for number, name in enumerate(found[: 2 * len(busy)]):
        turn = number % len(busy)
        plan = next((it for it in busy[turn:] + busy[:turn] if not clashes(name, it)), None)
        if plan:
            plan.events.append(name)
    return plans


def clashes(name, plan):
    """Whether an event does not go with what a week has."""
    if name in plan.events or name in IN_PLACE and set(IN_PLACE) & set(plan.events):
        return True
    fetches, others = "the update fetches", set(BEFORE_UPDATE) & {name, *plan.events}
    return fetches in (name, *plan.events) and (others != set() or any(kind in RETRIED for kind in plan.kinds))


def make_slips(year, plan):
    """Makes the slips of a week. Returns what mends those of the staff."""
    mends, busy = [], year.busy
    year.busy = set()
    for kind in plan.kinds:
        provider = chosen(year, kind, busy | year.busy)
        year.busy.add(provider.name)
        year.counts["slips"] += 1
        year.kinds.add(kind)
        if kind in operator_slips.USABLE:
            mends.append(operator_slips.USABLE[kind](year, provider))
        elif kind == AN_OLD_FILE:
            year.mail.slips.update(old_file(year, provider))
        else:
            year.mail.slips[provider.name] = slips.KINDS[kind](provider, year.source)
    year.busy |= set(year.mail.slips)
    return mends


def chosen(year, kind, busy):
    """A provider for a slip: one that had none in the week before, and whose files it can befall."""
    if kind in OWN:
        return year.collection.providers[OWN[kind]]
    found = [
        it
        for it in year.collection.providers[:PLAIN]
        if it.name not in busy and it.rules != "books" and it.form in ("tabs", "gzip", "zip")
    ]
    return year.source.choice(found)


def old_file(year, provider):
    """A file of the provider that was in use some weeks ago, by its name; none if it has not changed since."""
    rows, served = year.used[provider.name][0], year.state.providers[provider.name].rows
    if rows in (provider.rows, served):
        return {}
    before = numbers_of(served)
    is_kept = len(before - numbers_of(rows)) * 100 > 10 * len(before)
    says = "  {file}: numbers gone " if is_kept else "  the table of "
    return {
        provider.name: slips.Slip(
            slips.KEPT if is_kept else slips.USED, (says,), rows=rows, data=tables.file_of(provider, rows)
        )
    }


def numbers_of(rows):
    return {number for row in rows for number in (row.printed, row.online)}


def run(year, plan):
    """The runs of a week. What is mended meanwhile is used by the next run. A disk is full before a run is killed: what
    a killed run leaves is removed by the next one, which then has more room."""
    in_order = sorted(plan.events, key=lambda name: name not in FULL_DISKS)
    for name in in_order:
        if name in BEFORE_FETCH:
            BEFORE_FETCH[name](year)
    if "the update fetches" not in plan.events:
        year.fetch()
    for name in in_order:
        if name in BEFORE_UPDATE:
            BEFORE_UPDATE[name](year)
    in_place = [IN_PLACE[name] for name in plan.events if name in IN_PLACE]
    (in_place[0] if in_place else type(year).update)(year)
    for name in plan.events:
        if name in AFTER:
            AFTER[name](year)
