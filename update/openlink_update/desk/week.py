"""What the page of the week shows: what needs the librarian first, the targets, the fetches and the last runs."""
import dataclasses
import datetime
from collections.abc import Sequence

from openlink_update import run_notes
from openlink_update.desk.targets import Slip, Target
from openlink_update.desk.words_in import Language
from openlink_update.run_notes import ProbeResult, TargetState
from openlink_update.run_records import RunRecord
from openlink_update.versions.library import STAMP

_UPDATE = "update"
_MOST_FIRST, _MOST_LINES, _MOST_PROBES, _MOST_FETCHES, _MOST_RUNS, _MOST_SLIPS = 40, 8, 200, 300, 12, 20
_MOST_DAYS = 9  # without an update that ended well
_STATES = {
    run_notes.NEW: "stateNew",
    run_notes.CHANGED: "stateChanged",
    run_notes.KEPT: "stateKept",
    run_notes.SAME: "stateSame",
    run_notes.LEFT_OUT: "stateLeftOut",
    run_notes.GONE: "stateGone",
}
_NEEDS_HER = (run_notes.KEPT, run_notes.LEFT_OUT)
_NOT_FETCHED = ("kept the old file", "not fetched")


@dataclasses.dataclass(frozen=True)
class _First:
    """What needs her, lines that say why, and the target that it is about."""

    text: str
    lines: tuple[str, ...] = ()
    target: str = ""


@dataclasses.dataclass(frozen=True)
class _Row:
    """A target, what the last update made of it, and what the version has; None if it is in no version."""

    name: str
    state: str
    said: TargetState | None
    target: Target | None

    @property
    def lines(self) -> tuple[str, ...]:
        return self.said.lines[:_MOST_LINES] if self.said else ()

    @property
    def rows(self) -> int:
        return self.target.rows if self.target else self.said.rows if self.said else 0

    @property
    def files(self) -> tuple[str, ...]:
        return self.target.files if self.target else ()

    @property
    def slips(self) -> tuple[Slip, ...]:
        return self.target.slips[:_MOST_SLIPS] if self.target else ()

    @property
    def needs_her(self) -> bool:
        return self.said is not None and self.said.state in _NEEDS_HER


@dataclasses.dataclass(frozen=True)
class Week:
    first: tuple[_First, ...]
    others: int  # beyond those
    rows: tuple[_Row, ...]
    fetches: tuple[tuple[str, str], ...]
    runs: tuple[RunRecord, ...]
    probes: tuple[ProbeResult, ...]


def week_of(records: Sequence[RunRecord], targets: Sequence[Target], now: datetime.datetime, t: Language) -> Week:
    """`records` has those of the library, the newest first."""
    updates = [record for record in records if record.work == _UPDATE]
    last = updates[0] if updates else None
    states = {state.name: state for state in last.targets} if last else {}
    known = {target.name: target for target in targets}
    rows = tuple(
        _Row(name, t[_STATES[states[name].state] if name in states else "unknown"], states.get(name), known.get(name))
        for name in dict.fromkeys((*known, *states))
    )
    first = _first_of(last, records, rows, now, t)
    return Week(
        first[:_MOST_FIRST],
        max(len(first) - _MOST_FIRST, 0),
        tuple(sorted(rows, key=lambda row: not row.needs_her)),
        last.fetches[:_MOST_FETCHES] if last else (),
        tuple(records[:_MOST_RUNS]),
        tuple(sorted(last.probes, key=lambda probe: probe.holds))[:_MOST_PROBES] if last else (),
    )


def _first_of(
    last: RunRecord | None, records: Sequence[RunRecord], rows: Sequence[_Row], now: datetime.datetime, t: Language
) -> tuple[_First, ...]:
    if last is None:
        return (_First(t["noRun"]),)
    found = [_First(t.filled("ended", str(last.status)), last.lines[-_MOST_LINES:])] if last.status > 1 else []
    days = _days_since_good(records, now)
    found += [_First(t.filled("old", t.number(days)))] if days > _MOST_DAYS else []
    for row in rows:
        if row.needs_her and row.said:
            name = "keptOld" if row.said.state == run_notes.KEPT else "leftOut"
            found.append(_First(t.filled(name, row.name), tuple(map(str.strip, row.lines[1:])), row.name))
    found += [_First(t.filled("notHolding", probe.query), (probe.targets,)) for probe in last.probes if not probe.holds]
    bad = [pair for pair in last.fetches if pair[1].startswith(_NOT_FETCHED)]
    found += [_First(t.filled("notFetched", file), (line,)) for file, line in bad]
    for row in rows:
        if row.target and row.target.slips:
            lines = tuple(f"{it.words}: {it.count} / {it.rows}: {it.example}" for it in row.target.slips[:_MOST_LINES])
            found.append(_First(t.filled("hasSlips", row.name), lines, row.name))
    return tuple(found)


def _days_since_good(records: Sequence[RunRecord], now: datetime.datetime) -> int:
    """The days since an update ended well, among these; since the first update of them if none did."""
    updates = [record for record in records if record.work == _UPDATE]
    good = next((record for record in updates if record.status <= 1), updates[-1])
    begun = datetime.datetime.strptime(good.begun, STAMP).replace(tzinfo=datetime.timezone.utc)
    return (now - begun).days
