"""What the desk knows of runs, targets and logs, in the text format of Prometheus. front_door/metrics.js adds what it
sees itself."""
import datetime
import re
from collections import Counter
from collections.abc import Iterable, Iterator, Sequence

from openlink_update.counts import log_counts
from openlink_update.counts.log_counts import Row
from openlink_update.desk.targets import Target
from openlink_update.run_notes import STATES
from openlink_update.run_records import RunRecord
from openlink_update.versions.library import STAMP

NAME = "metrics.txt"
_UPDATE = "update"
_PLAIN = re.compile(r"[A-Za-z0-9_.-]{1,64}", re.A)
_Values = Iterable[tuple[str, float]]  # labels and numbers


def text_of(
    records: Sequence[RunRecord], targets: Sequence[Target], titles: int | None, rows: Iterable[Row], month: str
) -> str:
    """The lines for the records of a library, the newest first, the targets and titles of the version in use, and the
    counts of a month."""
    last = next((record for record in records if record.work == _UPDATE), None)
    lines = [] if last is None else [*_of_run(last)]
    lines += _metric(
        "openlink_target_rows", "Rows of a target.", ((_label("target", it.name), it.rows) for it in targets)
    )
    lines += _metric("openlink_titles", "Titles of all targets.", [] if titles is None else [("", titles)])
    return "".join(f"{line}\n" for line in [*lines, *_of_month(rows, month)])


def _of_run(last: RunRecord) -> Iterator[str]:
    begun = datetime.datetime.strptime(last.begun, STAMP).replace(tzinfo=datetime.timezone.utc)
    yield from _metric("openlink_run_timestamp_seconds", "When the last update began.", [("", int(begun.timestamp()))])
    yield from _metric("openlink_run_status", "The exit status of the last update.", [("", last.status)])
    yield from _metric("openlink_run_duration_seconds", "How long the last update took.", [("", last.seconds)])
    states = Counter(state.state for state in last.targets)
    numbers = ((_label("state", state.replace(" ", "_")), states[state]) for state in STATES)
    yield from _metric("openlink_run_targets", "Targets by what the last update made of them.", numbers)


def _of_month(rows: Iterable[Row], month: str) -> Iterator[str]:
    """Requests and errors of a month, as far as the desk has counted the logs."""
    found = [(kind, name, number) for of_month, kind, name, number in rows if of_month == month]
    requests = sum(number for kind, _, number in found if kind == log_counts.REQUESTS)
    without = sum(number for kind, _, number in found if kind == log_counts.WITHOUT_FULL_TEXT)
    errors = [(_label("status", name), number) for kind, name, number in found if kind == log_counts.ERRORS]
    yield from _metric("openlink_month_requests", "Requests of this month.", [("", requests)])
    yield from _metric("openlink_month_requests_without_full_text", "Those without full text.", [("", without)])
    yield from _metric("openlink_month_errors", "Requests of this month with a status from 400 on.", errors)


def _metric(name: str, what: str, values: _Values) -> list[str]:
    lines = [
        f"{name}{labels} {number:g}" if number < 1e6 else f"{name}{labels} {number:.0f}" for labels, number in values
    ]
    return [f"# HELP {name} {what}", f"# TYPE {name} gauge", *lines] if lines else []


def _label(name: str, value: str) -> str:
    return f'{{{name}="{value if _PLAIN.fullmatch(value) else ""}"}}'
