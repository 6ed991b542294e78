"""The metrics that the desk writes: their form and values, from texts of strangers too; and the sample of alerts names
metrics that exist."""
from __future__ import annotations

import os
import re
import time
from pathlib import Path
from unittest import mock

from desk.made_desk import HOSTILE
from desk.made_desk import record
from fixtures.cases import Case
from openlink_update.desk import metrics
from openlink_update.desk.targets import Target
from openlink_update.run_notes import TargetState

# As front_door/metrics.js takes a line.
PLAIN = re.compile(r'# (HELP|TYPE) openlink_\w+ [\w ,.\'()]+|openlink_\w+(\{\w+="[\w.-]*"\})? [\d.e+-]+', re.A)
STATES = (TargetState("a", "kept"), TargetState("b", "kept"), TargetState("c", "left out"), TargetState("d", "changed"))


def target(name: str, rows: int) -> Target:
    return Target(name, (name,), rows, "", "", (), ())


class Metrics(Case):
    def test_values(self) -> None:
        rows = [
            ("2026-11", "requests", "", 1234567),
            ("2026-11", "without full text", "", 7),
            ("2026-11", "errors", "503", 2),
            ("2026-10", "requests", "", 9),
        ]
        records = [record(3, work="walls"), record(1, targets=STATES)]
        text = metrics.text_of(records, [target("press", 12345678)], 42, rows, "2026-11")
        lines = text.splitlines()
        self.expect("lines of another form", [it for it in lines if not PLAIN.fullmatch(it)], [])
        for line in (
            "openlink_run_timestamp_seconds 1795838400",
            "openlink_run_status 1",
            "openlink_run_duration_seconds 61.4",
            'openlink_run_targets{state="kept"} 2',
            'openlink_run_targets{state="left_out"} 1',
            'openlink_run_targets{state="gone"} 0',
            'openlink_target_rows{target="press"} 12345678',
            "openlink_titles 42",
            "openlink_month_requests 1234567",
            "openlink_month_requests_without_full_text 7",
            'openlink_month_errors{status="503"} 2',
        ):
            self.expect(line, lines.count(line), 1)

    def test_time_of_a_run(self) -> None:
        """The stamp of a record is of UTC, whatever the time zone of the machine."""
        self.addCleanup(time.tzset)
        with mock.patch.dict(os.environ, TZ="XXX-9"):
            time.tzset()
            text = metrics.text_of([record()], [], None, [], "2026-11")
        self.expect("the time", "openlink_run_timestamp_seconds 1795838400" in text.splitlines())

    def test_nothing_known(self) -> None:
        self.expect(
            "names",
            [it.split()[0] for it in metrics.text_of([], [], None, [], "2026-11").splitlines() if it[0] != "#"],
            ["openlink_month_requests", "openlink_month_requests_without_full_text"],
        )

    def test_hostile_names(self) -> None:
        rows = [("2026-11", "errors", text, 1) for text in HOSTILE]
        states = tuple(TargetState(text, "kept") for text in HOSTILE)
        text = metrics.text_of([record(targets=states)], [target(name, 1) for name in HOSTILE], 1, rows, "2026-11")
        self.expect("lines of another form", [it for it in text.split("\n")[:-1] if not PLAIN.fullmatch(it)], [])

    def test_long_names(self) -> None:
        text = metrics.text_of([], [target("x" * 64, 1), target("y" * 65, 2)], None, [], "2026-11")
        rows = [line for line in text.splitlines() if line.startswith("openlink_target_rows{")]
        wanted = [f'openlink_target_rows{{target="{"x" * 64}"}} 1', 'openlink_target_rows{target=""} 2']
        self.expect("names", rows, wanted)

    def test_sample_of_alerts(self) -> None:
        text = Path("packaging/prometheus/openlink.rules.yml").read_text("utf-8")
        names = set(re.findall(r"openlink_\w+", "".join(re.findall(r"expr: (.*)", text))))
        sources = Path(metrics.__file__).read_text("utf-8") + Path("front_door/metrics.js").read_text("utf-8")
        self.expect("alerts", len(re.findall("- alert: ", text)), len(re.findall("expr: ", text)))
        self.expect(
            "names",
            (len(names) >= 4, {it for it in names if not re.search(rf"['\"]{it}['\"]", sources)}),
            (True, set()),
        )
