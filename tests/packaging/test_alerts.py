"""The sample of alerts for Prometheus: each line of it is one that its table explains. desk.test_metrics compares the
names in it with those that the metrics have."""
from __future__ import annotations

import os

from fixtures import needs
from fixtures.cases import Case
from packaging import spoiling

FILE = "packaging/prometheus/openlink.rules.yml"


@needs.python_module("yaml", "python3-yaml")
class Alerts(Case):
    """What the alerts declare."""

    def test_each_line_is_as_the_table_says(self) -> None:
        self.expect("the files", os.listdir(os.path.dirname(FILE)), [os.path.basename(FILE)])
        spoiling.check_files(self, FILE)

    def test_each_spoilt_line_is_a_fault(self) -> None:
        spoiling.check_spoilt(self, FILE)
