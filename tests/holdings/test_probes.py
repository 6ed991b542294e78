"""Tests of the source by which the log tells probes from readers, and of the command's end."""
from __future__ import annotations

import os
import signal
import subprocess

from fixtures import PYTHON
from fixtures.cases import Case
from openlink_update.site import probes

MARK = "&rfr_id=info:sid/openlink:probe"
CASES = [
    ("issn=2901-0012", True),
    ("rft.issn=2901-0012&rft.date=2003", True),
    ("sid=google&issn=2901-0012", False),
    ("issn=2901-0012&rfr_id=info:sid/a", False),
    ("issn=2901-0012;sid=a", False),
    ("issn=2901-0012?sid=a", False),
    ("SID=a", False),
    ("issn=1&%73id=a", False),
    ("issn=1&%20sid%20=a", False),
    ("rft.issn=sid=a", True),
    ("pid=sid", True),
    ("issn=2901-0012&sid", False),
    ("xsid=a", True),
]


class Probes(Case):
    """The source of a query."""

    def test_marks(self) -> None:
        for query, is_marked in CASES:
            self.expect(f"the source of {query}", probes.marked(query), query + MARK if is_marked else query)

    def test_nobody_reads(self) -> None:
        """It ends as other commands do when it writes to a pipe that nobody reads."""
        reader, writer = os.pipe()
        os.close(reader)
        done = subprocess.run([*PYTHON, "update/probe", "/nonexistent/probes"], stderr=writer, check=False)
        os.close(writer)
        self.expect("the signal", done.returncode, -signal.SIGPIPE)
