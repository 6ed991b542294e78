"""Prepares a file in a process of its own, and measures the most memory that it takes."""
from __future__ import annotations

import json
import subprocess
import tempfile

from fixtures import PYTHON
from fixtures.fetch_input import MEMORY

MOST_MB = 600  # for a file that is refused
CHILD = """
import json, re, sys
sys.path.insert(0, "update")
from openlink_update.tables import preparation
from openlink_update.outcome import Refused
with open(sys.argv[1], "rb") as file:
    data = file.read()
try:
    said = preparation.prepare([("file", data)]).lines
except Refused as refusal:
    said = refusal.reasons
with open("/proc/self/status") as status:  # ru_maxrss begins with the memory of the process that starts this one
    print(json.dumps([said, int(re.search(r"VmHWM:\\s*(\\d+) kB", status.read())[1]) >> 10]))
"""


def prepared(data: bytes) -> tuple[list[str], int]:
    """What is said of a file, and the megabytes that it takes at most to say it."""
    with tempfile.NamedTemporaryFile(dir=MEMORY) as file:
        file.write(data)
        file.flush()
        done = subprocess.run([*PYTHON, "-c", CHILD, file.name], capture_output=True, text=True)
    lines, megabytes = json.loads(done.stdout) if done.returncode == 0 else ([done.stderr], 0)
    return lines, megabytes
