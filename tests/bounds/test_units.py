"""The numbers of the units of the updates: each allows what the update itself allows, and little more. So what takes
too much is ended by the limit of its library, which names it, and the unit ends only a run that does not do so."""
from __future__ import annotations

import re
from pathlib import Path

from fixtures.cases import Case
from openlink_update import update_options
from openlink_update.rights import limits

FOLDER = Path("packaging/systemd")
UNITS = ("openlink-update.service", "openlink-walls.service")
STEPS = {"openlink-update.service": 4, "openlink-walls.service": 2}  # times MINUTES; the fetch counts as two
HOSTILE = 3  # libraries that take all of their time, and those after them have their turn
PROCESSES = 4  # of a first installation
OWN_MB = 256  # of the run itself, which reads no file of a provider
_UNITS = {"G": 1024, "M": 1, "h": 60, "min": 1}


def number_of(name: str, directive: str) -> int:
    """The value of a directive, in MB or minutes."""
    text = (FOLDER / name).read_text(encoding="utf-8")
    found = re.findall(rf"^{directive}=(\d+)([a-zA-Z]+)$", text, re.M)
    (number, unit) = found[0] if len(found) == 1 else ("0", "M")
    return int(number) * _UNITS[unit]


def fault_of_memory(megabytes: int) -> str | None:
    least = limits.MEMORY_MB + OWN_MB
    if megabytes < least:
        return f"{megabytes} MB, and a library and the run may take {least}"
    return f"{megabytes} MB, and two libraries fit" if megabytes >= 2 * limits.MEMORY_MB else None


def fault_of_time(name: str, minutes: int) -> str | None:
    """A unit gives the hostile ones all of their time, and at least that of another one besides."""
    each = STEPS[name] * limits.MINUTES
    least = (HOSTILE + 1) * each
    return None if minutes >= least else f"{minutes} minutes, and {HOSTILE} libraries and one more may take {least}"


def fault_of_end(minutes: int) -> str | None:
    """A run that is told to end restarts the processes with the version before, each with its time to listen."""
    options = update_options.parse(["--dry-run"])
    least = PROCESSES * options.seconds / 60
    return None if minutes > least else f"{minutes} minutes, and going back may take {least:g}"


class Units(Case):
    def test_memory(self) -> None:
        for name in UNITS:
            self.expect(name, fault_of_memory(number_of(name, "MemoryMax")), None)
        least = limits.MEMORY_MB + OWN_MB
        self.expect("the least", (fault_of_memory(least), fault_of_memory(least - 1) is None), (None, False))
        most = 2 * limits.MEMORY_MB
        self.expect("the most", (fault_of_memory(most - 1), fault_of_memory(most) is None), (None, False))

    def test_time(self) -> None:
        for name in UNITS:
            self.expect(name, fault_of_time(name, number_of(name, "TimeoutStartSec")), None)
            least = (HOSTILE + 1) * STEPS[name] * limits.MINUTES
            self.expect(f"{name}: the least", fault_of_time(name, least), None)
            self.expect(f"{name}: less", fault_of_time(name, least - 1) is None, False)
        security = Path("SECURITY.md").read_text(encoding="utf-8")
        hours = HOSTILE * STEPS[UNITS[0]] * limits.MINUTES / 60
        self.expect("what SECURITY says", (hours, "by up to nine hours" in security), (9, True))

    def test_end(self) -> None:
        for name in UNITS:
            self.expect(name, fault_of_end(number_of(name, "TimeoutStopSec")), None)
        self.expect("the least", (fault_of_end(5), fault_of_end(4) is None), (None, False))
