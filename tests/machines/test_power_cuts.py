"""What a delivery puts in place, here and on another machine, is on the disk before the next step."""
from __future__ import annotations

import re

from fixtures import needs
from fixtures.balanced_machine import two_machines
from fixtures.cases import Case
from fixtures.disk_calls import Losses
from fixtures.disk_calls import Trace
from fixtures.library import PYTHON
from fixtures.library import ended

# The input comes by rsync, which waits for nothing; `drain` ends with the machine that goes down; a lock has no bytes.
_MAY_BE_LOST = re.compile(r".*\binput(/\S*)?|drain|delivery\.lock|lock|sending(/.*)?")
_MAY_COME_BACK = re.compile(r"(versions/STAMP.*|trial|sending)(/.*)?|updated|\S*\.new|input/.*|drain")


def left(losses: Losses) -> Losses:
    """The losses that matter."""
    return losses.but(_MAY_BE_LOST, _MAY_COME_BACK)


@needs.nginx()
@needs.program()
@needs.command("strace", "rsync", "curl")
class PowerCuts(Case):
    def test_delivery(self) -> None:
        one, two = two_machines(self)
        folders = [machine.folder for machine in (one, two)]
        for name, words in (("the first delivery", ["--send"]), ("a week", [])):
            if not words:
                one.input.deliver("B")
            trace = Trace(one.aside("calls"), *folders)
            status, printed = ended(
                one.begin(*one.words_to(two, *words), before=(*trace.before, *PYTHON), is_command=True)
            )
            self.expect(f"{name}: {printed}", (status, two.current()), (0, one.current()))
            calls = trace.calls()
            for side, folder in zip(("here", "there"), folders):
                self.expect(f"{name}: {side}", left(trace.losses(folder, calls)), Losses([], [], []))
            named = [
                place
                for place, call in enumerate(calls)
                if call.name == "fsync"
                and call.paths[0]
                in (f"{two.folder}/delivery.new", f"{one.folder}/delivery.new", f"{one.folder}/probes.tsv.new")
            ]
            self.expect(f"{name}: files that are waited for", len(named), 3)
            for place in named:
                without = [left(trace.losses(folder, calls[:place] + calls[place + 1 :])) for folder in folders]
                self.expect(f"{name}: without {calls[place]}", without != [Losses([], [], [])] * 2)
