"""Does the same with many things, several at a time, each in a copy of the repository of its own."""
from __future__ import annotations

import concurrent.futures
import os
import queue
from collections.abc import Callable
from collections.abc import Sequence
from typing import TypeVar

from measuring import processes

Place = TypeVar("Place")
Thing = TypeVar("Thing")
Result = TypeVar("Result")


def jobs() -> int:
    """How many: OPENLINK_JOBS, or the number of processors."""
    given = os.environ.get("OPENLINK_JOBS", "")
    return max(1, int(given)) if given.isdigit() else len(os.sched_getaffinity(0))


def each(
    places: Sequence[Place],
    things: Sequence[Thing],
    do: Callable[[Place, Thing], Result],
    done: Callable[[Thing, Result], None],
) -> None:
    """Calls `do` for each thing, in any free place, and then, in this thread, `done` with what it returned. Ends all
    tests that run if one of these fails or an interrupt comes."""
    free: queue.SimpleQueue[Place] = queue.SimpleQueue()
    for place in places:
        free.put(place)

    def one(thing: Thing) -> Result:
        place = free.get()
        try:
            return do(place, thing)
        finally:
            free.put(place)

    with concurrent.futures.ThreadPoolExecutor(len(places)) as pool:
        try:
            started = {pool.submit(one, thing): thing for thing in things}
            for it in concurrent.futures.as_completed(started):
                done(started[it], it.result())
        except BaseException:
            pool.shutdown(wait=False, cancel_futures=True)
            processes.end_all()
            raise
