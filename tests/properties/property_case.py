"""The class of tests whose cases hypothesis makes. OPENLINK_CASES says how many, and OPENLINK_SEED which; without a
seed they are the same in each run."""
from __future__ import annotations

import functools
import os
from collections.abc import Callable
from typing import Any

from fixtures.cases import Case

try:
    import hypothesis
    from hypothesis import strategies
except ImportError:  # needs.hypothesis skips the tests
    hypothesis = strategies = None

__all__ = ["CASES", "PropertyCase", "cases_of", "shared_cases", "strategies"]
CASES = int(os.environ.get("OPENLINK_CASES", "1000"))
_SEED = os.environ.get("OPENLINK_SEED", "")


def _run(strategy: Any, use: Callable[[Any], None]) -> None:
    """Calls a function with each case. What fails is made as small as possible, and raised."""
    settings = hypothesis.settings(
        max_examples=CASES,
        deadline=None,
        database=None,
        derandomize=_SEED == "",
        suppress_health_check=list(hypothesis.HealthCheck),
    )
    test = settings(hypothesis.given(strategy)(use))
    if _SEED:
        test = hypothesis.seed(int(_SEED))(test)
    test()


def cases_of(strategy: Any) -> list[Any]:
    """The cases alone, for a test that takes all of them at once."""
    found: list[Any] = []

    def note(case: Any) -> None:
        found.append(case)

    _run(strategy, note)
    return found


@functools.cache
def _shared(made: Callable[[], Any]) -> list[Any]:
    """The cases of the strategy that a function makes, once for all tests of this process."""
    return cases_of(made())


def shared_cases(made: Callable[[], Any]) -> list[Any]:
    """The cases of a strategy that a function makes. Tests of one function take the same ones, since most of the time
    goes into making them; in runs with a seed each has its own."""
    return cases_of(made()) if _SEED else _shared(made)


class PropertyCase(Case):
    def hold(self, strategy: Any, holds: Callable[[Any], None]) -> None:
        """The function raises an AssertionError for no case."""
        count = 0

        def use(case: Any) -> None:
            nonlocal count
            count += 1
            holds(case)

        _run(strategy, use)
        self.expect_cases(count)

    def hold_shared(self, holds: Callable[[Any], None], *made: Callable[[], Any]) -> None:
        """The same of the shared cases of strategies that functions make, of tuples of them if they are several."""
        strategy = made[0]() if len(made) == 1 else strategies.tuples(*(it() for it in made))
        if _SEED:
            self.hold(strategy, holds)
            return
        cases = _shared(made[0]) if len(made) == 1 else [*zip(*map(_shared, made))]
        try:
            for case in cases:
                holds(case)
        except Exception:
            _run(strategy, holds)  # raises what fails of a small case, if it finds one
            raise
        self.expect_cases(len(cases))

    def expect_cases(self, count: int) -> None:
        """So many cases were made: hypothesis stops before if there are no more."""
        self.expect(f"{count} cases", count >= CASES)

    def expect_none(self, what: str, faults: list[Any]) -> None:
        """There is no fault. The shortest are shown."""
        self.expect(what, sorted(faults, key=lambda it: len(str(it)))[:3], [])
