"""Names of versions and of parts: each new one is after all others, and Python and njs read the same in them."""
from __future__ import annotations

import datetime
import tempfile
from pathlib import Path
from typing import Any
from unittest import mock

from fixtures import needs
from openlink_update.tables import parts
from openlink_update.versions import library
from openlink_update.versions.library import Library
from properties import njs
from properties.property_case import PropertyCase
from properties.property_case import cases_of
from properties.property_case import shared_cases
from properties.property_case import strategies as st

UTC = datetime.timezone.utc
DAY = datetime.timedelta(days=1)


def _moments() -> Any:
    return st.datetimes(datetime.datetime(2020, 1, 1), datetime.datetime(2037, 12, 31), timezones=st.just(UTC))


def written(moment: datetime.datetime) -> str:
    it = moment.timetuple()
    return f"{it.tm_year:04}{it.tm_mon:02}{it.tm_mday:02}T{it.tm_hour:02}{it.tm_min:02}{it.tm_sec:02}Z"


def _names() -> Any:
    """Names of moments, some of moments that do not exist, and others."""
    digits = "0123456789"
    wrong = st.tuples(st.text(digits, min_size=8, max_size=8), st.text(digits, min_size=6, max_size=6))
    near = st.tuples(_moments().map(written), st.integers(0, 15), st.sampled_from("0123456789TZz"))
    return st.one_of(
        _moments().map(written),
        near.map(lambda it: it[0][: it[1]] + it[2] + it[0][it[1] + 1 :]),
        wrong.map(lambda it: f"{it[0]}T{it[1]}Z"),
        st.text("0123TZ", min_size=1, max_size=4),
    )


def _pairs() -> Any:
    """A name, and a moment that is often near to that of the name."""
    near = st.tuples(_moments(), st.integers(-90_000, 270_000)).map(
        lambda it: (written(it[0] + datetime.timedelta(seconds=it[1])), it[0])
    )
    edge = st.tuples(_moments(), st.integers(-2, 2)).map(
        lambda it: (written(it[0] + DAY + datetime.timedelta(seconds=it[1])), it[0])
    )
    return st.one_of(st.tuples(_names(), _moments()), near, edge)


def has_form(name: str) -> bool:
    return len(name) == 16 and name[8] == "T" and name[15] == "Z" and (name[:8] + name[9:15]).isdigit()


def moment_of(name: str) -> datetime.datetime | None:
    """The moment that the digits of a name say, if there is one."""
    if not has_form(name):
        return None
    numbers = [int(name[at : at + count]) for at, count in ((0, 4), (4, 2), (6, 2), (9, 2), (11, 2), (13, 2))]
    try:
        return datetime.datetime(numbers[0], *numbers[1:], tzinfo=UTC)
    except ValueError:
        return None


def is_name(name: str, now: datetime.datetime) -> bool:
    moment = moment_of(name)
    return moment is not None and moment <= now + DAY


@needs.hypothesis()
class VersionNames(PropertyCase):
    def test_names(self) -> None:
        """A name is that of a second, of at most a day ahead."""

        def holds(case: Any) -> None:
            name, now = case
            with mock.patch.object(library, "_now", lambda: now):
                assert library.is_stamp(name) == is_name(name, now), case

        self.hold_shared(holds, _pairs)

    def test_the_next_is_after_all(self) -> None:
        """Also if the clock was put back."""

        def holds(case: Any) -> None:
            names, now = case
            with mock.patch.object(library, "_now", lambda: now):
                known = [name for name in names if library.is_stamp(name)]
                new = library.stamp_after(known)
            assert has_form(new) and new > max(known, default="") and new >= written(now), (case, new)
            moments = [moment for name in known for moment in [moment_of(name)] if moment]
            latest = max([now.replace(microsecond=0), *(moment + datetime.timedelta(seconds=1) for moment in moments)])
            assert moment_of(new) == latest, (case, new)

        self.hold(st.tuples(st.lists(_names(), max_size=5), _moments()), holds)

    def test_versions_of_a_folder(self) -> None:
        """Those that remain after what a killed run left, and after the oldest are removed."""

        def holds(case: Any) -> None:
            entries, now, most = case
            names = {f"{name}{kind}" for name, kind in entries}
            with tempfile.TemporaryDirectory() as folder, mock.patch.object(library, "_now", lambda: now):
                it = Library(folder)
                for name in names:
                    Path(folder, "versions", name).mkdir(parents=True)
                known = sorted(name for name in names if is_name(name, now))
                assert it.versions() == known, (case, it.versions())
                it.clear()
                it.remove_old(most)
                left = {path.name for path in Path(folder, "versions").iterdir()}
            unfinished = {name for name in names if name.endswith(".new") and has_form(name[:-4])}
            assert left == names - unfinished - set(known[:-most]), (case, left)

        kinds = st.sampled_from(("", "", "", ".new", ".sent", ".x"))
        entries = st.lists(st.tuples(_names(), kinds), max_size=6)
        self.hold(st.tuples(entries, _moments(), st.integers(1, 3)), holds)

    @needs.command("njs")
    def test_ages_of_the_health_page(self) -> None:
        cases = shared_cases(_pairs)
        self.expect_cases(len(cases))
        asked = [(f"/etc/openlink/versions/{name}", int(moment.timestamp() * 1000)) for name, moment in cases]
        faults, count = [], 0
        for (name, now), (age, _) in zip(cases, njs.results_of("names.js", asked)):
            made = moment_of(name)
            if has_form(name) and (made is None or made.year < 1970):
                continue  # no version has this name
            count += made is not None
            if age != (-1 if made is None else max((now.replace(microsecond=0) - made) // DAY, 0)):
                faults.append((name, now, age))
        self.expect_none("ages", faults)
        self.expect(f"{count} names of versions", count > len(cases) // 5)

    @needs.command("njs")
    def test_parts_of_targets(self) -> None:
        """A part has the name of its target, for the update and for the front door."""
        names = st.text("ab.29_-", min_size=1, max_size=6)
        numbers = st.one_of(st.integers(0, 12), st.integers(95, 105), st.integers(990, 998))
        cases = cases_of(st.tuples(names, numbers))
        self.expect_cases(len(cases))
        asked = [(parts._name_of(name, number), 0) for name, number in cases]
        found = [target for _, target in njs.results_of("names.js", asked)]
        self.expect_none(
            "what they read", [(it, target) for (it, _), target in zip(asked, found) if parts.base_of(it) != target]
        )
        self.expect_none("parts", [it for it, target in zip(cases, found) if it[1] and target != it[0]])
