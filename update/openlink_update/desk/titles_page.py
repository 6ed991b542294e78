"""What the page of the collection shows: the titles of each target, those that no other has, what two share, and the
coverage by decade."""
import dataclasses
from collections.abc import Sequence

from openlink_update.desk import charts
from openlink_update.desk.charts import Chart, Pair
from openlink_update.desk.collection import Collection, Decade, Holdings

_MOST_BARS, _MOST_DECADES = 20, 12


@dataclasses.dataclass(frozen=True)
class _Titles:
    titles: int
    targets: tuple[Holdings, ...]  # the greatest first
    chart: Chart
    decades: tuple[Decade, ...]  # of all targets, the newest first
    decades_chart: Chart


def titles_of(collection: Collection) -> _Titles:
    targets = tuple(sorted(collection.targets, key=lambda it: (-it.titles, it.target)))
    pairs = [Pair(it.target, it.titles, it.alone, _both(it)) for it in targets[:_MOST_BARS]]
    decades = tuple(sorted(collection.decades, key=lambda it: -it.year))
    return _Titles(collection.titles, targets, charts.rows(pairs), decades, _columns(decades))


def _both(it: Holdings) -> str:
    return f"{charts.short(it.titles)} · {charts.short(it.alone)}"


def _columns(decades: Sequence[Decade]) -> Chart:
    """The last decades, of which every second has its year, since there is no room for all."""
    shown = sorted(decades[:_MOST_DECADES], key=lambda it: it.year)
    return charts.columns([Pair(str(it.year) if place % 2 == 0 else "", it.titles) for place, it in enumerate(shown)])


def cells_of(collection: Collection) -> list[tuple[str, ...]]:
    """The table of all targets with their decades."""
    years = [str(it.year) for it in collection.decades]
    rows: list[tuple[str, ...]] = [("target", "titles", "in no other target", *years)]
    for it in collection.targets:
        numbers = {decade.year: str(decade.titles) for decade in it.decades}
        own = tuple(numbers.get(decade.year, "0") for decade in collection.decades)
        rows.append((it.target, str(it.titles), str(it.alone), *own))
    return rows
