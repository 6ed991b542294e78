"""The charts: sizes of bars in proportion to their numbers, the second part on the first or below it, and lines at
round numbers."""
from __future__ import annotations

import random

from fixtures.cases import Case
from openlink_update.desk import charts
from openlink_update.desk.charts import Pair


class Charts(Case):
    def test_columns(self) -> None:
        chart = charts.columns([Pair("01", 100, 50, "2026"), Pair("02", 200), Pair("03", 0, 0)])
        first, second, other = chart.bars
        self.expect("parts", [it.part for it in chart.bars], ["a", "b", "a"])
        self.expect("heights", (first.height, other.height), (round(second.height * 2, 1), round(second.height * 4, 1)))
        base = max(chart.lines)
        self.expect(
            "they stand on the lowest line", [round(it.y + it.height, 1) for it in (first, other)], [base, base]
        )
        self.expect("the second is on the first", round(second.y + second.height, 1), first.y)
        self.expect(
            "the numbers of lines", [it.text for it in chart.labels if it.anchor == "end"], "0 50 100 150 200".split()
        )
        beside = [(it.x, it.y) for it in chart.labels if it.anchor == "end"]
        self.expect(
            "each is below its line", [round(y - line, 1) for (_, y), line in zip(beside, chart.lines)], [4] * 5
        )
        self.expect("they are left of the bars", max(x for x, _ in beside) < min(it.x for it in chart.bars))
        self.expect("the greatest reaches its line", other.y, min(chart.lines))
        self.expect("labels", [it.text for it in chart.labels if it.anchor == "middle"], ["01", "2026", "02", "03"])

    def test_rows(self) -> None:
        chart = charts.rows([Pair("one", 10, 5, "10 · 5"), Pair("two", 20, 0, "20")])
        self.expect("widths", [it.width for it in chart.bars], [chart.width / 2, chart.width / 4, chart.width])
        self.expect("the second is below", chart.bars[1].y, chart.bars[0].y + chart.bars[0].height)
        heights = [it.height for it in chart.bars]
        self.expect("one alone is as high as two", heights[2], heights[0] + heights[1])
        self.expect(
            "both ends",
            [(it.text, it.x, it.anchor) for it in chart.labels if it.text in ("one", "10 · 5")],
            [("one", 0, "start"), ("10 · 5", chart.width, "end")],
        )

    def test_within_the_picture(self) -> None:
        """Whatever the numbers are, and if there are none."""
        random.seed(2)
        for count in (0, 1, 2, 12, 13):
            for size in (0, 1, 9, 10**6, 10**15):
                pairs = [Pair("x", random.randint(0, size), random.randint(0, size)) for _ in range(count)]
                for chart in (charts.columns(pairs), charts.rows(pairs)):
                    outside = [
                        it
                        for it in chart.bars
                        if it.x < 0
                        or it.y < 0
                        or it.x + it.width > chart.width + 0.1
                        or it.y + it.height > chart.height + 0.1
                    ]
                    self.expect(f"{count} bars up to {size}", (outside, len(chart.lines) <= 5), ([], True))

    def test_short_numbers(self) -> None:
        numbers = {9999: "9999", 10_000: "10k", 12_500: "12.5k", 2_000_000: "2M", 3_000_000_000: "3G"}
        self.expect("numbers", [charts.short(it) for it in numbers], list(numbers.values()))
