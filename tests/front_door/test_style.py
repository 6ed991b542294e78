"""The colours of menu.css."""
from __future__ import annotations

import re

from fixtures.cases import Case


def light(colour: str) -> float:
    """The relative luminance of a colour, as WCAG 2 defines it."""
    parts = [int(colour[i : i + 2], 16) / 255 for i in (1, 3, 5)]
    parts = [part / 12.92 if part <= 0.04045 else ((part + 0.055) / 1.055) ** 2.4 for part in parts]
    return 0.2126 * parts[0] + 0.7152 * parts[1] + 0.0722 * parts[2]


class Style(Case):
    """What can be computed from the file alone."""

    def test_contrast(self) -> None:
        """The contrast of each text with its background, in light and in dark."""
        with open("front_door/menu.css") as file:
            schemes = re.findall(r":root \{(.*?)\}", file.read())
        self.expect("menu.css has two sets of colours", len(schemes), 2)
        for scheme in schemes:
            colours = dict(re.findall(r"--(\w+): (#[0-9a-f]{6})", scheme))
            for ink in ("ink", "link"):
                for paper in ("paper", "soft"):
                    pair = sorted((light(colours[ink]), light(colours[paper])))
                    self.expect(
                        f"contrast of {colours[ink]} on {colours[paper]}", (pair[1] + 0.05) / (pair[0] + 0.05) >= 4.5
                    )
