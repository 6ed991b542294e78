"""The colours of the desk: texts and bars stand out from what is behind them, and the two parts of a bar stay apart,
for the colour-blind and in print too."""
from __future__ import annotations

import re
from pathlib import Path

from fixtures.cases import Case
from openlink_update.desk import templates_in

# How the eye of a person without one kind of cones sees linear red, green and blue (Machado and others, 2009).
BLIND = {
    "protanopia": ((0.152286, 1.052583, -0.204868), (0.114503, 0.786281, 0.099216), (-0.003882, -0.048116, 1.051998)),
    "deuteranopia": ((0.367322, 0.860646, -0.227968), (0.280085, 0.672501, 0.047413), (-0.011820, 0.042940, 0.968881)),
    "tritanopia": ((1.255528, -0.076749, -0.178779), (-0.078411, 0.930809, 0.147602), (0.004733, 0.691367, 0.303900)),
}
Colour = tuple[float, float, float]


def linear(text: str) -> Colour:
    values = [int(text[at : at + 2], 16) / 255 for at in (1, 3, 5)]
    red, green, blue = (it / 12.92 if it <= 0.04045 else ((it + 0.055) / 1.055) ** 2.4 for it in values)
    return red, green, blue


def luminance(colour: Colour) -> float:
    return 0.2126 * colour[0] + 0.7152 * colour[1] + 0.0722 * colour[2]


def contrast(one: Colour, other: Colour) -> float:
    """As WCAG 2 defines it."""
    darker, lighter = sorted((luminance(one), luminance(other)))
    return (lighter + 0.05) / (darker + 0.05)


def seen(colour: Colour, matrix: tuple[Colour, ...]) -> Colour:
    red, green, blue = (sum(a * b for a, b in zip(row, colour)) for row in matrix)
    return max(red, 0), max(green, 0), max(blue, 0)


def schemes() -> dict[str, dict[str, Colour]]:
    """The colours in light and dark, by their names."""
    found: dict[str, dict[str, str]] = {"light": {}, "dark": {}}
    for path in (Path("front_door/menu.css"), templates_in.FOLDER / "desk.css"):
        first, second = re.findall(r":root \{([^}]*)\}", path.read_text("utf-8"))
        found["light"].update(re.findall(r"--([\w-]+): (#[0-9a-f]{6})", first))
        found["dark"].update(re.findall(r"--([\w-]+): (#[0-9a-f]{6})", second))
    return {name: {it: linear(text) for it, text in colours.items()} for name, colours in found.items()}


class Style(Case):
    def test_contrasts(self) -> None:
        for name, colours in schemes().items():
            self.expect(f"{name}: colours", len(colours), 9)
            for text, behind, least in (
                ("ink", "bad", 4.5),
                ("link", "bad", 4.5),
                ("ink", "paper", 4.5),
                ("part-a", "paper", 3),
                ("edge", "paper", 3),
                ("part-a", "part-b", 2.5),
                ("edge", "part-b", 2),
            ):
                ratio = contrast(colours[text], colours[behind])
                self.expect(f"{name}: {text} on {behind}: {ratio:.2f}", ratio >= least, True)

    def test_colour_blind(self) -> None:
        for name, colours in schemes().items():
            for kind, matrix in BLIND.items():
                first, second = (seen(colours[part], matrix) for part in ("part-a", "part-b"))
                ratio = contrast(first, second)
                self.expect(f"{name}, {kind}: {ratio:.2f}", ratio >= 2.2, True)
        red, green = linear("#cc0000"), linear("#007700")
        ratio = contrast(seen(red, BLIND["protanopia"]), seen(green, BLIND["protanopia"]))
        self.expect(f"red and green would not stay apart: {ratio:.2f}", ratio < 2.2, True)

    def test_attributes_without_a_style(self) -> None:
        """A picture that is taken from the page has the light colours by its attributes."""
        style = (templates_in.FOLDER / "desk.css").read_text("utf-8")
        chart = (templates_in.FOLDER / "chart.html").read_text("utf-8")
        for part in ("part-a", "part-b", "edge"):
            [colour] = re.findall(rf"--{part}: (#\w+)", style)[:1]
            self.expect(part, colour in chart, True)
        self.expect("inline styles and scripts", re.findall(r"style=|<script|<style| on\w+=", chart), [])
