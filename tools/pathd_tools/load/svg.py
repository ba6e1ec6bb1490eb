"""Pictures as SVG: lines, boxes and text, axes of logarithms, curves in steps, and bars in groups."""
from __future__ import annotations

import math
from collections.abc import Iterable, Sequence
from dataclasses import dataclass, field
from html import escape
from pathlib import Path

COLORS = ["#4c78a8", "#f58518", "#54a24b", "#e45756", "#b279a2", "#9d755d", "#72b7b2", "#eeca3b"]
DASHES = ["", "6 3", "2 2"]
FRAME, GRID = "#333", "#ddd"


class Picture:
    """A picture of so many pixels, in which y grows downwards."""

    def __init__(self, width: int, height: int) -> None:
        self.width, self.height = width, height
        self.parts: list[str] = []

    def text(self, x: float, y: float, words: str, anchor: str = "start", size: int = 12, turned: bool = False) -> None:
        """Words at a place, at their start, middle or end; `turned` reads upwards."""
        turn = f' transform="rotate(-90 {x:.1f} {y:.1f})"' if turned else ""
        self.parts.append(f'<text x="{x:.1f}" y="{y:.1f}" text-anchor="{anchor}" font-size="{size}"{turn}>{escape(words)}</text>')

    def line(self, points: Iterable[tuple[float, float]], color: str = FRAME, width: float = 1, dashes: str = "") -> None:
        """A line through points."""
        path = " ".join(f"{x:.1f},{y:.1f}" for x, y in points)
        dashed = f' stroke-dasharray="{dashes}"' if dashes else ""
        self.parts.append(f'<polyline points="{path}" fill="none" stroke="{color}" stroke-width="{width}"{dashed}/>')

    def box(self, x: float, y: float, width: float, height: float, color: str, title: str = "") -> None:
        """A box, with words that show where it is pointed at."""
        shown = f"<title>{escape(title)}</title>" if title else ""
        self.parts.append(f'<rect x="{x:.1f}" y="{y:.1f}" width="{width:.1f}" height="{max(height, 0):.1f}" fill="{color}">{shown}</rect>')

    def write(self, path: Path) -> None:
        """Writes the picture to a file."""
        head = f'<svg xmlns="http://www.w3.org/2000/svg" width="{self.width}" height="{self.height}" font-family="sans-serif">'
        path.write_text("\n".join([head, '<rect width="100%" height="100%" fill="white"/>', *self.parts, "</svg>"]) + "\n")


@dataclass(frozen=True)
class Area:
    """Where figures are drawn: its left and right, its top and bottom."""

    left: float
    right: float
    top: float
    bottom: float


@dataclass(frozen=True)
class Scale:
    """An axis of logarithms from bottom to top, of whole powers of ten."""

    area: Area
    least: float
    greatest: float

    @staticmethod
    def of(area: Area, values: Iterable[float]) -> Scale:
        """The scale that has room for all values above 0."""
        above = [value for value in values if value > 0] or [1.0]
        least = math.floor(math.log10(min(above)) - 0.05)
        return Scale(area, least, max(least + 1, math.ceil(math.log10(max(above)))))

    def at(self, value: float) -> float:
        """The height of a value; what is too small for the scale is at the bottom."""
        part = (math.log10(value) - self.least) / (self.greatest - self.least) if value > 0 else 0
        return self.area.bottom - max(0.0, part) * (self.area.bottom - self.area.top)

    def draw(self, picture: Picture, unit: str, x: float) -> None:
        """Draws the axis with a line for each power of ten, and its unit at a place to the left."""
        for power in range(int(self.least), int(self.greatest) + 1):
            height = self.at(10.0**power)
            picture.line([(self.area.left, height), (self.area.right, height)], GRID)
            picture.text(self.area.left - 4, height + 4, short(10.0**power), "end", 10)
        picture.line([(self.area.left, self.area.top), (self.area.left, self.area.bottom), (self.area.right, self.area.bottom)])
        picture.text(x, (self.area.top + self.area.bottom) / 2, unit, "middle", 11, turned=True)


def short(value: float) -> str:
    """A number in few characters."""
    for size, letter in ((1e6, "M"), (1e3, "k")):
        if value >= size:
            return f"{value / size:g}{letter}"
    return f"{value:g}"


# Curves in steps


@dataclass(frozen=True)
class Curve:
    """Values from places on, each up to the next place."""

    name: str
    color: str
    points: Sequence[tuple[float, float]]
    dashes: str = ""


def draw_curves(picture: Picture, area: Area, curves: Sequence[Curve], unit: str, marks: Sequence[float], end: float) -> None:
    """Draws curves from the place 0 to an end, their names to the right, and gray lines at marks."""
    scale = Scale.of(area, (value for curve in curves for _, value in curve.points))
    scale.draw(picture, unit, 14)

    def across(place: float) -> float:
        return area.left + place / end * (area.right - area.left)

    for mark in marks:
        picture.line([(across(mark), area.top), (across(mark), area.bottom)], "#999", 0.8)
    for number, curve in enumerate(curves):
        steps = []
        for at, (place, value) in enumerate(curve.points):
            until = curve.points[at + 1][0] if at + 1 < len(curve.points) else end
            steps += [(across(place), scale.at(value)), (across(until), scale.at(value))]
        picture.line(steps, curve.color, 1.2, curve.dashes)
        height = area.top + 10 + 14 * number
        picture.line([(area.right + 8, height - 4), (area.right + 28, height - 4)], curve.color, 1.2, curve.dashes)
        picture.text(area.right + 32, height, curve.name, size=10)


# Bars in groups


@dataclass(frozen=True)
class Spread:
    """A median, with the least and the greatest of what was measured."""

    median: float
    least: float
    greatest: float


@dataclass
class Panel:
    """Bars of one unit: for each group by its name, a spread by the name of its series."""

    title: str
    unit: str
    groups: dict[str, dict[str, Spread]] = field(default_factory=dict)


BAR, BETWEEN, LEFT, HEIGHT, TOP = 14, 18, 64, 190, 30


def draw_bars(title: str, panels: Sequence[Panel]) -> Picture:
    """A picture of panels below each other, with the names of the series at the top."""
    names = list(dict.fromkeys(name for panel in panels for group in panel.groups.values() for name in group))
    colors = {name: COLORS[number % len(COLORS)] for number, name in enumerate(names)}
    most = max(sum(BAR * len(group) + BETWEEN for group in panel.groups.values()) for panel in panels)
    picture = Picture(max(LEFT + most + 20, 120 * len(names) + 40, 480), 56 + (HEIGHT + TOP + 40) * len(panels))
    picture.text(12, 20, title, size=14)
    for number, name in enumerate(names):
        picture.box(12 + 120 * number, 30, 12, 12, colors[name])
        picture.text(28 + 120 * number, 40, name, size=11)
    for number, panel in enumerate(panels):
        top = 56 + (HEIGHT + TOP + 40) * number + TOP
        draw_panel(picture, panel, Area(LEFT, picture.width - 16, top, top + HEIGHT), colors)
    return picture


def draw_panel(picture: Picture, panel: Panel, area: Area, colors: dict[str, str]) -> None:
    """Draws a panel, each bar up to its median with a line from the least to the greatest."""
    spreads = [spread for group in panel.groups.values() for spread in group.values()]
    scale = Scale.of(area, [value for spread in spreads for value in (spread.least, spread.greatest)])
    scale.draw(picture, panel.unit, 14)
    picture.text(area.left, area.top - 10, panel.title, size=12)
    x = area.left + BETWEEN / 2
    for name, group in panel.groups.items():
        begun = x
        for series, spread in group.items():
            height = scale.at(spread.median)
            words = f"{series}, {name}: {spread.median:g} ({spread.least:g} to {spread.greatest:g}) {panel.unit}"
            picture.box(x, height, BAR - 2, area.bottom - height, colors[series], words)
            middle = x + BAR / 2 - 1
            picture.line([(middle, scale.at(spread.least)), (middle, scale.at(spread.greatest))])
            x += BAR
        picture.text((begun + x) / 2, area.bottom + 14, name, "middle", 10)
        x += BETWEEN
