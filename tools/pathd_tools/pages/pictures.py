"""Draws the pictures of the pages: docs/NAME.svg of the text docs/pictures/NAME.txt. It prints each
picture that is not that of its text, and nothing else; --write draws them anew. The colors are for
light and for dark, as the reader's system has it.

A text has a line for each thing, with places in units of ten pixels, from the left and from the top:

    size WIDTH HEIGHT
    box NAME X Y WIDTH HEIGHT KIND: HEAD | LINE | ..    KIND is plain, blue, green, orange or red
    arrow NAME NAME: LABEL                              from a box to a box; `both` has two heads
    path X,Y X,Y ..: LABEL                              an arrow through these places; `line` has no head
    words X Y ANCHOR: TEXT                              ANCHOR is start, middle or end; `head` is bold
    chart X Y WIDTH HEIGHT NAME NAME: X,Y X,Y ..        points on two axes of logarithms, with the names of both axes

A label may have a place of its own before its words, as `@X,Y words`.
"""
from __future__ import annotations

import math
import re
from html import escape

from pathd_tools.pages.source import TOP
from pathd_tools.toolbox import parser

TEXTS = TOP / "docs/pictures"
UNIT, LINE, SMALL = 10, 16, 12
STYLE = """.paper{fill:#ffffff}.words{fill:#1f2328}.faint{fill:#59636e}.edge{stroke:#59636e;fill:none;stroke-width:1.3}.tip{fill:#59636e}
.plain{fill:#f6f8fa;stroke:#818b98}.blue{fill:#ddf0ff;stroke:#2f7cc4}.green{fill:#dafbe1;stroke:#2d8a46}.orange{fill:#fff1d6;stroke:#b5760b}
.red{fill:#ffe3e0;stroke:#c93c37}.dot{fill:#2f7cc4}
@media (prefers-color-scheme: dark){.paper{fill:#0d1117}.words{fill:#e6edf3}.faint{fill:#9198a1}.edge{stroke:#9198a1}.tip{fill:#9198a1}
.plain{fill:#161b22;stroke:#656c76}.blue{fill:#10263d;stroke:#4493f8}.green{fill:#0f2a18;stroke:#3fb950}.orange{fill:#2f2208;stroke:#d29922}
.red{fill:#34131a;stroke:#f85149}.dot{fill:#4493f8}}"""

Place = tuple[float, float]


def words(x: float, y: float, text: str, anchor: str = "middle", kind: str = "words", size: int = SMALL, is_bold: bool = False) -> str:
    """A line of words."""
    bold = ' font-weight="bold"' if is_bold else ""
    return f'<text class="{kind}" x="{x:.1f}" y="{y:.1f}" text-anchor="{anchor}" font-size="{size}"{bold}>{escape(text)}</text>'


def box(x: float, y: float, width: float, height: float, kind: str, lines: list[str]) -> list[str]:
    """A box with a head and lines below it, in its middle."""
    drawn = [f'<rect class="{kind}" x="{x:.1f}" y="{y:.1f}" width="{width:.1f}" height="{height:.1f}" rx="4"/>']
    top = y + height / 2 - LINE * (len(lines) - 1) / 2 + 4
    return drawn + [words(x + width / 2, top + LINE * at, it, is_bold=at == 0) for at, it in enumerate(lines)]


def tip(before: Place, at: Place) -> str:
    """The head of an arrow that ends at a place."""
    turn = math.degrees(math.atan2(at[1] - before[1], at[0] - before[0]))
    return f'<path class="tip" d="M0 0L-9 -4L-9 4Z" transform="translate({at[0]:.1f} {at[1]:.1f}) rotate({turn:.1f})"/>'


def path(places: list[Place], kind: str, label: str) -> list[str]:
    """A line through places, with a head, two or none, and its label above its longest part."""
    route = " ".join(f"{x:.1f},{y:.1f}" for x, y in places)
    drawn = [f'<polyline class="edge" points="{route}"/>']
    drawn += [] if kind == "line" else [tip(places[-2], places[-1])]
    drawn += [tip(places[1], places[0])] if kind == "both" else []
    if said := re.match(r"@([\d.]+),([\d.]+) (.*)", label):
        return drawn + [words(float(said[1]) * UNIT, float(said[2]) * UNIT, said[3], kind="faint", size=11)]
    if label:
        (x, y), (to_x, to_y) = max(zip(places, places[1:]), key=lambda it: math.dist(*it))
        drawn.append(words((x + to_x) / 2, (y + to_y) / 2 - 5, label, kind="faint", size=11))
    return drawn


def edge(it: list[float], toward: Place) -> Place:
    """Where the line from a box's middle to a place leaves the box."""
    x, y = it[0] + it[2] / 2, it[1] + it[3] / 2
    across, down = toward[0] - x, toward[1] - y
    part = min(it[2] / 2 / abs(across) if across else math.inf, it[3] / 2 / abs(down) if down else math.inf)
    return x + across * part, y + down * part


def between(first: list[float], second: list[float]) -> list[Place]:
    """Where an arrow leaves a box and where it enters another: straight where both share a part of a direction, else between their middles."""
    for at, other in ((0, 1), (1, 0)):
        low, high = max(first[at], second[at]), min(first[at] + first[at + 2], second[at] + second[at + 2])
        if low < high:
            same, is_before = (low + high) / 2, first[other] < second[other]
            ends = (first[other] + first[other + 2], second[other]) if is_before else (first[other], second[other] + second[other + 2])
            return [(same, it) if at == 0 else (it, same) for it in ends]
    middles = [(it[0] + it[2] / 2, it[1] + it[3] / 2) for it in (first, second)]
    return [edge(first, middles[1]), edge(second, middles[0])]


def chart(x: float, y: float, width: float, height: float, across: str, up: str, points: list[Place]) -> list[str]:
    """Points that are joined, over two axes of logarithms."""
    def ends(values: list[float]) -> tuple[int, int]:
        return math.floor(math.log10(min(values))), math.ceil(math.log10(max(values)))
    (left, right), (low, high) = (ends([it[at] for it in points]) for at in range(2))
    def at(point: Place) -> Place:
        return (x + width * (math.log10(point[0]) - left) / max(right - left, 1), y + height - height * (math.log10(point[1]) - low) / max(high - low, 1))
    drawn = [f'<polyline class="edge" points="{x:.1f},{y:.1f} {x:.1f},{y + height:.1f} {x + width:.1f},{y + height:.1f}"/>']
    for power in range(left, right + 1):
        drawn.append(words(at((10 ** power, 10 ** low))[0], y + height + 16, f"{10 ** power:,}", kind="faint", size=11))
    for power in range(low, high + 1):
        drawn.append(words(x - 8, at((10 ** left, 10 ** power))[1] + 4, f"{10 ** power:,}", anchor="end", kind="faint", size=11))
    placed = [at(it) for it in points]
    drawn += path(placed, "line", "") + [f'<circle class="dot" cx="{it[0]:.1f}" cy="{it[1]:.1f}" r="4"/>' for it in placed]
    drawn += [words(it[0] + 6, it[1] - 8, f"{point[1]:,g}", anchor="start", size=11) for it, point in zip(placed, points)]
    return drawn + [words(x + width / 2, y + height + 34, across), words(x - 8, y - 10, up, anchor="start")]


def drawing(text: str) -> str:
    """The picture of a text."""
    boxes: dict[str, list[float]] = {}
    parts: list[str] = []
    width = height = 0.0
    for line in text.splitlines():
        if not line or line.startswith("#"):
            continue
        head, _, said = line.partition(":")
        kind, *given = head.split()
        label = said.strip()
        if kind == "size":
            width, height = (float(it) * UNIT for it in given)
        elif kind == "box":
            boxes[given[0]] = [float(it) * UNIT for it in given[1:5]]
            parts += box(*boxes[given[0]], given[5], [it.strip() for it in label.split(" | ")])
        elif kind in ("arrow", "both"):
            parts += path(between(boxes[given[0]], boxes[given[1]]), kind, label)
        elif kind in ("path", "line"):
            parts += path([(float(x) * UNIT, float(y) * UNIT) for x, y in (it.split(",") for it in given)], kind, label)
        elif kind in ("words", "head"):
            parts.append(words(float(given[0]) * UNIT, float(given[1]) * UNIT, label, given[2], is_bold=kind == "head"))
        elif kind == "chart":
            points = [(float(x), float(y)) for x, y in (it.split(",") for it in label.split())]
            parts += chart(*(float(it) * UNIT for it in given[:4]), *(it.replace("_", " ") for it in given[4:6]), points)
        else:
            raise SystemExit(f"no such line: {line}")
    first = f'<svg xmlns="http://www.w3.org/2000/svg" viewBox="0 0 {width:g} {height:g}" width="{width:g}" height="{height:g}" font-family="sans-serif">'
    paper = '<rect class="paper" width="100%" height="100%"/>'
    return "\n".join([first, f"<style>{STYLE}</style>", paper, *parts, "</svg>"]) + "\n"


def main(given: list[str]) -> int:
    options = parser(__doc__)
    options.add_argument("--write", action="store_true", help="draw the pictures anew")
    is_written = options.parse_args(given).write
    status = 0
    for text in sorted(TEXTS.glob("*.txt")):
        shown, made = text.parent.parent / f"{text.stem}.svg", drawing(text.read_text())
        if is_written:
            shown.write_text(made)
        elif not shown.is_file() or shown.read_text() != made:
            print(f"{shown.relative_to(TOP)} is not the picture of {text.relative_to(TOP)}: `tools/pathd-tools pictures --write`")
            status = 1
    return status
