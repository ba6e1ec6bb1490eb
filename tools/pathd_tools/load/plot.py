"""Draws a series of tools/pathd-tools load: replies a second above, percentiles of their times
below, and a line where a checkpoint counted.

    tools/pathd-tools plot SERIES PICTURE.svg [--title TEXT]
"""
from __future__ import annotations

import csv
from collections import defaultdict
from pathlib import Path

from pathd_tools import toolbox
from pathd_tools.load.svg import COLORS, DASHES, Area, Curve, Picture, draw_curves

KINDS = ["lookup", "register", "fresh", "purge", "remove"]
PERCENTILES = [("p50_us", "50 %"), ("p99_us", "99 %"), ("p999_us", "99.9 %")]


def read_series(path: Path) -> tuple[dict[str, list[dict[str, str]]], list[float]]:
    """The lines of each kind, and when checkpoints counted."""
    lines = path.read_text().splitlines()
    found = [line.split() for line in lines if line.startswith("# checkpoint ")]
    kinds = defaultdict(list)
    for row in csv.DictReader(line for line in lines if not line.startswith("#")):
        kinds[row["kind"]].append(row)
    return kinds, [float(words[2]) for words in found]


def curves_of(kinds: dict[str, list[dict[str, str]]], columns: list[tuple[str, str]]) -> list[Curve]:
    """A curve of each kind for each of these columns."""
    curves = []
    for kind, rows in kinds.items():
        color = COLORS[KINDS.index(kind) if kind in KINDS else -1]
        for number, (column, name) in enumerate(columns):
            # The last stretch is cut short by the end of the run.
            points = [(float(row["second"]), float(row[column])) for row in rows[:-1]]
            curves.append(Curve(f"{kind}, {name}" if name else kind, color, points, DASHES[number]))
    return curves


def draw(path: Path, picture: Path, title: str) -> None:
    """Draws a series."""
    kinds, checkpoints = read_series(path)
    drawn = Picture(900, 560)
    drawn.text(70, 20, title, size=12)
    end = max((float(row["second"]) for rows in kinds.values() for row in rows), default=1.0)
    replies, times = Area(70, 730, 34, 254), Area(70, 730, 284, 524)
    draw_curves(drawn, replies, curves_of(kinds, [("replies_a_second", "")]), "replies a second", checkpoints, end)
    draw_curves(drawn, times, curves_of(kinds, PERCENTILES), "microseconds", checkpoints, end)
    for second in range(0, int(end) + 1, max(1, int(end) // 10)):
        drawn.text(times.left + second / end * (times.right - times.left), times.bottom + 14, str(second), "middle", 10)
    drawn.text((times.left + times.right) / 2, times.bottom + 30, "seconds; a gray line: a checkpoint", "middle", 11)
    drawn.write(picture)


def main(words: list[str]) -> int:
    """Does what the words say."""
    parser = toolbox.parser(__doc__)
    parser.add_argument("series", type=Path, metavar="SERIES")
    parser.add_argument("picture", type=Path, metavar="PICTURE.svg")
    parser.add_argument("--title", default="", help="a line above the picture")
    options = parser.parse_args(words)
    draw(options.series, options.picture, options.title)
    return 0
