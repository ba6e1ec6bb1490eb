"""Draws the figures of `bench/pathd-bench table`, and prints the table of their medians.

    bench/pathd-bench plots CSV FOLDER

FOLDER gets KIND.svg for each of the kinds of figures that docs/BENCHMARKS.md has a plot of: bars up to
the median, with a line from the least to the greatest, over an axis of logarithms. The tables are
Markdown, on standard output. For each figure and program they have the median, with the least and
the greatest in brackets, and how many times the figure of pathd is that of each other program, as
the median of the ratios of each round. Of percentiles they have the medians of three alone. A last
line has the load of the machine, from the least to the greatest.
"""
from __future__ import annotations

import csv
import statistics
from collections import defaultdict
from dataclasses import dataclass, replace
from pathlib import Path

from pathd_tools import toolbox
from pathd_tools.load.svg import Panel, Spread, draw_bars

OURS = "pathd"
NAMES = {"pathd": "`pathd`", "echo": "echo server", "leveldb": "LevelDB", "rocksdb": "RocksDB", "sqlite": "SQLite", "lmdb": "LMDB"}
PERCENTILES = ["50 %", "99 %", "99.9 %", "most"]
# Those of the tables.
SHOWN = PERCENTILES[:3]
TITLES = {
    "registrations": "Registrations",
    "lookups": "Lookups",
    "latencies": "A lookup's time",
    "checkpoints": "Beside checkpoints",
    "opening": "Opening a store",
    "memory": "Memory",
    "once": "`once`",
    "growth": "Growth",
}


# The kinds that have a plot.
DRAWN = ("registrations", "lookups", "latencies", "checkpoints", "opening")


@dataclass(frozen=True)
class Place:
    """What a figure is of: the cells of its line but for the program, the round and the value."""

    kind: str
    figure: str
    sync_us: int
    sessions: int
    ahead: int
    rows: int
    unit: str

    def sync(self) -> str:
        """By how much a sync is longer."""
        return f"+{self.sync_us / 1000:g} ms" if self.sync_us else ""

    def who(self) -> str:
        """The sessions and the rows, in words."""
        sessions = f"{self.sessions}, {self.ahead} ahead" if self.ahead > 1 else str(self.sessions) if self.sessions else ""
        rows = f"{self.rows:,} rows" if self.rows > 1 else ""
        return "; ".join(part for part in (sessions, rows) if part)


@dataclass(frozen=True)
class Raw:
    """A raw figure: its round, its program, its value and the load of the machine."""

    round: int
    program: str
    value: float
    load: float


Figures = dict[Place, list[Raw]]


def read(path: Path) -> tuple[list[str], Figures]:
    """The lines on the machine, and the raw figures by their places."""
    lines = path.read_text().splitlines()
    figures: Figures = defaultdict(list)
    for row in csv.DictReader(line for line in lines if not line.startswith("#")):
        numbers = (int(row[name]) for name in ("sync_us", "sessions", "ahead", "rows"))
        place = Place(row["kind"], row["figure"], *numbers, row["unit"])
        figures[place].append(Raw(int(row["round"]), row["program"], float(row["value"]), float(row["load"])))
    return [line.removeprefix("# ") for line in lines if line.startswith("#")], figures


def by_program(raws: list[Raw]) -> dict[str, list[Raw]]:
    """Raw figures by their programs, in the order in which they came."""
    found: dict[str, list[Raw]] = {}
    for raw in raws:
        found.setdefault(raw.program, []).append(raw)
    return found


def spread(raws: list[Raw]) -> Spread:
    """The median of raw figures, with the least and the greatest."""
    values = [raw.value for raw in raws]
    return Spread(statistics.median(values), min(values), max(values))


# The table


def number(value: float) -> str:
    """A number: whole where it is a hundred at least, of three digits above one, and of two below."""
    return f"{value:,.0f}" if abs(value) >= 100 else f"{value:.3g}" if abs(value) >= 1 else f"{value:.2g}"


def two_digits(value: float) -> str:
    """A number of two digits, or a whole one."""
    return number(float(f"{value:.2g}"))


def shown(found: Spread) -> str:
    """A median with the least and the greatest."""
    if found.least == found.greatest:
        return number(found.median)
    least, greatest = (number(it) if it >= 100 else two_digits(it) for it in (found.least, found.greatest))
    return f"{number(found.median)} ({least}-{greatest})"


def ratio(ours: list[Raw], theirs: list[Raw]) -> str:
    """How many times our figure is theirs, as the median of the rounds that have both."""
    beside = {raw.round: raw.value for raw in theirs}
    ratios = [raw.value / beside[raw.round] for raw in ours if beside.get(raw.round)]
    return number(float(f"{statistics.median(ratios):.2g}")) if ratios else ""


def head(names: list[str]) -> list[str]:
    """The names of programs, as the head of a table has them."""
    return [NAMES.get(name, name) for name in names]


def in_table(place: Place) -> tuple[float, str]:
    """By how much a figure is divided in a table, and its unit there."""
    if place.unit == "a second" and place.figure != "checkpoints":
        return 1000, "k/s"
    return (0.001, "ms") if place.unit == "seconds" else (1, place.unit)


def divided(found: Spread, by: float) -> Spread:
    """A spread in another unit."""
    return Spread(found.median / by, found.least / by, found.greatest / by)


def rates(places: list[Place], figures: Figures) -> list[str]:
    """A table of the figures that are no percentiles: medians with their spread, and how many times the others' figures are ours."""
    names = list(dict.fromkeys(raw.program for place in places for raw in figures[place]))
    others = [name for name in names if name != OURS]
    over = ["over each"] if others else []
    lines = [f"| figure | sync | sessions, rows | {' | '.join([*head(names), *over])} |", "|---" * (3 + len(names) + len(over)) + "|"]
    for place in places:
        found, (by, unit) = by_program(figures[place]), in_table(place)
        cells = [shown(divided(spread(found[name]), by)) if name in found else "" for name in names]
        cells += [", ".join(ratio(found.get(OURS, []), found[name]) for name in others if name in found)] if others else []
        lines.append(f"| {place.figure}, {unit} | {place.sync()} | {place.who()} | {' | '.join(cells)} |")
    return lines


def percentile_of(place: Place) -> tuple[str, str]:
    """A figure, and which percentile of it this is; the empty text for one that is none."""
    figure, _, percentile = place.figure.rpartition(", ")
    return (figure, percentile) if percentile in PERCENTILES else (place.figure, "")


def percentiles(places: list[Place], figures: Figures) -> list[str]:
    """A table of percentiles: a cell has the medians of all percentiles of a program."""
    rows: dict[Place, dict[str, dict[str, list[Raw]]]] = defaultdict(dict)
    for place in places:
        figure, percentile = percentile_of(place)
        rows[replace(place, figure=figure)][percentile] = by_program(figures[place])
    names = list(dict.fromkeys(name for row in rows.values() for found in row.values() for name in found))
    lines = [f"| {' / '.join(SHOWN)} of | sync | sessions, rows | {' | '.join(head(names))} |", "|---" * (3 + len(names)) + "|"]
    for place, row in rows.items():
        of = {name: [spread(row[it][name]).median for it in SHOWN if name in row.get(it, {})] for name in names}
        by, unit = (1, "µs") if max(value for values in of.values() for value in values) < 1000 else (1000, "ms")
        cells = [" / ".join(two_digits(value / by) for value in of[name]) for name in names]
        lines.append(f"| {place.figure}, {unit} | {place.sync()} | {place.who()} | {' | '.join(cells)} |")
    return lines


def table(kind: str, figures: Figures) -> list[str]:
    """The lines of a kind's tables."""
    places = [place for place in figures if place.kind == kind]
    some = [place for place in places if not percentile_of(place)[1]]
    others = [place for place in places if percentile_of(place)[1]]
    return [*(rates(some, figures) if some else []), *([""] if some and others else []), *(percentiles(others, figures) if others else [])]


# The pictures


def panel_of(place: Place) -> tuple[str, str]:
    """The panel to which a figure belongs, and the name of its group there."""
    figure, _, percentile = place.figure.rpartition(", ")
    if percentile.endswith("%") or percentile == "most":
        where = "; ".join(part for part in (figure, place.sync(), place.who()) if part)
        return where, percentile
    if place.kind == "registrations":
        beside = place.figure.removeprefix("registrations")
        return f"syncs {place.sync() or 'as they are'}{beside}", place.who()
    return place.figure, place.who()


def panels(kind: str, figures: Figures) -> list[Panel]:
    """The panels of a kind; of registrations and lookups those of their numbers a second alone."""
    found: dict[tuple[str, str], Panel] = {}
    for place, raws in figures.items():
        if place.kind != kind or (kind in ("registrations", "lookups") and place.unit == "us"):
            continue
        title, group = panel_of(place)
        panel = found.setdefault((title, place.unit), Panel(title, place.unit))
        panel.groups.setdefault(group, {}).update((name, spread(of)) for name, of in by_program(raws).items())
    return list(found.values())


def main(words: list[str]) -> int:
    """Draws the pictures, and prints the table."""
    parser = toolbox.parser(__doc__)
    parser.add_argument("csv", type=Path, metavar="CSV")
    parser.add_argument("folder", type=Path, metavar="FOLDER")
    options = parser.parse_args(words)
    about, figures = read(options.csv)
    options.folder.mkdir(parents=True, exist_ok=True)
    print(*about, sep="\n\n")
    for kind in dict.fromkeys(place.kind for place in figures):
        title = TITLES.get(kind, kind)
        picture = []
        if kind in DRAWN:
            draw_bars(title, panels(kind, figures)).write(options.folder / f"{kind}.svg")
            picture = [f"![{title}]({kind}.svg)", ""]
        print("", f"## {title}", "", *picture, *table(kind, figures), sep="\n")
    loads = [raw.load for raws in figures.values() for raw in raws]
    print("", f"The load was {min(loads):.0f} to {max(loads):.0f}.", sep="\n")
    return 0
