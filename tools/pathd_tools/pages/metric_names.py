"""Compares what watches a server with the page of its numbers. The types of the numbers and the
values of their labels are those of crates/status_page/specs/, which the contract of the page cites,
and their names those of src/names.rt there; the codes of refusals are those of docs/codes.csv. It prints nothing where

- each name of src/ of that crate has a row in specs/,
- deploy/pathd.rules.yml and deploy/grafana-dashboard.json use no other name, no other value of a
  label, and `rate` and `increase` of counters alone,
- each name is on the dashboard, or is listed here as left out,
- the table of docs/WATCHING.md has each name with its type, and no other, and the page each value
  of a label but the codes, and a heading for each alert, and no other.
"""
from __future__ import annotations

import json
import re
from pathlib import Path

from pathd_tools.pages import codes
from pathd_tools.pages.source import CRATES, TOP
from pathd_tools.toolbox import parser

PAGE = CRATES / "status_page"
RULES = TOP / "deploy/pathd.rules.yml"
DASHBOARD = TOP / "deploy/grafana-dashboard.json"
WATCHING = TOP / "docs/WATCHING.md"
# The names that are on no panel, and why.
NOT_DRAWN = {"pathd_format_version": "it changes once in a store's life", "process_start_time_seconds": "pathd_uptime_seconds is"}

NAME = re.compile(r"\b(?:pathd_[a-z_]+|process_[a-z_]+_(?:seconds|seconds_total|bytes|fds))\b")
LABEL = re.compile(r'\b(kind|phase|code|call|reason|cause|actor|outcome|type)=~?"([^"]*)"')
# The lines of a histogram have its name with one of these.
PARTS = ("_bucket", "_sum", "_count")


def files(folder: str, suffix: str) -> str:
    """The text of all files of a folder of the page's crate."""
    return "".join(path.read_text() for path in sorted((PAGE / folder).glob(f"*{suffix}")))


def types(specs: str) -> dict[str, str]:
    """The type of each number of the page."""
    named = dict(re.findall(r'const (\w+): &str =\s*"((?:pathd|process)_\w+)"', (PAGE / "src/names.rt").read_text()))
    found = {named[it]: kind.lower() for it, kind in re.findall(r"\b(?:plain|heading) (\w+)\.now (Gauge|Counter)", specs)}
    return found | {named[it]: "histogram" for it in re.findall(r"\bhistogram (\w+)\.now", specs)}


def names(text: str, known: dict[str, str]) -> set[str]:
    """The names in a text; a line of a histogram counts as the histogram."""
    parts = {name + part: name for name, kind in known.items() if kind == "histogram" for part in PARTS}
    return {parts.get(name, name) for name in NAME.findall(text)}


def labels(specs: str) -> dict[str, set[str]]:
    """The values of each label."""
    found: dict[str, set[str]] = {"code": {f"{row.code:02x}" for row in codes.rows()}}
    for label, value in re.findall(r'codes "(kind|phase|call|reason|cause|actor|outcome|type)=\\"(\w+)\\""', specs):
        found.setdefault(label, set()).add(value)
    return found


def expressions() -> dict[Path, str]:
    """The expressions of the rules and of the dashboard."""
    lines = [re.sub(r"^ *(#|- alert:|summary:).*", "", line) for line in RULES.read_text().splitlines()]
    panels = json.loads(DASHBOARD.read_text())
    drawn = [target["expr"] for panel in panels["panels"] for target in panel["targets"]]
    return {RULES: "\n".join(lines), DASHBOARD: "\n".join(drawn + [it["query"]["query"] for it in panels["templating"]["list"] if it["type"] == "query"])}


def problems_of(path: Path, text: str, known: dict[str, str], values: dict[str, set[str]]) -> list[str]:
    """What is wrong with the expressions of a file."""
    where = path.relative_to(TOP)
    found = [f"{where}: {name} is no number of the page" for name in sorted(names(text, known) - known.keys())]
    found += [f"{where}: {label} has no value {value}" for label, value in LABEL.findall(text) if not set(value.split("|")) <= values[label]]
    for function, name in re.findall(r"\b(rate|irate|increase)\(((?:pathd|process)_\w+)", text):
        found += [f"{where}: {function} of the gauge {name}"] if known.get(name) == "gauge" else []
    return found


def problems() -> list[str]:
    """What differs."""
    specs = files("specs", ".antt")
    known, values = types(specs), labels(specs)
    found = [f"one of specs/ and src/ of crates/status_page alone has {it}" for it in sorted(known.keys() ^ names(files("src", ".rt"), known))]
    used = expressions()
    for path, text in used.items():
        found += problems_of(path, text, known, values)
    drawn = names(used[DASHBOARD], known)
    found += [f"{DASHBOARD.relative_to(TOP)}: {it} is not drawn" for it in sorted(known.keys() - drawn - NOT_DRAWN.keys())]
    found += [f"{it} is drawn, and listed as left out" for it in sorted(NOT_DRAWN.keys() & drawn)]
    page = WATCHING.read_text()
    table = dict(re.findall(r"^\| `((?:pathd|process)_\w+)(?:\{[^}]*\})?` \| (\w+) \|", page, re.M))
    named = sorted(set().union(*(values[label] for label in values if label != "code")))
    found += [f"{WATCHING.relative_to(TOP)}: `{it}` is missing" for it in named if f"`{it}`" not in page]
    found += [f"{WATCHING.relative_to(TOP)}: the row of {it} is missing or has another type" for it in sorted(known) if table.get(it) != known[it]]
    found += [f"{WATCHING.relative_to(TOP)}: {it} is no number of the page" for it in sorted(table.keys() - known.keys())]
    alerts = set(re.findall(r"^ *- alert: (\w+)", RULES.read_text(), re.M))
    headed = set(re.findall(r"^### (Pathd\w+)", page, re.M))
    return found + [f"one of {RULES.relative_to(TOP)} and {WATCHING.relative_to(TOP)} alone has {it}" for it in sorted(alerts ^ headed)]


def main(words: list[str]) -> int:
    parser(__doc__).parse_args(words)
    found = problems()
    print("".join(it + "\n" for it in found), end="")
    return 1 if found else 0
