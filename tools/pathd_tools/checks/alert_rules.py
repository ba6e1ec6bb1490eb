"""Has promtool of Debian's package prometheus check the alert rules of deploy/, those of the gateway
among them, run the tests of both, and read each expression of both dashboards, as the expression of
a rule. It prints what promtool prints.
"""
from __future__ import annotations

import json
import subprocess
import tempfile
from pathlib import Path

from pathd_tools import TOP, need
from pathd_tools.toolbox import parser

DEPLOY = TOP / "deploy"
RULES = ["pathd", "pathd-gateway"]
DASHBOARDS = ["grafana-dashboard.json", "pathd-gateway-dashboard.json"]


def rules_of_dashboards() -> str:
    """A file of rules with the expressions of the dashboards; a variable of Grafana has a value."""
    panels = [panel for name in DASHBOARDS for panel in json.loads((DEPLOY / name).read_text())["panels"]]
    texts = [target["expr"].replace("$__rate_interval", "1m") for panel in panels for target in panel["targets"]]
    rules = [{"record": f"panel:{number}", "expr": text} for number, text in enumerate(texts)]
    return json.dumps({"groups": [{"name": "dashboard", "rules": rules}]})


def main(words: list[str]) -> int:
    parser(__doc__).parse_args(words)
    need.require("promtool")
    with tempfile.TemporaryDirectory() as folder:
        drawn = Path(folder) / "dashboard.yml"
        drawn.write_text(rules_of_dashboards())
        checked = [*(DEPLOY / f"{name}.rules.yml" for name in RULES), drawn]
        tested = [DEPLOY / f"{name}.rules.test.yml" for name in RULES]
        commands = [*(("check", path) for path in checked), *(("test", path) for path in tested)]
        results = [subprocess.run(["promtool", what, "rules", path], check=False).returncode for what, path in commands]
    return 1 if any(results) else 0
