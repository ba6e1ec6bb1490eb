"""The benchmarks of bench/pathd-bench."""
from pathd_tools import TOP
from pathd_tools.toolbox import Tool, Toolbox

TABLES = [
    Tool("build", "build", "builds `pathd` and programs of bench/ without their proofs"),
    Tool("table", "table", "all figures of the program beside its rivals, in rounds, as CSV"),
    Tool("plots", "plots", "draws the figures of `table`, and prints the table of their medians"),
]

SERVING = [
    Tool("gateway", "gateway.sh", "lookups and registrations through the gateway, beside a server of gRPC that echoes"),
    Tool("lookups", "lookups", "lookups that show 1, 8 and 64 segments"),
    Tool("waits", "waits", "the longest waits beside purges, wildcards and checkpoints"),
    Tool("day", "day", "a day of an ISD: segments that are renewed, failures, lookups and a kill, as a table of hours"),
    Tool("samples", "samples", "where the running server's time goes, by samples of `perf`"),
]

LIBRARIES = [
    Tool("hub", "hub", "commands and lookups by several threads of a hub; checks each lookup"),
    Tool("visits", "visits", "how many rows lookups and a purge visit, among 1,000 to 1,000,000"),
]

BENCHES = Toolbox(
    program="bench/pathd-bench",
    about="Measures the built program and its libraries (docs/BENCHMARKS.md); none of it is part of the gate.",
    package="pathd_bench",
    scripts=TOP / "bench" / "shell",
    groups={"all figures": TABLES, "the built program": SERVING, "libraries, by programs of their own": LIBRARIES},
)
