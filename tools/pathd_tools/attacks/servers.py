"""Registers at three servers while each of them is killed and started again in turn, looks up
meanwhile, and compares the rows of the three at the end.

    tools/pathd-tools servers [--program PROGRAM] [--minutes N] [--acknowledge one|majority|all] [--seed N]
                              [--writers N] [--rate N] [--calm] [--slow MILLISECONDS]

Writers, a thread each, register and remove segments of their own keys through the class Servers of
clients/python, at --rate commands a second each (0: as many as they can). Readers look up. A server
at a time is killed (-9), is away for a second or two, and is started again at its port; the next one
follows once its queue is empty. In the end all queues are waited for, the servers are killed, and

- `show` prints the same rows for each of the three;
- these are the rows that the fold of all commands leaves, those among them that were acknowledged by
  as many servers as --acknowledge says, and those that still waited then;
- each lookup was answered within its ten seconds, while two servers were up.

With --calm no server is killed. With --slow each sync of the third server takes so much longer. Then
the figures say what several servers give: commands a second by the slowest one that is waited for.

PROGRAM is that of the variable PATHD if left out, or crates/pathd/out/pathd. It needs Debian's
python3-protobuf, with --slow gcc, and the loopback. It ends with the status 1 where something
doesn't hold.
"""
from __future__ import annotations

import os
import sys
from contextlib import ExitStack

from pathd_tools import TOP, need, runs, toolbox


def main(words: list[str]) -> int:
    """Runs it, and prints what was found."""
    parser = toolbox.parser(__doc__)
    parser.add_argument("--program", default=os.environ.get("PATHD"), help="the built program; that of PATHD, or crates/pathd/out/pathd if left out")
    parser.add_argument("--minutes", type=float, default=1)
    parser.add_argument("--acknowledge", choices=["one", "majority", "all"], default="majority")
    parser.add_argument("--seed", type=int, default=1)
    parser.add_argument("--writers", type=int, default=4)
    parser.add_argument("--rate", type=float, default=50, help="commands a second of each writer [50]")
    parser.add_argument("--calm", action="store_true", help="kill no server")
    parser.add_argument("--slow", type=float, default=0, metavar="MILLISECONDS", help="how much longer a sync of the third server takes")
    options = parser.parse_args(words)
    need.require("python3-protobuf")
    sys.path.insert(1, str(TOP / "clients" / "python"))
    from pathd_tools.attacks import three_servers

    program = runs.program_of(options.program)
    print(f"{runs.commit_name(program)}, seed {options.seed}", flush=True)
    with runs.scratch() as folder, ExitStack() as ending:
        three = three_servers.Three(program, folder, three_servers.slow_syncs(folder, options.slow))
        ending.callback(three.close)
        faults = three_servers.attack(three, options)
    for fault in faults[:5]:
        print(f"  {fault}")
    print(f"{options.minutes:g} minutes, {len(faults)} faults")
    return 1 if faults else 0
