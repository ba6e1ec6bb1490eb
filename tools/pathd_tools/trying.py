"""Shows the program at work: a store, a server with its page, a few segments, a lookup, and what to
try. It builds the program first, without its proofs, where it is not built.

    tools/pathd-tools try [--once] [--program PROGRAM]

The program is PROGRAM; else crates/pathd/out/pathd, where that is there and no source is newer; else
one that was built here before of the same sources by the same toolchain, which is kept in
~/.cache/pathd-try. A build takes some three minutes of one processor and 2 GB of memory, with a line
for each of its stages. deploy/try is what is then run: Enter or ^C ends it. With --once it ends by
itself, with the status 0 where all that the server answers is right. It needs Python 3 with its
standard library alone, the loopback, and for a build the toolchain's `rt`.
"""
from __future__ import annotations

import hashlib
import os
import shutil
import signal
import sys
import threading
import time
from pathlib import Path

from pathd_tools import TOP, building, need, toolbox
from pathd_tools.pages import source

PROVED = TOP / "crates/pathd/out/pathd"
# Some seconds of a processor that each stage of a build takes, and what it does.
STAGES = {
    building.FRONT_END: (110, "the front end compiles the crates"),
    building.LLVM: (45, "LLVM makes machine code"),
    building.LINKER: (1, "the linker makes the program"),
}
# LLVM's level of optimization. A greater one takes a minute more.
LEVEL = 0
# The seconds between two lines on how far a stage is.
BETWEEN = 20


def sources() -> list[Path]:
    """The files of which the program is made."""
    return [TOP / "crates.txt", *(path for crate in source.libraries() for path in sorted((source.CRATES / crate).rglob("src/**/*.rt")))]


def kept_at() -> Path:
    """Where a program of these sources, built by the toolchain that is there, is kept."""
    total = hashlib.sha256()
    for path in [building.kit_of_rt() / "KIT-ID", *sources()]:
        content = path.read_bytes()
        total.update(f"{path.name} {len(content)}\n".encode() + content)
    cache = Path(os.environ.get("XDG_CACHE_HOME") or Path.home() / ".cache")
    return cache / "pathd-try" / total.hexdigest()[:16] / "pathd"


def used(root: int) -> float:
    """The seconds of processors that a process has used, and all that it has started."""
    parents, seconds = {}, {}
    for entry in Path("/proc").glob("[0-9]*/stat"):
        try:
            fields = entry.read_text().rpartition(") ")[2].split()
        except OSError:
            continue
        parents[int(entry.parent.name)] = int(fields[1])
        seconds[int(entry.parent.name)] = sum(int(it) for it in fields[11:15]) / os.sysconf("SC_CLK_TCK")

    def is_below(process: int) -> bool:
        while process in parents and process != root:
            process = parents[process]
        return process == root

    return sum(took for process, took in seconds.items() if is_below(process))


class Progress:
    """Prints a line as a stage of a build begins, one now and then while it goes on, and one at its end."""

    def __init__(self) -> None:
        self.stage, self.count = "", 0
        self.begun, self.before = time.monotonic(), used(os.getpid())
        self.has_ended = threading.Event()

    def begin(self, stage: str) -> None:
        """A stage begins, and the one before has ended."""
        self.end()
        self.stage, self.count = stage, self.count + 1
        self.begun, self.before, self.has_ended = time.monotonic(), used(os.getpid()), threading.Event()
        left = sum(seconds for seconds, _ in list(STAGES.values())[self.count - 1 :])
        print(f"  {self.count} of {len(STAGES)}: {STAGES[stage][1]}; some {left} s of a processor are left", flush=True)
        threading.Thread(target=self._go_on, args=(self.has_ended,), daemon=True).start()

    def _go_on(self, has_ended: threading.Event) -> None:
        seconds = STAGES[self.stage][0]
        while not has_ended.wait(BETWEEN):
            took, done = time.monotonic() - self.begun, max(used(os.getpid()) - self.before, 0.1)
            left = f"{100 * done / seconds:.0f} %, some {(seconds - done) * took / done:.0f} s are left of this stage"
            print(f"    {took:.0f} s: {left if done < seconds else 'it takes longer than it did elsewhere'}", flush=True)

    def end(self) -> None:
        """The last stage that began has ended."""
        self.has_ended.set()
        if self.stage:
            print(f"    done: {time.monotonic() - self.begun:.0f} s, {used(os.getpid()) - self.before:.0f} s of a processor", flush=True)


def built(program: Path) -> Path:
    """Builds the program, and keeps it in place of those that were kept before."""
    print("This builds pathd without its proofs, once:", flush=True)
    program.parent.mkdir(parents=True, exist_ok=True)
    progress, made = Progress(), program.with_name(f"making{os.getpid()}")
    try:
        building.build(TOP / "crates/pathd", made, LEVEL, begin=progress.begin)
        made.replace(program)
    finally:
        made.unlink(missing_ok=True)
    progress.end()
    for other in program.parent.parent.iterdir():
        if other != program.parent:
            shutil.rmtree(other, ignore_errors=True)
    print(f"  it is kept as {program}\n", flush=True)
    return program


def is_proved() -> bool:
    """Whether the proved program is there, and no source is newer."""
    return os.access(PROVED, os.X_OK) and all(path.stat().st_mtime <= PROVED.stat().st_mtime for path in sources())


def program_of() -> Path:
    """The program of these sources, which is built where it is not there."""
    if is_proved():
        return PROVED
    need.require("rt")
    kept = kept_at()
    return kept if os.access(kept, os.X_OK) else built(kept)


def main(words: list[str]) -> int:
    """Shows the program at work."""
    parser = toolbox.parser(__doc__)
    parser.add_argument("--once", action="store_true", help="end by itself")
    parser.add_argument("--program", metavar="PROGRAM", help="a built program")
    options = parser.parse_args(words)
    # What a build has started is ended with it.
    signal.signal(signal.SIGTERM, lambda number, _: sys.exit(128 + number))
    try:
        program = options.program or program_of()
    except KeyboardInterrupt:
        return 128 + signal.SIGINT
    sys.stdout.flush()
    os.execv(sys.executable, [sys.executable, str(TOP / "deploy/try"), *(["--once"] if options.once else []), str(program)])
