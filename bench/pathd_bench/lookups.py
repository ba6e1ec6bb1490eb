"""What a lookup costs that shows 1, 8 and 64 segments of 8 entries, of a database of 1,000 rows.

    bench/pathd-bench lookups [PROGRAM]

It prints replies a second of the program's processor time, bytes of replies a second, and the time of
one beside that of one that shows nothing: medians of nine sessions of `pathd once`, each with the least
and the greatest. The seconds are those that the program ran on a processor, as the system counts them
(/proc/PID/schedstat, in nanoseconds). They leave out the time that the program waits, and its start.
"""
from __future__ import annotations

import statistics
import subprocess
import threading
from pathlib import Path

from pathd_bench import frames
from pathd_tools import messages, runs, toolbox

CORES = "1-ff00:0:100,1-ff00:0:110"
ROUNDS = 9
# How many segments a lookup shows: the leaf that it asks for, and how many lookups there are.
SHOWN = {0: (9, 4_000), 1: (1, 4_000), 8: (2, 4_000), 64: (3, 2_000)}
# A lookup of no ISD-AS, whose reply says that the program has started.
PROBE = messages.lookup_frame(0, 0)


class Session:
    """A session of a program."""

    def __init__(self, program: str) -> None:
        self.process = subprocess.Popen([program, "once", "--cores", CORES], stdin=subprocess.PIPE, stdout=subprocess.PIPE, bufsize=0)
        self.replies = open(self.process.stdout.fileno(), "rb", buffering=1 << 20, closefd=False)
        self.clock = Path(f"/proc/{self.process.pid}/schedstat")
        self.write(PROBE)
        self.replies.read(6)

    def ran(self) -> int:
        """The nanoseconds that the program ran on a processor."""
        return int(self.clock.read_text().split()[0])

    def write(self, data: bytes) -> None:
        """Writes all of some frames."""
        view = memoryview(data)
        while view:
            view = view[self.process.stdin.write(view) :]

    def read(self) -> int:
        """Reads a reply that is no refusal, and answers its bytes."""
        length = int.from_bytes(self.replies.read(4), "big")
        content = self.replies.read(length)
        assert len(content) == length and content[0] != 0xFF, content[:2].hex()
        return 4 + length

    def stage(self, data: bytes) -> tuple[float, int, int]:
        """Sends frames, and reads a reply to each: the program's seconds, the replies, and their bytes."""
        wanted, before = messages.count_frames(data), self.ran()
        writing = threading.Thread(target=self.write, args=(data,))
        writing.start()
        size = sum(self.read() for _ in range(wanted))
        writing.join()
        return (self.ran() - before) / 1e9, wanted, size

    def end(self) -> None:
        """Ends the session."""
        self.process.stdin.close()
        self.process.wait()


def rows() -> bytes:
    """Registrations of 1, 8 and 64 rows that end at the leaves 1, 2 and 3, and of 927 that end elsewhere."""
    leaves = [frames.segment(it, 8, leaf) for count, (leaf, _) in SHOWN.items() for it in range(count)]
    others = [frames.segment(it, 8) for it in range(927)]
    return b"".join([*frames.registrations(leaves, 1), *frames.registrations(others, 16)])


def measured(program: str, base: bytes) -> list[tuple[float, float, float]]:
    """Of each kind of lookup the replies and their bytes in a second, and the time of one beside the first kind's."""
    session = Session(program)
    session.stage(base)
    stages = [session.stage(messages.lookup_frame(frames.CORE, frames.LEAVES + leaf) * count) for leaf, count in SHOWN.values()]
    session.end()
    none = stages[0][0] / stages[0][1]
    return [(count / seconds, size / seconds, seconds / count / none) for seconds, count, size in stages]


def main(words: list[str]) -> int:
    """Prints the medians."""
    parser = toolbox.parser(__doc__)
    parser.add_argument("program", nargs="?", metavar="PROGRAM")
    program, base = runs.program_of(parser.parse_args(words).program), rows()
    rounds = [measured(program, base) for _ in range(ROUNDS)]
    for shown, figures in zip(SHOWN, zip(*rounds)):
        print(f"lookups that show {shown}: a second, bytes of replies a second, time beside a lookup that shows 0")
        print("  ".join(f"{statistics.median(it):.4g} ({min(it):.4g} to {max(it):.4g})" for it in zip(*figures)))
    return 0
