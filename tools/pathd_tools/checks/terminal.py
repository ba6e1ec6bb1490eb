"""Runs `pathd format` of the built program at a pseudo terminal, and looks at what it asks and leaves.

    tools/pathd-tools terminal [PROGRAM]

A new store is made at a terminal without a question. Where a store is there, the program prints its
version, place and number of rows, or why it doesn't open, and asks: after the line `yes` the file is
a new store, and after any other line, or none, it is byte for byte as it was, the status is 1 and
the last line `error: format 5`. `--new` refuses by `error: format 4`, and `--force` loses it without asking.
Where one of both standard handles is no terminal, nobody is asked. A server's lock excludes the
question. It needs Python 3, uses no network, and ends with the status 1 where something else comes.

PROGRAM is crates/pathd/out/pathd if left out, which `rt run` builds.
"""
from __future__ import annotations

import fcntl
import os
import pty
import subprocess
import time
from pathlib import Path

from pathd_model import model
from pathd_tools import runs

SMALL = model.Layout(2, 516)
SIZES = ["--checkpoint", str(SMALL.checkpoint), "--journal", str(SMALL.journal)]
# The last words of the question.
QUESTION = b"type yes: "
# How long a command may take, in seconds.
PATIENCE = 20
# What ends the input of a terminal at the start of a line.
END = b"\x04"
# Answers that agree, and some that don't.
AGREED = [b"yes\n"]
DECLINED = [b"\n", b"no\n", b"y\n", b"Yes\n", b"yes \n", b" yes\n", b"yes please\n", b"ja\n", END]
DECLINED_LINES = (b"as the answer was not yes", b"error: format 5")
TAKEN_LINES = (b"has a store, and is left as it is", b"error: format 4")


class Wrong(Exception):
    """Something else came."""


def at_terminal(words: list[str], answer: bytes = b"", apart: int | None = None) -> tuple[int, bytes]:
    """The status of a command at a terminal, and what it printed there. The answer is given once the
    program asks. The standard handle `apart` is the null device in place of the terminal."""
    process, terminal = pty.fork()
    if process == 0:
        if apart is not None:
            os.dup2(os.open(os.devnull, os.O_RDWR), apart)
        os.execv(words[0], words)
    printed, is_asked, until = b"", False, time.monotonic() + PATIENCE
    os.set_blocking(terminal, False)
    while time.monotonic() < until:
        try:
            piece = os.read(terminal, 65_536)
        except BlockingIOError:
            time.sleep(0.005)
            continue
        except OSError:
            # The last process at the terminal has ended.
            break
        if not piece:
            break
        printed += piece
        if not is_asked and printed.endswith(QUESTION):
            is_asked = True
            os.write(terminal, answer)
    else:
        os.kill(process, 9)
    os.close(terminal)
    status = os.waitstatus_to_exitcode(os.waitpid(process, 0)[1])
    return status, printed.replace(b"\r\n", b"\n")


class Trials:
    """Runs of `format` over one file."""

    def __init__(self, program: str, folder: Path) -> None:
        self.program = program
        self.store = folder / "store"
        self.count = 0

    def check(self, first: bytes | None, image: bytes | None, wanted: tuple[int, tuple[bytes, ...]], options: tuple[str, ...] = (), answer: bytes = b"", apart: int | None = None) -> None:
        """Runs `format` over a file of these bytes. The file has to be `image` then, the status this one, and
        each of these texts has to be printed; a question is printed just where an answer is given."""
        self.store.unlink(missing_ok=True)
        if first is not None:
            self.store.write_bytes(first)
        status, printed = at_terminal([self.program, "format", str(self.store), *SIZES, *options], answer, apart)
        self.count += 1
        name = f"format {' '.join(options)}, answered {answer!r}"
        if status != wanted[0] or not all(text in printed for text in wanted[1]):
            raise Wrong(f"{name}: status {status}, prints {printed!r}")
        if (QUESTION in printed) != bool(answer):
            raise Wrong(f"{name}: asks or not: {printed!r}")
        if self.store.read_bytes() != image:
            raise Wrong(f"{name}: the file is another one")


def tried(program: str, folder: Path) -> int:
    """Tries all, and answers how many runs there were."""
    trials = Trials(program, folder)
    made = (0, (b"formatted 1039 sectors\n",))
    runs.format_store(program, folder / "new", SMALL)
    new = (folder / "new").read_bytes()
    # Another store: one of version 1.
    runs.format_store(program, folder / "first", SMALL, 1)
    first = (folder / "first").read_bytes()
    # One that doesn't open, since its first gate is closed, and one that was cut.
    gate = 512 * (1 + SMALL.checkpoint)
    closed = first[:gate] + bytes(512) + first[gate + 512 :]
    cut = first[: 512 * 1000]
    # What is no store: nothing, no bytes, zeros, other bytes.
    for other in (None, b"", bytes(len(new)), b"X" + first[1:]):
        for options in ((), ("--new",), ("--force",)):
            trials.check(other, new, made, options)
    for store, found in ((first, b": version 1, place 0, 0 rows\n"), (closed, b" that does not open: "), (cut, b" that does not open: ")):
        for answer in AGREED:
            trials.check(store, new, (0, (found, *made[1])), answer=answer)
        for answer in DECLINED:
            trials.check(store, store, (1, (found, *DECLINED_LINES)), answer=answer)
        trials.check(store, store, (1, TAKEN_LINES), ("--new",))
        trials.check(store, new, made, ("--force",))
        # Standard input is no terminal, or standard output.
        trials.check(store, new, made, apart=0)
        trials.check(store, new, (0, ()), apart=1)
        trials.check(store, store, (1, TAKEN_LINES), ("--new",), apart=0)
        trials.check(store, store, (1, TAKEN_LINES), ("--new",), apart=1)
    # Another process has the file: nobody is asked.
    with (folder / "store").open("r+b") as held:
        fcntl.flock(held, fcntl.LOCK_EX)
        status, printed = at_terminal([program, "format", str(folder / "store"), *SIZES], b"yes\n")
        if status != 1 or QUESTION in printed or b"error: device 1" not in printed:
            raise Wrong(f"a locked file: status {status}, prints {printed!r}")
    # Neither handle is a terminal.
    done = subprocess.run([program, "format", str(folder / "store"), *SIZES], input=b"no\n", capture_output=True, timeout=PATIENCE, check=False)
    if (done.returncode, done.stdout) != (0, b"formatted 1039 sectors\n"):
        raise Wrong(f"without a terminal: status {done.returncode}, prints {done.stdout!r}")
    return trials.count + 2


def main(words: list[str]) -> int:
    """Tries the command."""
    _, program = runs.begin(__doc__, words, is_last=True)
    with runs.scratch() as folder:
        try:
            count = tried(program, folder)
        except Wrong as wrong:
            print(wrong)
            return 1
    print(f"{count} runs of format, each as it has to be")
    return 0
