"""Runs commands that are bounded in time. What they have started ends with them, and all of it ends
with the tool that runs them."""
from __future__ import annotations

import os
import signal
import subprocess
import tempfile
import threading
from collections.abc import Sequence
from contextlib import suppress
from dataclasses import dataclass
from pathlib import Path
from typing import Any

# The seconds that a command has to remove its files, once it was asked to end.
GRACE = 5.0

_lock = threading.Lock()
_running: set[subprocess.Popen] = set()
_is_over = False


@dataclass(frozen=True)
class Ran:
    """How a command ended: its status (less than 0 by a signal), what it printed, and whether it took too long."""

    status: int
    output: bytes
    errors: bytes
    is_late: bool

    @property
    def text(self) -> str:
        """All that it printed."""
        return (self.output + self.errors).decode(errors="replace")


def run(words: Sequence[str | Path], seconds: float, given: bytes = b"", is_apart: bool = False, **how: Any) -> Ran:
    """Runs a command in a session of its own, with these bytes as its input. Its errors are among its output, unless they are wanted apart."""
    with tempfile.TemporaryFile() as stdin, tempfile.TemporaryFile() as out, tempfile.TemporaryFile() as err:
        stdin.write(given)
        stdin.seek(0)
        errors = err if is_apart else subprocess.STDOUT
        with _lock:
            if _is_over:
                raise KeyboardInterrupt
            process = subprocess.Popen(words, stdin=stdin, stdout=out, stderr=errors, start_new_session=True, **how)
            _running.add(process)
        is_late = threading.Event()
        # A wait with a limit looks at the process twenty times a second, and so costs a busy machine too much.
        timer = threading.Timer(seconds, lambda: (is_late.set(), end(process)))
        timer.daemon = True
        timer.start()
        try:
            process.wait()
        finally:
            timer.cancel()
            end(process)
            with _lock:
                _running.discard(process)
        out.seek(0)
        err.seek(0)
        return Ran(process.returncode, out.read(), err.read(), is_late.is_set())


def end(process: subprocess.Popen) -> None:
    """Ends a command that may be running, and what is left of its session's first group of processes."""
    with suppress(ProcessLookupError):
        if process.poll() is None:
            os.killpg(process.pid, signal.SIGTERM)
            with suppress(subprocess.TimeoutExpired):
                process.wait(GRACE)
        os.killpg(process.pid, signal.SIGKILL)
    process.wait()


def end_all() -> None:
    """Ends the commands that are running, and lets no other one begin."""
    global _is_over
    with _lock:
        _is_over = True
        running = list(_running)
    for process in running:
        with suppress(ProcessLookupError):
            os.killpg(process.pid, signal.SIGTERM)
    for process in running:
        end(process)
