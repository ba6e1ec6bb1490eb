"""Jobs that run side by side, with a line for each as it ends."""
from __future__ import annotations

import os
import sys
import threading
import time
from collections.abc import Callable, Sequence
from concurrent.futures import Future, ThreadPoolExecutor, as_completed
from dataclasses import dataclass, replace

from pathd_tools import bounded, need

# Bytes of memory that a job may take.
MEMORY = 1_500_000_000


@dataclass(frozen=True)
class Result:
    """What came of a job: how many of its tests passed and failed, a text for its line, and what it printed where one failed."""

    passed: int
    failed: int
    text: str = ""
    output: str = ""


@dataclass(frozen=True)
class Job:
    """Something to run, the things of need.py that it needs, and whether it measures times."""

    name: str
    run: Callable[[], Result]
    needs: str = ""
    is_timed: bool = False

    def missing(self) -> list[str]:
        """Which of these things are missing."""
        return [thing.name for thing in need.lacking(self.needs.split())]


def lanes() -> int:
    """How many jobs run at one time: one for each core, where there is memory for them."""
    return max(1, min(len(os.sched_getaffinity(0)), free_memory() // MEMORY))


def free_memory() -> int:
    """The bytes of memory that are available."""
    with open("/proc/meminfo", encoding="ascii") as lines:
        found = {name: int(rest.split()[0]) for name, _, rest in (line.partition(":") for line in lines)}
    return found["MemAvailable"] * 1024


class Progress:
    """A line on a terminal that says which jobs run; nothing where standard error is none."""

    def __init__(self, count: int) -> None:
        self._is_shown = sys.stderr.isatty() and sys.stdout.isatty()
        self._lock = threading.Lock()
        self._count, self._done = count, 0
        self._running: list[str] = []

    def begin(self, name: str) -> None:
        """A job begins."""
        with self._lock:
            self._running.append(name)
            self._draw()

    def end(self, name: str, lines: Sequence[str]) -> None:
        """A job has ended, and these are its lines."""
        with self._lock:
            if name in self._running:
                self._running.remove(name)
            self._done += 1
            self._clear()
            print(*lines, sep="\n", flush=True)
            self._draw()

    def _clear(self) -> None:
        if self._is_shown:
            print("\r\033[K", end="", file=sys.stderr, flush=True)

    def _draw(self) -> None:
        if self._is_shown and self._running:
            text = f"{self._done} of {self._count}; now {', '.join(self._running)}"
            print(f"\r\033[K{text[:os.get_terminal_size(2).columns - 1]}", end="", file=sys.stderr, flush=True)


def timed(job: Job, progress: Progress) -> Result:
    """Runs a job, and prints its line; after it what it printed, where it failed."""
    progress.begin(job.name)
    begun = time.monotonic()
    result = job.run()
    state = "failed" if result.failed else "ok"
    text = f"{result.text}, " if result.text else ""
    output = [f"  {line}" for line in result.output.splitlines()] if result.failed else []
    progress.end(job.name, [f"{state:8}{job.name}: {text}{time.monotonic() - begun:.0f} s", *output])
    return result


def run_all(jobs: Sequence[Job], at_once: int, fails_if_missing: bool) -> list[Result]:
    """Runs jobs in their order, this number at one time. One that lacks something is skipped, or has failed.

    A job that measures times and fails beside others is run once more when they have ended, by
    itself, and that result counts.
    """
    progress = Progress(len(jobs))
    pool = ThreadPoolExecutor(at_once)
    futures: dict[Future[Result], Job] = {}
    results: list[Result] = []
    again: list[Job] = []
    for job in jobs:
        missing = job.missing()
        if missing:
            progress.end(job.name, [f"{'failed' if fails_if_missing else 'skipped':8}{job.name}: {', '.join(missing)} missing"])
            results.append(Result(0, int(fails_if_missing)))
        else:
            futures[pool.submit(timed, job, progress)] = job
    try:
        for done in as_completed(futures):
            job = futures[done]
            if done.result().failed and job.is_timed and at_once > 1:
                again.append(job)
            else:
                results.append(done.result())
        return results + [timed(replace(job, name=f"{job.name}, by itself"), progress) for job in again]
    except BaseException:
        pool.shutdown(wait=False, cancel_futures=True)
        bounded.end_all()
        raise
    finally:
        pool.shutdown()
