"""Runs the built program over stored sessions, once for each of its allocations, which is refused
in that run.

    tools/pathd-tools refused-memory [PROGRAM]

A run ends as it should in one of three ways: it prints all replies; or it says `error: memory`, and
printed a front of them; or one reply is the code of want of memory, and all others are those of the
session, as that request's command was taken, or those of the session without that request, which
changed nothing. The sessions are the worked one, in hexadecimal text and in binary, and those named
below of tools/cases. It needs Python 3 and gcc, and is no part of the gate.
"""
from __future__ import annotations

import os
import subprocess
from collections import Counter
from dataclasses import dataclass
from pathlib import Path

from pathd_tools import TOP, messages, runs
from pathd_tools.attacks.refused_calls import refusing

CASES = ["0005", "0074", "0134", "0148"]
# The reply to a request for which there was no memory.
NO_MEMORY = b"\xff\x01"
# After so many runs in a row that print all replies the program has no more allocations.
IN_A_ROW = 20
MOST = 100_000


@dataclass(frozen=True)
class Stored:
    """A stored session: its name, the program's words, whether they ask for hexadecimal text, and the frames of its requests."""

    name: str
    words: list[str]
    is_hex: bool
    requests: list[bytes]


def frames_in(data: bytes) -> list[bytes]:
    """The contents of frames."""
    return messages.whole_frames(data)[0]


def frames_of_text(path: Path) -> list[bytes]:
    """The contents of the frames in a file of hexadecimal text."""
    return frames_in(bytes.fromhex("".join(path.read_text().split())))


def stored_sessions() -> list[Stored]:
    """The sessions that are run."""
    worked = frames_of_text(TOP / "crates/pathd/stdin")
    cores = ["--cores", "1-ff00:0:110"]
    found = [Stored("worked session, text", ["once", "--hex", *cores], True, worked), Stored("worked session, binary", ["once", *cores], False, worked)]
    for case in CASES:
        words = (TOP / f"tools/cases/{case}.args").read_text().splitlines()
        found.append(Stored(f"case {case}", words, "--hex" in words, frames_of_text(TOP / f"tools/cases/{case}.in")))
    return found


class Session:
    """A session by the program, with the replies that it gets where nothing is refused."""

    def __init__(self, program: str, stored: Stored) -> None:
        self.program, self.stored = program, stored
        self.all_bytes = self.run(stored.requests).stdout
        self.all_replies = self.replies_in(self.all_bytes)

    def run(self, requests: list[bytes], env: dict | None = None) -> subprocess.CompletedProcess:
        """Sends requests."""
        frames = [len(content).to_bytes(4, "big") + content for content in requests]
        given = "".join(frame.hex() + "\n" for frame in frames).encode() if self.stored.is_hex else b"".join(frames)
        return subprocess.run([self.program, *self.stored.words], input=given, capture_output=True, check=False, env={**os.environ, **(env or {})})

    def replies_in(self, out: bytes) -> list[bytes]:
        """The contents of the replies that were printed."""
        return frames_in(bytes.fromhex("".join(out.decode().split())) if self.stored.is_hex else out)

    def has_one_refusal(self, out: bytes) -> bool:
        """Whether one reply is the code, and the others are those of the session, or of the session without that request."""
        replies = self.replies_in(out)
        if replies.count(NO_MEMORY) != 1:
            return False
        at = replies.index(NO_MEMORY)
        others = replies[:at] + replies[at + 1 :]
        if others == self.all_replies[:at] + self.all_replies[at + 1 :]:
            return True
        requests = self.stored.requests
        return others == self.replies_in(self.run(requests[:at] + requests[at + 1 :]).stdout)

    def came_of(self, done: subprocess.CompletedProcess) -> str:
        """What came of a run: `whole`, `stopped`, `refused` or `wrong`."""
        if done.returncode == 0 and done.stdout == self.all_bytes:
            return "whole"
        if done.returncode == 1 and runs.last_line(done.stderr) == "error: memory" and self.all_bytes.startswith(done.stdout):
            return "stopped"
        return "refused" if done.returncode == 0 and self.has_one_refusal(done.stdout) else "wrong"


def refuse_each(session: Session, library: str, folder: Path) -> int:
    """Refuses each allocation of a session, prints what came of it, and answers how many runs ended wrongly."""
    name, counts, in_a_row = session.stored.name, Counter(), 0
    for number in range(1, MOST + 1):
        done = session.run(session.stored.requests, refusing(library, folder, "memory", "refused", number))
        came = session.came_of(done)
        counts[came] += 1
        in_a_row = in_a_row + 1 if came == "whole" else 0
        if in_a_row == IN_A_ROW:
            break
        if came == "wrong":
            print(f"{name}, allocation {number} refused: status {done.returncode}, {done.stderr.decode(errors='replace').strip()}")
    ended = f"{counts['stopped']} ended with 'error: memory', {counts['refused']} answered it, {counts['wrong']} ended wrongly"
    print(f"{name}: {counts.total()} runs, {ended}", flush=True)
    return counts["wrong"]


def main(words: list[str]) -> int:
    """Runs each session."""
    _, program = runs.begin(__doc__, words, is_last=True)
    with runs.scratch() as folder:
        library = runs.compiled("refused_calls.c", folder)
        wrongs = [refuse_each(Session(program, stored), library, folder) for stored in stored_sessions()]
    return 1 if any(wrongs) else 0
