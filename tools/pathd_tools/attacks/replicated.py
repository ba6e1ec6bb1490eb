"""Tries a store on three machines, as docs/operating/replicated.md has it: a server over a GlusterFS
volume of three replicas, and another one that takes over. The machines are namespaces of this one.

    tools/pathd-tools replicated [--program PROGRAM] [--seed N] [--rounds N] [--only KIND ..] [--replies N] [--sessions N] [--ahead N]

In each round sessions send commands and lookups to the server on one machine, and something fails
meanwhile, by turns:

    brick      a process with one replica is killed, and started again under load; then the server is killed
    server     the server is killed
    split      the server's machine is cut off from the others, and sessions still reach it
    quiet      the same, but nobody asks that server before its machine is back
    machine    the server is killed with all of its machine, which is started again later
    apart      another machine is cut off from the others, and comes back under load; then the server is killed

A server on another machine takes over, and other sessions go on there. In a split both servers run
until it has ended, and the first one is asked after it, too. Then the second one is killed. It is
shown, as tools/pathd-tools histories shows it for one machine, that one order of the commands
explains what both servers have answered, and what the store then has. So what was acknowledged is
there, and no server acknowledged what the other one lost. Besides

- no other machine can open the store while a server runs;
- while one of the three replicas is away, commands are acknowledged;
- each machine's replica has the same bytes once GlusterFS has repaired it.

It needs root, GlusterFS, iproute2 and FUSE. Its traffic stays in namespaces of its own, and nothing
is left of them at the end. It ends with the status 1 where something doesn't hold.
"""
from __future__ import annotations

import argparse
import multiprocessing
import os
import random
import signal
import time
from collections import Counter
from contextlib import ExitStack
from dataclasses import dataclass, field, replace
from pathlib import Path

from pathd_model import model
from pathd_tools import messages, need, runs, systems, toolbox
from pathd_tools.attacks import histories
from pathd_tools.attacks.histories import Asked
from pathd_tools.attacks.machines import Machine, Server, Volume
from pathd_tools.systems import Failed, wait_for

KINDS = ["brick", "server", "split", "machine", "quiet", "apart"]
SPLITS = ["split", "quiet"]
# How long replies may be away while one replica is, how long after a split a server is asked on, and how long nobody asks before one, in seconds.
STANDSTILL, AFTERWARDS, SILENCE = 60.0, 10.0, 3.0
# The store stopped before the command was committed; it is stopped, and takes none.
UNKNOWN, STOPPED = b"\x62", b"\x54"


class Load:
    """Sessions of a server, a process each, which go on until it is killed."""

    def __init__(self, server: Server, frames: list[bytes], options: argparse.Namespace, seed: str, folder: Path) -> None:
        asking = [runs.asking_frame(it) for it in runs.ASKED]
        self._counts = multiprocessing.Array("Q", options.sessions, lock=False)
        self._paths = [folder / f"session{seed.replace('/', '-')}-{it}" for it in range(options.sessions)]
        self._connections = [server.connect() for _ in self._paths]
        self._processes = []
        for number, path in enumerate(self._paths):
            given = (self._connections[number], f"{seed}/{number}", frames, asking, self._counts, number, options, path)
            self._processes.append(multiprocessing.Process(target=histories.hold_session, args=given))
            self._processes[-1].start()

    def wait(self, replies: int, what: str) -> float:
        """Waits until so many more replies have come; how long that took."""
        wanted = sum(self._counts) + replies
        return wait_for(lambda: sum(self._counts) >= wanted, STANDSTILL, what)

    def signal(self, number: signal.Signals) -> None:
        """Sends a signal to each session."""
        for process in self._processes:
            os.kill(process.pid, number)

    def end(self) -> list[list[Asked]]:
        """What the sessions asked and were answered, once their server was killed."""
        for process, connection in zip(self._processes, self._connections):
            process.join()
            connection.close()
        return [settled(histories.read_session(path)) for path in self._paths]


def settled(session: list[Asked]) -> list[Asked]:
    """A session without the commands that a stopped store did not take; whether those were done that it had taken isn't known."""
    found = []
    for asked in session:
        if asked.kind == model.REFUSED and asked.reply[:1] == UNKNOWN:
            found.append(replace(asked, kind=0, received=histories.NEVER))
        elif asked.kind != model.REFUSED or asked.reply[:1] != STOPPED:
            found.append(asked)
    return found


@dataclass
class Trial:
    """The rounds over one store."""

    program: str
    folder: Path
    volume: Volume
    options: argparse.Namespace
    chance: random.Random
    pool: list[tuple]
    counts: Counter = field(default_factory=Counter)

    def __post_init__(self) -> None:
        self.frames = [messages.command_frame(command) for command in self.pool]
        self.checker = histories.Checker(self.pool, self.options.for_lookups)

    def round(self, number: int) -> str:
        """A round; what is printed of it."""
        kind, begun = self.options.only[number % len(self.options.only)], time.time()
        first, second, third = self.chance.sample(self.volume.machines, len(self.volume.machines))
        server, _ = self.volume.take_over(first)
        load = Load(server, self.frames, self.options, f"{self.options.seed}/{number}/0", self.folder)
        load.wait(self.options.replies, "replies at first")
        if not self.volume.is_refused(third):
            self.checker.fault(f"m{third.number} opens the store beside m{first.number}")
        if kind in ("brick", "apart"):
            self._without(kind, self.chance.choice([first, second, third] if kind == "brick" else [second, third]), load)
        sessions, took = self._taken_over(kind, number, server, load, second)
        image = third.image()
        (self.folder / "copy").write_bytes(image)
        self.checker.check(histories.Round(sessions, {}, image, runs.shown(self.program, self.folder / "copy"), begun, time.time()))
        if kind == "machine":
            first.start()
            first.mount()
        repaired = self.volume.repair()
        self.counts[kind] += 1
        return f"{kind} of m{first.number}: m{second.number} took over in {took:.1f} s, repaired in {repaired:.1f} s, place {self.checker.place}"

    def _without(self, kind: str, machine: Machine, load: Load) -> None:
        """Takes a replica away under load, and gives it back."""
        if kind == "brick":
            machine.kill_brick()
        else:
            machine.cut()
        load.wait(self.options.replies, f"replies without m{machine.number}")
        if kind == "brick":
            self.volume.restart_bricks()
        else:
            machine.join()
        load.wait(self.options.replies, f"replies with m{machine.number} again")

    def _taken_over(self, kind: str, number: int, server: Server, load: Load, second: Machine) -> tuple[list[list[Asked]], float]:
        """Ends a server, or cuts it off, and has another machine take over; what was asked of both, and how long the store had none."""
        if kind == "quiet":
            load.signal(signal.SIGSTOP)
            time.sleep(SILENCE)
        if kind in SPLITS:
            server.machine.cut()
        else:
            server.kill()
        if kind == "machine":
            server.machine.end()
        begun = time.monotonic()
        other, _ = self.volume.take_over(second)
        took = time.monotonic() - begun
        self.counts["longest opening, ms"] = max(self.counts["longest opening, ms"], other.opened())
        further = Load(other, self.frames, self.options, f"{self.options.seed}/{number}/1", self.folder)
        further.wait(self.options.replies, f"replies of m{second.number}")
        if kind in SPLITS:
            server.machine.join()
            time.sleep(AFTERWARDS)
            load.signal(signal.SIGCONT)
            time.sleep(SILENCE)
            self._note_stop(server)
            server.kill()
        other.kill()
        return load.end() + further.end(), took

    def _note_stop(self, server: Server) -> None:
        """Notes whether the server that was cut off has stopped its store."""
        if "has stopped" in server.said():
            self.counts["servers that stopped in a split"] += 1
        else:
            self.checker.fault(f"the server that was cut off has not stopped: {server.said()}")


def tried(options: argparse.Namespace) -> list[str]:
    """Makes the rounds; what doesn't hold."""
    program = runs.program_of(options.program)
    # No server has a listener for lookups, or purges by itself.
    options.begun, options.for_lookups = int(time.time()), 0
    with runs.scratch() as folder, ExitStack() as ending:
        volume = Volume(program, folder)
        ending.callback(volume.close)
        volume.format(histories.LAYOUT)
        trial = Trial(program, folder, volume, options, random.Random(options.seed), histories.make_pool(options.seed, options.begun))
        checker = trial.checker
        for number in range(options.rounds):
            begun = time.monotonic()
            try:
                said = trial.round(number)
            except Failed as failure:
                checker.fault(str(failure))
                said = str(failure)
            print(f"  round {number + 1}: {said} ({time.monotonic() - begun:.0f} s)", flush=True)
            if checker.faults:
                break
        for name, count in sorted((trial.counts + checker.counts).items()):
            print(f"  {name}: {count}")
        return checker.faults


def main(words: list[str]) -> int:
    """Runs it in namespaces of its own, and prints what was found."""
    parser = toolbox.parser(__doc__)
    parser.add_argument("--program", help="the built program; crates/pathd/out/pathd if left out")
    parser.add_argument("--seed", type=int, default=1)
    parser.add_argument("--rounds", type=int, default=20)
    parser.add_argument("--only", nargs="+", choices=KINDS, default=KINDS, metavar="KIND", help="rounds of these kinds alone")
    parser.add_argument("--replies", type=int, default=600, help="how many replies are waited for between two steps")
    parser.add_argument("--sessions", type=int, default=8)
    parser.add_argument("--ahead", type=int, default=8, help="how many requests a session sends at one time at the most")
    options = parser.parse_args(words)
    need.require("root", "glusterd", "ip")
    systems.go_alone([*systems.OWN_MACHINE, "--mount-proc"], "replicated", words)
    print(f"{runs.commit_name(runs.program_of(options.program))}, seed {options.seed}", flush=True)
    begun = time.monotonic()
    faults = tried(options)
    for fault in faults[:5]:
        print(f"  {fault}")
    print(f"{options.rounds} rounds, {len(faults)} faults, {time.monotonic() - begun:.0f} seconds")
    return 1 if faults else 0
