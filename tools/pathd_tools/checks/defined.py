"""Runs the cases of tools/cases/defined, which are a part of the product's definition: what the
program does without options beyond the words of a case. It prints which cases differ, and how.

    tools/pathd-tools defined [PROGRAM]

PROGRAM is crates/pathd/out/pathd if left out. First come the cases of `once`, as `vectors` runs
them. Then come the command lines of run.tsv, in which STORE is a store of C = 2 and J = 516, NONE a
file that is not there, and ZERO a file of zeros as long as the store. A line has the words of `run`,
the status, and the last line of standard error that begins with `error:`. With `serves` in place of
a status the server has to print `ready`. The last six are of a server that has the option --listen
alone. In two of them a sync takes two seconds, by a preloaded library (tools/native/hanging_calls.c).

No expected value here is taken from the program. One is changed only where the definition is. The
tool needs Python 3, gcc and the loopback. The status is 1 where a case differs.
"""
from __future__ import annotations

import socket
import subprocess
import threading
import time
from collections.abc import Callable
from contextlib import ExitStack, suppress
from pathlib import Path

from pathd_model import model
from pathd_tools import TOP, messages, need, runs, toolbox
from pathd_tools.attacks.hanging import KINDS, Device
from pathd_tools.checks import vectors

FOLDER = TOP / "tools/cases/defined"
SMALL = model.Layout(2, 516)
# The seconds in which a reply comes and a program ends, also on a busy machine, and those that a sync takes.
PATIENCE, SYNC = 30, 2
MOST_SESSIONS = 64
# The lookup without sides, and its reply: a session that has it is served.
PROBE, PROBED = bytes.fromhex("0000000102"), bytes.fromhex("00000002ff41")
NO_ROOM = bytes.fromhex("00000002ff61")
PURGE, FAR_PURGE = messages.command_frame(("purge", 0)), messages.command_frame(("purge", (1 << 64) - 1))
# The frames of kind 5: without a body, and with those of 18 and 50 bytes.
KIND_5 = [bytes.fromhex("0000000105"), messages.list_frame(2, runs.CORE_A, 0), messages.list_frame(2, runs.CORE_A, 0, bytes(32))]
PURGED, REGISTERED = "0000001983", "0000001981"


# The command lines of run.tsv


def ended(command: list[str]) -> tuple[str, str]:
    """The status of a command line of `run`, `serves` if it prints `ready`, and its last line `error:`."""
    with subprocess.Popen(command, stdin=subprocess.DEVNULL, stdout=subprocess.PIPE, stderr=subprocess.PIPE) as process:
        late = threading.Timer(PATIENCE, process.kill)
        late.start()
        serves = process.stdout.readline() == b"ready\n"
        if serves:
            process.kill()
        _, errors = process.communicate()
        late.cancel()
    lines = [line for line in errors.decode(errors="replace").splitlines() if line.startswith("error:")]
    return "serves" if serves else str(process.returncode), "" if serves else lines[-1] if lines else ""


def run_lines(program: str, folder: Path) -> dict[str, str]:
    """What differs in each command line of run.tsv; nothing where it is as defined."""
    runs.format_store(program, folder / "STORE", SMALL)
    (folder / "ZERO").write_bytes(bytes((folder / "STORE").stat().st_size))
    found = {}
    for number, line in enumerate((FOLDER / "run.tsv").read_text().splitlines(), 1):
        if line.startswith("#"):
            continue
        words, status, error = line.split("\t")
        file, *rest = words.split(" ")
        got = ended([program, "run", str(folder / file), *rest])
        found[f"run.tsv:{number}: run {words}"] = "" if got == (status, error) else f"{said(*got)}; defined is {said(status, error)}"
    return found


def said(status: str, error: str) -> str:
    """A status and a line in words."""
    return "it serves" if status == "serves" else f"status {status} and `{error}`"


# A running server


class Plain(runs.Process):
    """A server of a new store with the option --listen alone, whose syncs a device holds."""

    def __init__(self, program: str, folder: Path, library: str) -> None:
        store, hanging = folder / "store", folder / "hanging"
        self.device = Device(hanging)
        runs.format_store(program, store, SMALL)
        env = {"LD_PRELOAD": library, "HANGING": str(hanging), "STORE": str(store)}
        super().__init__([program, "run", str(store), "--listen", "127.0.0.1:0"], folder / "notices", env)
        self.port = self._noticed(r" at 127\.0\.0\.1:(\d+):")

    def session(self) -> socket.socket:
        """A session that is served: its probe is answered."""
        connection = runs.connected(self.port, PATIENCE)
        connection.sendall(PROBE)
        got = taken(connection, len(PROBED))
        if got != PROBED:
            raise RuntimeError(f"a session's first reply is {got.hex() or 'nothing'}")
        return connection

    def during_a_sync(self, act: Callable[[], None]) -> None:
        """Acts while the next sync takes two seconds. The first of what is sent begins it."""
        self.device.hang(KINDS["syncs"])
        act()
        until = time.monotonic() + PATIENCE
        while not self.device.is_waited_for() and time.monotonic() < until:
            time.sleep(0.001)
        if not self.device.is_waited_for():
            raise RuntimeError(f"no sync is made in {PATIENCE} seconds")
        time.sleep(SYNC)
        self.device.hang(0)


def taken(connection: socket.socket, most: int) -> bytes:
    """So many bytes of a session, or those up to its end."""
    found = b""
    with suppress(ConnectionError):
        while len(found) < most and (piece := connection.recv(most - len(found))):
            found += piece
    return found


def frame_taken(connection: socket.socket) -> str:
    """The next frame of a session in hexadecimal digits, or what there is of it; nothing at the end."""
    length = taken(connection, 4)
    return (length + taken(connection, int.from_bytes(length, "big"))).hex()


def differs(got: str, begins: str) -> str:
    """What is wrong with a reply that has to begin so."""
    return "" if got.startswith(begins) else f"the reply is {got or 'nothing'}; defined is {begins}.."


def end_of(connection: socket.socket) -> str:
    """What is wrong where a session has to end without a further byte. A reset is an end, too."""
    try:
        got = connection.recv(1 << 16).hex()
    except TimeoutError:
        return "the session goes on; defined is its end"
    except ConnectionError:
        return ""
    return f"{got} comes; defined is the end of the session" if got else ""


def all_purge(server: Plain) -> str:
    """64 sessions hand in a purge each while a sync takes two seconds."""
    with ExitStack() as open_ones:
        sessions = [open_ones.enter_context(server.session()) for _ in range(MOST_SESSIONS)]
        server.during_a_sync(lambda: [session.sendall(PURGE) for session in sessions])
        got = [frame_taken(session) for session in sessions]
    others = sorted({reply or "nothing" for reply in got if not reply.startswith(PURGED)})
    count = sum(reply.startswith(PURGED) for reply in got)
    return "" if count == MOST_SESSIONS else f"{count} acknowledgements, the other replies are {', '.join(others)}; defined are {MOST_SESSIONS}"


def half_close(server: Plain) -> str:
    """A peer sends a purge and ends its sending while a sync takes two seconds."""
    with server.session() as session:
        server.during_a_sync(lambda: (session.sendall(PURGE), session.shutdown(socket.SHUT_WR)))
        return differs(frame_taken(session), PURGED) or end_of(session)


def one_too_many(server: Plain) -> str:
    """A 65th session comes while 64 are open."""
    with ExitStack() as open_ones:
        for _ in range(MOST_SESSIONS):
            open_ones.enter_context(server.session())
        with runs.connected(server.port, PATIENCE) as last:
            return differs(frame_taken(last), NO_ROOM.hex()) or end_of(last)


def kind_5(server: Plain) -> str:
    """A session sends a frame of kind 5."""
    found = []
    for frame in KIND_5:
        with server.session() as session:
            session.sendall(frame)
            found += [f"after {frame.hex()} {wrong}" for wrong in [end_of(session)] if wrong]
    return "; ".join(found)


def far_future(server: Plain) -> str:
    """A session registers a segment whose timestamp is of the year 2096."""
    hops = [messages.Hop(runs.CORE_A, 0, 1), messages.Hop(runs.LEAVES[0], 1, 0)]
    with server.session() as session:
        session.sendall(messages.registration([(messages.DOWN, messages.make_segment(hops, runs.MADE))]))
        return differs(frame_taken(session), f"{REGISTERED}{0:016x}{1:08x}")


def last_moment(server: Plain) -> str:
    """A session purges by the moment 2^64 - 1."""
    with server.session() as session:
        session.sendall(FAR_PURGE)
        return differs(frame_taken(session), PURGED)


CASES = [all_purge, half_close, one_too_many, kind_5, far_future, last_moment]


def of_server(case: Callable[[Plain], str], program: str, library: str) -> str:
    """What differs in a case of a running server."""
    with runs.scratch() as folder, Plain(program, folder, library) as server:
        try:
            return case(server)
        except (OSError, RuntimeError) as fault:
            return f"{fault}"


def main(words: list[str]) -> int:
    """Runs all cases."""
    parser = toolbox.parser(__doc__)
    parser.add_argument("program", nargs="?", help="the built program; crates/pathd/out/pathd if left out")
    program = runs.program_of(parser.parse_args(words).program)
    need.require("gcc")
    with runs.scratch() as folder:
        wrong = vectors.run_folder(program, str(FOLDER), folder / "device")
        found = run_lines(program, folder)
        library = runs.compiled("hanging_calls.c", folder)
        found |= {(case.__doc__ or "").rstrip("."): of_server(case, program, library) for case in CASES}
    differing = [f"{name}: {text}" for name, text in found.items() if text]
    print(*differing, f"run: {len(found)} cases, {len(differing)} differ", sep="\n")
    return 1 if wrong or differing else 0
