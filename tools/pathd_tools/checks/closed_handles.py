"""Runs the built program with closed standard handles, and looks that nothing but the store is in its file.

    tools/pathd-tools closed-handles [PROGRAM]

A program that is started with a closed standard handle is given its number for the next file that
it opens. `format`, `upgrade`, `show`, `status` and `run` are run with each of the three handles
closed, and with several. Each file has to be, byte for byte, what the same command makes with open
handles. A command that can't print ends with status 1 and `error: output`; any other one ends as
it does with open handles. It needs Python 3, bash and the loopback, and ends with the status 1
where something else comes.
"""
from __future__ import annotations

import socket
import subprocess
from pathlib import Path

from pathd_model import model
from pathd_tools import messages, runs

SMALL = model.Layout(2, 516)
# The handles that are closed together, and how bash closes each of them.
CLOSED = [(0,), (1,), (2,), (0, 1), (0, 2), (1, 2), (0, 1, 2)]
CLOSING = {0: "<&-", 1: ">&-", 2: "2>&-"}
# How long a server may take to listen or to end, in seconds.
PATIENCE = 20


class Wrong(Exception):
    """Something else came."""


def started(words: list[str], closed: tuple[int, ...]) -> subprocess.Popen:
    """A program that runs with these handles closed."""
    closing = " ".join(CLOSING[number] for number in closed)
    command = ["bash", "-c", f'exec "$@" {closing}', "bash", *words]
    return subprocess.Popen(command, stdin=subprocess.DEVNULL, stdout=subprocess.PIPE, stderr=subprocess.PIPE)


def hold_session(process: subprocess.Popen, port: int) -> None:
    """Registers a segment at a server that begins to listen, where it does."""
    for _ in range(PATIENCE * 100):
        try:
            connection = socket.create_connection(("127.0.0.1", port), PATIENCE)
            break
        except ConnectionRefusedError:
            if process.poll() is not None:
                return
            try:
                process.wait(0.01)
            except subprocess.TimeoutExpired:
                pass
    else:
        raise Wrong("the server doesn't listen")
    with connection:
        try:
            connection.sendall(messages.command_frame(runs.Commands("closed handles", 4).next(0, 0)))
            kind = runs.Replies(connection).next()[0]
        except ConnectionError:
            # A server that can't print ends, and with it this session.
            return
        if kind != messages.REGISTER | 0x80:
            raise Wrong("the registration was refused")


def outcome(program: str, words: list[str], store: Path, closed: tuple[int, ...]) -> tuple[int, bytes, bytes, bytes]:
    """Runs a command: its status, output and errors, and the bytes of the store then."""
    port = runs.free_port() if words[0] == "run" else 0
    listen = ["--listen", f"127.0.0.1:{port}", "--sessions", "1", *runs.RUN_WORDS] if port else []
    process = started([program, words[0], str(store), *words[1:], *listen], closed)
    try:
        if port:
            hold_session(process, port)
        out, err = process.communicate(timeout=PATIENCE)
    finally:
        process.kill()
        process.wait()
    return process.returncode, out, err, store.read_bytes()


def compare(program: str, words: list[str], first: bytes | None, folder: Path) -> int:
    """Runs a command with open and with closed handles, each time on a store of these bytes, and answers how often."""
    store = folder / "store"

    def made(closed: tuple[int, ...]) -> tuple[int, bytes, bytes, bytes]:
        store.unlink(missing_ok=True)
        if first is not None:
            store.write_bytes(first)
        return outcome(program, words, store, closed)

    status, out, _err, image = made(())
    if status != 0:
        raise Wrong(f"{' '.join(words)} ends with the status {status}")
    for closed in CLOSED:
        found = made(closed)
        name = f"{' '.join(words)} {' '.join(CLOSING[number] for number in closed)}"
        images = [image]
        if 1 in closed:
            wanted = (1, b"")
            if words[0] == "run" and first is not None:
                # The server ends soon, before or after it has taken the registration.
                images.append(first)
            if 2 not in closed and b"error: output\n" not in found[2]:
                raise Wrong(f"{name}: prints {found[2]!r}")
        else:
            wanted = (0, out)
        if found[:2] != wanted:
            raise Wrong(f"{name}: status {found[0]}, prints {found[1]!r} and {found[2]!r}")
        if found[3] not in images:
            other = next((at for at, (one, two) in enumerate(zip(found[3], image)) if one != two), len(image))
            raise Wrong(f"{name}: the file differs at byte {other}: {found[3][other : other + 40]!r}")
    return 1 + len(CLOSED)


def look_at_words(program: str) -> int:
    """Asks for the summary with a closed output, and gives a word that is no UTF-8; answers how many runs these were."""
    summary = started([program, "--help"], (1,))
    _out, err = summary.communicate(timeout=PATIENCE)
    lines = err.splitlines()
    if summary.returncode != 1 or len(lines) != 2 or not lines[0].startswith(b"pathd: cannot write standard output") or lines[1] != b"error: output":
        raise Wrong(f"--help 1>&-: status {summary.returncode}, prints {err!r}")
    found = subprocess.run([program.encode(), b"show", b"s\xff"], stdin=subprocess.DEVNULL, capture_output=True, timeout=PATIENCE, check=False)
    if (found.returncode, found.stdout, found.stderr) != (2, b"", b"pathd: a word of the command line is not UTF-8\n"):
        raise Wrong(f"a word that is no UTF-8: status {found.returncode}, prints {found.stdout!r} and {found.stderr!r}")
    return 2


def main(words: list[str]) -> int:
    """Runs each command."""
    _, program = runs.begin(__doc__, words, is_last=True)
    count = 0
    faults = []
    with runs.scratch() as folder:
        images = {}
        for version in (1, 2):
            runs.format_store(program, folder / "first", SMALL, version)
            images[version] = (folder / "first").read_bytes()
        sizes = ["--checkpoint", str(SMALL.checkpoint), "--journal", str(SMALL.journal)]
        cases = [
            (["format", *sizes], None),
            (["format", *sizes], images[1]),
            (["upgrade"], images[1]),
            (["show"], images[2]),
            (["show", "--layout"], images[2]),
            (["status"], images[2]),
            (["run", "--quiet"], images[2]),
            (["run"], images[2]),
        ]
        for case, first in cases:
            try:
                count += compare(program, case, first, folder)
            except (Wrong, subprocess.TimeoutExpired, ConnectionError) as fault:
                faults.append(str(fault))
    try:
        count += look_at_words(program)
    except (Wrong, subprocess.TimeoutExpired) as fault:
        faults.append(str(fault))
    for fault in faults:
        print(f"  {fault}")
    print(f"{count} runs, {len(faults)} went wrong")
    return 1 if faults else 0
