"""Runs `format`, `show`, `status`, `upgrade`, `copy` and a served session, once for each allocation
and for each call of the system, which is refused in that run.

    tools/pathd-tools refused-calls [--program PROGRAM] [--every N] [--jobs N] [--only COMMAND] [--kind KIND] [--for MINUTES]

A preloaded library (tools/native/refused_calls.c) refuses: an allocation; a read, a write or a sync
with EIO or ENOSPC, once or from then on; it interrupts one (EINTR), moves a part of its bytes, or
none, or a part with EIO. What has to come of it:

- a transfer that is interrupted or moves a part is made again, and nothing else is seen of it;
- `format`, `show`, `status`, `upgrade` and `copy` end with the status 1 and the line of that
  refusal, and what a store held before it still shows; a copy is whole, or no half of it is open;
- a server ends so while it opens its store. Later it reports that the store has stopped, answers
  commands by 0x62 and 0x54, and lookups as before. What it acknowledged is there when the file is
  opened again, and beyond that at most what had no other reply than 0x62;
- an allocation ends a command with `error: memory`, a server too if it has answered nobody yet, or
  the reply to a request is 0x01, or its session ends; the next requests are answered as before.

- an fstat is a call on the store's file, before it is known to be one too; one without memory
  (ENOMEM) may end a command with `error: memory`;
- an accept, a copy of a descriptor, a new thread, a byte from or to a peer, or what is set up once
  (looking at a path, opening, locking, listening): a command ends with the status 1 and an `error:`
  line, a server too where it has answered nobody yet; or nothing is seen of it; or a session ends,
  and the next one is answered as before. The store never stops by it.

No run may take longer than 60 seconds. --every N tries each N-th allocation and read alone. With
--for it begins no further way to fail after so many minutes, and says which were left out. It
needs Python 3 and gcc, and the loopback. It prints a table of what was tried, and ends with the
status 1 where something else came of one.
"""
from __future__ import annotations

import multiprocessing
import os
import re
import shutil
import struct
import subprocess
import time
from collections import Counter
from pathlib import Path

from pathd_model import model
from pathd_tools import messages, runs

SMALL = model.Layout(2, 516)
PASSING = ("EINTR", "part", "one")
HOWS = {
    "memory": ["refused"],
    "read": ["EIO", "none", "EIO+", *PASSING],
    "write": ["EIO", "ENOSPC", "torn", "none", "EIO+", "ENOSPC+", *PASSING],
    "sync": ["EIO", "ENOSPC", "EIO+", "EINTR"],
    "length": ["EIO", "ENOSPC"],
    "accept": ["EMFILE", "ECONNABORTED", "EINTR"],
    "clone": ["EMFILE"],
    "fstat": ["EIO", "ENOMEM"],
    "thread": ["EAGAIN"],
    "receive": ["ECONNRESET", "EINTR", "part", "one"],
    "send": ["EPIPE", "EINTR", "part", "one"],
    "setting": ["EIO", "ENOMEM"],
}
# The kinds of calls that aren't about the store's device.
BESIDE = {"accept", "clone", "thread", "receive", "send", "setting"}
# What a command says where memory is refused for the path of its file, which the system opens by a copy, and how it ends then.
OF_PATH, NO_PATH = b": out of memory\n", {"error: device 1"}
# How a server is given up that says no address within ten seconds.
NO_ADDRESS = "the server doesn't listen"
# What a session is answered for which there is no thread, before its requests are read.
NO_THREAD = b"\xff\x61"
# What a command says where one of these ends it.
BESIDE_LINES = re.compile(r"error: (memory|net|device 1|format \d|open \d|copy \d|output)")
COMMANDS = ["format", "show", "status", "upgrade", "copy", "run"]
# What `show` says of a copy that has failed.
NO_COPY = {"error: open 1", "error: open 3 1"}
STOPPED = "the store has stopped"
SECONDS = 60
GROUPS = 252


class Wrong(Exception):
    """What came of a refusal isn't what has to."""


def refusing(library: str, folder: Path, kind: str, how: str, number: int) -> dict:
    """The environment in which a call is refused."""
    mark = folder / "mark"
    mark.unlink(missing_ok=True)
    return {"LD_PRELOAD": library, "REFUSED_KIND": kind, "REFUSED_HOW": how, "REFUSED_NUMBER": str(number), "REFUSED_MARK": str(mark)}


def called(words: list[str], env: dict) -> tuple[int, bytes, bytes]:
    """Status, output and errors of a command."""
    done = subprocess.run(words, capture_output=True, check=False, env={**os.environ, **env}, timeout=SECONDS)
    return done.returncode, done.stdout, done.stderr


# Commands


def try_command(program: str, store: Path, command: str, env: dict, kind: str, how: str, first: bytes | None) -> str:
    """Runs a command over a store, and answers what came of it."""
    words, made = [program, command, str(store)], store.with_name("made")
    made.unlink(missing_ok=True)
    if command == "format":
        words += ["--checkpoint", "2", "--journal", "516"]
        store.unlink(missing_ok=True)
    else:
        store.write_bytes(first)
        words += [str(made)] if command == "copy" else []
    wanted = called(words, {})
    held = bytes_of(store), bytes_of(made)
    made.unlink(missing_ok=True)
    before = None
    if command == "format":
        store.unlink()
    else:
        before = shown_of(program, store, first)
        store.write_bytes(first)
    status, out, err = called(words, env)
    if not Path(env["REFUSED_MARK"]).exists():
        return "none"
    if status == 0:
        if (status, out, err) != wanted or (command != "format" or how in PASSING) and (bytes_of(store), bytes_of(made)) != held:
            raise Wrong(f"status 0, {out!r}, {err!r}")
        if how not in PASSING and kind != "memory" and kind not in BESIDE:
            raise Wrong("ends as if nothing had failed")
        return "passed"
    if command == "copy":
        check_copy(program, store, made, first, before)
    if kind in BESIDE:
        return ended_beside(program, store, before, (status, out, err), wanted)
    lines = {"error: open 2", "error: device 1", "error: copy 5" if command == "copy" else "error: format 3"}
    if kind == "memory":
        lines = {"error: memory", *NO_PATH} if OF_PATH in err else {"error: memory"}
    if how == "ENOMEM":
        lines.add("error: memory")
    line = runs.last_line(err)
    if status != 1 or not wanted[1].startswith(out) or line not in lines:
        raise Wrong(f"status {status}, {out!r}, {err!r}")
    if how in PASSING:
        raise Wrong(f"ends at an interrupted or shorter transfer: {err!r}")
    if before and called([program, "show", str(store)], {}) != before:
        raise Wrong("what was there isn't shown any more")
    return line


def bytes_of(path: Path) -> bytes | None:
    """The bytes of a file that may be missing."""
    return path.read_bytes() if path.exists() else None


def check_copy(program: str, store: Path, made: Path, first: bytes, before: tuple) -> None:
    """Checks what a copy that has failed leaves: the store as it was, and a copy that is whole, or opens to nothing."""
    if store.read_bytes() != first:
        raise Wrong("the store that is copied has other bytes")
    shown = called([program, "show", str(made)], {}) if made.exists() else before
    if shown != before and (shown[:2] != (1, b"") or runs.last_line(shown[2]) not in NO_COPY):
        raise Wrong(f"the copy shows {shown}")


def ended_beside(program: str, store: Path, before: tuple | None, ended: tuple[int, bytes, bytes], wanted: tuple[int, bytes, bytes]) -> str:
    """What came of a refused call that isn't one of the store's file, where it ended a command."""
    status, out, err = ended
    line = runs.last_line(err)
    if status != 1 or not wanted[1].startswith(out) or not BESIDE_LINES.fullmatch(line):
        raise Wrong(f"status {status}, {out!r}, {err!r}")
    if before and called([program, "show", str(store)], {}) != before:
        raise Wrong("what was there isn't shown any more")
    return line


def shown_of(program: str, store: Path, first: bytes) -> tuple[int, bytes, bytes]:
    """What `show` prints of an image."""
    store.write_bytes(first)
    return called([program, "show", str(store)], {})


# Sessions


def requests_of_session(count: int = 14) -> list[tuple]:
    """This number of commands, with lookups and pages between them; 14 fill a journal that has room for five groups, and some more."""
    commands = runs.Commands("refusals", 9)
    requests: list[tuple] = []
    for number in range(count):
        requests.append(commands.next(0.2 if number > 9 else 0, 0.1))
        requests.append(("look", runs.QUERIES[number % len(runs.QUERIES)]))
        requests.append(("look", runs.PAGES[number % len(runs.PAGES)]))
    return requests


def frame_of(request: tuple) -> bytes:
    """The frame of a command, a lookup or a page."""
    return runs.asking_frame(request[1]) if request[0] == "look" else messages.command_frame(request)


class Worlds:
    """What a store may hold, by what was answered: lists of commands after a first place."""

    def __init__(self, opened: model.Opened) -> None:
        self.db, self.place = opened.fold()
        self.lists: list[tuple] = [()]
        self.has_stopped = False
        self.has_answered = False

    def fold(self, commands: tuple) -> dict:
        """The database after these."""
        db = dict(self.db)
        for command in commands:
            model.apply(db, command)
        return db

    def take(self, request: tuple, content: bytes | None, how: str) -> None:
        """Takes a reply, or None where the session ended without one."""
        self.has_answered |= content is not None
        if request[0] == "look":
            self._take_look(request[1], content, how)
        elif content is None or content in (b"\xff\x01", b"\xff\x62"):
            if how in PASSING or (content != b"\xff\x62") != (how == "refused"):
                raise Wrong(f"the reply {content}")
            self.has_stopped |= content == b"\xff\x62"
            self.lists += [commands + (request,) for commands in self.lists]
        elif content[0] == model.REFUSED:
            self.has_stopped |= content == b"\xff\x54"
            if content not in (b"\xff\x54", b"\xff\x57") or (content == b"\xff\x54" and (how in PASSING or how == "refused")):
                raise Wrong(f"the reply {content.hex()}")
        else:
            self._take_ack(request, content)

    def _take_ack(self, request: tuple, content: bytes) -> None:
        place, *counts = struct.unpack(">QIIII", content[1:])
        if self.has_stopped:
            raise Wrong("a command was acknowledged after the store had stopped")
        left = []
        for commands in self.lists:
            if self.place + len(commands) == place and model.apply(self.fold(commands), request) == tuple(counts):
                left.append(commands + (request,))
        if not left:
            raise Wrong(f"the acknowledgement {content.hex()}")
        self.lists = left

    def _take_look(self, asked: tuple, content: bytes | None, how: str) -> None:
        if how == "refused" and content in (None, b"\xff\x01"):
            return
        if content not in [runs.answer_to(asked, self.fold(commands)) for commands in self.lists]:
            raise Wrong(f"the reply {content} to {asked}")

    def has(self, out: bytes) -> bool:
        """Whether `show` prints one of these."""
        return any(out == model.show_text(self.fold(commands), self.place + len(commands)) for commands in self.lists)


def first_lines(kind: str, how: str, said: str) -> set[str]:
    """What a server says that ends before it serves."""
    if kind == "memory":
        return {"error: memory", *NO_PATH} if OF_PATH.decode() in said else {"error: memory"}
    lines = {"error: open 2", "error: device 1"} if kind == "fstat" else {"error: open 2"}
    return lines | {"error: memory"} if how == "ENOMEM" else lines


def try_session(program: str, store: Path, env: dict, kind: str, how: str, first: bytes) -> str:
    """Serves a session over a store, and answers what came of it."""
    store.write_bytes(first)
    worlds = Worlds(model.open_image(first))
    mark = Path(env["REFUSED_MARK"])
    try:
        server = runs.Server(program, store, env=env)
    except RuntimeError as ended:
        line = result = runs.last_line(str(ended).split("ended: ")[-1].encode())
        notices = Path(f"{store}.notices").read_text()
        # A line of standard error that finds no memory is left out, and so may be the one with the address.
        if (kind == "setting" and " serves " in notices) or (kind == "memory" and " opened " in notices and str(ended) == NO_ADDRESS):
            result = "served, and said no address"
        elif not (BESIDE_LINES.fullmatch(line) if kind in BESIDE else line in first_lines(kind, how, str(ended))) or how in PASSING:
            raise Wrong(str(ended)) from ended
    else:
        with server:
            is_early = mark.exists()
            # A session may end by such a call, as it may by a refused allocation.
            hold_session(server, worlds, "refused" if kind in BESIDE else how)
            result = result_of(server, worlds, mark, kind, how, is_early)
    if result == "none":
        return result
    status, out, err = called([program, "show", str(store)], {})
    if status != 0 or err or not worlds.has(out):
        raise Wrong(f"afterwards `show` ends with the status {status}, {out[-20:]!r}, {err!r}")
    return result


def hold_session(server: runs.Server, worlds: Worlds, how: str, count: int = 14) -> None:
    """Sends requests one after the other, in a new session where one has ended."""
    connection = None
    try:
        for request in requests_of_session(count):
            content = None
            try:
                if connection is None:
                    connection = server.connect(SECONDS)
                    replies = runs.Replies(connection)
                connection.sendall(frame_of(request))
                content = replies.next()
                if content == NO_THREAD and how == "refused":
                    connection.close()
                    connection = None
                    continue
            except TimeoutError as hung:
                raise Wrong("no reply came") from hung
            except OSError:
                connection = None
            worlds.take(request, content, how)
    finally:
        if connection:
            connection.close()


def result_of(server: runs.Server, worlds: Worlds, mark: Path, kind: str, how: str, is_early: bool) -> str:
    """What came of a refusal while a server served."""
    time.sleep(0.02)
    if not mark.exists():
        return "none"
    notices = server.notices.read_text()
    if kind in BESIDE:
        return result_beside(server, worlds, notices)
    if server.process.poll() is not None:
        # The readers and the threads of the actors are made once the server listens, before any
        # session.
        if kind == "memory" and notices.endswith("\nerror: memory\n") and not worlds.has_answered:
            return "error: memory"
        raise Wrong(f"the server ended: {notices}")
    if how in PASSING or kind == "memory":
        if STOPPED in notices:
            raise Wrong("the store has stopped")
        return "passed"
    if is_early:
        raise Wrong("the server serves a store whose opening failed")
    if STOPPED not in notices:
        time.sleep(1)
        if STOPPED not in server.notices.read_text():
            raise Wrong(f"the server doesn't say that the store has stopped: {notices}")
    return "stopped" if worlds.has_stopped else "stopped after the last command"


def result_beside(server: runs.Server, worlds: Worlds, notices: str) -> str:
    """What came of a refused call that isn't one of the store's file, while a server served."""
    if server.process.poll() is not None:
        if BESIDE_LINES.fullmatch(runs.last_line(notices.encode())) and not worlds.has_answered:
            return runs.last_line(notices.encode())
        raise Wrong(f"the server ended: {notices}")
    if STOPPED in notices:
        raise Wrong("the store has stopped")
    said = re.search(r"^pathd: (an accept failed|sessions ended by a fault|sessions refused)", notices, re.M)
    return f"{said[1]}, then served" if said else "passed"


# The script


def make_store(program: str, folder: Path) -> bytes:
    """A store of version 1 with rows, whose journal has room for some groups more."""
    store = folder / "first"
    runs.format_store(program, store, SMALL, 1)
    commands = runs.Commands("first", 9)
    with runs.Server(program, store) as server, server.connect() as connection:
        replies = runs.Replies(connection)
        for number in range(GROUPS):
            command = commands.next(0, 0) if number % 40 == 5 else ("purge", 0)
            connection.sendall(messages.command_frame(command))
            if replies.next()[0] not in (0x81, 0x83):
                raise SystemExit("the first store can't be filled")
    image = bytearray(store.read_bytes())
    # An opening closes the first gate of the half that isn't used.
    image[(SMALL.gate(1) + 1) * model.SECTOR] = model.OPEN
    return bytes(image)


def sweep(given: tuple) -> tuple[str, str, str, Counter, list[str]]:
    """Refuses each call of a kind in one way."""
    program, library, top, command, kind, how, first, every, until = given
    if until and time.monotonic() > until:
        return command, kind, how, Counter(), []
    folder = Path(top) / f"{command}_{kind}_{how}"
    folder.mkdir()
    store = folder / "store"
    results: Counter = Counter()
    wrong = []
    number, passed_by = 1, 0
    step = every if kind in ("memory", "read") else 1
    while passed_by < 3:
        env = refusing(library, folder, kind, how, number)
        try:
            if command == "run":
                result = try_session(program, store, env, kind, how, first)
            else:
                result = try_command(program, store, command, env, kind, how, first)
        except (Wrong, subprocess.TimeoutExpired, RuntimeError, model.NoStore) as fault:
            wrong.append(f"{command}, {kind} {number}, {how}: {fault}")
            result = "wrong"
        # Threads make calls in another order from run to run, so one run without the call isn't the
        # end.
        passed_by = passed_by + 1 if result == "none" else 0
        if result != "none":
            results[result] += 1
        number += step
        if len(wrong) > 20:
            break
    shutil.rmtree(folder)
    return command, kind, how, results, wrong


def summary(swept: list[tuple[str, str, str, Counter]]) -> str:
    """A table of what came of the calls of each kind: of those that are made again, and of the others."""
    rows: dict[tuple[str, str, bool], tuple[list[str], Counter]] = {}
    for command, kind, how, results in swept:
        if results:
            hows, together = rows.setdefault((command, kind, how in PASSING), ([], Counter()))
            hows.append(how)
            together.update(results)
    lines = ["| command | call | how it fails | runs | what came of it |", "|---|---|---|---|---|"]
    for (command, kind, _), (hows, results) in rows.items():
        came = ", ".join(f"`{name}` {count}" if name.startswith("error") else f"{name} {count}" for name, count in sorted(results.items()))
        lines.append(f"| `{command}` | {kind} | {', '.join(hows)} | {sum(results.values())} | {came} |")
    return "\n".join(lines)


def main(words: list[str]) -> int:
    """Sweeps, and prints a table."""
    options, program = runs.begin(__doc__, words, every=1, jobs=2, only=["", *COMMANDS], kind=tuple(HOWS), further=0.0)
    total, wrongs = 0, []
    with runs.scratch() as folder:
        library = runs.compiled("refused_calls.c", folder)
        first = make_store(program, folder)
        given = [
            (program, library, str(folder), command, kind, how, first, options.every, options.since + 60 * options.further if options.further else 0.0)
            for command in ([options.only] if options.only else COMMANDS)
            for kind, hows in HOWS.items()
            if kind in options.kind
            for how in hows
        ]
        swept = []
        with multiprocessing.Pool(options.jobs) as pool:
            for command, kind, how, results, wrong in pool.imap(sweep, given):
                total += sum(results.values())
                wrongs += wrong
                swept.append((command, kind, how, results))
                print(f"  {command}, {kind}, {how}: {sum(results.values())} runs", flush=True)
    print(summary(swept))
    return runs.end(options, f"{total} runs, {len(wrongs)} end otherwise", wrongs)
