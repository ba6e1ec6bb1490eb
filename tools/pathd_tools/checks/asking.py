"""Asks the built server by the built program's `ask`, and servers that are none.

    tools/pathd-tools asking [PROGRAM]

200 segments of three types are registered from lines of JSON, listed by pages, compared with `show`
of the store at rest, and registered again at another server. Refused lines, removals, purges and
lookups follow, and lines of an input that pauses for longer than a reply may take. 20,000 segments that expire one after the other are purged in steps, whose moments
and number are those that the page of the protocol says. Then there is no server, a silent one, one that cuts a reply, one that drips it, and
ones whose replies are changed at random, for 300 turns of a printed seed: the program has to end by
a status and a line of its own. Lookups that are cut are marked, servers are awaited, readers leave,
and `run --new` makes stores. It needs Python 3 and the loopback, and ends with the status 1 where
something else comes.
"""
from __future__ import annotations

import bisect
import datetime
import json
import os
import random
import socket
import struct
import subprocess
import sys
import threading
import time
from collections.abc import Callable, Iterator
from contextlib import contextmanager
from pathlib import Path

from pathd_model import model
from pathd_tools import messages, runs
from pathd_tools.messages import Hop

LARGE = model.Layout(400, 1024)
TYPES = {1: "up", 2: "down", 3: "core"}
# How many segments of each type: of one there are more than one page has.
COUNTS = {1: 5, 2: 150, 3: 45}
# How often a reply is changed at random, and the seed of it.
TURNS, SEED = 300, 61
# How many segments are purged in steps, within how many half seconds they expire, and how many are
# registered as one.
SPREAD, WITHIN, TOGETHER = 20_000, 172_800, 16
# The steps of docs/PROTOCOL.md: how far before the moment the first one is, and the most commands
# for a store that has nothing to purge.
REACH, OF_NOTHING = 262_144, 35
# How long a command may take, in seconds.
PATIENCE = 60
# The most segments of the reply to a lookup, and the names of some codes.
MOST = 64
NAMES = {0x01: "Memory", 0x51: "Busy", 0x61: "NoSeat", 0x62: "OutcomeUnknown", 0x63: "NotAwaited", 0x64: "NoCommands"}
# How long an input pauses before each line, and how long a reply may take meanwhile, in seconds.
PAUSE, REPLY = 1.5, 1


class Wrong(Exception):
    """Something else came."""


def expect(name: str, found: object, wanted: object) -> None:
    """Ends the check where two things differ."""
    if found != wanted:
        raise Wrong(f"{name}: {found!r}, and not {wanted!r}")


class Asker:
    """The program that asks a server at a port."""

    def __init__(self, program: str, port: int) -> None:
        self.program, self.address = program, f"127.0.0.1:{port}"

    def run(self, line: str, text: bytes = b"", address: str = "") -> tuple[int, str, str]:
        """The status of a command line, and what it prints on both handles; another address may be asked."""
        words = [self.program, "ask", address or self.address, *line.split()]
        done = subprocess.run(words, input=text, capture_output=True, timeout=PATIENCE, check=False)
        return done.returncode, done.stdout.decode(), done.stderr.decode()

    def well(self, line: str, text: bytes = b"") -> list[str]:
        """The lines of a command line that is carried out."""
        status, out, err = self.run(line, text)
        expect(line, (status, err), (0, ""))
        return out.splitlines()

    def fails(self, line: str, error: str, text: bytes = b"", printed: int = 0) -> str:
        """Sees a command line fail by this last line, after so many lines of output. Returns what it has said."""
        status, out, err = self.run(line, text)
        expect(line, (status, err.splitlines()[-1:], len(out.splitlines())), (1, [f"error: {error}"], printed))
        return err


def segment(number: int, timestamp: int = runs.MADE) -> bytes:
    """The segment of this number, between two ASes of the lookups."""
    hops = [Hop(runs.CORE_A, 0, 1 + number), Hop(runs.LEAVES[number % 4], 1, 0)]
    return messages.make_segment(hops, timestamp)


def line_of(kind: int, data: bytes) -> str:
    """The line of a segment, worked out without the program."""
    row = model.row_of(data)
    made = {
        "type": TYPES[kind], "id": row.id.hex(), "timestamp": row.timestamp, "expiry": row.expiry,
        "made": date_of(2 * row.timestamp), "expires": date_of(row.expiry), "first": text_of(row.first),
        "last": text_of(row.last), "entries": row.entries, "segment": data.hex(),
    }
    return json.dumps(made, separators=(",", ":"))


def date_of(moment: int) -> str:
    """A moment in half seconds as a date."""
    date = datetime.datetime.fromtimestamp(moment // 2, datetime.UTC)
    return date.strftime("%Y-%m-%dT%H:%M:%S") + (".5Z" if moment % 2 else "Z")


def text_of(isd_as: int) -> str:
    """The text of an ISD-AS."""
    isd, number = isd_as >> 48, isd_as & (1 << 48) - 1
    if number < 1 << 32:
        return f"{isd}-{number}"
    return f"{isd}-{number >> 32:x}:{number >> 16 & 0xffff:x}:{number & 0xffff:x}"


def rows() -> list[tuple[int, bytes]]:
    """All rows, in the order of their keys."""
    made = [(kind, segment(number)) for kind, count in COUNTS.items() for number in range(count)]
    return sorted(made, key=lambda row: (row[0], model.row_of(row[1]).id))


@contextmanager
def server(program: str, store: Path, words: list[str] | None = None) -> Iterator[Asker]:
    """Asks a server of a store."""
    running = runs.Server(program, store, words or [])
    try:
        yield Asker(program, running.port)
    finally:
        running.process.kill()
        running.process.wait()


def shown(program: str, store: Path, *words: str) -> list[str]:
    """The lines of `show`."""
    done = subprocess.run([program, "show", str(store), *words], capture_output=True, check=True)
    return done.stdout.decode().splitlines()


def register_and_list(program: str, folder: Path) -> None:
    """What was registered is listed, shown and registered again."""
    made, first, second = rows(), folder / "first", folder / "second"
    lines = [line_of(*row) for row in made]
    text = "".join(line + "\n" for line in random.Random(SEED).sample(lines, len(lines)))
    (folder / "lines").write_text(text, encoding="ascii")
    for store in (first, second):
        runs.format_store(program, store, LARGE)
    with server(program, first) as asker:
        acks = asker.well(f"register {folder / 'lines'}")
        expect("acknowledgements", acks, [f"place {n}: 1 inserted, 0 updated, 0 kept, 0 purged" for n in range(len(made))])
        listed = asker.well("list --json")
        expect("list --json", listed, lines)
        expect("list", len(asker.well("list")), len(made))
        expect("list down", asker.well("list down --json"), [line for line in lines if '"down"' in line])
        wanted = [line for line in lines if '"core"' in line and text_of(runs.LEAVES[1]) in line]
        expect("list with sides", asker.well(f"list core 0-0 {text_of(runs.LEAVES[1])} --json"), wanted)
        expect("list of nothing", asker.well("list up 7-7"), [])
        found = asker.well(f"lookup {text_of(runs.CORE_A)} {text_of(runs.LEAVES[2])}")
        expect("lookup", found, [it for it in asker.well("list down") if f" {text_of(runs.LEAVES[2])} " in it][:64])
        as_text = asker.well("list")
        dates = [[date_of(2 * row.timestamp), date_of(row.expiry)] for row in (model.row_of(data) for _, data in made)]
        expect("dates", [line.split()[-2:] for line in as_text], dates)
    expect("show --json", shown(program, first, "--json"), lines)
    expect("show", shown(program, first), [*(line.rsplit(" ", 2)[0] for line in as_text), f"place {len(made)}"])
    exported = "".join(line + "\n" for line in shown(program, first, "--json")).encode()
    with server(program, second) as asker:
        expect("registered again", len(asker.well("register -", exported)), len(made))
        expect("the copy", asker.well("list --json"), lines)


def commands(program: str, folder: Path) -> None:
    """Removals, purges, and what a server refuses."""
    store = folder / "commands"
    runs.format_store(program, store, LARGE)
    lines = [line_of(2, segment(number)) for number in range(50)]
    old = line_of(2, segment(60, timestamp=1_000_000_000))
    with server(program, store, ["--future", "4294967295"]) as asker:
        expect("an empty input", asker.well("register -"), [])
        expect("as JSON", asker.well("register - --json", lines[0].encode()), [
            '{"place":0,"inserted":1,"updated":0,"kept":0,"purged":0}'
        ])
        # The 41st line is refused: those under way are answered, and no further one is sent.
        text = "\n".join([*lines[:40], old, *lines[40:]]).encode()
        status, out, err = asker.run("register -", text)
        expect("a refused line", (status, err.splitlines()[-1]), (1, "error: refused 0x32"))
        if "line 41 is refused by 0x32 Expired" not in err:
            raise Wrong(f"the refused line is not named: {err}")
        if not 40 <= len(out.splitlines()) <= 50:
            raise Wrong(f"{len(out.splitlines())} acknowledgements around a refused line")
        said = asker.fails("register -", "line 2", (lines[0] + "\nnone\n").encode(), printed=1)
        if "line 2: it is no JSON" not in said:
            raise Wrong(f"the line without a segment is not named: {said}")
        asker.fails("register -", "line 1", b'{"type":"sideways","segment":"00"}')
        asker.fails("register -", "line 1", b'{"type":"up","segment":"0g"}')
        asker.fails("register -", "line 1", b'{"type":"up","segment":"00"}')
        said = asker.fails("register -", "line 1", b"x" * 100_000)
        if "line 1: it is longer than 65,536 bytes" not in said:
            raise Wrong(f"the long line is not named: {said}")
        asker.fails(f"register {folder / 'nowhere'}", "input")
        asker.fails("lookup 0-0 0-0", "refused 0x41")
        asker.fails("lookup 2-1 2-2", "refused 0x43")
        key = json.loads(lines[3])["id"]
        place = len(asker.well("list"))
        expect("remove", [it.split(": ")[1] for it in asker.well(f"remove down {key}")], ["0 inserted, 0 updated, 0 kept, 1 purged"])
        expect("remove again", [it.split(": ")[1] for it in asker.well(f"remove down {key}")], ["0 inserted, 0 updated, 0 kept, 0 purged"])
        expect("purge of now", [it.split(": ")[1] for it in asker.well("purge")], ["0 inserted, 0 updated, 0 kept, 0 purged"])
        all_of = 2 * runs.MADE + 10_000_000
        expect("purge", [it.split(": ")[1] for it in asker.well(f"purge {all_of}")], [f"0 inserted, 0 updated, 0 kept, {place - 1} purged"])
        expect("purge at once", [it.split(": ")[1] for it in asker.well("purge --at-once")], ["0 inserted, 0 updated, 0 kept, 0 purged"])
        expect("after it", asker.well("list"), [])
    for line, error in {
        "lookup 1 2": "word 1", "lookup 1-1 1-x": "word 2", "list sideways": "word 1", "purge +1": "word 1", "remove up 00": "word 2",
    }.items():
        asker.fails(line, error)
    for line in ("lookup 1-1", "list up 1-1 1-1 1-1", "register", "purge 1 2", "remove up", "sideways", "list --timeout 0"):
        status, out, err = asker.run(line)
        expect(line, (status, out), (2, ""))


def slow_input(program: str, folder: Path) -> None:
    """The pauses of an input are no time that the server takes."""
    store = folder / "slow"
    runs.format_store(program, store, LARGE)
    with server(program, store) as asker:
        words = [program, "ask", asker.address, "register", "-", "--timeout", str(REPLY)]
        with subprocess.Popen(words, stdin=subprocess.PIPE, stdout=subprocess.PIPE, stderr=subprocess.PIPE) as asking:
            assert asking.stdin is not None
            try:
                for number in range(2):
                    time.sleep(PAUSE)
                    asking.stdin.write(line_of(2, segment(number)).encode() + b"\n")
                    asking.stdin.flush()
            except BrokenPipeError:
                pass  # the command has ended: what it has said is seen below
            out, err = asking.communicate(timeout=PATIENCE)
        acks = [f"place {n}: 1 inserted, 0 updated, 0 kept, 0 purged" for n in range(2)]
        expect("lines of a slow input", (asking.returncode, err.decode(), out.decode().splitlines()), (0, "", acks))


def next_moment(before: int, width: int, dropped: int, last: int) -> tuple[int, int]:
    """The moment of the next step of a purge, and the time that the step covers, as docs/PROTOCOL.md has it."""
    if dropped > 1024:
        width //= dropped // 512 + 1
    elif dropped < 256:
        width *= 2
    left = last - before
    width = min(max(width, 1), max(left // 8, 1024), left)
    return before + width, width


def steps_of(last: int, expiries: list[int]) -> list[tuple[int, int]]:
    """The moments of a purge in steps of rows with these expiries, in order, and how many rows each one drops."""
    moment, width, made, gone = max(last - REACH, 0), REACH, [], 0
    while True:
        dropped = bisect.bisect_right(expiries, moment) - gone
        gone += dropped
        made.append((moment, dropped))
        if moment == last:
            return made
        moment, width = next_moment(moment, width, dropped, last)


def purges_in_steps(program: str, folder: Path) -> None:
    """A purge of many rows is several commands, and its counts are the sum of theirs."""
    store = folder / "spread"
    runs.format_store(program, store, model.Layout(2 * SPREAD, 40_000))
    made = [segment(number, runs.MADE + number * (WITHIN // 2) // SPREAD) for number in range(SPREAD)]
    expiries = sorted(model.row_of(data).expiry for data in made)
    last = expiries[-1] + 5_000
    with server(program, store) as asker:
        with runs.connected(int(asker.address.split(":")[1])) as peer:
            for first in range(0, SPREAD, TOGETHER):
                peer.sendall(messages.registration([(model.DOWN, data) for data in made[first : first + TOGETHER]]))
                expect("a registration", peer.recv(64)[4], 0x81)
        place = SPREAD // TOGETHER
        wanted = steps_of(last, expiries)
        print(f"{len(wanted)} commands drop {SPREAD} segments, {max(dropped for _, dropped in wanted)} of them at most", flush=True)
        place += len(wanted)
        expect("a purge in steps", asker.well(f"purge {last}"), [f"place {place - 1}: 0 inserted, 0 updated, 0 kept, {SPREAD} purged"])
        place += OF_NOTHING
        expect("one of nothing", asker.well(f"purge {last}"), [f"place {place - 1}: 0 inserted, 0 updated, 0 kept, 0 purged"])
        expect("one at once", asker.well(f"purge --at-once {last}"), [f"place {place}: 0 inserted, 0 updated, 0 kept, 0 purged"])


@contextmanager
def false_server(act: Callable[[socket.socket], None]) -> Iterator[int]:
    """A server that does this with each connection, and its port."""
    listener = socket.create_server(("127.0.0.1", 0))

    def serve() -> None:
        while True:
            try:
                peer, _ = listener.accept()
            except OSError:
                return
            with peer:
                try:
                    act(peer)
                except OSError:
                    pass

    thread = threading.Thread(target=serve, daemon=True)
    thread.start()
    try:
        yield listener.getsockname()[1]
    finally:
        listener.shutdown(socket.SHUT_RDWR)
        listener.close()
        thread.join(PATIENCE)


def drip(peer: socket.socket) -> None:
    """Answers a byte in a fifth of a second."""
    peer.recv(4096)
    for byte in bytes.fromhex("000000198300000000000000010000000000000000000000000000"):
        time.sleep(0.2)
        peer.sendall(bytes([byte]))


def answer(reply: bytes) -> Callable[[socket.socket], None]:
    """Answers a request by these bytes, and ends the connection."""

    def act(peer: socket.socket) -> None:
        peer.recv(65536)
        peer.sendall(reply)
        peer.shutdown(socket.SHUT_WR)
        while peer.recv(4096):
            pass

    return act


def false_servers(program: str) -> None:
    """No server, and servers that are none."""
    with socket.socket() as free:
        free.bind(("127.0.0.1", 0))
        Asker(program, free.getsockname()[1]).fails("list", "connect")
    with false_server(lambda peer: time.sleep(3)) as port:
        began = time.monotonic()
        Asker(program, port).fails("list --timeout 1", "timeout")
        if not 0.9 < time.monotonic() - began < 3:
            raise Wrong(f"a silent server was waited for {time.monotonic() - began} s")
    with false_server(drip) as port:
        Asker(program, port).fails("purge --at-once --timeout 1", "timeout")
    ack = struct.pack(">IBQ4I", 25, 0x83, 5, 0, 0, 0, 7)
    with false_server(answer(ack)) as port:
        expect("an acknowledgement", Asker(program, port).well("purge --at-once"), ["place 5: 0 inserted, 0 updated, 0 kept, 7 purged"])
        Asker(program, port).fails("list", "reply")
        # The reply to the first step is printed, and there is none to the second one.
        Asker(program, port).fails("purge", "cut", printed=1)
    with false_server(answer(ack + bytes.fromhex("00000002ff51"))) as port:
        Asker(program, port).fails("purge", "refused 0x51", printed=1)
    for length in (0, 1, 4, 5, 28):
        with false_server(answer(ack[:length])) as port:
            Asker(program, port).fails("purge", "cut")
    for reply in ("00000000", "7fffffff", "0000000100", "0000000181", "000000020000", "0000000385"):
        with false_server(answer(bytes.fromhex(reply) + bytes(40))) as port:
            Asker(program, port).fails("list", "reply")
    for code, name in NAMES.items():
        with false_server(answer(b"\0\0\0\x02\xff" + bytes([code]))) as port:
            said = Asker(program, port).fails("purge", f"refused {code:#04x}")
        expect("the name of a code", said.splitlines()[0], f"pathd: 127.0.0.1:{port}: the server refused the request by {code:#04x} {name}")


def cut_lookups(program: str) -> None:
    """A lookup with as many segments as a reply may have is marked: there may be more."""
    for count in (0, 1, MOST - 1, MOST):
        whole = found_reply(2, [segment(number) for number in range(count)])
        with false_server(answer(struct.pack(">I", len(whole)) + whole)) as port:
            for words in ("", " --json"):
                status, out, err = Asker(program, port).run("lookup 1-1 1-2" + words)
                said = f"pathd: 127.0.0.1:{port}: 64 segments are the most of a lookup; there may be more, and 'list' has all\n"
                expect(f"{count} segments", (status, err), (0, said if count == MOST else ""))
                lines = out.splitlines()
                expect("how many", len(lines), count)
                if words:
                    marked = [json.loads(line).get("more") for line in lines]
                    expect("marks", marked, [None] * (MOST - 1) + [True] if count == MOST else [None] * count)


def awaited_servers(program: str) -> None:
    """`--wait` tries again until there is a server, or its time is over; a name is an address, too."""
    with socket.socket() as free:
        free.bind(("127.0.0.1", 0))
        port = free.getsockname()[1]
    began = time.monotonic()
    Asker(program, port).fails("purge --at-once --wait 1", "connect")
    if not 0.9 < time.monotonic() - began < 5:
        raise Wrong(f"no server was awaited for {time.monotonic() - began} s, and not for one")
    ack = struct.pack(">IBQ4I", 25, 0x83, 5, 0, 0, 0, 7)
    words = [program, "ask", f"localhost:{port}", "purge", "--at-once", "--wait", "30", "--timeout", "1"]
    with subprocess.Popen(words, stdout=subprocess.PIPE, stderr=subprocess.PIPE, text=True) as asking:
        time.sleep(PAUSE)
        # It takes the connection, and answers late: a server that opens its store does so.
        with socket.create_server(("127.0.0.1", port)) as listener:
            time.sleep(2 * PAUSE)
            peer, _ = listener.accept()
            with peer:
                answer(ack)(peer)
        out, err = asking.communicate(timeout=PATIENCE)
    expect("a server that comes late", (asking.returncode, out, err), (0, "place 5: 0 inserted, 0 updated, 0 kept, 7 purged\n", ""))
    status, _, err = Asker(program, port).run("list", address="no.such.name.invalid:1")
    expect("a name that is none", (status, err.splitlines()[-1:]), (1, ["error: connect"]))
    for text in ("localhost", "localhost:", ":1", "local host:1", "localhost:65536"):
        status, _, err = Asker(program, port).run("list", address=text)
        expect(f"'{text}'", (status, err.splitlines()[-1:]), (1, ["error: net"]))


def readers_that_leave(program: str, folder: Path) -> None:
    """A reader of rows may leave: that is no error. One of an acknowledgement is missed."""
    store = folder / "left"
    runs.format_store(program, store, LARGE)
    lines = [line_of(2, segment(number)) for number in range(400)]
    with server(program, store) as asker:
        asker.well("register -", "\n".join(lines).encode())
        rows_of = ["ask", asker.address, "list", "--json"], ["show", str(store), "--json"]
        expect("a list that is left", left_early([program, *rows_of[0]]), (0, ""))
        status, said = left_early([program, "ask", asker.address, "purge", "--at-once", "0"], lines=0)
        expect("an acknowledgement that is missed", (status, said.splitlines()[-1:]), (1, ["error: output"]))
    expect("a store that is left", left_early([program, *rows_of[1]]), (0, ""))


def left_early(command: list[str], lines: int = 1) -> tuple[int, str]:
    """The status of a command whose reader leaves after so many lines, and what it says on standard error."""
    reader, writer = os.pipe()
    with subprocess.Popen(command, stdout=writer, stderr=subprocess.PIPE, text=True) as running:
        os.close(writer)
        with os.fdopen(reader) as output:
            for _ in range(lines):
                output.readline()
        _, said = running.communicate(timeout=PATIENCE)
    return running.returncode, said


def new_stores(program: str, folder: Path) -> None:
    """`run --new` makes a store where there is no file, or an empty one, and nowhere else."""
    wanted, store = folder / "wanted", folder / "made"
    subprocess.run([program, "format", str(wanted), "--rows", "5"], check=True, capture_output=True)
    words = ["--new", "--rows", "5"]
    for before in (None, b""):
        store.unlink(missing_ok=True)
        if before is not None:
            store.write_bytes(before)
        with server(program, store, words) as asker:
            expect("a new store", asker.well("list"), [])
        expect("its bytes", store.read_bytes(), wanted.read_bytes())
    with server(program, store, words) as asker:
        asker.well("register -", line_of(2, segment(1)).encode())
    with server(program, store, words) as asker:
        expect("a store that is there", len(asker.well("list")), 1)
    for kept in (b"x", bytes(512), bytes(2048), wanted.read_bytes()[:512]):
        store.write_bytes(kept)
        done = subprocess.run([program, "run", str(store), "--listen", "127.0.0.1:0", *words], capture_output=True, text=True, timeout=PATIENCE, check=False)
        expect("a file that is no store", (done.returncode, done.stderr.splitlines()[-1:]), (1, ["error: open 1"]))
        expect("what it has", store.read_bytes(), kept)
    done = subprocess.run([program, "run", str(folder), "--listen", "127.0.0.1:0", *words], capture_output=True, text=True, timeout=PATIENCE, check=False)
    expect("a folder", (done.returncode, done.stderr.splitlines()[-1:]), (1, ["error: device 1"]))


def found_reply(kind: int, segments: list[bytes]) -> bytes:
    """The content of a lookup's reply."""
    inner = b"".join(messages.bytes_field(1, data) for data in segments)
    entry = messages.number_field(1, kind) + messages.bytes_field(2, inner)
    return b"\x82" + (messages.bytes_field(1, entry) if segments else b"")


def changed_replies(program: str) -> None:
    """Replies that are changed at random: the program prints what they have, or refuses them."""
    dice = random.Random(SEED)
    print(f"seed {SEED}")
    whole = found_reply(2, [segment(number) for number in range(3)])
    ends: dict[int, int] = {}
    current = [b""]
    with false_server(lambda peer: answer(current[0])(peer)) as port:
        asker = Asker(program, port)
        current[0] = struct.pack(">I", len(whole)) + whole
        expect("the whole reply", len(asker.well("lookup 1-1 1-2 --json")), 3)
        for _ in range(TURNS):
            reply = bytearray(whole)
            for _ in range(dice.randint(1, 3)):
                at = dice.randrange(len(reply))
                act = dice.randrange(3)
                if act == 0:
                    reply[at] = dice.randrange(256)
                elif act == 1:
                    del reply[at : at + dice.randint(1, 9)]
                else:
                    reply[at:at] = dice.randbytes(dice.randint(1, 9))
                if not reply:
                    reply = bytearray(b"\x82")
            current[0] = struct.pack(">I", len(reply)) + bytes(reply)
            status, out, err = asker.run("lookup 1-1 1-2 --json")
            ends[status] = ends.get(status, 0) + 1
            if status == 0:
                # What is printed has to be all of the reply.
                again = [json.loads(line) for line in out.splitlines()]
                kinds = {number: name for number, name in TYPES.items()}
                kind = next((n for n in kinds if again and kinds[n] == again[0]["type"]), 1)
                expect("what is printed", found_reply(kind, [bytes.fromhex(it["segment"]) for it in again]), bytes(reply))
            elif status != 1 or not err.splitlines()[-1].startswith("error: "):
                raise Wrong(f"a changed reply ends with {status} and {err!r}: {bytes(reply).hex()}")
    print(f"{TURNS} changed replies: {ends.get(0, 0)} taken, {ends.get(1, 0)} refused")


def main(words: list[str]) -> int:
    """Runs all of it."""
    _, program = runs.begin(__doc__, words, is_last=True)
    try:
        with runs.scratch() as folder:
            register_and_list(program, folder)
            commands(program, folder)
            slow_input(program, folder)
            purges_in_steps(program, folder)
            false_servers(program)
            cut_lookups(program)
            awaited_servers(program)
            readers_that_leave(program, folder)
            new_stores(program, folder)
            changed_replies(program)
    except Wrong as wrong:
        print(wrong, file=sys.stderr)
        return 1
    print("asking: all as it has to be")
    return 0
