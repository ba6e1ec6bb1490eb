"""Records what a server does with its store and its peers (tools/native/recorded_calls.c), and
judges what was answered: the commands in the order of their places, and what each reply says of
whatever the store's file may hold from then on."""
from __future__ import annotations

import socket
import struct
import threading
import time
from collections import Counter
from dataclasses import dataclass, field
from pathlib import Path

from pathd_model import model
from pathd_tools import messages, runs

SECTOR = model.SECTOR
SESSIONS = 6
KEYS = 60
# The share of the segments that take up more than a sector or two, and that of purges.
SHARE, PURGES = 0.5, 0.04
# The same where the store has many rows at first, with the share of purges.
WIDE_SHARE, WIDE_PURGES = 0.1, 0.003
# How often a session pauses for a second, so that the server's own purges come meanwhile, and after
# how many seconds rows expire.
PAUSES, FADES_AFTER = 3, (1, 4)
# The words by which a server purges by itself, and has a listener for lookups.
WORDS = ["--purge", "1", "--lookups", "127.0.0.1:0"]
# The code by which that listener refuses commands, and that of a row that has expired.
NOT_HERE, EXPIRED = 0x64, 0x32
HEAD = struct.Struct("<cIiQI")


@dataclass(frozen=True)
class Event:
    """A record of tools/native/recorded_calls.c."""

    letter: str
    thread: int
    descriptor: int
    offset: int
    content: bytes


def events_of(path: Path) -> list[Event]:
    """The records of a file, in order."""
    data, at, events = path.read_bytes(), 0, []
    while at < len(data):
        letter, thread, descriptor, offset, length = HEAD.unpack_from(data, at)
        at += HEAD.size
        events.append(Event(letter.decode(), thread, descriptor, offset, data[at : at + length]))
        at += length
    return events


@dataclass
class Moment:
    """What has to hold of the images between two calls on the device, as numbers of the run's commands."""

    acknowledged: int = 0
    seen: int = 0
    come: int = 0


@dataclass
class Recorded:
    """A run: the image before it with its place, its calls on the device, and what has to hold after each of them."""

    name: str
    first: bytes
    start: int
    calls: list[Event]
    moments: list[Moment]
    texts: list[bytes]
    replies: Counter = field(default_factory=Counter)


# Recording


def is_for_lookups(number: int) -> bool:
    """Whether the session of a number is the one of the listener for lookups."""
    return number == SESSIONS - 1


def hold_session(connection: socket.socket, seed: str, requests: int, most: int, share: float, rows: int, faults: list) -> None:
    """Sends random requests, some at once, `most` of them at the most, and reads their replies; a share of them look up or list."""
    commands = runs.Commands(seed, max(rows, KEYS), WIDE_SHARE if rows else SHARE)
    purges = WIDE_PURGES if rows else PURGES
    replies = runs.Replies(connection)
    left, pauses = requests, sorted(commands.random.randrange(requests) for _ in range(PAUSES))
    try:
        while left:
            while pauses and left <= pauses[-1]:
                pauses.pop()
                time.sleep(1)
            window = min(left, runs.next_window(commands.random, most))
            sent = [next_request(commands, share, purges) for _ in range(window)]
            connection.sendall(b"".join(sent))
            for _ in sent:
                replies.next()
            left -= window
    except OSError as fault:
        faults.append(fault)


def next_request(commands: runs.Commands, share: float, purges: float) -> bytes:
    """The frame of a command, or of a share of lookups and pages."""
    fate = commands.random.random()
    if fate < share:
        return runs.asking_frame(commands.random.choice(runs.ASKED))
    if fate > 0.9:
        return messages.command_frame(runs.fading(commands.random, time.time() + commands.random.randrange(*FADES_AFTER)))
    return messages.command_frame(commands.next(purges=purges))


def filled(program: str, folder: Path, layout: model.Layout, version: int, rows: int, seed: str) -> bytes:
    """The image of a store of a version with rows, some of them in its checkpoint."""
    store, commands = folder / "store", runs.Commands(seed, rows, WIDE_SHARE)
    runs.format_store(program, store, layout, version)
    with runs.Server(program, store) as server, server.connect() as connection:
        replies = runs.Replies(connection)
        for at in range(0, rows, 8):
            made = sorted((commands.segment(number) for number in range(at, min(at + 8, rows))), key=lambda row: row[0])
            connection.sendall(messages.registration(made))
            if replies.next()[0] != 0x81:
                raise RuntimeError("the store can't be filled")
    return store.read_bytes()


def record(
    program: str,
    library: str,
    folder: Path,
    seed: str,
    requests: int,
    layout: model.Layout,
    version: int = 2,
    first: bytes | None = None,
    swallowed: str = "",
    ahead: int = 128,
    rows: int = 0,
) -> Recorded:
    """Records a server's run over an image, or over a new store; no session sends more than `ahead` requests at one time. The
    commands are about this number of rows, where it is not 0."""
    store, log = folder / "store", folder / "log"
    log.unlink(missing_ok=True)
    if first is None:
        runs.format_store(program, store, layout, version)
        first = store.read_bytes()
    store.write_bytes(first)
    env = {"LD_PRELOAD": library, "RECORD": str(log), "SWALLOWED": swallowed}
    env |= {"CHECKPOINT": str(layout.checkpoint), "JOURNAL": str(layout.journal)}
    faults: list = []
    with runs.Server(program, store, WORDS, env) as server:
        # No descriptor of the server is one of two sessions: all of them end together.
        connections = [server.connect(port=server.lookups_port() if is_for_lookups(number) else 0) for number in range(SESSIONS)]
        threads = []
        for number, connection in enumerate(connections):
            share = 0.9 if is_for_lookups(number) else 0.25
            given = (connection, f"{seed}/{number}", requests // SESSIONS, runs.greatest_window(number, ahead), share, rows, faults)
            threads.append(threading.Thread(target=hold_session, args=given))
        for thread in threads:
            thread.start()
        for thread in threads:
            thread.join()
        for connection in connections:
            connection.close()
    if faults:
        raise RuntimeError(f"a session failed: {faults[0]}")
    return judged(f"server {seed}", first, events_of(log), layout)


@dataclass
class Stream:
    """What came from a peer and went to it so far."""

    requests: list[bytes] = field(default_factory=list)
    rest_in: bytes = b""
    rest_out: bytes = b""
    answered: int = 0
    least: int = 0
    # Whether its commands are taken, once it has sent one.
    takes_commands: bool | None = None


def written_records(events: list[Event], layout: model.Layout) -> dict[int, tuple[int, bytes]]:
    """The records of commands by their places, each with the number of the event that first writes it."""
    found: dict[int, tuple[int, bytes]] = {}
    for number, event in enumerate(events):
        within = (event.offset // SECTOR - 1) % (layout.checkpoint + 1 + layout.journal)
        if event.letter != "W" or event.offset == 0 or within <= layout.checkpoint:
            continue
        for place, record in runs.records_of(event.content):
            found.setdefault(place, (number, record))
    return found


def own_purges(events: list[Event], layout: model.Layout) -> dict[int, tuple[int, tuple]]:
    """The server's own purges by their places, each with the number of the event that first writes it, and the command."""
    records = written_records(events, layout).items()
    return {place: (number, ("purge", int.from_bytes(record[1:], "big"))) for place, (number, record) in records if runs.is_own_purge(record)}


def judged(name: str, first: bytes, events: list[Event], layout: model.Layout) -> Recorded:
    """Orders the commands of a run by their places, and finds what each reply says of the images after it."""
    db, start = model.open_image(first).fold()
    places = {request: place - start for request, place in places_of_requests(events).items()}
    own = {place - start: it for place, it in own_purges(events, layout).items() if place >= start}
    commands = commands_by_place(events, places, {place: command for place, (_, command) in own.items()})
    written = [(number, place) for place, (number, _) in own.items()]
    answers = runs.Answers(runs.ASKED, db)
    texts = [runs.digest(model.show_text(answers.db, start))]
    for number, command in enumerate(commands):
        answers.add(command)
        texts.append(runs.digest(model.show_text(answers.db, start + number + 1)))
    streams: dict[int, Stream] = {}
    come = [False] * len(commands)
    front = 0
    calls, moments, now = [], [Moment()], Moment()
    counted: Counter = Counter({"own purges": len(own)})
    for number_of_event, event in enumerate(events):
        for _, place in (it for it in written if it[0] == number_of_event):
            come[place] = True
        while front < len(come) and come[front]:
            front += 1
        stream = streams.setdefault(event.descriptor, Stream())
        if event.letter == "R":
            contents, stream.rest_in = messages.whole_frames(stream.rest_in + event.content)
            for content in contents:
                number = places.get((event.descriptor, len(stream.requests)))
                stream.requests.append(content)
                if number is not None:
                    come[number] = True
        elif event.letter == "T":
            contents, stream.rest_out = messages.whole_frames(stream.rest_out + event.content)
            for content in contents:
                take_reply(stream, content, start, answers, now, counted)
        else:
            # The images after the last call have to hold what was answered up to this one.
            moments[-1] = Moment(now.acknowledged, now.seen, moments[-1].come)
            calls.append(event)
            moments.append(Moment(now.acknowledged, now.seen, front))
    moments[-1] = Moment(now.acknowledged, now.seen, front)
    return Recorded(name, first, start, calls, moments, texts, replies=counted)


def take_reply(stream: Stream, content: bytes, start: int, answers: runs.Answers, now: Moment, counted: Counter) -> None:
    """Judges a reply of a run from a place on, and notes what it says of later images."""
    request = stream.requests[stream.answered]
    stream.answered += 1
    is_look = request[0] in (model.LOOKUP, model.LIST)
    if not is_look:
        takes_commands = content != bytes([model.REFUSED, NOT_HERE])
        if stream.takes_commands not in (None, takes_commands):
            raise RuntimeError(f"the reply {content.hex()} to a command, after other ones of its session")
        stream.takes_commands = takes_commands
    if content[0] == model.REFUSED:
        counted[f"refused {content[1]:#04x}"] += 1
        if is_look or content[1] not in (0x52, 0x57, NOT_HERE) and not (content[1] == EXPIRED and has_faded(request)):
            raise RuntimeError(f"the reply {content.hex()}")
    elif is_look:
        counted["lookups" if request[0] == model.LOOKUP else "pages"] += 1
        version = answers.first_version(runs.asked_of(request), runs.digest(content), stream.least)
        if version is None:
            raise RuntimeError(f"no front explains a lookup: {request.hex()}")
        stream.least = version
        now.seen = max(now.seen, version)
    else:
        counted["acknowledged"] += 1
        place, *counts = struct.unpack(">QIIII", content[1:])
        number = place - start
        if tuple(counts) != answers.outcomes[number]:
            raise RuntimeError(f"place {place} counts {counts}, and not {answers.outcomes[number]}")
        stream.least = max(stream.least, number + 1)
        now.acknowledged = max(now.acknowledged, number + 1)


def has_faded(request: bytes) -> bool:
    """Whether a request registers a row that expires in these days."""
    command = model.command_of(request)
    return command[0] == "register" and any(model.row_of(segment).expiry < 2 * runs.MADE for _, segment in command[1])


def places_of_requests(events: list[Event]) -> dict[tuple[int, int], int]:
    """The place of each acknowledged request, by its descriptor and its number there."""
    rest: dict[int, bytes] = {}
    counts: Counter = Counter()
    places = {}
    for event in events:
        if event.letter == "T":
            contents, rest[event.descriptor] = messages.whole_frames(rest.get(event.descriptor, b"") + event.content)
            for content in contents:
                if content[0] in (0x81, 0x83, 0x84):
                    places[event.descriptor, counts[event.descriptor]] = int.from_bytes(content[1:9], "big")
                counts[event.descriptor] += 1
    return places


def commands_by_place(events: list[Event], places: dict[tuple[int, int], int], own: dict[int, tuple]) -> list[tuple]:
    """The acknowledged commands and the server's own in the order of their places, which count from the run's first one."""
    rest: dict[int, bytes] = {}
    counts: Counter = Counter()
    commands = dict(own)
    for event in events:
        if event.letter == "R":
            contents, rest[event.descriptor] = messages.whole_frames(rest.get(event.descriptor, b"") + event.content)
            for content in contents:
                place = places.get((event.descriptor, counts[event.descriptor]))
                counts[event.descriptor] += 1
                if place is None:
                    continue
                if place in commands:
                    raise RuntimeError("two commands of one place")
                commands[place] = model.command_of(content)
    if sorted(commands) != list(range(len(commands))) or len(places) + len(own) != len(commands):
        raise RuntimeError("the places of the acknowledgements have gaps")
    return [commands[place] for place in range(len(commands))]


class Disk:
    """What a device may hold: the sectors that are kept for certain, and the writes that no sync has covered."""

    def __init__(self, first: bytes) -> None:
        self.kept = bytearray(first)
        self.writes: list[list] = []
        self.covered: dict[int, list] = {}

    def follow(self, call: Event) -> None:
        """Makes a call, or ends it."""
        if call.letter == "W":
            self.writes.append([call.thread, False, call.offset, call.content])
        elif call.letter == "w":
            for write in self.writes:
                if write[0] == call.thread:
                    write[1] = True
        elif call.letter == "S":
            self.covered[call.thread] = [write for write in self.writes if write[1]]
        elif call.letter == "s":
            covered = self.covered.pop(call.thread)
            for write in covered:
                self.kept[write[2] : write[2] + len(write[3])] = write[3]
            self.writes = [write for write in self.writes if not any(write is it for it in covered)]

    def dirty(self) -> dict[int, list[bytes]]:
        """Of each sector that isn't kept for certain, what it held and what was written to it, in order."""
        held: dict[int, list[bytes]] = {}
        for _, _, offset, content in self.writes:
            for at in range(0, len(content), SECTOR):
                sector = (offset + at) // SECTOR
                before = held.setdefault(sector, [bytes(self.kept[sector * SECTOR : (sector + 1) * SECTOR])])
                before.append(content[at : at + SECTOR])
        return held
