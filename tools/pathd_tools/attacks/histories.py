"""Records what 32 sessions of a server ask and are answered, with times, and shows that one order
of the commands explains all of it.

    tools/pathd-tools histories [--program PROGRAM] [--seed N] [--replies N] [--for MINUTES] [--kills N] [--sessions N] [--ahead N]
                                [--journal SECTORS]

Sessions over TCP, a process each, send random registrations, removals, purges, lookups and lists,
some of them several at once: 1 to 128, or as many as --ahead says at the most. Every fourth session
is one of the listener for lookups, and each second the server purges by itself the rows that have
expired meanwhile. The server is killed (-9) while they do, and started again on the same file, N
times. With --journal the journals of its store have so many sectors, at least 516: the fewer there
are, the more checkpoints are made. The order is that of the places. It is shown that

- each place up to the one at which the store opens again is that of one command; the commands
  without a reply are read from the journal, and were sent; where a checkpoint has one already, some
  command that was sent makes that checkpoint's rows; the server's own purges are those that a
  preloaded library (tools/native/recorded_calls.c) has seen written, and their moments rise and lie
  within the run;
- the sessions of the listener for lookups are refused each command; of the other commands those are
  refused that register a row once it has expired;
- each acknowledgement has the counts that the fold of all commands before it gives;
- within a session places rise, and a command that was acknowledged before another was sent has the
  smaller place;
- each lookup and each page is the answer after a front of the commands, which is at least as long
  as what its session's last acknowledgement and last lookup showed, and has no command that was
  sent only after the lookup's reply had come;
- what `show` prints after each kill is the fold of all commands.

That the checker sees faults is tried on the first round, by altering a reply. Beyond what is
promised the script counts the lookups that no front explains that holds all commands acknowledged
to anybody before the lookup was sent.

A seed has --replies replies, and --seconds is how long it may take from one kill to the next.
With --for all of it is repeated with the next seed until so many minutes have passed.

It needs Python 3 and gcc, and the loopback. It ends with the status 1 where something doesn't hold,
and prints the first ones.
"""
from __future__ import annotations

import argparse
import bisect
import multiprocessing
import random
import shutil
import socket
import struct
import time
from collections import Counter
from collections.abc import Iterator
from dataclasses import dataclass, field, replace
from itertools import accumulate, islice
from pathlib import Path

from pathd_model import model
from pathd_tools import messages, runs
from pathd_tools.recording import events_of, own_purges

# More than a page of each type.
KEYS = 240
POOL = 20_000
# For each second there are so many commands about rows that expire then, for so many seconds.
EACH_SECOND, SECONDS_OF_POOL = 16, 900
# Every so many sessions one is of the listener for lookups, and how it refuses a command.
FOR_LOOKUPS = 4
NOT_HERE, EXPIRED = b"\x64", b"\x32"
WORDS = ["--purge", "1", "--lookups", "127.0.0.1:0"]
LAYOUT = model.Layout(64, 4096)
# When it was sent, when its reply came, the request, the reply's first byte or 0, and what is left
# of the reply.
RECORD = struct.Struct("<QQIB24s")
NEVER = (1 << 64) - 1
# How many choices of the commands without a reply are tried, and how many of one of them.
MOST_TRIES, MOST_STEPS = 1000, 20_000
LOOKUPS = 1 << 31
# The first bytes of the replies to lookups and to lists, and to commands.
LOOKS, ACKS = (0x82, 0x85), (0x81, 0x83, 0x84)
# How long a session waits after a refusal, which a stopped store gives at once.
AFTER_REFUSAL = 0.05


@dataclass(frozen=True)
class Asked:
    """A request with its reply: a command of the pool by its number, or a lookup or a page from LOOKUPS on."""

    sent: int
    received: int
    request: int
    kind: int
    reply: bytes


def make_pool(seed: int, begun: int) -> list[tuple]:
    """The commands that sessions choose from, and then those of each second from a moment on."""
    commands = runs.Commands(f"{seed}/pool", KEYS)
    pool = [commands.next(0.2, 0.01) for _ in range(POOL)]
    return pool + [runs.fading(commands.random, begun + it // EACH_SECOND) for it in range(EACH_SECOND * SECONDS_OF_POOL)]


def next_number(chance: random.Random, begun: int) -> int:
    """The number of a command of the pool, which may be about a row that expires in some seconds."""
    seconds = int(time.time()) - begun + chance.randint(*runs.FADES_AFTER)
    if chance.random() < 0.1 and seconds < SECONDS_OF_POOL:
        return POOL + EACH_SECOND * seconds + chance.randrange(EACH_SECOND)
    return chance.randrange(POOL)


# A session's process


def hold_session(
    connection: socket.socket, seed: str, frames: list[bytes], asking: list[bytes], counts: object, number: int, options: argparse.Namespace, path: Path
) -> None:
    """Sends requests until the server is gone, and writes what was asked and answered to a file."""
    chance = random.Random(seed)
    records = bytearray()
    replies = runs.Replies(connection)
    most = runs.greatest_window(number, options.ahead)
    share = 0.95 if is_for_lookups(number, options.for_lookups) else 0.5
    window: list[tuple[int, int]] = []
    try:
        while True:
            window = []
            for _ in range(runs.next_window(chance, most)):
                if chance.random() < share:
                    window.append((LOOKUPS + chance.randrange(len(asking)), 0))
                else:
                    window.append((next_number(chance, options.begun), 0))
            data = b"".join(asking[it - LOOKUPS] if it >= LOOKUPS else frames[it] for it, _ in window)
            sent = time.monotonic_ns()
            window = [(it, sent) for it, _ in window]
            connection.sendall(data)
            while window:
                content = replies.next()
                received = time.monotonic_ns()
                request, sent = window.pop(0)
                rest = runs.digest(content) if content[0] in LOOKS else content[1:]
                records += RECORD.pack(sent, received, request, content[0], rest)
                counts[number] += 1
                if content[0] == model.REFUSED and rest not in (NOT_HERE, EXPIRED):
                    time.sleep(AFTER_REFUSAL)
    except OSError:
        for request, sent in window:
            records += RECORD.pack(sent, NEVER, request, 0, b"")
    path.write_bytes(records)


def is_for_lookups(number: int, every: int) -> bool:
    """Whether the session of a number is one of the listener for lookups, as every so many are; none is where that is 0."""
    return every > 0 and number % every == every - 1


# Checking


@dataclass(frozen=True)
class Round:
    """What a round left: what its sessions asked, the server's own purges by their places, the file after the kill, what `show`
    prints of it, when it began and ended, and by their places the commands that a library has seen written, where one has."""

    sessions: list[list[Asked]]
    own: dict[int, tuple]
    image: bytes
    printed: tuple[int, bytes, bytes]
    begun: float
    ended: float
    written: dict[int, tuple] = field(default_factory=dict)


class Fold:
    """The rows of a round while the commands without an acknowledgement are chosen, one place after the other."""

    def __init__(self, pool: list[tuple], rows: dict, commands: dict[int, tuple], counts: dict[int, tuple], missing: list[int], end: int) -> None:
        """The commands of a round by place, but for those of missing places, and what those that were acknowledged have counted."""
        self._pool, self._commands, self._counts = pool, commands, counts
        self._ends = [*missing, end]
        self._steps = 0
        # The rows before each missing place, as far as the commands are chosen; none where the first ones count something else.
        first = min([*commands, end])
        before = self._after(dict(rows), range(first, self._ends[0]))
        self._rows = [] if before is None else [before]

    def _after(self, rows: dict, places: range) -> dict | None:
        """The rows after the commands of these places; None where one has counted something else."""
        for place in places:
            outcome = model.apply(rows, self._commands[place])
            if self._counts.get(place, outcome) != outcome:
                return None
        return rows

    def push(self, asked: Asked) -> bool:
        """Takes a request as that of the next missing place; whether all acknowledged ones up to the next one then count what they did."""
        at, self._steps = len(self._rows), self._steps + 1
        if not self._rows or self._steps > MOST_STEPS:
            return False
        rows = dict(self._rows[-1])
        model.apply(rows, self._pool[asked.request])
        after = self._after(rows, range(self._ends[at - 1] + 1, self._ends[at]))
        if after is not None:
            self._rows.append(after)
        return after is not None

    def pop(self) -> None:
        """Takes the last request back."""
        self._rows.pop()


class Checker:
    """Folds the commands of one round after the other, and compares what was answered. Every so many sessions one is of the
    listener for lookups; none is where that is 0. Any command without a reply may have been refused where that is said."""

    def __init__(self, pool: list[tuple], for_lookups: int = FOR_LOOKUPS, may_refuse: bool = False) -> None:
        self.pool = pool
        self.for_lookups = for_lookups
        self.may_refuse = may_refuse
        self.db: dict = {}
        self.place = 0
        self.faults: list[str] = []
        self.counts: Counter = Counter()

    def fault(self, text: str) -> None:
        """Notes what doesn't hold."""
        self.faults.append(text)

    def check(self, ended: Round) -> None:
        """Judges a round."""
        sessions, start = ended.sessions, self.place
        opened = model.open_image(ended.image)
        end = opened.place + len(opened.commands)
        placed = self._placed(sessions)
        # One that was written when the server was killed may be in no journal.
        own = {place: command for place, command in ended.own.items() if place < end}
        self._check_own(own, placed, ended)
        commands, sent, received = self._order(ended, placed, own, opened, start, end)
        if commands is None:
            return
        answers = runs.Answers(runs.ASKED, self.db)
        for command in commands:
            answers.add(command)
        for place, asked in placed.items():
            if struct.unpack(">IIII", asked.reply[8:]) != answers.outcomes[place - start]:
                self.fault(f"place {place} counts {asked.reply[8:].hex()}, and not {answers.outcomes[place - start]}")
        self._check_times(sent, received, start)
        self._check_lookups(sessions, answers, sent, received, start)
        self.db, self.place = answers.db, end
        if ended.printed != (0, model.show_text(self.db, end), b""):
            self.fault(f"after place {end} `show` prints something else: {ended.printed[2].decode(errors='replace')}")

    def _check_own(self, own: dict[int, tuple], placed: dict[int, Asked], ended: Round) -> None:
        moments = [own[place][1] for place in sorted(own)]
        self.counts["own purges"] += len(moments)
        # A purge in steps is by earlier moments first.
        if moments != sorted(moments) or moments and not int(2 * ended.begun) <= moments[-1] <= 2 * ended.ended:
            self.fault(f"the server's own purges are by {moments}, from {ended.begun} to {ended.ended}")
        for place in own:
            if place < self.place or place in placed:
                self.fault(f"a purge of the server's own has the place {place}, which was given before")

    def _placed(self, sessions: list[list[Asked]]) -> dict[int, Asked]:
        placed: dict[int, Asked] = {}
        for number, asked in ((number, it) for number, session in enumerate(sessions) for it in session):
            self.counts["replies"] += asked.kind != 0
            self.counts["unanswered"] += asked.kind == 0
            if asked.kind in ACKS:
                self.counts["acknowledgements"] += 1
                if is_for_lookups(number, self.for_lookups):
                    self.fault("a session for lookups has a command acknowledged")
                place = int.from_bytes(asked.reply[:8], "big")
                if place in placed:
                    self.fault(f"the place {place} was given twice")
                placed[place] = asked
            elif asked.kind in LOOKS:
                self.counts["lookups" if asked.kind == LOOKS[0] else "pages"] += 1
            elif asked.kind == model.REFUSED and asked.reply[:1] == NOT_HERE and asked.request < LOOKUPS and is_for_lookups(number, self.for_lookups):
                self.counts["commands refused where lookups are served"] += 1
            elif asked.kind == model.REFUSED and asked.reply[:1] == EXPIRED and self._has_expired(asked):
                self.counts["registrations refused as the row has expired"] += 1
            elif asked.kind == model.REFUSED:
                self.fault(f"refused by {asked.reply[:1].hex()}")
        return placed

    def _has_expired(self, asked: Asked) -> bool:
        """Whether a request registers a row that has expired by the time of its reply."""
        command = self.pool[asked.request] if asked.request < LOOKUPS else ("look",)
        answered = asked.received / 1e9 - time.monotonic() + time.time()
        return command[0] == "register" and any(model.row_of(segment).expiry <= 2 * answered + 1 for _, segment in command[1])

    def _order(
        self, ended: Round, placed: dict[int, Asked], own: dict[int, tuple], opened: model.Opened, start: int, end: int
    ) -> tuple[list[tuple] | None, list[int], list[int]]:
        """The commands of a round by place, with when they were sent and when their acknowledgements came."""
        if placed and not start <= min(placed) <= max(placed) < end:
            self.fault(f"a place outside of {start} to {end} was acknowledged, as the store opens to {end}")
            return None, [], []
        missing = [place for place in range(start, end) if place not in placed and place not in own]
        known = {**ended.written, **dict(enumerate(opened.commands, opened.place))}
        wanted = [known.get(place) for place in missing]
        # A command came before whatever of a later place was acknowledged.
        before = list(accumulate((placed[place].received if place in placed else NEVER for place in reversed(range(start, end))), min))
        limits = [before[end - 1 - place] for place in missing]
        unanswered = [
            [it for it in session if it.kind == 0 and it.request < LOOKUPS and not is_for_lookups(number, self.for_lookups)]
            for number, session in enumerate(ended.sessions)
        ]
        found = None
        for fold in ([self._fold(placed, own, missing, end)] if None in wanted else []) + [None]:
            tried = islice(self._senders(wanted, limits, unanswered, fold), MOST_TRIES)
            explains = (it for it in tried if self._explains({**placed, **dict(zip(missing, it))}, own, None in wanted, opened, start))
            found = found or next(explains, None)
        if found is None:
            self.fault(f"nobody sent the commands of the places {missing}")
            return None, [], []
        self.counts["folded without an acknowledgement"] += wanted.count(None)
        self.counts["kept without an acknowledgement"] += len(missing)
        self.counts["lost without an acknowledgement"] += sum(map(len, unanswered)) - len(missing)
        by_place = {**placed, **dict(zip(missing, found))}
        commands, sent, received = [], [], []
        for place in range(start, end):
            asked = by_place.get(place)
            commands.append(self.pool[asked.request] if asked else own[place])
            sent.append(asked.sent if asked else 0)
            received.append(asked.received if asked else NEVER)
        for place, command in enumerate(commands, start):
            if known.get(place, command) != command:
                self.fault(f"the journal has another command at the place {place}")
        return commands, sent, received

    def _explains(self, by_place: dict[int, Asked], own: dict[int, tuple], is_folded: bool, opened: model.Opened, start: int) -> bool:
        """Whether the commands of a round make the checkpoint's rows, where one that has no acknowledgement is folded into it."""
        if not is_folded:
            return True
        rows = dict(self.db)
        for place in range(start, opened.place):
            model.apply(rows, own[place] if place in own else self.pool[by_place[place].request])
        return rows == opened.rows

    def _fold(self, placed: dict[int, Asked], own: dict[int, tuple], missing: list[int], end: int) -> Fold:
        """The rows of a round while the commands of the missing places are chosen."""
        commands = {**{place: self.pool[asked.request] for place, asked in placed.items()}, **own}
        counts = {place: struct.unpack(">IIII", asked.reply[8:]) for place, asked in placed.items()}
        return Fold(self.pool, self.db, commands, counts, missing, end)

    def _senders(self, wanted: list[tuple | None], limits: list[int], unanswered: list[list[Asked]], fold: Fold | None) -> Iterator[list[Asked]]:
        """Each choice of requests without a reply whose commands these may be: each session's in its order, and each sent
        before a limit. Any command may be one that is None. With a fold all acknowledged commands count what they did."""
        found: list[Asked] = []
        taken = [0] * len(unanswered)
        before: list[int] = []
        tried: list[list[tuple[int, int]]] = []
        by_command: dict[tuple, list[tuple[int, int]]] = {}
        for it, session in enumerate(unanswered):
            for at, asked in enumerate(session):
                by_command.setdefault(self.pool[asked.request], []).append((it, at))
        while True:
            is_whole = len(found) == len(wanted)
            if is_whole:
                yield list(found)
            elif len(tried) == len(found):
                command = wanted[len(found)]
                if command is None:
                    able = [(it, at) for it, session in enumerate(unanswered) for at in self._next_of(session, taken[it])]
                else:
                    able = [(it, at) for it, at in by_command.get(command, []) if at in self._next_of(unanswered[it], taken[it])]
                able = [(it, at) for it, at in able if unanswered[it][at].sent < limits[len(found)]]
                passed_over = {(it, at): at - taken[it] if self.may_refuse else 0 for it, at in able}
                tried.append(sorted(able, key=lambda it: (passed_over[it], unanswered[it[0]][it[1]].sent, it[1]), reverse=True))
            if not is_whole and tried[-1]:
                session, at = tried[-1].pop()
                if fold and not fold.push(unanswered[session][at]):
                    continue
                before.append(taken[session])
                found.append(replace(unanswered[session][at], kind=session))
                taken[session] = at + 1
            elif found:
                # No session goes on from here: the one before was another's.
                del tried[len(found) :]
                taken[found.pop().kind] = before.pop()
                if fold:
                    fold.pop()
            else:
                return

    def _next_of(self, session: list[Asked], first: int) -> Iterator[int]:
        """The requests of a session, of which each may be its next one: those before it may have been refused."""
        for at in range(first, len(session)):
            yield at
            if not self.may_refuse and not self._may_expire(self.pool[session[at].request]):
                return

    def _may_expire(self, command: tuple) -> bool:
        """Whether a command may be refused as its row had expired."""
        return command[0] == "register" and any(model.row_of(segment).expiry <= 2 * runs.MADE for _, segment in command[1])

    def _check_times(self, sent: list[int], received: list[int], start: int) -> None:
        latest = 0
        for number, (its_sent, its_received) in enumerate(zip(sent, received)):
            latest = max(latest, its_sent)
            if latest > its_received:
                self.fault(f"the place {start + number} is after one that was sent when it was acknowledged already")

    def _check_lookups(self, sessions: list[list[Asked]], answers: runs.Answers, sent: list[int], received: list[int], start: int) -> None:
        latest_sent = list(accumulate(sent, max))
        by_reply = sorted((time_, place) for place, time_ in enumerate(received) if time_ != NEVER)
        reply_times = [time_ for time_, _ in by_reply]
        shown = list(accumulate((place + 1 for _, place in by_reply), max))
        for session in sessions:
            least = fresh = last_place = 0
            for asked in session:
                if asked.kind in ACKS:
                    place = int.from_bytes(asked.reply[:8], "big") - start
                    if place < last_place:
                        self.fault(f"the places of a session fall to {start + place}")
                    last_place = place
                    least, fresh = max(least, place + 1), max(fresh, place + 1)
                elif asked.kind in LOOKS:
                    query = runs.ASKED[asked.request - LOOKUPS]
                    most = bisect.bisect_right(latest_sent, asked.received)
                    version = answers.first_version(query, asked.reply[:12], least)
                    if version is None or version > most:
                        self.fault(f"no front from {start + least} to {start + most} explains a lookup")
                        continue
                    least = version
                    known = bisect.bisect_left(reply_times, asked.sent)
                    fresh = max(fresh, shown[known - 1] if known else 0)
                    version = answers.first_version(query, asked.reply[:12], fresh)
                    if version is None or version > most:
                        self.counts["lookups older than real time"] += 1
                    else:
                        fresh = version


# Whether the checker sees what is wrong


def altered(sessions: list[list[Asked]], how: str, number: int) -> list[list[Asked]]:
    """The same sessions, of which the one of a number has a reply that is another one than it was."""
    sessions = [list(session) for session in sessions]
    session = sessions[number]
    acks = [at for at, it in enumerate(session) if it.kind in ACKS]
    lookups = [at for at, it in enumerate(session) if it.kind in LOOKS]
    at = acks[len(acks) // 2]
    asked = session[at]
    if how == "a count":
        session[at] = replace(asked, reply=asked.reply[:-1] + bytes([asked.reply[-1] ^ 1]))
    elif how == "a place":
        session[at] = replace(asked, reply=session[acks[-1]].reply)
    elif how == "a reply before the requests of the places before it":
        session[at] = replace(asked, received=session[0].sent)
    elif how == "a lookup's answer":
        at = lookups[len(lookups) // 2]
        session[at] = replace(session[at], reply=bytes(24))
    elif how == "a lookup's answer of later":
        early, late = lookups[0], next(it for it in reversed(lookups) if session[it].reply != session[lookups[0]].reply)
        session[early] = replace(session[early], reply=session[late].reply, request=session[late].request)
    elif how == "a lookup's answer of before":
        pairs = [(early, late) for late in reversed(lookups) for early in lookups if early < late and session[early].request == session[late].request]
        early, late = next((early, late) for early, late in pairs if session[early].reply != session[late].reply)
        session[late] = replace(session[late], reply=session[early].reply)
    return sessions


ALTERED = [
    "a count",
    "a place",
    "a reply before the requests of the places before it",
    "a lookup's answer",
    "a lookup's answer of later",
    "a lookup's answer of before",
]


def test_checker(pool: list[tuple], ended: Round) -> list[str]:
    """What the checker doesn't see of replies that were altered in a first round."""
    missed = []
    for how in ALTERED:
        # An answer of before may be one of later too, so three sessions are tried; one that was
        # asked too little has nothing to alter.
        faults, tried = [], 0
        for number in range(len(ended.sessions)):
            if faults or tried == 3:
                break
            try:
                changed = altered(ended.sessions, how, number)
            except (IndexError, StopIteration):
                continue
            tried += 1
            checker = Checker(pool)
            checker.check(replace(ended, sessions=changed))
            faults = checker.faults
        if tried > 0 and not faults:
            missed.append(f"the checker doesn't see that {how} was altered")
    return missed


# The script


def read_session(path: Path) -> list[Asked]:
    """What a session's process wrote."""
    data = path.read_bytes()
    return [Asked(*RECORD.unpack_from(data, at)) for at in range(0, len(data), RECORD.size)]


def hold_round(
    program: str, library: str, store: Path, folder: Path, options: argparse.Namespace, number: int, frames: list[bytes], replies: int
) -> Round:
    """Runs the sessions until this number of replies has come and the server is killed."""
    asking = [runs.asking_frame(it) for it in runs.ASKED]
    counts = multiprocessing.Array("Q", options.sessions, lock=False)
    paths = [folder / f"session{it}" for it in range(options.sessions)]
    log = folder / "purges"
    log.write_bytes(b"")
    env = {"LD_PRELOAD": library, "RECORD": str(log), "PURGES_ALONE": "1"}
    begun = time.time()
    with runs.Server(program, store, WORDS, env) as server:
        processes = []
        ports = [server.lookups_port() if is_for_lookups(it, options.for_lookups) else 0 for it in range(options.sessions)]
        connections = [server.connect(port=port) for port in ports]
        for session, path in enumerate(paths):
            given = (connections[session], f"{options.seed}/{number}/{session}", frames, asking, counts, session, options, path)
            processes.append(multiprocessing.Process(target=hold_session, args=given))
            processes[-1].start()
        until = time.monotonic() + options.seconds
        while sum(counts) < replies and time.monotonic() < until:
            time.sleep(0.002)
        server.kill()
        for process, connection in zip(processes, connections):
            process.join()
            connection.close()
    ended = time.time()
    shutil.copy(store, folder / "copy")
    own = {place: command for place, (_, command) in own_purges(events_of(log), options.layout).items()}
    return Round([read_session(path) for path in paths], own, store.read_bytes(), runs.shown(program, folder / "copy"), begun, ended)


def hold_seed(program: str, options: argparse.Namespace) -> Checker:
    """Records and checks the rounds of a seed."""
    options.begun, options.for_lookups = int(time.time()), FOR_LOOKUPS
    options.layout = replace(LAYOUT, journal=options.journal)
    pool = make_pool(options.seed, options.begun)
    frames = [messages.command_frame(command) for command in pool]
    checker = Checker(pool)
    with runs.scratch() as folder:
        store, library = folder / "store", runs.compiled("recorded_calls.c", folder)
        runs.format_store(program, store, options.layout)
        first = min(10_000, options.replies // options.kills)
        for number in range(options.kills):
            wanted = first if number == 0 else (options.replies - first) // max(1, options.kills - 1)
            ended = hold_round(program, library, store, folder, options, number, frames, wanted)
            if number == 0:
                missed = test_checker(pool, ended)
                checker.faults += missed
                print(f"  {len(ALTERED) - len(missed)} of {len(ALTERED)} replies that were altered on purpose are seen", flush=True)
            checker.check(ended)
            print(f"  kill {number + 1}: place {checker.place}, {checker.counts['replies']} replies so far", flush=True)
            if checker.faults:
                break
    return checker


def main(words: list[str]) -> int:
    """Records, checks, and prints what was found."""
    options, program = runs.begin(__doc__, words, seed=1, replies=1_000_000, further=0.0, kills=10, sessions=32, ahead=128, journal=LAYOUT.journal, seconds=600)
    counts: Counter = Counter()
    faults: list[str] = []
    while not faults and (not counts or time.monotonic() < options.since + 60 * options.further):
        checker = hold_seed(program, options)
        counts += checker.counts + Counter({"seeds": 1})
        faults = checker.faults
        options.seed += 1
    return runs.end(options, f"{counts['replies']} replies, {len(faults)} unexplained", faults, counts)
