"""Attacks what answers HTTP: the gateway's port, its page of numbers, and the page of `pathd run`,
beside clients that have to be served all the time. It measures the memory of both programs.

    tools/pathd-tools web-peers [--program PROGRAM] [--gateway FILE] [--connections N] [--seconds N]
                                [--requests N] [--seed N]

- malformed: HTTP/1.1 whose lines, headers, lengths and chunks are changed; HTTP/2 with other prefaces,
  frames, streams and header blocks; messages of gRPC and bodies of Connect that are mutated, too long,
  cut, compressed or deep;
- floods: frames of one kind over a connection, as fast as they are taken, until it is closed;
- slow: a byte a second of a request, of a preface, of a frame and of a body;
- deaf: peers ask for large responses, never read, and give room for more;
- huge: megabytes of headers and of bodies, and as many streams as a connection may have;
- many: N connections at one time, 2,000 if nothing else is said. They are silent, or are reset in the
  middle of a request;
- beyond: more calls, watches, headers and responses than the gateway has room for.

Peers have the address 127.0.0.2, of which the gateway takes 1,000 connections (`--peer-connections`).
Meanwhile one client registers and looks up through the gateway, by Connect and by gRPC in turn, one
has a session of pathd's own frames, and one fetches pathd's page. Each reply has to be right and come
within 10 seconds. Each connection of a peer has to be answered by what is well-formed, or closed.

The status is 1 where this does not hold, where a program ends, panics or reports a fault, where
connections, calls, seats or descriptors stay taken, or where memory (VmHWM) is above its bound. That
of pathd is the bound of the tool `peers`. That of the gateway follows from docs/GATEWAY.md ('Bounds').
1,024 calls have requests of 131,072 bytes (128 MiB). These and 256 other calls have headers of 16,384
bytes (20 MiB). Responses that are not taken have 128 MiB. 32 lookups have responses of 4 MiB in memory
three times (384 MiB). These 660 MiB are below the 768 MiB from which on the program collects garbage
more often, so that it keeps below these, and 64 MiB for itself: 832 MiB.

It needs Python 3, 2,500 descriptors and the loopback, and what `gateway/build` needs where --gateway
is left out.
"""
from __future__ import annotations

import argparse
import http.client
import itertools
import random
import re
import subprocess
import time
from collections import Counter, defaultdict
from collections.abc import Callable, Iterable
from pathlib import Path

from pathd_model import model
from pathd_tools import TOP, messages, need, runs
from pathd_tools.attacks import peers, web_frames as web, web_requests as requests
from pathd_tools.attacks.web_crowd import LONGEST, Crowd, Peer
from pathd_tools.systems import until

BOUND = (768 + 64) * 1024
# The connections of the peers' address, and the seconds of a call, which leave it time to be refused.
OF_PEERS, DEADLINE = 1_000, 8
# How many peers are open at one time: of malformed requests and floods, of huge requests, of each kind of
# slow ones, and of each kind of deaf ones. For the calls of the slow and of the deaf ones there is room.
WIDTH, OF_HUGE, OF_KIND, DEAF = 200, 4, 60, 3
# The most numbers of the gateway that the clients account for.
MOST = {"pathd_gateway_connections": 4, "pathd_gateway_owed_bytes": 1 << 16}
MOST |= {f'pathd_gateway_calls{{request="{state}"}}': 2 for state in ("whole", "incomplete")}
# The seats of lookups, and those that the gateway's four sessions and the client have left of the others.
LOOKUP_SEATS = 16
SEATS = peers.MOST_SESSIONS - LOOKUP_SEATS - 5
# After how many requests the client of the gateway connects anew, and the end of its segment.
OF_CONNECTION = 40
OWN = messages.Hop(0x0001_FF00_0000_0FED, 78, 0)
# A lookup that finds 64 segments of 16,370 bytes. Eight of their responses are what a connection may leave.
LARGE, LARGE_ROWS, ALLOWED = peers.LARGE_LOOKUP[5:], 64, 8
FAULTS = re.compile(r"panic|fatal error|runtime error|goroutine \d+ \[|a defect|has stopped|accept failed|write of the file failed|error:")
PARTS = ("malformed", "floods", "slow", "deaf", "huge", "many", "beyond")


class Gateway(runs.Process):
    """The gateway before a server."""

    def __init__(self, program: str, server: runs.Server, notices: Path) -> None:
        words = ["--listen", "127.0.0.1:0", "--status", "127.0.0.1:0", "--pathd", f"127.0.0.1:{server.port}"]
        super().__init__([program, *words, "--peer-connections", str(OF_PEERS), "--deadline", str(DEADLINE)], notices, has_output=True)
        self.port = self._noticed(r"^serves at 127\.0\.0\.1:(\d+)$")
        self.numbers_port = self._noticed(r"^numbers at 127\.0\.0\.1:(\d+)$")

    def taken(self, descriptors: int) -> str:
        """What it has of its numbers beyond `MOST`, and of descriptors beyond these and a few; or nothing."""
        try:
            lines = [line.rpartition(" ") for line in fetched(self.numbers_port).splitlines()]
        except (EOFError, OSError, ValueError) as fault:
            return f"no page of numbers ({fault})"
        taken = [f"{name} {value}" for name, _, value in lines if name in MOST and float(value) > MOST[name]]
        return ", ".join(taken + ([f"descriptors {self.descriptors()}"] if self.descriptors() > descriptors + 8 else []))


def fetched(port: int) -> str:
    """The page of numbers at a port."""
    with runs.connected(port, 60) as connection:
        connection.sendall(requests.NUMBERS)
        status, body, _ = web.response_of(peers.read_all(connection, 1 << 20))
    if status != 200:
        raise ValueError(f"the numbers have the status {status}")
    return body.decode()


class Grpc:
    """A client of gRPC that makes one call after the other."""

    def __init__(self, port: int) -> None:
        self.connection = runs.connected(port, 30)
        self.connection.sendall(web.hello())
        self.stream, self.rest = -1, b""

    def call(self, path: str, body: bytes) -> bytes | None:
        """The response to a call, or None where it is refused."""
        self.stream += 2
        self.connection.sendall(web.call(self.stream, web.fields(path, requests.GRPC), web.message(body)))
        came = b""
        while True:
            for it in self._frames():
                if it.kind in (web.SETTINGS, web.PING) and not it.flags & web.ACK:
                    self.connection.sendall(web.frame(it.kind, web.ACK, 0, it.content if it.kind == web.PING else b""))
                if it.kind == web.GOAWAY:
                    raise ConnectionError(f"GOAWAY {it.content!r}")
                if it.stream == self.stream:
                    came += it.content if it.kind == web.DATA else b""
                    if it.is_last:
                        return came[5:] if came and came == web.message(came[5:]) else None

    def _frames(self) -> list[web.Frame]:
        piece = self.connection.recv(1 << 16)
        if not piece:
            raise ConnectionError("the gateway ended the connection")
        self.rest += piece
        frames = list(web.frames_of(self.rest))
        self.rest = self.rest[sum(9 + len(it.content) for it in frames) :]
        return frames


class Caller(peers.Asking):
    """A client of the gateway that registers a segment and looks it up, by Connect and by gRPC in turn."""

    def __init__(self, port: int) -> None:
        super().__init__("the client of the gateway")
        self.port, self.number = port, 0
        self.hops = [messages.Hop(runs.CORE_A, 0, 77), OWN]
        self.wanted = b""  # what a lookup finds

    def ask(self) -> str:
        """Registers or looks up."""
        if self.number % OF_CONNECTION == 0:
            self.web, self.grpc = http.client.HTTPConnection("127.0.0.1", self.port, timeout=60), Grpc(self.port)
        is_lookup, self.number = self.number % 2 == 1, self.number + 1
        call = self._by_connect if self.number % 4 < 2 else self.grpc.call
        if is_lookup:
            found = call(requests.LOOKUP, messages.lookup_frame(runs.CORE_A, OWN.isd_as)[5:])
        else:
            segment = messages.make_segment(self.hops, runs.MADE + self.number)
            found = call(requests.REGISTER, messages.registration([(model.DOWN, segment)])[5:])
            wanted = model.found_body(model.DOWN, [segment])
        if found != (self.wanted if is_lookup else b""):
            return f"the request {self.number} is answered by {'a refusal' if found is None else found.hex()}"
        if not is_lookup:
            self.wanted = wanted
        return ""

    def _by_connect(self, path: str, body: bytes) -> bytes | None:
        self.web.request("POST", path, body, {"Content-Type": requests.PROTO})
        response = self.web.getresponse()
        content = response.read()
        return content if response.status == 200 else None


class Watcher(peers.Asking):
    """A client that fetches pathd's page. It tries again where its connection had to make room for a later one."""

    def __init__(self, server: runs.Server) -> None:
        super().__init__("the client of the page")
        self.port, self.repeated = server.status_port(), 0

    def ask(self) -> str:
        """Fetches the page."""
        until = time.monotonic() + peers.LATEST
        while True:
            try:
                page = fetched(self.port)
                return "" if "\npathd_stopped 0\n" in page else f"the page is {page[:200]!r}"
            except (EOFError, OSError):
                if time.monotonic() > until:
                    raise
                self.repeated += 1


class Attack:
    """What is tried, one after the other."""

    def __init__(self, server: runs.Server, gateway: Gateway, witness: peers.Witness, options: argparse.Namespace) -> None:
        self.server, self.gateway, self.witness, self.options = server, gateway, witness, options
        self.chance = random.Random(options.seed)
        self.ports = {"gateway": gateway.port, "numbers": gateway.numbers_port, "page": server.status_port()}
        self.faults: list[str] = []
        self.outcomes: dict[str, Counter] = defaultdict(Counter)

    def peer(self, request: requests.Request, **how: int) -> Peer:
        """A peer that sends a request."""
        return Peer(self.ports[request.port], request.content, request.name, **how)

    def judge(self, ended: Iterable[Peer], may_be_cut: bool = False) -> None:
        """Notes how connections were answered."""
        for peer in ended:
            try:
                self.outcomes[peer.name][peer.outcome(may_be_cut)] += 1
            except ValueError as fault:
                self.outcomes[peer.name]["faults"] += 1
                self.faults.append(f"{peer.name}: {fault}; the {len(peer.content)} bytes sent are {peer.content[:400]!r}")

    def hold(self, made: Iterable[Peer], may_be_cut: bool = False, each: Callable[[Peer], None] = lambda _: None, is_reading: bool = True) -> None:
        """Holds peers for as long as is said, and then has all of them sent and read."""
        crowd = Crowd(is_reading)
        for peer in made:
            crowd.add(peer)
        self.judge(crowd.hold(self.options.seconds, each), may_be_cut)
        for peer in crowd.open.values():
            peer.offered = len(peer.content)
        self.judge(crowd.through(), may_be_cut)

    def large_rows(self) -> None:
        """Registers what large responses have."""
        with self.server.connect(60) as connection:
            for first in range(0, LARGE_ROWS, 8):
                connection.sendall(peers.registration(runs.LEAVES[2], first, 8, 16_370))
                if peers.read_all(connection, 29)[4:5] != b"\x81":
                    self.faults.append("a large registration is refused")

    def malformed(self) -> None:
        """Malformed requests of all kinds."""
        kinds = itertools.islice(itertools.cycle(requests.MALFORMED), self.options.requests)
        self.judge(Crowd().through((self.peer(make(self.chance)) for make in kinds), WIDTH))

    def floods(self) -> None:
        """Frames of one kind."""
        until = time.monotonic() + self.options.seconds / 2
        while time.monotonic() < until:
            self.judge(Crowd().through(map(self.peer, requests.floods()), WIDTH))

    def slow(self) -> None:
        """A byte a second, from the first byte on or up to the last one."""

        def each(peer: Peer) -> None:
            peer.offered = min(peer.offered + 1, len(peer.content))

        made = [(request, number) for request in requests.unhurried() for number in range(OF_KIND)]
        self.hold((self.peer(it, offered=max(0, len(it.content) - self.options.seconds) * (number % 2)) for it, number in made), each=each)

    def deaf(self, count: int = DEAF, calls: int = ALLOWED) -> None:
        """Peers that never read large responses."""
        self.large_rows()
        made = [it for it in [*requests.deaf(LARGE, calls), requests.Request("deaf page", requests.NUMBERS, "page")] for _ in range(count)]
        self.hold((self.peer(it, room=4096) for it in made), may_be_cut=True, is_reading=False)

    def huge(self) -> None:
        """Requests of megabytes, and many streams."""
        self.judge(Crowd().through(map(self.peer, requests.huge()), OF_HUGE))

    def many(self) -> None:
        """Many connections at one time, of which each second one is reset in the middle of a request."""
        for port in self.ports:
            crowd = Crowd()
            for number in range(self.options.connections):
                crowd.add(self.peer(requests.Request(f"silent, {port}", requests.NUMBERS[: number % 20] if number % 2 else b"", port)))
            self.judge(crowd.hold(1))
            left, descriptors = len(crowd.open), self.gateway.descriptors()
            print(f"    {port}: {left} of {self.options.connections} are open after a second; the gateway has {descriptors} descriptors")
            for peer in [peer for peer in crowd.open.values() if peer.content]:
                crowd.remove(peer, is_reset=True)
            # The others are silent as long as they are let.
            self.judge(crowd.hold(LONGEST))
            self.judge(crowd.through())

    def beyond(self) -> None:
        """More calls, watches, headers and responses than there is room for."""
        self.hold(self.peer(it) for it in requests.streams() for _ in range(OF_KIND // 2))
        self.deaf(2 * DEAF, ALLOWED + 4)

    def settle(self, descriptors: int) -> None:
        """Sees that nothing stays taken."""
        if not until(lambda: not self.gateway.taken(descriptors), LONGEST):
            self.faults.append(f"the gateway has {self.gateway.taken(descriptors)} after {LONGEST:.0f} seconds")
        seated = peers.Attack(self.server, self.witness, 0, 0)
        for connection in seated.seated(SEATS) + seated.seated(LOOKUP_SEATS, self.server.lookups_port()):
            connection.close()
        self.faults += seated.faults


def gateway_of(path: str | None, folder: Path) -> str:
    """The gateway at a path, or one that is built."""
    if path:
        return runs.program_of(path)
    need.require("go", "protoc", "protoc-gen-go", "protoc-gen-go-grpc", "golang-google-protobuf-dev", "golang-google-grpc-dev", "golang-golang-x-net-dev")
    subprocess.run([TOP / "gateway" / "build", folder / "pathd-gateway"], check=True)
    return str(folder / "pathd-gateway")


def faults_of(who: str, process: runs.Process, bound: int) -> list[str]:
    """That a program has ended, has taken more memory than a bound, or what it has written of a fault."""
    if process.process.poll() is not None:
        return [f"{who} ended with the status {process.process.returncode}: {process.notices.read_text(errors='replace')[-2_000:]}"]
    wrote = [f"{who} wrote: {line}" for line in process.notices.read_text(errors="replace").splitlines() if FAULTS.search(line)]
    return wrote[:5] + ([f"the memory of {who} is above {bound} KiB"] if process.status("VmHWM") > bound else [])


def attack(server: runs.Server, gateway: Gateway, options: argparse.Namespace) -> list[str]:
    """Carries out all parts, prints what was measured, and answers what is wrong."""
    caller, witness, watcher = Caller(gateway.port), peers.Witness(server), Watcher(server)
    clients = {"gateway": caller, "pathd": witness, "page": watcher}
    for client in clients.values():
        client.start()
    tried = Attack(server, gateway, witness, options)
    time.sleep(1)
    programs, descriptors, faults = [("gateway", gateway, BOUND), ("pathd", server, peers.BOUND)], gateway.descriptors(), []
    for name in PARTS:
        for client in clients.values():
            client.take()
        begun = time.monotonic()
        getattr(tried, name)()
        tried.settle(descriptors)
        for kind, counts in tried.outcomes.items():
            print(f"    {kind}: {', '.join(f'{count} {what}' for what, count in counts.most_common())}")
        tried.outcomes.clear()
        taken = {who: client.take() for who, client in clients.items()}
        waits = ", ".join(f"{who} {replies} in {latest * 1000:.0f} ms" for who, (replies, latest) in taken.items())
        print(f"  {name}, {time.monotonic() - begun:.0f} s: replies to the clients, and the latest: {waits}", flush=True)
        for who, process, bound in programs:
            faults += [f"{name}: {fault}" for fault in faults_of(who, process, bound)]
            if process.process.poll() is not None:
                return faults + tried.faults
            print(f"    {who}: VmHWM {process.status('VmHWM')} KiB, VmRSS {process.status('VmRSS')} KiB, {process.descriptors()} descriptors", flush=True)
    for client in clients.values():
        client.ended.set()
        client.join()
    print(f"  the page was asked for again {watcher.repeated} times")
    return [*dict.fromkeys(faults), *tried.faults, *(fault for client in clients.values() for fault in client.faults)]


def main(words: list[str]) -> int:
    """Attacks, and prints what was measured."""
    options, program = runs.begin(__doc__, words, gateway="", connections=2_000, seconds=21, requests=20_000, seed=1)
    peers.allow_descriptors(options.connections + 500)
    with runs.scratch() as folder:
        built = gateway_of(options.gateway, folder)
        print(f"gateway {runs.sum_of(built)}", flush=True)
        runs.format_store(program, folder / "store", peers.LAYOUT)
        listeners = ["--status", "127.0.0.1:0", "--lookups", "127.0.0.1:0", "--lookup-seats", str(LOOKUP_SEATS)]
        with runs.Server(program, folder / "store", ["--idle", "60", *listeners]) as server:
            with Gateway(built, server, folder / "gateway.notices") as gateway:
                faults = attack(server, gateway, options)
    return runs.end(options, f"{len(faults)} faults, the bounds are {BOUND} KiB of the gateway and {peers.BOUND} KiB of pathd", faults)
