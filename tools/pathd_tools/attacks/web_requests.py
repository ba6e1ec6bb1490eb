"""What hostile peers send to the gateway and to the pages of numbers: malformed requests, which the
numbers of a generator make, and requests that flood, wait or are huge."""
from __future__ import annotations

import gzip
import json
import random
import struct
from collections.abc import Iterator
from dataclasses import dataclass

from pathd_tools import messages, runs
from pathd_tools.attacks import hostile, web_frames as web

SERVICES = "/proto.control_plane.v1."
LOOKUP, REGISTER = SERVICES + "SegmentLookupService/Segments", SERVICES + "SegmentRegistrationService/SegmentsRegistration"
HEALTH, WATCH = "/grpc.health.v1.Health/Check", "/grpc.health.v1.Health/Watch"
PATHS = [LOOKUP, LOOKUP, REGISTER, REGISTER, HEALTH, WATCH, "/grpc.reflection.v1alpha.ServerReflection/ServerReflectionInfo"]
ODD_PATHS = ["/x/y", "/", "", "x", SERVICES + "X/Y", SERVICES + "SegmentLookupService/X", LOOKUP + "/", "/" + "a" * 9_000, "//"]
PROTO, JSON, GRPC = "application/proto", "application/json", "application/grpc"
TYPES = [PROTO, JSON, GRPC, GRPC + "+proto", GRPC + "+json", GRPC + "-web", GRPC + "x", "text/plain", "application/connect+proto", ""]
NUMBERS = b"GET /metrics HTTP/1.1\r\nHost: here\r\nConnection: close\r\n\r\n"
# The most bytes of a request's body, and of one in JSON; the streams of a connection; the frames of a flood.
MOST_BODY, MOST_JSON, STREAMS, FLOOD = hostile.MOST_BODY, 524_288, 256, 10_000
MIB = 1 << 20
LOOKUP_BODY = messages.lookup_frame(runs.CORE_A, runs.LEAVES[0])[5:]
BODIES = hostile.valid_bodies("web")


@dataclass(frozen=True)
class Request:
    """What is sent over a connection, and to which port: `gateway`, `numbers` of the gateway, or `page` of pathd."""

    name: str
    content: bytes
    port: str = "gateway"


# HTTP/1.1

LINES = [
    b"", b" ", b"POST", b"GET / HTTP/9.9", b"GET / HTTP/1.0", b"GET /", b"get /metrics HTTP/1.1", b"GET  /metrics HTTP/1.1", b"GET /metrics  HTTP/1.1",
    b"HEAD /metrics HTTP/1.1", b"PUT /metrics HTTP/1.1", b"OPTIONS * HTTP/1.1", b"CONNECT here:1 HTTP/1.1", b"TRACE / HTTP/1.1", b"PRI * HTTP/2.0",
    b"GET http://[::1 HTTP/1.1", b"GET //// HTTP/1.1", b"GET /%zz HTTP/1.1", b"GET /../../etc/passwd HTTP/1.1", b"GET /a\tb HTTP/1.1",
    b"GET /\x80\xff HTTP/1.1", b"GET /metrics\0 HTTP/1.1", b"\x16\x03\x01\x02\x00\x01", b"GET " + b"/a" * 9_000 + b" HTTP/1.1",
    b"A" * 5_000 + b" / HTTP/1.1", b"GET /metrics HTTP/1.1 x",
]
LENGTHS = [b"-1", b"+5", b"0x10", b"", b" ", b"1 8", b"5;", b"5, 5", b"5,6", b"18446744073709551616", b"9223372036854775807", b"9" * 20, b"1e3", b"\xb2"]
CODINGS = [b"chunked, chunked", b"chunked\r\nTransfer-Encoding: chunked", b"identity", b"xchunked", b"gzip, chunked", b"\x0bchunked", b"chunked;a", b""]
SIZES = [b"-1", b"f" * 17, b"7" + b"f" * 15, b"0x5", b"", b" 5", b"5 ", b"g", b"5;a=" + b"b" * 5_000, b"5\0", b"5\n", b"0" * 16 + b"5", b"100000"]
FIELDS = [
    b"", b":", b": x", b"a b: c", b"a\0: b", b"\x80: c", b"a: \0", b"a: \x80\xff", b"a:\r b", b" folded", b"Host: x", b"Host: a b", b"Host: ",
    b"x" * 9_000 + b": y", b"x: " + b"y" * 20_000, b"Expect: 100-continue", b"Expect: x", b"Connection: close",
    b"Connection: Upgrade, HTTP2-Settings\r\nUpgrade: h2c\r\nHTTP2-Settings: AAMAAABk", b"Upgrade: websocket", b"Trailer: Content-Length",
    b"Content-Encoding: gzip", b"Connect-Protocol-Version: 2", b"Connect-Timeout-Ms: -1", b"Connect-Timeout-Ms: 0", b"Connect-Timeout-Ms: 99999999999",
    b"Content-Type: application/json; charset=\x80", b"Content-Type: " + b";" * 900, b"Range: bytes=0-,-1",
]
ENDS = [b"\n", b"\r", b"\n\r", b"\r\r\n", b"\0\r\n", b" \r\n", b""]


def post(path: str, content_type: str, more: tuple[bytes, ...] = ()) -> list[bytes]:
    """The lines of a request by POST."""
    return [f"POST {path} HTTP/1.1".encode(), b"Host: here", f"Content-Type: {content_type}".encode(), *more]


def whole(lines: list[bytes], body: bytes) -> bytes:
    """A request of these lines, and of a body."""
    return b"\r\n".join([*lines, b"Content-Length: %d" % len(body), b"", body])


def chunked(chance: random.Random, body: bytes) -> bytes:
    """A body in chunks, of which some have a wrong size or a wrong end."""
    chunks = [[b"%x" % len(piece), b"\r\n", piece, b"\r\n"] for piece in [*(body[at : at + 9] for at in range(0, len(body), 9)), b""]]
    for _ in range(chance.randrange(3)):
        at = chance.randrange(4)
        chance.choice(chunks)[at] = chance.choice((SIZES, ENDS, [b"", b"x", b"\r\n"], ENDS)[at])
    return b"".join(b"".join(chunk) for chunk in chunks)


def changed(chance: random.Random, lines: list[bytes], body: bytes) -> bytes:
    """A request of these lines that is changed once or several times."""
    lines, end = [*lines, b"Content-Length: %d" % len(body)] if body else list(lines), b"\r\n"
    for _ in range(chance.choice((1, 1, 1, 2, 4))):
        how, at = chance.randrange(7), chance.randrange(1, len(lines) + 1)
        if how == 0:
            lines[0] = chance.choice(LINES)
        elif how == 1:
            lines.insert(at, b"Content-Length: " + chance.choice((*LENGTHS, b"%d" % max(0, len(body) + chance.randrange(-3, 4)))))
        elif how == 2:
            lines = [line for line in lines if not line.startswith(b"Content-Length") or chance.random() < 0.3] or [b""]
            lines.append(b"Transfer-Encoding: " + chance.choice((b"chunked", b"chunked", *CODINGS)))
            body = chunked(chance, body)
        elif how == 3:
            lines.insert(at, chance.choice(FIELDS))
        elif how == 4:
            lines[at - 1] += chance.choice(ENDS) + chance.choice((b"", b"x", b"a: b"))
        elif how == 5:
            end = chance.choice((*ENDS, b"\r\n"))
        else:
            lines = lines[: at - 1] + lines[at:] or [b""]
    request = end.join([*lines, b"", b""]) + body
    how = chance.random()
    if how < 0.25:
        return hostile.mutated_bytes(request, LINES, chance)
    return request[: chance.randrange(len(request) + 1)] if how < 0.35 else request * chance.choice((1, 1, 1, 2, 4))


def of_numbers(chance: random.Random) -> Request:
    """A malformed request for numbers."""
    target = chance.choice((b"/metrics", b"/metrics", b"/", b"/livez", b"/readyz", b"/healthz", b"/metrics?x", b"/x"))
    body = chance.randbytes(chance.randrange(90)) if chance.random() < 0.3 else b""
    port = chance.choice(("page", "page", "numbers"))
    return Request(f"HTTP/1.1, {port}", changed(chance, [b"GET " + target + b" HTTP/1.1", b"Host: here"], body), port)


def of_calls(chance: random.Random) -> Request:
    """A malformed request of HTTP/1.1."""
    lines = post(chance.choice(PATHS), chance.choice((PROTO, JSON, chance.choice(TYPES))))
    return Request("HTTP/1.1", changed(chance, lines, chance.choice((LOOKUP_BODY, b"{}", b""))))


# HTTP/2

# Headers that no request may have, updates of the table, what is no header, and values that are indexed.
ODD = [
    (b":path", b"/x"), (b":status", b"200"), (b":odd", b"x"), (b"Upper", b"x"), (b"", b"x"), (b"a b", b"c"), (b"x", b"\0\r\n"), (b"connection", b"close"),
    (b"te", b"gzip"), (b"content-length", b"5"), (b"content-length", b"-1"), (b"grpc-timeout", b"99999999999S"), (b"grpc-timeout", b"1x"),
    (b"grpc-timeout", b"0n"), (b"grpc-encoding", b"gzip"), (b"x-bin", b"!!"), (b"grpc-trace-bin", b"AA"), (b"host", b"there"),
    (b"transfer-encoding", b"chunked"), (b"cookie", b"a=b; " * 900), (b"x", b"y" * 15_000),
]
UPDATES = [b"\x20", b"\x20" * 1_000, b"\x3f\xe1\xff\x03", web.integer(1 << 40, 5, 0x20), b"\x20\x3f\xe1\x1f" * 200]
BROKEN = [b"\x80", b"\xff\xff\xff\xff\x0f", b"\xff" * 20, b"\xc5", b"\0\x81\xff\0", b"\x40\x84\xff\xff\xff\xff\0", b"\0\x7f\xff\xff\xff\xff\xff\x0f", b"\0\5ab"]
INDEXED = b"".join(web.field(b"a%d" % number, b"b" * 90, 0x40) for number in range(120))
# Streams of clients, of servers, of the connection, and with the greatest number and the reserved bit.
ODD_STREAMS = [1, 1, 1, 3, 5, 7, 0, 2, 4, (1 << 31) - 1, 1 << 31 | 1]


def bad_block(chance: random.Random) -> bytes:
    """A header block that is malformed, or has headers that no request may have."""
    block, how = web.fields(chance.choice(PATHS), chance.choice((GRPC, GRPC, PROTO))), chance.randrange(6)
    if how == 0:
        return block + web.field(*chance.choice(ODD))
    if how == 1:
        return chance.choice(UPDATES) + block
    if how == 2:
        return block + chance.choice((*BROKEN, *UPDATES))
    if how == 3:
        return block + INDEXED + bytes(chance.randrange(0x80, 0x100) for _ in range(chance.randrange(300)))
    return hostile.mutated_bytes(block, UPDATES, chance) if how == 4 else block[: chance.randrange(len(block))]


def odd_frame(chance: random.Random) -> bytes:
    """A frame of any kind, on any stream, with any content, and now and then of another length than it says."""
    kind = chance.choice((*range(10), chance.randrange(256)))
    setting = struct.pack(">HI", chance.randrange(8), chance.choice((0, 1, 100, (1 << 31) - 1, 1 << 31, (1 << 32) - 1)))
    known = {web.WINDOW_UPDATE: [bytes(4), b"\x7f\xff\xff\xff", b"\x80\0\0\1"], web.SETTINGS: [setting]}
    known |= {web.HEADERS: [bad_block(chance)], web.CONTINUATION: [bad_block(chance)]}
    content = chance.choice((*known.get(kind, []) * 3, b"", bytes(4), bytes(5), bytes(8), chance.randbytes(chance.randrange(40)), bytes(web.MOST_CONTENT + 1)))
    out = web.frame(kind, chance.choice((0, 1, 4, 5, 8, 0x20, 0x2D, chance.randrange(256))), chance.choice(ODD_STREAMS), content)
    return chance.choice((b"\0\0\0", b"\0\0\1", b"\0\x40\1", b"\xff\xff\xff")) + out[3:] if chance.random() < 0.1 else out


def of_frames(chance: random.Random) -> Request:
    """A connection of HTTP/2 with malformed frames, before its first request or after it."""
    first = web.call(1, web.fields(LOOKUP, GRPC), web.message(LOOKUP_BODY)) if chance.random() < 0.5 else web.call(1, web.fields(LOOKUP, PROTO), LOOKUP_BODY)
    sent = chance.choice((*[web.hello()] * 4, web.hello([(4, 0)]), web.PREFACE, hostile.mutated_bytes(web.hello(), [web.PREFACE], chance)))
    sent += chance.choice((b"", first))
    for stream in range(3, 3 + 2 * chance.choice((1, 1, 2, 5)), 2):
        how = chance.randrange(5)
        if how == 0:
            sent += web.frame(web.HEADERS, chance.choice((0, 1, 4, 5)), chance.choice((stream, *ODD_STREAMS)), bad_block(chance))
        elif how == 1:
            sent += web.frame(web.HEADERS, chance.choice((0, 1)), stream, web.fields(LOOKUP, GRPC)[: chance.randrange(90)])
            sent += chance.choice((1, 5, 40)) * web.frame(web.CONTINUATION, 0, stream, chance.choice((b"", b"\x20", bad_block(chance))))
        elif how == 2:
            sent += hostile.mutated_bytes(web.call(stream, web.fields(LOOKUP, GRPC), web.message(LOOKUP_BODY)), [first], chance)
        else:
            sent += odd_frame(chance)
    return Request("HTTP/2", sent)


# Calls


def body_of(chance: random.Random) -> tuple[str, bytes]:
    """A path, and a body that is mutated often."""
    kind, body = hostile.mutated_request(BODIES, chance)
    return {1: REGISTER, 2: LOOKUP}.get(kind, chance.choice(PATHS)), body


def of_messages(chance: random.Random) -> Request:
    """A connection with malformed messages of gRPC."""
    sent = web.hello()
    for stream in range(1, 2 + 2 * chance.randrange(3), 2):
        path, body = body_of(chance)
        message, content_type, more, how = web.message(body), GRPC, [], chance.randrange(8)
        if how == 0:
            message, more = web.message(body, chance.choice((1, 2, 0x80, 0xFF))), chance.choice(([], [(b"grpc-encoding", b"gzip")], [(b"grpc-encoding", b"x")]))
        elif how == 1:
            message = struct.pack(">BI", 0, chance.choice((0, 1, len(body) + 1, MOST_BODY, MOST_BODY + 1, 1 << 24, (1 << 31) - 1, (1 << 32) - 1))) + body
        elif how == 2:
            message = chance.choice((b"", message[:3], message[:5], message * 2, web.message(bytes(MOST_BODY + 1))))
        elif how == 3:
            path = chance.choice(ODD_PATHS)
        elif how == 4:
            content_type = chance.choice(TYPES)
        block = web.fields(path, content_type, more)
        if how == 5:
            # Trailers of the client, or a stream that it doesn't end.
            sent += web.frame(web.HEADERS, web.END_HEADERS, stream, block) + web.frame(web.DATA, 0, stream, message[: web.MOST_CONTENT])
            sent += chance.choice((b"", web.frame(web.HEADERS, chance.choice((4, 5)), stream, web.field(b"a", b"b"))))
        else:
            sent += web.frame(web.HEADERS, web.END_HEADERS | web.END_STREAM, stream, block) if how == 6 else web.call(stream, block, message)
    return Request("gRPC", sent)


def json_of(chance: random.Random) -> bytes:
    """A body of JSON that is mutated, deep, long, or whose objects lack values."""
    side = chance.choice((runs.LEAVES[0], "x", -1, 1e300, None, [], {}, str(1 << 64)))
    rows = [{"segmentInfo": chance.choice(("AAAA", "!", "A" * 9, 5)), "asEntries": [{"signed": {"headerAndBody": "CAE="}}]}] * chance.randrange(20)
    listed = {"segments": {chance.choice(("1", "2", "x", "-1", "99999999999")): {"segments": rows}}}
    body, how = json.dumps(chance.choice(({"srcIsdAs": str(runs.CORE_A), "dstIsdAs": side}, listed))).encode(), chance.randrange(5)
    if how == 0:
        depth = chance.choice((1, 2, 3, 20, 9_000, 80_000))
        opened, closed = chance.choice(((b"[", b"]"), (b'{"a":', b"}"), (b'{"segments":', b"}"), (b'[{"a":', b"}]")))
        deep = opened * depth + chance.choice((b"", b"0", b'"b"', b"null")) + closed * chance.choice((depth, depth - 1, depth + 1, 0))
        return b'{"x":' + deep[: MOST_JSON - 6] + b"}"
    if how == 1:
        return b'{"a":' + chance.choice((b'{"b":},"c":', b'{"":', b"[{],", b'{"b":}', b"[,]", b'{"b":},"c":}')) + chance.choice((b"", b"}", b"}}"))
    if how == 2:
        return body[:-1] + b', "\\ud800\xff": "' + b"x" * chance.choice((1, 60_000, MOST_JSON)) + b'"}'
    return hostile.mutated_bytes(body, [b'{"a":}', b"[]", b"\\u0000", b"1e999", b"\xef\xbb\xbf"], chance)


def of_bodies(chance: random.Random) -> Request:
    """A call of Connect whose body is mutated, too long, compressed, or of another length than it says."""
    path, body = body_of(chance)
    content_type, encoding, how = PROTO, [], chance.randrange(10)
    if chance.random() < 0.5:
        content_type, body = JSON, json_of(chance)
    if how == 0:
        encoding, body = [chance.choice((b"gzip", b"br", b"identity", b"gzip, gzip", b"x"))], gzip.compress(bytes(MIB), 1)
    elif how == 1:
        body = bytes(chance.choice((MOST_BODY + 1, MOST_JSON + 1)))
    elif how == 2:
        content_type = chance.choice(TYPES)
    if chance.random() < 0.3:
        block = web.fields(path, content_type, [(b"content-encoding", it) for it in encoding])
        return Request("Connect", web.hello() + web.call(1, block, body[: 3 * web.MOST_CONTENT]))
    content = whole(post(path, content_type, tuple(b"Content-Encoding: " + it for it in encoding)), body)
    return Request("Connect", content[: -chance.choice((1, 9))] if how == 3 else content + b"x" if how == 4 else content)


MALFORMED = [of_numbers, of_calls, of_frames, of_messages, of_bodies]


# What isn't malformed


def first_calls() -> list[tuple[str, bytes, bytes]]:
    """The content types of calls by HTTP/2, with the header block and the body of a lookup."""
    return [(GRPC, web.fields(LOOKUP, GRPC), web.message(LOOKUP_BODY)), (PROTO, web.fields(LOOKUP, PROTO), LOOKUP_BODY)]


def floods() -> Iterator[Request]:
    """Frames of one kind, after a first call by gRPC or by Connect."""
    for _, block, body in first_calls():
        opened = web.frame(web.HEADERS, web.END_HEADERS, 3, block)
        of_kinds = {
            "SETTINGS": web.frame(web.SETTINGS),
            "PING": web.frame(web.PING, content=bytes(8)),
            "PRIORITY": b"".join(web.frame(web.PRIORITY, 0, stream, struct.pack(">IB", other, 0)) for stream, other in ((3, 5), (5, 3), (7, 7))),
            "WINDOW_UPDATE": web.frame(web.WINDOW_UPDATE, content=b"\0\0\0\1"),
            "CONTINUATION": web.frame(web.CONTINUATION, 0, 3, b"\x20"),
            "an unknown kind": web.frame(0xBB),
            "DATA of no bytes": web.frame(web.DATA, 0, 3),
            "DATA of a byte": web.frame(web.DATA, 0, 3, b"x"),
        }
        for kind, frame in of_kinds.items():
            yield Request(f"floods of {kind}", web.hello() + web.call(1, block, body) + opened + frame * FLOOD)
        resets = (web.frame(web.HEADERS, web.END_HEADERS, stream, block) + web.frame(web.RST_STREAM, 0, stream, bytes(4)) for stream in range(3, 2 * FLOOD, 2))
        yield Request("floods of RST_STREAM", web.hello() + web.call(1, block, body) + b"".join(resets))


def unhurried() -> list[Request]:
    """Requests that are sent slowly."""
    lines = post(LOOKUP, PROTO)
    calls = [Request(f"slow {kind}, HTTP/2", web.hello() + web.call(1, block, body)) for kind, block, body in first_calls()]
    return [Request("slow HTTP/1.1", whole(lines, LOOKUP_BODY)), *calls, *(Request(f"slow {port}", NUMBERS, port) for port in ("page", "numbers"))]


def deaf(body: bytes, calls: int) -> list[Request]:
    """Lookups of which nobody reads the responses, with windows that have room for all of them."""
    hello, numbers = web.hello([(4, 1 << 30)]) + web.frame(web.WINDOW_UPDATE, content=b"\x40\0\0\0"), range(1, 2 * calls, 2)
    by_grpc = hello + b"".join(web.call(stream, web.fields(LOOKUP, GRPC), web.message(body)) for stream in numbers)
    by_connect = hello + b"".join(web.call(stream, web.fields(LOOKUP, PROTO), body) for stream in numbers)
    contents = {"HTTP/1.1": whole(post(LOOKUP, PROTO), body) * calls, "gRPC": by_grpc, "Connect": by_connect}
    contents["gRPC with WINDOW_UPDATE"] = by_grpc + web.frame(web.WINDOW_UPDATE, content=b"\0\0\0\1") * 100 * FLOOD
    return [Request(f"deaf {name}", content) for name, content in contents.items()]


def huge() -> Iterator[Request]:
    """Megabytes of headers and of bodies, and many calls."""
    for port in ("gateway", "numbers", "page"):
        yield Request("huge targets", b"GET /" + b"x" * 4 * MIB + b" HTTP/1.1\r\n\r\n", port)
        yield Request("huge headers", b"GET / HTTP/1.1\r\nx: " + b"y" * 4 * MIB + b"\r\n\r\n", port)
        yield Request("many headers", b"GET / HTTP/1.1\r\n" + b"a: b\r\n" * MIB + b"\r\n", port)
    for kind in (PROTO, JSON):
        yield Request("huge bodies", whole(post(REGISTER, kind), bytes(8 * MIB)))
        yield Request("huge bodies", b"\r\n".join([*post(REGISTER, kind), b"Transfer-Encoding: chunked", b"", (b"10000\r\n" + bytes(1 << 16) + b"\r\n") * 128]))
    for kind, block, body in first_calls():
        more = web.frame(web.CONTINUATION, 0, 1, web.field(b"x", bytes(16_000)))
        yield Request("huge headers, HTTP/2", web.hello() + web.frame(web.HEADERS, 0, 1, block) + more * 256)
        yield Request("many headers, HTTP/2", web.hello() + web.frame(web.HEADERS, 4, 1, block + web.field(b"x", b"y" * 4_000, 0x40) + b"\xbe" * 12_000))
        yield Request("huge bodies, HTTP/2", web.hello() + web.call(1, web.fields(REGISTER, kind), web.message(bytes(8 * MIB))))
        yield Request("many streams", web.hello() + b"".join(web.call(stream, block, body) for stream in range(1, 8 * STREAMS, 2)))


def streams() -> list[Request]:
    """As many calls as a connection may have, none of which ends: headers that are indexed, large messages that don't come, and watches."""
    value = web.field(b"x-bin", b"QUJD" * 950, 0x40)
    numbers = range(1, 2 * STREAMS, 2)

    def calls(path: str, data: bytes, indexed: bytes) -> bytes:
        blocks = [web.fields(path, GRPC) + (indexed if stream == 1 else b"\xbe" if indexed else b"") for stream in numbers]
        return web.hello() + b"".join(web.frame(web.HEADERS, 4, stream, block) + web.frame(web.DATA, 0, stream, data) for stream, block in zip(numbers, blocks))

    large = struct.pack(">BI", 0, MOST_BODY) + bytes(1_000)
    contents = {"lookups": (LOOKUP, large, b""), "headers": (LOOKUP, b"", value), "checks": (HEALTH, large, b""), "watches": (WATCH, web.message(b""), b"")}
    return [Request(f"endless {name}", calls(*each)) for name, each in contents.items()]
