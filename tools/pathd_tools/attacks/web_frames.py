"""HTTP by hand, for the tool that attacks the gateway and the pages of numbers: frames of HTTP/2 with
literal headers, messages of gRPC, and what is wrong with bytes that come as an answer."""
from __future__ import annotations

import re
import struct
from collections.abc import Iterable, Iterator
from dataclasses import dataclass

PREFACE = b"PRI * HTTP/2.0\r\n\r\nSM\r\n\r\n"
DATA, HEADERS, PRIORITY, RST_STREAM, SETTINGS, PUSH_PROMISE, PING, GOAWAY, WINDOW_UPDATE, CONTINUATION = range(10)
NAMES = ["DATA", "HEADERS", "PRIORITY", "RST_STREAM", "SETTINGS", "PUSH_PROMISE", "PING", "GOAWAY", "WINDOW_UPDATE", "CONTINUATION"]
# END_STREAM of DATA and HEADERS has the bit of ACK of SETTINGS and PING.
END_STREAM = ACK = 1
END_HEADERS = 4
# The most bytes of a frame's content, and the bytes of those whose content has always as many.
MOST_CONTENT = 1 << 14
EXACT = {RST_STREAM: 4, PING: 8, WINDOW_UPDATE: 4}
STATUS_LINE = re.compile(rb"HTTP/1\.[01] ([1-5]\d\d) [^\r\n]*\r\n")
FIELD = re.compile(rb"([!#$%&'*+.^_`|~0-9A-Za-z-]+): ?([^\r\n\0]*)\r\n")


@dataclass(frozen=True)
class Frame:
    """A frame of HTTP/2."""

    kind: int
    flags: int
    stream: int
    content: bytes

    @property
    def is_last(self) -> bool:
        """Whether it ends its stream."""
        return self.kind == RST_STREAM or self.kind in (DATA, HEADERS) and bool(self.flags & END_STREAM)


# What is sent


def frame(kind: int, flags: int = 0, stream: int = 0, content: bytes = b"") -> bytes:
    """The bytes of a frame of HTTP/2."""
    return struct.pack(">I", len(content))[1:] + struct.pack(">BBI", kind, flags, stream) + content


def hello(settings: Iterable[tuple[int, int]] = ()) -> bytes:
    """The preface of a connection of HTTP/2, and its settings."""
    return PREFACE + frame(SETTINGS, content=b"".join(struct.pack(">HI", *each) for each in settings))


def integer(number: int, bits: int, first: int = 0) -> bytes:
    """An integer of HPACK of which the first byte has this many bits."""
    most = (1 << bits) - 1
    if number < most:
        return bytes([first | number])
    out, number = bytearray([first | most]), number - most
    while number >= 128:
        out.append(number & 127 | 128)
        number >>= 7
    return bytes([*out, number])


def field(name: bytes, value: bytes, first: int = 0) -> bytes:
    """A literal header without Huffman's code, which is indexed where `first` is 0x40."""
    return bytes([first]) + integer(len(name), 7) + name + integer(len(value), 7) + value


def fields(path: str, content_type: str, more: Iterable[tuple[bytes, bytes]] = ()) -> bytes:
    """The header block of a request by POST."""
    first = [(b":method", b"POST"), (b":scheme", b"http"), (b":path", path.encode()), (b":authority", b"here"), (b"te", b"trailers")]
    return b"".join(field(*each) for each in [*first, (b"content-type", content_type.encode()), *more])


def message(body: bytes, flag: int = 0) -> bytes:
    """A message of gRPC."""
    return struct.pack(">BI", flag, len(body)) + body


def call(stream: int, block: bytes, body: bytes) -> bytes:
    """A whole request on a stream."""
    pieces = [body[at : at + MOST_CONTENT] for at in range(0, len(body), MOST_CONTENT)] or [b""]
    last = frame(DATA, END_STREAM, stream, pieces.pop())
    return frame(HEADERS, END_HEADERS, stream, block) + b"".join(frame(DATA, 0, stream, piece) for piece in pieces) + last


# What comes


def frames_of(data: bytes) -> Iterator[Frame]:
    """The whole frames of a server; ValueError at one that is too long."""
    at = 0
    while at + 9 <= len(data):
        length = int.from_bytes(data[at : at + 3], "big")
        if length > MOST_CONTENT:
            raise ValueError(f"a frame of {length} bytes")
        if at + 9 + length > len(data):
            return
        yield Frame(*struct.unpack_from(">BBI", data, at + 3), data[at + 9 : at + 9 + length])
        at += 9 + length


def fault_of(it: Frame) -> str:
    """What is wrong with a frame of a server by itself, or nothing."""
    size = len(it.content)
    if it.kind > CONTINUATION or it.kind in (PUSH_PROMISE, PRIORITY):
        return f"a frame of the kind {it.kind}"
    if it.kind != WINDOW_UPDATE and (it.kind in (SETTINGS, PING, GOAWAY)) != (it.stream == 0):
        return f"{NAMES[it.kind]} on the stream {it.stream}"
    if size != EXACT.get(it.kind, size) or it.kind == GOAWAY and size < 8 or it.kind == SETTINGS and size % 6:
        return f"{NAMES[it.kind]} of {size} bytes"
    return ""


def last_of(data: bytes) -> str:
    """The name of the last frame of a server; ValueError says what is wrong with its frames, the last of which may be cut."""
    opened: set[int] = set()
    ended: set[int] = set()
    last = ""
    for it in frames_of(data):
        fault = fault_of(it)
        if not last and it.kind not in (SETTINGS, GOAWAY):
            fault = f"the first frame is {NAMES[it.kind]}"
        if it.kind in (DATA, HEADERS) and (it.stream in ended or it.kind == DATA and it.stream not in opened):
            fault = f"{NAMES[it.kind]} on the stream {it.stream}, which isn't open"
        if fault:
            raise ValueError(fault)
        opened |= {it.stream} if it.kind == HEADERS else set()
        ended |= {it.stream} if it.is_last else set()
        last = NAMES[it.kind]
    return last or "cut"


def response_of(data: bytes, is_head: bool = False) -> tuple[int, bytes, bytes]:
    """The status and the body of a response of HTTP/1, and the bytes after it. ValueError says what is wrong with it, EOFError that
    it isn't whole."""
    head, mark, rest = data.partition(b"\r\n\r\n")
    if not mark:
        raise EOFError(f"the head of a response is cut: {head[-60:]!r}")
    head += b"\r\n"
    line = STATUS_LINE.match(head)
    if not line:
        raise ValueError(f"a status line {head[:60]!r}")
    at, values, status = line.end(), {}, int(line[1])
    while at < len(head):
        found = FIELD.match(head, at)
        if not found:
            raise ValueError(f"a header {head[at : at + 60]!r}")
        values[found[1].lower()] = found[2]
        at = found.end()
    if is_head and (status < 400 or b"content-length" in values) or status in (204, 304) or status < 200:
        return status, b"", rest
    if values.get(b"transfer-encoding") == b"chunked":
        return status, *unchunked(rest)
    length = int(values.get(b"content-length", b"%d" % len(rest)))
    if len(rest) < length:
        raise EOFError("the body of a response is cut")
    return status, rest[:length], rest[length:]


def unchunked(data: bytes) -> tuple[bytes, bytes]:
    """The body that comes in these chunks, and the bytes after them."""
    body, size = b"", 1
    while size:
        line, mark, data = data.partition(b"\r\n")
        size = int(line or b"0", 16)
        if not mark or len(data) < size + 2:
            raise EOFError("the chunks of a response are cut")
        body, data = body + data[:size], data[size + 2 :]
    return body, data


def statuses_of(data: bytes, is_head: bool) -> list[int]:
    """The statuses of the responses of HTTP/1 that these bytes are, to requests that are or are not all by HEAD. ValueError and EOFError
    come as from `response_of`."""
    found: list[int] = []
    while data:
        status, _, data = response_of(data, is_head)
        found.append(status)
    return found
