"""Frames: a length, and a content of this number of bytes, which is a kind and a body."""
from __future__ import annotations

import struct
from collections.abc import Iterator
from typing import BinaryIO

from .errors import ConnectionEnded, FrameError, Unanswered
from .requests import Request

# The most bytes of a content: of a request's frame, and of a reply's.
MOST_REQUEST = 131_073
MOST_REPLY = 1_114_112

# The kind of a refusal. Every other reply has the kind of its request and this bit.
REFUSED = 0xFF
REPLY_BIT = 0x80

LENGTH = struct.Struct(">I")


def frame(request: Request) -> bytes:
    """The frame of a request. ValueError where the request has too many bytes for one."""
    content = bytes([request.kind]) + request.body()
    if len(content) > MOST_REQUEST:
        raise ValueError(f"'{request}' has {len(content)} bytes, above {MOST_REQUEST}")
    return LENGTH.pack(len(content)) + content


class FrameBuffer:
    """The bytes of a stream, as they come, of which the whole frames are taken."""

    def __init__(self) -> None:
        self._bytes = bytearray()

    def feed(self, data: bytes) -> None:
        """Adds the next bytes of the stream."""
        self._bytes += data

    def take(self) -> bytes | None:
        """Takes the next whole frame off and answers its content; None where there is none yet."""
        if len(self._bytes) < LENGTH.size:
            return None
        (length,) = LENGTH.unpack_from(self._bytes)
        if not 1 <= length <= MOST_REPLY:
            raise FrameError(f"a reply of {length} bytes")
        end = LENGTH.size + length
        if len(self._bytes) < end:
            return None
        content = bytes(self._bytes[LENGTH.size : end])
        del self._bytes[:end]
        return content


    def end(self) -> ConnectionEnded:
        """The fault where the server ends the connection after these bytes: Unanswered where no frame
        has begun."""
        ended = ConnectionEnded if self._bytes else Unanswered
        return ended("the server ended the connection")


def read_frames(stream: BinaryIO) -> Iterator[bytes]:
    """The contents of the frames of a stream, to the stream's end."""
    while head := stream.read(LENGTH.size):
        content = b""
        if len(head) == LENGTH.size:
            (length,) = LENGTH.unpack(head)
            content = stream.read(length)
        if not content or len(content) != length:
            raise FrameError("a reply was cut short")
        yield content
