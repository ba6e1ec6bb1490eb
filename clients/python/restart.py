"""Registers a segment with a server, or looks it up: the two sides of a restart.

    restart.py register ADDR MADE
    restart.py lookup ADDR

It ends with the status 1 where the segment isn't acknowledged, or isn't found.
"""
from __future__ import annotations

import sys

from pathd_client import (
    Ack, Found, Lookup, Register, Reply, Request, SegmentType, Session, make_segment, parse_isd_as,
    parse_path,
)

PATH = "1-ff00:0:110 1>2 1-ff00:0:111"


def ask(address: str, request: Request) -> Reply:
    """The reply to a request, in a session of its own."""
    host, _, port = address.rpartition(":")
    with Session(host, int(port)) as session:
        return session.ask(request)


def register(address: str, made: int) -> bool:
    """Whether the segment was acknowledged as a new one."""
    reply = ask(address, Register([(SegmentType.DOWN, make_segment(parse_path(PATH), made))]))
    return isinstance(reply, Ack) and reply.inserted == 1


def lookup(address: str) -> bool:
    """Whether the segment is found."""
    reply = ask(address, Lookup(parse_isd_as("1-ff00:0:110"), parse_isd_as("1-ff00:0:111")))
    return isinstance(reply, Found) and str(reply) == f"down {PATH}"


def main() -> None:
    """Does what the words say."""
    match sys.argv[1:]:
        case ["register", address, made]:
            is_right = register(address, int(made))
        case ["lookup", address]:
            is_right = lookup(address)
        case _:
            sys.exit("usage: restart.py register ADDR MADE | lookup ADDR")
    if not is_right:
        sys.exit(1)


if __name__ == "__main__":
    main()
