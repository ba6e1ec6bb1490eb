"""A worked session with `pathd`: it registers a small topology, looks up, removes, purges, and
prints each reply.

Three core ASes, of which 2-64512 is in another ISD, and below the two in ISD 1 three others:

    2-64512 -- 1-ff00:0:120 -- 1-ff00:0:110
                 |       |           |
      1-ff00:0:121   1-ff00:0:112 -- 1-ff00:0:111
"""
from __future__ import annotations

import argparse
import sys
import textwrap

from pathd_client import (
    EXP_TIME, Lookup, Purge, Register, Remove, Reply, Request, Row, SegmentType, Session,
    SessionError, make_segment, parse_isd_as, parse_path, run_session, segment_id,
)

UP, DOWN, CORE = SegmentType.UP, SegmentType.DOWN, SegmentType.CORE

CORES = "1-ff00:0:110,1-ff00:0:120,2-64512"

TOPOLOGY = [
    (UP, "1-ff00:0:110 1>2 1-ff00:0:111"),
    (UP, "1-ff00:0:110 1>2 1-ff00:0:111 3>4 1-ff00:0:112"),
    (UP, "1-ff00:0:120 5>6 1-ff00:0:112"),
    (DOWN, "1-ff00:0:120 7>8 1-ff00:0:121"),
    (CORE, "1-ff00:0:120 9>10 1-ff00:0:110"),
    (CORE, "2-64512 11>12 1-ff00:0:120 13>14 1-ff00:0:110"),
]

# What is refused: its last AS is its first.
LOOPING = (UP, "1-ff00:0:110 1>2 1-ff00:0:111 3>4 1-ff00:0:110")

# When the topology's segments were made, if no option says so, in seconds since 1970.
MADE = 1_700_000_000


def rows(paths: list[tuple[SegmentType, str]], timestamp: int, key: bytes | None) -> list[Row]:
    """The segments with these paths."""
    return [(kind, make_segment(parse_path(path), timestamp, key)) for kind, path in paths]


def lookup(source: str, destination: str) -> Lookup:
    """The lookup from one text to another."""
    return Lookup(parse_isd_as(source), parse_isd_as(destination))


def expiry(made: int) -> int:
    """When a segment expires that was made at a time in seconds: in half seconds."""
    return 2 * made + 675 * (1 + EXP_TIME)


def requests(made: int, key: bytes | None) -> list[Request]:
    """The session's requests. The last registers a segment that is signed with another key than all
    before it."""
    between_cores = Remove(CORE, segment_id(parse_path("1-ff00:0:120 9>10 1-ff00:0:110")))
    newer = rows(TOPOLOGY[:1], made + 3_600, key)
    return [
        Register(rows(TOPOLOGY, made, key)),
        lookup("1-ff00:0:112", "1-ff00:0:110"),
        lookup("1-ff00:0:112", "1-0"),
        lookup("0-0", "1-ff00:0:121"),
        lookup("1-ff00:0:110", "2-0"),
        lookup("1-ff00:0:110", "0-0"),
        lookup("1-ff00:0:111", "0-ff00:0:110"),
        lookup("1-ff00:0:111", "1-ff00:0:112"),
        Register(newer + rows(TOPOLOGY[1:2], made, key)),
        Register(rows([LOOPING], made, key)),
        between_cores,
        between_cores,
        lookup("1-ff00:0:110", "0-0"),
        Purge(half_seconds=expiry(made)),
        lookup("1-ff00:0:111", "1-ff00:0:110"),
        lookup("0-0", "1-ff00:0:121"),
        Register(rows(TOPOLOGY[3:4], made, (key or b"") + b"!")),
    ]


def with_server(address: str, asked: list[Request], waits: bool) -> list[Reply]:
    """The replies of a server at an address such as `127.0.0.1:30252`."""
    host, _, port = address.rpartition(":")
    with Session(host, int(port)) as session:
        if waits:
            return [session.ask(request) for request in asked]
        return session.pipeline(asked)


def with_program(program: str, asked: list[Request], key: bytes | None) -> list[Reply]:
    """The replies of a child process."""
    words = [program, "once", "--cores", CORES]
    if key is not None:
        words += ["--key", key.hex()]
    return run_session(words, asked)


def main() -> None:
    """Runs the session, and prints each request with its reply below it."""
    parser = argparse.ArgumentParser(description="Holds a session with `pathd`, and prints it.")
    parser.add_argument(
        "--key", type=bytes.fromhex, metavar="HEX",
        help="sign by this key of the test profile, which the server has to have",
    )
    parser.add_argument(
        "--made", type=int, default=MADE, metavar="T",
        help="the seconds since 1970 at which the segments were made",
    )
    parser.add_argument(
        "--wait", action="store_true",
        help="wait for each reply of the server before the next request",
    )
    where = parser.add_mutually_exclusive_group(required=True)
    where.add_argument(
        "--connect", metavar="ADDR", help="the address of a server, as 127.0.0.1:30252"
    )
    where.add_argument(
        "program", nargs="?", help="the built program, as crates/pathd/out/pathd"
    )
    options = parser.parse_args()
    asked = requests(options.made, options.key)
    try:
        if options.connect is None:
            replies = with_program(options.program, asked, options.key)
        else:
            replies = with_server(options.connect, asked, options.wait)
    except (OSError, SessionError) as fault:
        sys.exit(f"error: {fault}")
    for request, reply in zip(asked, replies, strict=True):
        print(request)
        print(textwrap.indent(str(reply), "  "))


if __name__ == "__main__":
    main()
