"""The commands of the client: `python -m pathd_client --help`."""
from __future__ import annotations

import argparse
import sys
import time
from collections.abc import Iterator, Sequence
from datetime import datetime
from itertools import islice
from pathlib import Path

from . import (
    DEFAULT_RETRY, MOST_ROWS, Acknowledge, List, Lookup, Purge, Register, Remove, Request, Retry,
    Row, SegmentType, Servers, Session, SessionError, make_segment, parse_addresses, parse_isd_as,
    parse_path,
)
from .printing import ask_servers, ask_session

FILE_HELP = """\
A line of FILE is a segment: its type (up, down or core), when it was made (in
seconds since 1970, or `now`), and its path: ISD-AS, egress>ingress, ISD-AS, and
so on. A line that begins with `#` is a comment. An example:

  # type made path
  down now 1-ff00:0:110 1>2 1-ff00:0:111
"""


def type_of(text: str) -> SegmentType:
    """The type that has this name, in small letters."""
    try:
        return SegmentType[text.upper()]
    except KeyError:
        raise ValueError(f"no type of segment: {text}") from None


def row_of(line: str, now: int, key: bytes | None) -> Row:
    """The segment of a line."""
    try:
        kind, made, path = line.split(" ", 2)
    except ValueError:
        raise ValueError(f"no type, time and path: {line}") from None
    return type_of(kind), make_segment(parse_path(path), now if made == "now" else int(made), key)


def rows_of(file: str, now: int, key: bytes | None) -> Iterator[Row]:
    """The segments of a file's lines. ValueError where a line has none: it names file and line."""
    for number, line in enumerate(text_of(file).splitlines(), 1):
        if line and not line.startswith("#"):
            try:
                yield row_of(line, now, key)
            except ValueError as fault:
                raise ValueError(f"{file}:{number}: {fault}") from None


def registrations(rows: Iterator[Row]) -> Iterator[Register]:
    """The registrations of these segments, each of as many as one may have."""
    while part := list(islice(rows, MOST_ROWS)):
        yield Register(part)


def text_of(file: str) -> str:
    """The text of a file, or of standard input where it is `-`."""
    return sys.stdin.read() if file == "-" else Path(file).read_text(encoding="utf-8")


def purge_of(text: str) -> Purge:
    """The purge by `now`, by a number of half seconds since 1970, or by a date with a time zone."""
    if text == "now":
        return Purge.now()
    if text.isdigit():
        return Purge(half_seconds=int(text))
    return Purge.at(datetime.fromisoformat(text))


def requests_of(options: argparse.Namespace) -> list[Request]:
    """What the options ask for."""
    match options.command:
        case "register":
            rows = rows_of(options.file, int(time.time()), options.key)
            return list(registrations(rows))
        case "lookup":
            return [Lookup(parse_isd_as(options.source), parse_isd_as(options.destination))]
        case "list":
            sides = parse_isd_as(options.start), parse_isd_as(options.end)
            after = None if options.after is None else bytes.fromhex(options.after)
            return [List(type_of(options.type), *sides, after)]
        case "purge":
            return [purge_of(options.at)]
        case _:
            return [Remove(type_of(options.type), bytes.fromhex(options.id))]


def key_of(text: str) -> bytes:
    """The key that hexadecimal digits give."""
    return bytes.fromhex(text)


def retry_of(text: str) -> Retry:
    """As many attempts as a text says."""
    return Retry(attempts=int(text))


def parser_of() -> argparse.ArgumentParser:
    """The words of the command line."""
    parser = argparse.ArgumentParser(
        prog="python -m pathd_client",
        description="Asks a pathd server, or several, to register, look up, list, purge or remove "
        "segments.",
    )
    parser.add_argument(
        "--connect", type=parse_addresses, metavar="ADDR[,ADDR..]", default="127.0.0.1:30252",
        help="the server's address, or those of several [%(default)s]",
    )
    parser.add_argument(
        "--acknowledge", choices=[it.value for it in Acknowledge], default=Acknowledge.ALL.value,
        help="how many of several servers have to acknowledge a command [%(default)s]",
    )
    parser.add_argument(
        "--connect-timeout", metavar="SECONDS", type=float, default=5.0,
        help="how long a connection may take to be made [%(default)s]",
    )
    parser.add_argument(
        "--timeout", metavar="SECONDS", type=float, default=30.0,
        help="how long a reply may take; of several servers, how long a request may take in all "
        "[%(default)s]",
    )
    parser.add_argument(
        "--attempts", metavar="N", type=retry_of, default=str(DEFAULT_RETRY.attempts),
        help="how often a request to one server is tried at most, where it may be tried again "
        "[%(default)s]",
    )
    add_commands(parser)
    return parser


def add_commands(parser: argparse.ArgumentParser) -> None:
    """Adds the commands and their words."""
    commands = parser.add_subparsers(dest="command", required=True)
    register = commands.add_parser(
        "register", help="register the segments of a file", epilog=FILE_HELP,
        formatter_class=argparse.RawDescriptionHelpFormatter,
    )
    register.add_argument(
        "--key", type=key_of, metavar="HEX", help="sign by this key of the test profile"
    )
    register.add_argument("file", metavar="FILE", help="a file of lines, or - for standard input")
    lookup = commands.add_parser("lookup", help="print the segments from one ISD-AS to another")
    lookup.add_argument(
        "source", metavar="SOURCE", help="an ISD-AS, as 1-ff00:0:110; a part that is 0 is any"
    )
    lookup.add_argument("destination", metavar="DESTINATION")
    listed = commands.add_parser("list", help="print all segments of a type, in pages")
    listed.add_argument(
        "--after", metavar="ID", help="those after an id, of 64 hexadecimal digits, alone"
    )
    listed.add_argument("type", metavar="TYPE", help="up, down or core")
    listed.add_argument(
        "start", metavar="START", nargs="?", default="0-0",
        help="their first AS; a part that is 0 is any [%(default)s]",
    )
    listed.add_argument(
        "end", metavar="END", nargs="?", default="0-0", help="their last AS [%(default)s]"
    )
    purge = commands.add_parser("purge", help="drop the segments that have expired")
    purge.add_argument(
        "--at", metavar="T", default="now",
        help="by this moment, as 2026-11-27T12:00:00Z or in half seconds since 1970 [%(default)s]",
    )
    remove = commands.add_parser("remove", help="drop one segment")
    remove.add_argument("type", metavar="TYPE", help="up, down or core")
    remove.add_argument("id", metavar="ID", help="the segment's id, as 64 hexadecimal digits")


def session_of(options: argparse.Namespace) -> Session:
    """The session that the options ask for."""
    host, port = options.connect[0]
    return Session(
        host, port,
        connect_timeout=options.connect_timeout,
        reply_timeout=options.timeout,
        retry=options.attempts,
    )


def servers_of(options: argparse.Namespace) -> Servers:
    """The servers that the options ask for."""
    return Servers(
        options.connect,
        acknowledge=Acknowledge(options.acknowledge),
        within=options.timeout,
        connect_timeout=options.connect_timeout,
        reply_timeout=options.timeout,
    )


def ask(options: argparse.Namespace, requests: Sequence[Request]) -> bool:
    """Prints the replies to requests. Answers whether none was refused."""
    if len(options.connect) == 1:
        with session_of(options) as session:
            return ask_session(session, requests)
    with servers_of(options) as servers:
        return ask_servers(servers, requests, options.timeout)


def main() -> None:
    """Does what the words say. The status is 0, 1 where a request was refused or the server failed,
    and 2 for words that are wrong."""
    parser = parser_of()
    options = parser.parse_args()
    try:
        requests = requests_of(options)
    except ValueError as fault:
        parser.error(str(fault))
    except OSError as fault:
        sys.exit(f"error: {fault}")
    try:
        is_done = ask(options, requests)
    except (OSError, ValueError, SessionError) as fault:
        sys.exit(f"error: {fault}")
    sys.exit(0 if is_done else 1)


if __name__ == "__main__":
    main()
