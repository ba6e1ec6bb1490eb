"""What the commands of the client print."""
from __future__ import annotations

import sys
from collections.abc import Callable, Iterable, Iterator

from .replies import Found, Page, Refused, Reply, next_of
from .requests import List, Lookup, Query, Request
from .segments import expiry, hops_of, path_text, segment_id, timestamp_of
from .servers import Servers
from .sessions import Session


def lines_of(reply: Reply) -> Iterator[str]:
    """What is printed of a reply: of a segment its type, its id, when it was made and when it
    expires, and its path."""
    if isinstance(reply, Page):
        rows = [(reply.type, segment) for segment in reply.segments]
    elif isinstance(reply, Found):
        rows = list(reply.rows)
    else:
        yield str(reply)
        return
    for kind, segment in rows:
        hops = hops_of(segment)
        times = f"{timestamp_of(segment)} {expiry(segment)}"
        yield f"{kind.name.lower()} {segment_id(hops).hex()} {times} {path_text(hops)}"


def print_reply(reply: Reply, before: str = "") -> bool:
    """Prints a reply, each line after a text. Answers whether it is no refusal."""
    for line in lines_of(reply):
        print(before + line)
    return not isinstance(reply, Refused)


def ask_for(request: Query, ask: Callable[[Query], Reply]) -> bool:
    """Prints the reply to a lookup, or to a list with those to all that follow it. Answers whether
    none was refused."""
    asked: Query | None = request
    is_done = True
    while asked is not None:
        reply = ask(asked)
        is_done = print_reply(reply)
        asked = next_of(asked, reply)
    return is_done


def ask_session(session: Session, requests: Iterable[Request]) -> bool:
    """Prints the replies to requests, which go one after the other. Answers whether none was
    refused."""
    is_done = True
    for request in requests:
        if isinstance(request, (Lookup, List)):
            is_done &= ask_for(request, session.ask)
        else:
            is_done &= print_reply(session.ask(request))
    return is_done


def ask_servers(servers: Servers, requests: Iterable[Request], within: float) -> bool:
    """Prints the replies of several servers to requests, which go one after the other. Those that
    have not replied to all get as much time again. Answers whether none was refused."""
    is_done = True
    for request in requests:
        if isinstance(request, (Lookup, List)):
            is_done &= ask_for(request, servers.lookup)
            continue
        replies = servers.command(request)
        for address, reply in zip(servers.states, replies, strict=True):
            is_done &= reply is None or print_reply(reply, f"{address}: ")
    servers.drain(within)
    for address, state in servers.states.items():
        if state.waiting:
            print(f"warning: {address} lacks {state.waiting}: {state.fault}", file=sys.stderr)
    return is_done
