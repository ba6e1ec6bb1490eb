"""Compares the codes of refusals with docs/codes.csv, which is their one source. It prints what
differs, and nothing else, of

- the table of docs/PROTOCOL.md, which --write puts there,
- crates/reply_codes, in specs/ and in src/,
- the names of crates/cli_ask,
- the codes of refused messages in crates/status_server, which are all but the session's,
- the clients in Python and in Go,
- the statuses on the page of the gateway, and the model of tools/pathd_model.

A row of docs/codes.csv has a code of two hexadecimal digits, its name where it has one, what is
refused, and when it helps to send the request again (nothing where it never does). A code has its
row's name in the crate, and in a client a name that ends with it, but for 0x61 and 0x62.
"""
from __future__ import annotations

import csv
import re
from dataclasses import dataclass
from functools import cache

from pathd_model import model
from pathd_tools.pages.pages import put_block
from pathd_tools.pages.source import CRATES, TOP
from pathd_tools.toolbox import parser

CODES = TOP / "docs/codes.csv"
PROTOCOL = TOP / "docs/PROTOCOL.md"
PYTHON = TOP / "clients/python/pathd_client/codes.py"
GO = TOP / "clients/go/codes.go"
COUNTED = CRATES / "status_server/src/refusals.rt"
GATEWAY = TOP / "docs/GATEWAY.md"
ASK = CRATES / "cli_ask/src/codes.rt"
BEGIN = "<!-- tools/pathd-tools codes --write -->"
HEAD = ["| code | refusal; 'again' says when it helps to send the request again |", "|---|---|"]

# The code that refuses a session, and no message.
NO_SESSION = 0x61
# Codes to which the crate and the clients give names of their own.
OWN_NAMES = {0x61, 0x62}

# A code with the name before it: `Busy = 0x51`, `(BadSignature entry) = 0x31`, `SubmitError::Busy => 0x51`.
NAMED = re.compile(r"(\w+)(?:\(_\)| \w+)?\)? =>? 0x([0-9a-f]{2})\b")
# One code, or the first and the last of a range.
RANGE = re.compile(r"\b0x([0-9a-f]{2})\b(?: to 0x([0-9a-f]{2})\b)?")


@dataclass(frozen=True)
class Row:
    """A code of a refusal, with what docs/codes.csv says of it."""

    code: int
    name: str
    meaning: str
    again: str

    def line(self) -> str:
        """Its row of the table of docs/PROTOCOL.md."""
        name = f"{self.name}: " if self.name else ""
        again = f". Again {self.again}" if self.again else ""
        return f"| {self.code:#04x} | {name}{self.meaning}{again} |"


@cache
def rows() -> tuple[Row, ...]:
    """The codes of refusals, by rising number."""
    with open(CODES, newline="", encoding="utf-8") as file:
        return tuple(Row(int(it["code"], 16), it["name"], it["meaning"], it["again"]) for it in csv.DictReader(file))


def in_ranges(text: str) -> set[int]:
    """The codes that a text names, as `0x31` or `0x11 to 0x15`."""
    return {it for first, last in RANGE.findall(text) for it in range(int(first, 16), int(last or first, 16) + 1)}


def in_crate(folder: str, suffix: str) -> list[tuple[int, str]]:
    """The codes of a folder of the crate, each with the name that it has there."""
    text = "".join(path.read_text() for path in sorted((CRATES / "reply_codes" / folder).glob(f"*{suffix}")))
    named = NAMED.findall(text.replace(": u8 =", " =").replace("const ", ""))
    return [(int(code, 16), "" if name.isupper() or name.endswith("_code") else name) for name, code in named]


def in_python() -> list[tuple[int, str]]:
    """The codes of the client in Python, each with its name, written as in docs/codes.csv."""
    found = re.findall(r"^    ([A-Z_]+) = \(?\s*0x([0-9A-F]{2})\b", PYTHON.read_text(), re.M)
    return [(int(code, 16), "".join(it.capitalize() for it in name.split("_"))) for name, code in found]


def in_go() -> list[tuple[int, str]]:
    """The codes of the client in Go, each with its name."""
    return [(int(code, 16), name) for name, code in re.findall(r"^\t(\w+) +Code = 0x([0-9a-f]{2})$", GO.read_text(), re.M)]


def in_ask() -> list[tuple[int, str]]:
    """The codes that have a name in the program's own client, each with its name."""
    return [(int(code, 16), name) for code, name in re.findall(r'\(0x([0-9a-f]{2}), "(\w+)"\)', ASK.read_text())]


def in_gateway() -> set[int]:
    """The codes of the statuses on the gateway's page."""
    text = GATEWAY.read_text()
    return in_ranges(" ".join(re.findall(r"^\| (0x.*?) \| `[A-Z_]+` \|", text, re.M)))


def in_counts() -> set[int]:
    """The codes of refused messages that a server counts from its start."""
    known = re.search(r"^const KNOWN: \[u8; \d+\] = \[(.*?)\];$", COUNTED.read_text(), re.M | re.S)
    return in_ranges(known[1]) if known else set()


def unlike(where: str, found: set[int]) -> list[str]:
    """Lines for codes that are here alone, or in docs/codes.csv alone."""
    known = {row.code for row in rows()}
    lines = [f"{where} has {it:#04x}, which docs/codes.csv lacks" for it in sorted(found - known)]
    return lines + [f"{where} lacks {it:#04x} of docs/codes.csv" for it in sorted(known - found)]


def misnamed(where: str, found: list[tuple[int, str]]) -> list[str]:
    """Lines for codes whose names do not end with those of docs/codes.csv. What has no name, or one that two codes have, is passed over."""
    names = [row.name for row in rows()]
    wanted = {row.code: row.name for row in rows() if names.count(row.name) == 1 and row.code not in OWN_NAMES}
    return [f"{where} calls {code:#04x} {name}, and docs/codes.csv {wanted[code]}" for code, name in found if name and not name.endswith(wanted.get(code, ""))]


def problems() -> list[str]:
    """What differs, but for the table."""
    codes = [row.code for row in rows()]
    found = [] if codes == sorted(set(codes)) else ["docs/codes.csv: a code is not above the one before"]
    named = {
        "crates/reply_codes/specs": in_crate("specs", ".antt"),
        "crates/reply_codes/src": in_crate("src", ".rt"),
        "clients/python": in_python(),
        "clients/go": in_go(),
    }
    for where, its in named.items():
        found += unlike(where, {code for code, _ in its}) + misnamed(where, its)
    if in_ask() != [(row.code, row.name) for row in rows() if row.name]:
        found.append("crates/cli_ask/src/codes.rt has other names than docs/codes.csv, or another order")
    found += unlike(str(COUNTED.relative_to(TOP)), in_counts() | {NO_SESSION})
    found += unlike("tools/pathd_model/model.py", model.CODES)
    return found + unlike("docs/GATEWAY.md", in_gateway())


def main(words: list[str]) -> int:
    """Prints what differs."""
    options = parser(__doc__)
    options.add_argument("--write", action="store_true", help="write the table to docs/PROTOCOL.md")
    table = "\n".join([*HEAD, *(row.line() for row in rows())])
    differs = put_block(PROTOCOL, BEGIN, table, options.parse_args(words).write)
    found = problems()
    print("".join(it + "\n" for it in found), end="")
    return 1 if found or differs else 0
