"""Compares the table of docs/STORE.md that says which bytes are frozen with the constants of the sources, and
with docs/codes.csv. It prints what differs, and nothing else."""
from __future__ import annotations

import re

from pathd_tools import TOP
from pathd_tools.pages.codes import CODES
from pathd_tools.toolbox import parser

KINDS = "crates/session_core/src/kinds.rt"
RECORDS = "crates/path_records/src/format.rt"
# The rows of the table, each with the file and the names of its constants. A row is complete where the file has
# no further constant of its pattern.
ROWS: dict[str, tuple[str, str]] = {
    "a store's magic": ("crates/store_open/src/first_sector.rt", "STORE_MAGIC"),
    "a layout's number": ("crates/store_open/src/first_sector.rt", "LAYOUT"),
    "a checkpoint's magic": ("crates/ckpt_pair/src/format.rt", "CHECKPOINT_MAGIC"),
    "the latest version of the format": ("crates/store_layout/src/versions.rt", "LATEST"),
    "an open gate": ("crates/byte_lists/src/format.rt", "OPEN"),
    "payloads: a group, a seal": ("crates/gate_journal/src/format.rt", "GROUP|SEAL"),
    "records: register, purge, remove": (RECORDS, r"\w+_KIND"),
    "requests: register, look up, purge, remove, list": (KINDS, "REGISTER|LOOKUP|PURGE|REMOVE|LIST"),
    "replies: registered, found, purged, removed, listed, refused": (KINDS, r"(?:\w+ED|FOUND)"),
}
OF_MESSAGES, OF_STORES = "codes of refusals of messages", "codes of refusals of stores and sessions"
FIRST_OF_STORES = 0x51
ROW = re.compile(r"^\| (.+?) \| ((?:`[0-9a-f]+`,? ?)+) \|$", re.M)


def constants(path: str, names: str) -> list[int]:
    """The values of the constants of a file with these names, in their order."""
    text = (TOP / path).read_text()
    return [int(it, 0) for it in re.findall(rf"^pub(?:\(crate\))? const (?:{names}): u\d+ = (\w+);", text, re.M)]


def codes() -> list[int]:
    """The codes of docs/codes.csv, in their order."""
    return [int(line.split(",")[0], 16) for line in CODES.read_text().splitlines()[1:]]


def main(words: list[str]) -> int:
    """Prints the rows that differ, those that the table lacks and those that it has in addition."""
    parser(__doc__).parse_args(words)
    section = (TOP / "docs/STORE.md").read_text().partition("\n## What is frozen\n")[2].partition("\n## ")[0]
    found = {what: [int(it, 16) for it in re.findall(r"`(\w+)`", listed)] for what, listed in ROW.findall(section)}
    wanted = {what: constants(*place) for what, place in ROWS.items()}
    wanted[OF_MESSAGES] = [it for it in codes() if it < FIRST_OF_STORES]
    wanted[OF_STORES] = [it for it in codes() if it >= FIRST_OF_STORES]
    wrong = [what for what in wanted | found if found.get(what) != wanted.get(what) or not wanted.get(what)]
    for what in wrong:
        print(f"docs/STORE.md: {what}: {found.get(what)}, and the sources have {wanted.get(what)}")
    return 1 if wrong else 0
