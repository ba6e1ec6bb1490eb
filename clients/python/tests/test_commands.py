"""The commands of `python -m pathd_client`."""
from __future__ import annotations

import subprocess
import sys
import tempfile
import unittest
from pathlib import Path

from pathd_client import (
    Register, SegmentType, frame, make_segment, parse_path, segment_id,
)

from .fake_server import FakeServer, ack, answers, closes, refusal
from .fake_store import FakeStore, counts, lists
from .samples import LIST, MADE, PATH, PURGE, REMOVE, in_order, row

FOLDER = Path(__file__).resolve().parents[1]
DOWN = (SegmentType.DOWN, make_segment(parse_path(PATH), MADE))


def run(*words: str, text: str = "") -> tuple[int, str, str]:
    """The status of a command, its output and what it says on standard error."""
    command = [sys.executable, "-m", "pathd_client", *words]
    done = subprocess.run(
        command, cwd=FOLDER, input=text, capture_output=True, text=True, check=False, timeout=60
    )
    return done.returncode, done.stdout, done.stderr


def at(server: FakeServer) -> list[str]:
    """The words that lead to a server."""
    host, port = server.address
    return ["--connect", f"{host}:{port}", "--attempts", "2"]


class Commands(unittest.TestCase):
    """What is sent, printed and answered as the status."""

    def test_register(self) -> None:
        text = f"# a comment\n\ndown {MADE} {PATH}\n" * 17
        with FakeServer(answers(ack(0, inserted=16), ack(1, inserted=1))) as server:
            status, printed, _ = run(*at(server), "register", "-", text=text)
        lines = "place 0: 16 inserted, 0 updated, 0 kept, 0 purged\n"
        lines += "place 1: 1 inserted, 0 updated, 0 kept, 0 purged\n"
        self.assertEqual((status, printed), (0, lines))
        sent = [frame(Register([DOWN] * count))[4:] for count in (16, 1)]
        self.assertEqual(server.requests, [sent])

    def test_register_a_file(self) -> None:
        with tempfile.NamedTemporaryFile("w", suffix=".txt") as file:
            file.write(f"down {MADE} {PATH}\n")
            file.flush()
            with FakeServer(answers(refusal(0x32))) as server:
                status, printed, _ = run(*at(server), "register", file.name)
        self.assertEqual((status, printed), (1, "refused: a segment has expired\n"))

    def test_lookup(self) -> None:
        with FakeServer(answers(b"\x82" + Register([DOWN]).body())) as server:
            status, printed, _ = run(*at(server), "lookup", "1-ff00:0:110", "1-ff00:0:111")
        identity = "8adcea68dc57cbbe68da7142af88b68a9d27a590e1d5157c53c2bb2c762345ff"
        self.assertEqual((status, printed), (0, f"down {identity} {MADE} 8000043200 {PATH}\n"))

    def test_list(self) -> None:
        rows = in_order([row(number) for number in range(5)])
        identities = [segment_id(segment).hex() for _, segment in rows]
        with FakeStore(lists(rows, 2)) as store:
            to = ["--connect", str(store.address)]
            status, printed, _ = run(*to, "list", "down")
            self.assertEqual(status, 0)
            begun = [line.split()[:2] for line in printed.splitlines()]
            self.assertEqual(begun, [["down", it] for it in identities])
            self.assertEqual((store.lookups, run(*to, "list", "up")), (3, (0, "", "")))
            status, printed, _ = run(*to, "list", "--after", identities[3], "down")
            self.assertEqual([line.split()[1] for line in printed.splitlines()], identities[4:])
        (line,) = printed.splitlines()
        self.assertEqual(line.split(" ", 4)[2:4], [str(MADE), "8000043200"])
        with FakeServer(answers(refusal(0x29))) as server:
            refused = run(*at(server), "list", "down", "1-ff00:0:110", "1-ff00:0:111")
        self.assertEqual(refused, (1, "refused: there is no such type of segment\n", ""))
        self.assertEqual(server.requests, [[frame(LIST)[4:]]])

    def test_list_of_several_servers(self) -> None:
        rows = in_order([row(number) for number in range(5)])
        with FakeStore(lists(rows, 2), is_up=False) as away, FakeStore(lists(rows, 2)) as up:
            to = ["--connect", f"{away.address},{up.address}"]
            status, printed, _ = run(*to, "list", "down")
        self.assertEqual((status, len(printed.splitlines()), up.lookups), (0, 5, 3))

    def test_purge_and_remove(self) -> None:
        with FakeServer(answers(ack(0, 0x83)), answers(ack(1, 0x84))) as server:
            self.assertEqual(run(*at(server), "purge", "--at", "5")[0], 0)
            self.assertEqual(run(*at(server), "remove", "down", REMOVE.id.hex())[0], 0)
        self.assertEqual(server.requests, [[frame(PURGE)[4:]], [frame(REMOVE)[4:]]])
        with FakeServer(answers(ack(0, 0x83))) as server:
            self.assertEqual(run(*at(server), "purge", "--at", "1970-01-01T02:00:02.5+02:00")[0], 0)
        self.assertEqual(server.requests, [[frame(PURGE)[4:]]])

    def test_servers_that_fail(self) -> None:
        with FakeServer(closes, closes) as server:
            status, printed, said = run(*at(server), "purge")
        self.assertEqual((status, printed), (1, ""))
        self.assertIn(": the server ended the connection", said)
        with FakeServer(closes) as server:
            status, _, said = run(*at(server), "remove", "down", REMOVE.id.hex())
        self.assertEqual(status, 1)
        self.assertIn("may have been carried out", said)

    def test_several_servers(self) -> None:
        with FakeStore(counts(3)) as one, FakeStore(counts(5)) as other:
            to = ["--connect", f"{one.address},{other.address}"]
            status, printed, said = run(*to, "register", "-", text=f"down {MADE} {PATH}\n")
            self.assertEqual(run(*to, "lookup", "1-ff00:0:110", "1-ff00:0:111"), (0, "", ""))
        acknowledged = "0 inserted, 0 updated, 0 kept, 0 purged"
        lines = f"{one.address}: place 3: {acknowledged}\n"
        lines += f"{other.address}: place 5: {acknowledged}\n"
        self.assertEqual((status, printed, said), (0, lines, ""))
        self.assertEqual((one.commands, other.commands), ([frame(Register([DOWN]))[4:]],) * 2)
        self.assertEqual((one.lookups, other.lookups), (1, 0))

    def test_a_server_that_is_away(self) -> None:
        with FakeStore() as up, FakeStore(is_up=False) as away:
            to = ["--connect", f"{up.address},{away.address}", "--timeout", "4"]
            status, printed, said = run(*to, "--acknowledge", "one", "purge")
            self.assertEqual((status, len(printed.splitlines())), (0, 1))
            self.assertIn(f"warning: {away.address} lacks 1: no connection", said)
            status, printed, said = run(*to, "purge")
        self.assertEqual((status, printed), (1, ""))
        self.assertIn("1 of 2 servers acknowledged", said)

    def test_words_that_are_wrong(self) -> None:
        wrong: list[list[str]] = [
            ["remove", "sideways", "00" * 32], ["remove", "up", "00"], ["remove", "up", "zz"],
            ["lookup", "1", "1-1"], ["purge", "--at", "-1"], ["purge", "--at", "x"],
            ["list"], ["list", "sideways"], ["list", "up", "1"], ["list", "up", "1-1", "x"],
            ["list", "--after", "00", "up"], ["list", "--after", "zz", "up"],
            ["purge", "--at", "2026-11-27T12:00:00"], ["register"],
            ["--connect", "nowhere", "purge"], ["--attempts", "0", "purge"], ["store"], [],
            ["--connect", ":1", "purge"], ["--connect", "a:1,a:1", "purge"],
            ["--connect", "a:65536", "purge"], ["--acknowledge", "some", "purge"],
        ]
        for words in wrong:
            status, printed, said = run(*words)
            self.assertEqual((status, printed), (2, ""), words)
            self.assertNotIn("Traceback", said)
        for line in ("down", "down now 1-1 1", f"down x {PATH}", f"to now {PATH}"):
            self.assertEqual(run("register", "-", text=line)[0], 2, line)
        for line in (f"down now {PATH} 3", "down now 1-1 1 1-2", f"down x {PATH}"):
            status, _, said = run("register", "-", text=f"# a comment\n{line}\n")
            self.assertEqual((status, "error: -:2: " in said), (2, True), said)

    def test_a_file_that_is_not_there(self) -> None:
        status, _, said = run("register", "/nowhere/segments.txt")
        self.assertEqual(status, 1)
        self.assertIn("error: ", said)


if __name__ == "__main__":
    unittest.main()
