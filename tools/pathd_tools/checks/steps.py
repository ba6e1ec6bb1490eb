"""Carries out the blocks of commands that pages mark by the name of this tool, and compares what they
print.

    tools/pathd-tools steps [PROGRAM]

The blocks of a page are carried out by one shell in their order, in a folder that is thrown away.
There `pathd` is the built program, other ports are in place of 30252, 30253 and 30262, the folder
itself is in place of /run and /opt, and clients/python is a copy of that of the repository. The file
DEV has a new store. On docs/CLI.md and docs/WATCHING.md a server of DEV runs. The pages are
docs/CLI.md, docs/WATCHING.md, docs/operating/first-hour.md, docs/operating/run.md and
clients/python/README.md. It needs Python 3 with protobuf, Debian's python3-venv and curl.

A block fails where a command does, or where the lines of a block of `text` that follows it are not
printed in their order, within 10 seconds; `..` is any text. In a block of `console` a line `$ ..` is
a command, with any status, and what it prints follows. The status is 1 where a block fails.
"""
from __future__ import annotations

import os
import re
import shutil
import signal
import socket
import subprocess
import time
from collections.abc import Iterator
from contextlib import ExitStack, contextmanager
from itertools import zip_longest
from pathlib import Path

from pathd_model import model
from pathd_tools import TOP, need, runs, toolbox
from pathd_tools.pages.blocks import Block, blocks
from pathd_tools.systems import until

NAME = "steps"
# The pages, and whether a server of DEV runs beside the blocks.
PAGES = {
    "docs/CLI.md": True,
    "docs/WATCHING.md": True,
    "docs/operating/first-hour.md": False,
    "docs/operating/run.md": False,
    "clients/python/README.md": False,
}
PORTS = ("30252", "30253", "30262")
# The seconds that a block may take, and those within which its lines are printed.
LIMIT, PRINTED = 120.0, 10.0


class Failed(Exception):
    """A block did not come out as its page says."""


class Shell:
    """A shell that is given one block after the other. It, and what it started, ends with `close`."""

    def __init__(self, folder: Path, top: Path, environment: dict[str, str]) -> None:
        self.printed = folder / ".printed"
        with self.printed.open("wb") as output:
            self.process = subprocess.Popen(
                ["bash", "--norc", "-eu", "-o", "pipefail"], cwd=top, env=environment, stdin=subprocess.PIPE, stdout=output, stderr=subprocess.STDOUT, start_new_session=True
            )
        self.count = 0

    def text(self, begin: int) -> str:
        """What was printed from this byte on."""
        return self.printed.read_bytes()[begin:].decode(errors="replace")

    def run(self, commands: str) -> int:
        """Runs commands to their end. Returns how many bytes were printed before them."""
        begin = self.printed.stat().st_size
        self.count += 1
        done = self.printed.with_name(f".done{self.count}")
        self.process.stdin.write(f"{commands}\n: >'{done}'\n".encode())
        self.process.stdin.flush()
        end = time.monotonic() + LIMIT
        while not done.exists():
            if self.process.poll() is not None or time.monotonic() > end:
                raise Failed(f"a command failed or goes on:\n{self.text(begin)}")
            time.sleep(0.02)
        return begin

    def see(self, begin: int, wanted: str) -> None:
        """Waits until these lines were printed in this order, with others between them."""
        lines = [".*".join(re.escape(part) for part in line.split("..")) for line in wanted.splitlines()]
        pattern = re.compile("^" + r"$(?:.*\n)*?^".join(lines) + "$", re.M)
        if not until(lambda: bool(pattern.search(self.text(begin))), PRINTED):
            raise Failed(f"this was printed:\n{self.text(begin)}and not:\n{wanted}")

    def close(self) -> None:
        """Ends it, and the servers that its blocks have started."""
        try:
            os.killpg(self.process.pid, signal.SIGKILL)
        except ProcessLookupError:
            pass
        self.process.stdin.close()
        self.process.wait()


def typed(shell: Shell, text: str) -> None:
    """Carries out a block of `console`: each command, and what it prints."""
    for command, wanted in re.findall(r"^\$ (.*)\n((?:(?!\$ ).*\n)*)", text, re.M):
        begin = shell.run(command if command.endswith("&") or command.startswith("cd ") else f"{command} || true")
        if wanted:
            shell.see(begin, wanted)


def carry_out(page: Path, names: tuple[str, ...], environment: dict[str, str], folder: Path, other: dict[str, str]) -> Iterator[tuple[Block, str]]:
    """Carries out the blocks of a page that are marked by these names, with other texts in place of some. Returns each with what went wrong."""
    found = blocks(page)
    shell = Shell(folder, folder if other else TOP, environment)
    try:
        for block, following in zip_longest(found, found[1:]):
            if block.how not in names:
                continue
            try:
                text = replaced(block.text, other)
                if block.language == "console":
                    typed(shell, text)
                else:
                    begin = shell.run(text)
                    if following and following.language == "text":
                        shell.see(begin, replaced(following.text, other))
            except Failed as failed:
                yield block, str(failed)
                return
            yield block, ""
    finally:
        shell.close()


def replaced(text: str, other: dict[str, str]) -> str:
    """A text with other ones in place of some."""
    return re.sub("|".join(map(re.escape, other)), lambda it: other[it[0]], text) if other else text


def free_ports(count: int) -> list[str]:
    """Ports that nobody listens at."""
    with ExitStack() as stack:
        held = [stack.enter_context(socket.create_server(("127.0.0.1", 0))) for _ in range(count)]
        return [str(it.getsockname()[1]) for it in held]


@contextmanager
def prepared(program: str, is_served: bool) -> Iterator[tuple[Path, dict[str, str], dict[str, str]]]:
    """A folder for a page's blocks, the environment of their shell, and what is in place of other texts."""
    with runs.scratch() as folder:
        other = {**dict(zip(PORTS, free_ports(len(PORTS)))), "/run/": f"{folder}/", "/opt/": f"{folder}/"}
        (folder / "bin").mkdir()
        (folder / "bin/pathd").symlink_to(program)
        shutil.copytree(TOP / "clients/python", folder / "clients/python", ignore=shutil.ignore_patterns("__pycache__"))
        runs.format_store(program, folder / "DEV", model.Layout(64, 516))
        environment = {**os.environ, "PATH": f"{folder / 'bin'}:{os.environ['PATH']}", "PYTHONDONTWRITEBYTECODE": "1", "TMPDIR": str(folder)}
        if is_served:
            with runs.Server(program, folder / "DEV", ["--status", f"127.0.0.1:{other['30253']}"], port=int(other["30252"])):
                yield folder, environment, other
        else:
            yield folder, environment, other


def main(words: list[str]) -> int:
    """Carries out the blocks of all pages."""
    parser = toolbox.parser(__doc__)
    parser.add_argument("program", nargs="?", metavar="PROGRAM", help="crates/pathd/out/pathd if left out")
    program = runs.program_of(parser.parse_args(words).program)
    need.require("python3-protobuf", "python3-venv", "curl")
    faults = 0
    for name, is_served in PAGES.items():
        with prepared(program, is_served) as (folder, environment, other):
            for block, fault in carry_out(TOP / name, (NAME,), environment, folder, other):
                print(f"{block.place}: {fault}" if fault else f"ok: {block.place}", flush=True)
                faults += bool(fault)
    return 1 if faults else 0
