"""A toolbox: one program whose first word names a tool, which is a Python module with `main(words)`
or a script of the shell."""
from __future__ import annotations

import argparse
import importlib
import os
import re
import select
import sys
from dataclasses import dataclass
from pathlib import Path

# The status of a program that was ended by SIGPIPE, as the shell gives it.
NO_READER = 141


@dataclass(frozen=True)
class Tool:
    """A tool: its name, its module or its script (`NAME.sh`), and what it does in one line."""

    name: str
    target: str
    about: str


@dataclass(frozen=True)
class Toolbox:
    """The tools of a program by groups, with the package of its modules and the folder of its scripts."""

    program: str
    about: str
    package: str
    scripts: Path
    groups: dict[str, list[Tool]]

    def help(self) -> str:
        """All tools by groups, each with a line."""
        width = max(len(tool.name) for tools in self.groups.values() for tool in tools)
        lines = [f"usage: {self.program} NAME [ARGS ..]", "", self.about]
        for title, tools in self.groups.items():
            lines += ["", f"{title}:", *(f"  {tool.name:{width}}  {tool.about}" for tool in tools)]
        return "\n".join([*lines, "", f"`{self.program} NAME --help` says more of a tool.", ""])

    def run(self, words: list[str]) -> int:
        """Runs the tool that the first word names, and answers its status: 2 where there is none."""
        if not words or words[0] in ("-h", "--help"):
            print(self.help(), end="")
            return 0 if words else 2
        found = [tool for tools in self.groups.values() for tool in tools if tool.name == words[0]]
        if not found:
            print(f"{self.program} has no tool {words[0]}; --help lists them", file=sys.stderr)
            return 2
        if found[0].target.endswith(".sh"):
            return self._run_script(self.scripts / found[0].target, words[1:])
        sys.argv = [f"{Path(self.program).name} {words[0]}", *words[1:]]
        return importlib.import_module(f"{self.package}.{found[0].target}").main(words[1:]) or 0

    def _run_script(self, script: Path, words: list[str]) -> int:
        if words[:1] in (["-h"], ["--help"]):
            print(first_comment(script), end="")
            return 0
        sys.stdout.flush()
        os.execv("/bin/bash", ["bash", str(script), *words])


def first_comment(script: Path) -> str:
    """The comment with which a script of the shell begins, after the line of its interpreter."""
    lines = re.match(r"#!.*\n((?:#.*\n)*)", script.read_text())
    return re.sub(r"^# ?", "", lines[1], flags=re.M) if lines else ""


def parser(text: str) -> argparse.ArgumentParser:
    """A parser of a tool's words; its help begins with the documentation of the tool's module."""
    return argparse.ArgumentParser(description=text, formatter_class=argparse.RawDescriptionHelpFormatter)


def has_no_reader() -> bool:
    """Whether standard output is a pipe or a socket whose reader has ended."""
    poll = select.poll()
    poll.register(1, 0)
    return any(event & (select.POLLERR | select.POLLHUP) for _, event in poll.poll(0))


def start(toolbox: Toolbox) -> None:
    """Runs a toolbox by the words of the command line, and ends the process. A reader of the output that ends early is no fault."""
    try:
        try:
            status = toolbox.run(sys.argv[1:])
        finally:
            sys.stdout.flush()
    except BrokenPipeError:
        if not has_no_reader():
            raise
        os.dup2(os.open(os.devnull, os.O_WRONLY), 1)
        status = NO_READER
    sys.exit(status)
