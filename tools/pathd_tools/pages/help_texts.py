"""Makes the texts on the command line of the help that the program prints, which is in
crates/test_program/stdout and is compared there with that of crates/cli_words:

- the arguments and the options of each command in deploy/pathd.1, after what that page says of it,
- the words in deploy/pathd.bash and deploy/pathd.zsh,
- the table of options in docs/CLI.md.

Each option whose value is a number by that help has to have its row in `HasPlainNumbers` of
crates/cli_words/specs/Numbers.antt and in `check_numbers` of its src/reading.rt, and no other one.

    tools/pathd-tools help-texts [--write] [PROGRAM]

Without --write it prints which of them differ, and nothing else. With PROGRAM the help that it
prints is compared, too. Bash is needed, whose completions are tried; zsh is not.
"""
from __future__ import annotations

import re
import subprocess
import tempfile
import textwrap
from collections.abc import Callable
from dataclasses import dataclass
from pathlib import Path

from pathd_tools.pages.pages import put_block
from pathd_tools.pages.source import CRATES, TOP
from pathd_tools.toolbox import parser

HELP = CRATES / "test_program/stdout"
DEPLOY = TOP / "deploy"
CLI = TOP / "docs/CLI.md"
WORDS = CRATES / "cli_words"
BEGIN = "<!-- tools/pathd-tools help-texts --write -->"
WIDTH = 100
# What is a file among the arguments, and what may come after the words of `ask`.
FILES = {"DEV", "OLD", "NEW", "WORD"}
# The values of options that are no numbers, as the help names them.
TEXTS = {"ADDR", "HEX", "LIST"}
# The options that take no part in a table: `clap` adds them.
ADDED = {"--help", "--version"}


@dataclass(frozen=True)
class Part:
    """An argument or an option of a command: its name, that of its value, and what the help says."""

    name: str
    value: str
    text: str

    @property
    def is_option(self) -> bool:
        return self.name.startswith("-")


@dataclass(frozen=True)
class Command:
    """A command, as its help has it."""

    about: str
    parts: tuple[Part, ...]

    def options(self) -> list[Part]:
        return [it for it in self.parts if it.is_option and it.name not in ADDED]

    def arguments(self) -> list[Part]:
        return [it for it in self.parts if not it.is_option]


Commands = dict[str, Command]


def command_of(text: str) -> Command:
    """A command by the text of its help."""
    lists = "".join(re.findall(r"^(?:Arguments|Options):\n((?:  .*\n)+)", text, re.M))
    found = re.findall(r"^ +(?:-h, )?(?:[<[](\w+)[>\]](?:\.\.\.)?|(--[\w-]+)(?: <(\w+)>)?)  +(.*)$", lists, re.M)
    parts = tuple(Part(argument or option, value, said) for argument, option, value, said in found)
    return Command(text.split("\n", 1)[0], parts)


def commands_by(helped: Callable[[str], str]) -> Commands:
    """All commands, by their help and that of the program, whose name is empty."""
    listed = re.search(r"^Commands:\n((?:  .*\n)*)", helped(""), re.M)
    names = re.findall(r"^  (\w+)", listed[1], re.M) if listed else []
    return {name: command_of(helped(name)) for name in names if name != "help"}


def expected(name: str) -> str:
    """The help of a command as it is in the file."""
    found = re.search(rf"^\$ pathd {name + ' ' if name else ''}(?:--help|-h)\n(.*?)^status 0$", HELP.read_text(), re.M | re.S)
    if not found:
        raise SystemExit(f"crates/test_program/stdout has no help of {name}")
    return found[1]


def written(part: Part) -> str:
    """An argument or an option as it is written on a command line."""
    return f"{part.name} {part.value}".strip()


# The man page


def roff(text: str) -> str:
    """A text as it is in the man page, wrapped."""
    lines = textwrap.wrap(text.replace("\\", "\\e"), WIDTH, break_long_words=False, break_on_hyphens=False)
    return "\n".join(f"\\&{line}" if line[0] in ".'" else line for line in lines)


def tag(part: Part) -> str:
    """The tag of a paragraph."""
    name = part.name.replace("-", "\\-")
    if part.name == "--help":
        return '.BR \\-h ", " \\-\\-help'
    if part.value:
        return f'.BI {name} " {part.value}"'
    return f".{'B' if part.is_option else 'I'} {name}"


def man_with(commands: Commands, page: str) -> str:
    """The man page with these commands. What it says of each one before the first tag is kept."""
    head, rest = page.split(".SH COMMANDS\n", 1)
    body, tail = rest.split(".SH OPTIONS\n", 1)
    kept = re.split(r"^\.SS (\w+)\n", body, flags=re.M)
    said = dict(zip(kept[1::2], (it.split(".TP\n", 1)[0] for it in kept[2::2])))
    order = [it for it in kept[1::2] if it in commands] + [it for it in commands if it not in said]
    sections = []
    for name in order:
        tagged = "".join(f".TP\n{tag(it)}\n{roff(it.text)}\n" for it in commands[name].parts)
        sections.append(f".SS {name}\n{said.get(name) or roff(commands[name].about) + chr(10)}{tagged}")
    return f"{head}.SH COMMANDS\n{''.join(sections)}.SS help\n{said['help']}.SH OPTIONS\n{tail}"


# The completions


def bash_with(commands: Commands, script: str) -> str:
    """The completions for bash with these commands."""
    valued = dict.fromkeys(it.name for command in commands.values() for it in command.options() if it.value)
    script = re.sub(r"^( +)--[\w-]+(?: \| --[\w-]+)*\) return ;;$", lambda it: f"{it[1]}{' | '.join(valued)}) return ;;", script, flags=re.M)
    cases = [f'      {name}) words="{" ".join([*(it.name for it in command.options()), "-h", "--help"])}" ;;\n' for name, command in commands.items()]
    cases.append(f'      help) words="{" ".join([*commands, "help"])}" ;;\n')
    script = re.sub(r'(?:^      [\w |]+\) words=".*" ;;\n)+', "".join(cases), script, flags=re.M)
    return re.sub(r'^    words="once .*"$', f'    words="{" ".join([*commands, "help", "-h", "--help", "-V", "--version"])}"', script, flags=re.M)


def zsh_text(text: str) -> str:
    """A text between the brackets and the quotes of zsh."""
    return text.replace("\\", "\\\\").replace("[", "\\[").replace("]", "\\]").replace("'", "'\\''")


def zsh_argument(number: int, part: Part) -> str:
    """An argument as zsh completes it: a choice, a file or nothing."""
    choices = re.search(r"\[possible values: (.*)\]", part.text)
    place = "*" if part.name == "WORD" else number
    does = f"({choices[1].replace(',', '')})" if choices else "_files" if part.name in FILES else ""
    return f"'{place}:{part.name}:{does}'"


def zsh_with(commands: Commands, script: str) -> str:
    """The completions for zsh with these commands."""
    listed = "".join(f"    '{name}:{zsh_text(command.about)}'\n" for name, command in commands.items())
    script = re.sub(r"^  commands=\(\n.*?^  \)$", lambda _: f"  commands=(\n{listed}    'help:print help'\n  )", script, flags=re.M | re.S)
    cases = []
    for name, command in commands.items():
        words = [f"'{it.name}[{zsh_text(it.text)}]{f':{it.value}:' if it.value else ''}'" for it in command.options()]
        words += [zsh_argument(number, it) for number, it in enumerate(command.arguments(), 1)]
        cases.append(f"    {name})\n      _arguments $help \\\n        " + " \\\n        ".join(words) + "\n      ;;\n")
    return re.sub(r"^  case \$command in\n.*?^    help\)", lambda _: "  case $command in\n" + "".join(cases) + "    help)", script, flags=re.M | re.S)


class Bash:
    """The completions for bash, asked in a folder with one file."""

    SCRIPT = 'source "$1"; shift; COMP_WORDS=(pathd "$@"); COMP_CWORD=$#; _pathd; printf "%s\\n" "${COMPREPLY[@]}"'

    def __init__(self, folder: str) -> None:
        self.folder = folder
        (Path(folder) / "DEV").touch()

    def given(self, *words: str) -> set[str]:
        """What is given for the last of these words."""
        command = ["bash", "-c", self.SCRIPT, "bash", str(DEPLOY / "pathd.bash"), *words]
        return set(subprocess.run(command, capture_output=True, text=True, check=True, cwd=self.folder).stdout.split())

    def differences(self, commands: Commands) -> list[str]:
        """What it does not complete: commands, options, the files of stores, and nothing after an option with a value."""
        lines = [] if self.given("") >= {*commands, "help"} else ["deploy/pathd.bash does not complete the commands"]
        for name, command in commands.items():
            if self.given(name, "-") != {*(it.name for it in command.options()), "-h", "--help"}:
                lines.append(f"deploy/pathd.bash does not complete the options of {name}")
            if command.arguments() and command.arguments()[0].name in FILES and "DEV" not in self.given(name, ""):
                lines.append(f"deploy/pathd.bash does not complete the file of {name}")
            lines += [f"deploy/pathd.bash completes the value of {it.name}" for it in command.options() if it.value and self.given(name, it.name, "-")]
        return lines


# The table of docs/CLI.md


def cell(text: str) -> str:
    """A text in a cell of a table: names of options are code."""
    return re.sub(r"(?<![\w`])(--[a-z-]+)", r"`\1`", text.replace("|", "\\|").replace("[default: ", "[").replace("[", "(").replace("]", ")"))


def table(commands: Commands) -> str:
    """The table of all options: an option of two commands that is the same in both has one row."""
    rows: dict[tuple[str, str], list[str]] = {}
    for name, command in commands.items():
        for it in command.options():
            rows.setdefault((written(it), it.text), []).append(name)
    lines = [f"| {', '.join(f'`{it}`' for it in names)}: `{option}` | {cell(text)} |" for (option, text), names in rows.items()]
    return "\n".join(["| option | what it does (what is so without it) |", "|---|---|", *lines])


# The options whose values are numbers


def unlike_numbers(commands: Commands) -> list[str]:
    """Which options are numbers by the help, and have no row in the definition or in the check, or the other way round."""
    numbers = {it.name[2:] for command in commands.values() for it in command.options() if it.value and it.value not in TEXTS}
    names = dict(re.findall(r'^pub const (\w+): &str = "([\w-]+)";', (WORDS / "src/lib.rt").read_text(), re.M))
    rows = {
        "specs/Numbers.antt": re.findall(r'IsPlainNumber rows \(codes "([\w-]+)"\)', (WORDS / "specs/Numbers.antt").read_text()),
        "src/reading.rt, check_numbers": [names.get(it, it) for it in re.findall(r"check_number\(alloc, subcommand, options, (\w+)\)", (WORDS / "src/reading.rt").read_text())],
    }
    lines = []
    for place, found in rows.items():
        lines += [f"crates/cli_words/{place}: no row for --{it}, whose value is a number" for it in sorted(numbers.difference(found))]
        lines += [f"crates/cli_words/{place}: a row for --{it}, which is no option with a number" for it in sorted(set(found) - numbers)]
    return lines


def main(words: list[str]) -> int:
    options = parser(__doc__)
    options.add_argument("--write", action="store_true", help="write the texts")
    options.add_argument("program", nargs="?", metavar="PROGRAM")
    wanted = options.parse_args(words)
    commands = commands_by(expected)
    differs = put_block(CLI, BEGIN, table(commands), wanted.write)
    for name, made_of in (("pathd.1", man_with), ("pathd.bash", bash_with), ("pathd.zsh", zsh_with)):
        text = (DEPLOY / name).read_text()
        made = made_of(commands, text)
        if made != text and wanted.write:
            (DEPLOY / name).write_text(made)
        elif made != text:
            print(f"deploy/{name}: `tools/pathd-tools help-texts --write` would change it")
            differs = 1
    with tempfile.TemporaryDirectory() as folder:
        lines = Bash(folder).differences(commands) + unlike_numbers(commands)
    if wanted.program and commands != commands_by(lambda name: subprocess.run([wanted.program, *([name] if name else []), "--help"], capture_output=True, text=True, check=True).stdout):
        lines.append(f"{wanted.program} prints other help than crates/test_program/stdout has")
    print("".join(it + "\n" for it in lines), end="")
    return 1 if lines else differs
