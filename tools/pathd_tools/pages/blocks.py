"""Says of each block of commands on the pages how it is carried out, and fails on one that is neither
carried out nor marked.

    tools/pathd-tools blocks            prints what is wrong, and nothing else
    tools/pathd-tools blocks --list     prints each block of commands, with how it is carried out

The first line of a block has its language, and of commands how they are carried out:

    ```sh TOOL              by this tool of tools/pathd-tools, whose source names the page
    ```console TOOL         the same, of lines that begin with `$ ` and of what they print
    ```sh not tried: WHY    by none

`steps` and `units` carry out the blocks that are marked by their names. Another tool carries out the
block, or the same commands with other folders and ports. A program in Python or Go is carried out by
`examples`, and one in Rust is compared by `uses`. What tools write on a page is passed over.
"""
from __future__ import annotations

import re
from dataclasses import dataclass
from pathlib import Path

from pathd_tools.pages.pages import END, pages
from pathd_tools.pages.source import CRATES, TOP
from pathd_tools.toolbox import Tool, parser

BLOCK = re.compile(r"^( *)```([^\n]*)\n(.*?)^\1```$", re.S | re.M)
WRITTEN = re.compile(rf"<!-- tools/pathd-tools .*?{re.escape(END)}", re.S)
COMMANDS = ("sh", "console")
PROGRAMS = {"python": "examples", "go": "examples", "rust": "uses"}
# Bytes, drawings, what a program prints, and files that a tool may read.
OTHERS = ("text", "antt", "ini", "haproxy", "json", "yaml", "udev")
NOT_TRIED = re.compile(r"not tried: \S")


@dataclass(frozen=True)
class Block:
    """A block of a page: the number of its first line, its language, how it is carried out, and its text."""

    page: Path
    line: int
    language: str
    how: str
    text: str

    @property
    def place(self) -> str:
        """Its page and line."""
        return f"{self.page.relative_to(TOP)}:{self.line}"


def blocks(page: Path) -> list[Block]:
    """The blocks of a page that no tool writes, without their indentation."""
    text = WRITTEN.sub(lambda it: "\n" * it[0].count("\n"), page.read_text(encoding="utf-8"))
    found = []
    for block in BLOCK.finditer(text):
        language, _, how = block[2].partition(" ")
        lines = re.sub(rf"^{block[1]}", "", block[3], flags=re.M)
        found.append(Block(page, text[: block.start()].count("\n") + 1, language, how, lines))
    return found


def source_of(tool: Tool) -> str:
    """The source of a tool."""
    if tool.target.endswith(".sh"):
        return (TOP / "tools/shell" / tool.target).read_text()
    file = TOP / "tools/pathd_tools" / (tool.target.replace(".", "/") + ".py")
    beside = [file.with_name(f"{name}.py") for name in re.findall(r"^from pathd_tools\.\w+ import (.+)$", file.read_text(), re.M) for name in name.split(", ")]
    return "".join(it.read_text() for it in [file, *beside] if it.exists())


def sources() -> dict[str, str]:
    """The source of each tool by its name, with those of the tools that it runs."""
    from pathd_tools.tools import TOOLS

    own = {tool.name: source_of(tool) for tools in TOOLS.groups.values() for tool in tools}
    return {name: text + "".join(own[it] for it in re.findall(r"pathd-tools\"? ([a-z-]+)", text) if it in own and it != name) for name, text in own.items()}


def names(source: str, page: Path) -> bool:
    """Whether a source has the path of a page, or that of its folder and its name."""
    path = page.relative_to(TOP)
    return re.search(rf"{path}|{path.parent}\b", source) is not None and path.stem in source


def fault(block: Block, known: dict[str, str]) -> str:
    """What is wrong with the first line of a block; nothing where it is right."""
    if block.language in COMMANDS:
        if NOT_TRIED.match(block.how):
            return ""
        if block.how not in known:
            return f"no tool carries it out: `{block.how}`; --help says how a block is marked"
        return "" if names(known[block.how], block.page) else f"the source of `{block.how}` doesn't name this page"
    if block.language in PROGRAMS:
        wanted = CRATES if block.language == "rust" else TOP / "clients"
        return "" if wanted in block.page.parents and not block.how else f"no tool carries out a program in {block.language} here"
    return "" if block.language in OTHERS else f"a block of the language `{block.language}`"


def main(words: list[str]) -> int:
    """Prints what is wrong, or all blocks of commands."""
    options = parser(__doc__)
    options.add_argument("--list", action="store_true", help="print all blocks of commands")
    found = [block for page in pages() for block in blocks(page) if page != CRATES / "EDITS.md"]
    if options.parse_args(words).list:
        for block in found:
            if block.language in COMMANDS or block.language in PROGRAMS:
                print(f"{block.place}: {block.how or PROGRAMS[block.language]}: {block.text.splitlines()[0]}")
    known = sources()
    wrong = [f"{block.place}: {it}" for block in found if (it := fault(block, known))]
    print("".join(it + "\n" for it in wrong), end="")
    return 1 if wrong else 0
