"""Prints the lines of pages that are too wide, prose above 100 columns and tables above 160, and the
sentences of more than 40 words. A colon ends a sentence here. It prints nothing where all is well.

    tools/pathd-tools widths                 all pages
    tools/pathd-tools widths PAGE ..         these pages
    tools/pathd-tools widths PAGE .. --write lays their prose out at 100 columns, and then prints what is left

Blocks of code, headings and comments are passed over, and so are the sentences of quotations. A
paragraph is laid out anew only where a line of it is too wide, or with --all; a link, and a text
between backticks, stays on one line.
"""
from __future__ import annotations

import re
import textwrap
from pathlib import Path

from pathd_tools.pages.pages import pages
from pathd_tools.pages.source import TOP
from pathd_tools.toolbox import parser

PROSE, TABLE, WORDS = 100, 160, 40
ITEM = re.compile(r"^ *(?:[-*] |\d+\. |> )?")
BEGIN = re.compile(r" *(?:[-*] |\d+\. )")
FENCE = re.compile(r" *```")


def blocks(text: str) -> list[tuple[str, int, list[str]]]:
    """The parts of a page: `prose` (a paragraph or an item of a list), `table` (a row) or `other`, the number of the first line, and the lines."""
    found: list[tuple[str, int, list[str]]] = []
    is_code = False
    for at, line in enumerate(text.splitlines(), 1):
        kind = kind_of(line, is_code)
        is_code ^= bool(FENCE.match(line))
        goes_on = kind == "prose" and found and found[-1][0] == "prose" and not BEGIN.match(line)
        if goes_on:
            found[-1][2].append(line)
        else:
            found.append((kind, at, [line]))
    return found


def kind_of(line: str, is_code: bool) -> str:
    if is_code or not line.strip() or FENCE.match(line) or line.startswith(("#", "<!--")):
        return "other"
    return "table" if line.startswith("|") else "prose"


def laid_out(lines: list[str]) -> list[str]:
    """The lines of a paragraph, of an item of a list or of a quotation at 100 columns."""
    first = ITEM.match(lines[0])[0]
    later = first if first == "> " else " " * len(first)
    text = " ".join([lines[0][len(first):], *(it.strip().removeprefix("> ") for it in lines[1:])])
    kept = re.sub(r"`[^`]*`|\[[^\]]*\]\([^)]*\)", lambda it: it[0].replace(" ", "\0"), text)
    made = textwrap.wrap(kept, PROSE, initial_indent=first, subsequent_indent=later, break_long_words=False, break_on_hyphens=False)
    return [it.replace("\0", " ") for it in made]


def sentences(lines: list[str]) -> list[str]:
    """The sentences of a paragraph. A text between backticks is one word."""
    text = " ".join(it.strip() for it in lines)
    text = re.sub(r"\[([^\]]*)\]\([^)]*\)", r"\1", re.sub(r"`[^`]*`", "`", text))
    return re.split(r"(?<=[.!?:])[*)]* +(?=\S)", text)


def faults(page: Path) -> list[str]:
    found = []
    for kind, at, lines in blocks(page.read_text()):
        most = TABLE if kind == "table" else PROSE if kind == "prose" else 0
        for below, line in enumerate(lines):
            if most and len(line) > most:
                found.append(f"{page.relative_to(TOP)}:{at + below}: {len(line)} columns")
        for it in sentences(lines) if kind == "prose" and not lines[0].startswith("> ") else []:
            if len(it.split()) > WORDS:
                found.append(f"{page.relative_to(TOP)}:{at}: a sentence of {len(it.split())} words")
    return found


def write(page: Path, all_of_it: bool) -> None:
    made: list[str] = []
    for kind, _, lines in blocks(page.read_text()):
        wide = all_of_it or any(len(it) > PROSE for it in lines)
        made += laid_out(lines) if kind == "prose" and wide else lines
    page.write_text("\n".join(made) + "\n")


def main(words: list[str]) -> int:
    options = parser(__doc__)
    options.add_argument("pages", nargs="*", type=Path, metavar="PAGE", help="the pages; all, if none is named")
    options.add_argument("--write", action="store_true", help="lay out the paragraphs that are too wide")
    options.add_argument("--all", action="store_true", help="with --write: lay out all paragraphs")
    asked = options.parse_args(words)
    chosen = [it.resolve() for it in asked.pages] or pages()
    for page in chosen if asked.write else []:
        write(page, asked.all)
    found = [it for page in chosen for it in faults(page)]
    print("".join(it + "\n" for it in found), end="")
    return 1 if found else 0
