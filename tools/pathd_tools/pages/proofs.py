"""Checks the tables of claims: that each function or definition is in its file, that it has each
clause that is named, and that each edit exists. It prints what is missing, and nothing else.

In docs/PROOFS.md a contract is `CRATE MODULE::FUNCTION CLAUSE ..`, as `reading` takes it; a type or
a trait may be in place of the function, and a definition is `CRATE specs::MODULE::NAME`. An edit is
of the same crate, or `CRATE/EDIT`. On the page of a crate a contract is [`name`](src/FILE.rt):
`clause`, `clause`. Several contracts of docs/PROOFS.md are joined by commas, and those of a crate's
page by semicolons.

docs/DECISIONS.md has a table of what is other than first defined. Its rows are counted, since the
page says how many there are: so none is lost where words are cut. What shows a row is a contract or
a test, an edit in either folder as `CRATE/EDIT`, or the path of a file.
"""
from __future__ import annotations

import re
from pathlib import Path

from pathd_tools.pages import source
from pathd_tools.pages.source import CRATES, TOP
from pathd_tools.toolbox import parser

HEADER = "| claim | contract | edit |"
# An edit of the gate, or in parentheses one beside it.
EDIT = r"(?:`[^`]+`|\(`[^`]+`\))"
CRATE_HEADER = "| claim | contract |"
OTHER_HEADER = "| here, other than first defined | why | shown by |"
# How many rows the page says that the table has.
OTHER_COUNT = re.compile(r"differs from that in (\d+) points")


def rows(path: Path, header: str) -> list[tuple[int, list[str]]]:
    found, inside = [], False
    for at, line in enumerate(path.read_text().splitlines(), 1):
        if line.strip() == header:
            inside = True
        elif not line.startswith("|"):
            inside = False
        elif inside and not line.startswith("|---"):
            found.append((at, [it.strip() for it in line.strip().strip("|").split("|")]))
    return found


def file_of(crate: str, names: list[str]) -> Path:
    """The file of a module's path, which begins with `specs` where it is of definitions."""
    if names[0] == "specs":
        return (CRATES / crate).joinpath(*names).with_suffix(".antt")
    return (CRATES / crate / "src").joinpath(*names).with_suffix(".rt")


def known_in(path: Path) -> dict[str, set[str]]:
    """What a file of the repository defines, each with the names of its clauses."""
    if path.suffix == ".antt":
        return {name: {""} for name in source.definitions(path)}
    known: dict[str, set[str]] = {}
    for it in source.functions(path.relative_to(CRATES).parts[0]):
        if it.path == path:
            known.setdefault(it.name, set()).update(it.clauses)
    known.update({it: {""} for it in re.findall(r"^pub (?:trait|struct|enum|const) (\w+)", path.read_text(), re.M)})
    return known


def lacks(path: Path, name: str, clauses: list[str], may_lack: bool = False) -> list[str]:
    """What a file lacks of a contract. A function without clauses, of which safety alone is proved, may have a row on its crate's page."""
    if not path.is_file():
        return [f"no file {path.relative_to(TOP)}"]
    known = known_in(path)
    if name not in known:
        return [f"no `{name}` in {path.relative_to(TOP)}"]
    if not known[name] and not may_lack:
        return [f"`{name}` in {path.relative_to(TOP)} has no contract"]
    return [f"`{name}` in {path.relative_to(TOP)} has no clause `{it}`" for it in clauses if it not in known[name]]


def problems(cells: list[str]) -> list[str]:
    """What is wrong with a row of docs/PROOFS.md."""
    if len(cells) != 3:
        return [f"{len(cells)} columns"]
    _, contract, edit = cells
    found, crate = [], ""
    for text in re.findall(r"`([^`]+)`", contract):
        crate, path, *clauses = text.split()
        *names, name = path.split("::")
        found += lacks(file_of(crate, names), name, clauses)
    for opened, text in re.findall(r"(\(?)`([^`]+)`", edit):
        where, _, word = text.rpartition("/")
        folder = "more-edits" if opened else "must-fail"
        if not (CRATES / (where or crate) / folder / f"{word}.edit").is_file():
            found.append(f"no edit {text} in {folder}/")
    if not re.fullmatch(r"`[^`]+`(?:, `[^`]+`)*", contract):
        found.append(f"the column of contracts has another form: {contract}")
    if not re.fullmatch(rf"-|{EDIT}(?:, {EDIT})*", edit):
        found.append(f"the column of edits has another form: {edit}")
    return found


def other_problems(cells: list[str]) -> list[str]:
    """What is wrong with a row of what is other than first defined."""
    if len(cells) != 3 or not all(cells):
        return ["the row has not three columns"]
    names = re.findall(r"`([^`]+)`", cells[2])
    found = [] if names else ["nothing shows the row"]
    for name in names:
        crate, _, contract = name.partition(" ")
        if contract:
            path, *clauses = contract.split()
            *modules, last = path.split("::")
            found += lacks(file_of(crate, modules), last, clauses, may_lack=True)
        elif not (TOP / name).exists() and not is_edit(name):
            found.append(f"no file and no edit {name}")
    return found


def is_edit(name: str) -> bool:
    """Whether `CRATE/EDIT` is an edit of either folder."""
    crate, _, word = name.rpartition("/")
    return any((CRATES / crate / folder / f"{word}.edit").is_file() for folder in ("must-fail", "more-edits"))


def count_problems(page: Path, count: int) -> list[str]:
    """What is wrong with the number of rows that the page says."""
    stated = OTHER_COUNT.search(" ".join(page.read_text().split()))
    if stated is None:
        return ["the page doesn't say in how many points the product differs from its first definition"]
    return [] if int(stated[1]) == count else [f"the page says {stated[1]} points, and the table has {count} rows"]


def crate_problems(crate: Path, cells: list[str]) -> list[str]:
    """What is wrong with a row of a crate's page."""
    if len(cells) != 2:
        return [f"{len(cells)} columns"]
    found = []
    for part in re.split(r"; ", cells[1]):
        it = re.match(r"\[`([^`]+)`\]\(([^)]+)\)(?::(.*))?", part)
        if it:
            found += lacks((crate / it[2]).resolve(), it[1].split("::")[-1], re.findall(r"`([^`]+)`", it[3] or ""), may_lack=True)
    return found


def main(words: list[str]) -> int:
    parser(__doc__).parse_args(words)
    proofs = TOP / "docs" / "PROOFS.md"
    found = [(proofs, at, it) for at, cells in rows(proofs, HEADER) for it in problems(cells)]
    decisions = TOP / "docs" / "DECISIONS.md"
    others = rows(decisions, OTHER_HEADER)
    found += [(decisions, at, it) for at, cells in others for it in other_problems(cells)]
    found += [(decisions, 1, it) for it in count_problems(decisions, len(others))]
    for page in sorted(CRATES.glob("*/README.md")):
        found += [(page, at, it) for at, cells in rows(page, CRATE_HEADER) for it in crate_problems(page.parent, cells)]
    for path, at, it in found:
        print(f"{path.relative_to(TOP)}:{at}: {it}")
    return 1 if found else 0
