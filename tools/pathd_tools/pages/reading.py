"""What a reader of contracts has to believe: the definitions that they cite, with all that these
cite in turn.

    tools/pathd-tools reading                        a table, one line for each promise of docs/PROOFS.md
    tools/pathd-tools reading --check                whether docs/PROOFS.md has this table, and docs/THEOREM.md the
                                                     statements; --write puts them there
    tools/pathd-tools reading CONTRACT ..            the definitions of these contracts, with file and line, each after those
                                                     that it cites; --imports: which files to split so that imports reach less;
                                                     --together: the definitions of all these contracts as one list

A definition's lines are those without blank lines, comments and attributes. Of a type with a model
contracts see the value alone, so that the fields and the view of such a type are not counted.
'Files by imports' are the files of specs/ that one gets to by following all imports of each file, in
place of the words that are cited.
"""
from __future__ import annotations

import re
import sys
from pathlib import Path

from pathd_tools.pages import source
from pathd_tools.pages.pages import put_block
from pathd_tools.pages.source import CRATES, TOP, Definition, Function
from pathd_tools.toolbox import parser

PROOFS = TOP / "docs" / "PROOFS.md"
THEOREM = TOP / "docs" / "THEOREM.md"
BEGIN = "<!-- tools/pathd-tools reading --write{} -->"
# What a file of code uses of a crate: the crate, and the names, whose list may take several lines.
USE = re.compile(r"^use (\w+)::(?:\w+::)*(\{[^}]*\}|\w+);", re.M)

# The contracts of docs/THEOREM.md, which quotes their clauses: what survives, what lookups are answered
# from, and what survives a server.
SURVIVAL = ["prefix_recovery recovery::run_traced trace", "prefix_recovery recovery::reopen_after"]
LOOKUPS = ["prefix_recovery recovery::run_traced lookups"]
SERVED = ["prefix_recovery servers::reopening::reopen_left recovers refused"]

# The contracts that carry each promise.
PROMISES = [
    ("2: a segment, read", ["seg_core segment::read_segment"]),
    ("2: the database after a command", ["path_db database::apply"]),
    ("2: a lookup's answer", ["seg_lookup classification::classify", "seg_lookup answers::answer"]),
    ("2: `open`, its answer", ["store_open open_store::open opened refused"]),
    ("3: a session over any service", ["session_core serving::serve"]),
    ("3: `once`", ["cli_once session::once"]),
    ("3: `run`, its replies", ["group_recovery running::run runs"]),
    ("4: `run`, the recovery theorem", ["group_recovery running::run leaves"]),
    ("4: `run` and `open`, all clauses of the theorem", ["group_recovery running::run runs leaves", "store_open open_store::open any_moment opened"]),
    ("4: `run_traced` and `reopen_after`, what survives", SURVIVAL),
    ("4: what a server's device holds", ["path_server running::serve_store"]),
    ("4: `reopen_left`, what survives a server", SERVED),
    ("5: a lookup", ["hub_readers reader::lookup", "hub_readers reader::learn"]),
    ("5: `register`", ["path_hub hub::register"]),
]


def named(crate: str, name: str) -> list[Function]:
    """The functions of a crate, or of any crate, whose module and name end so."""
    wanted = [crate] if crate else source.crates()
    return [it for made in wanted for it in source.functions(made) if ("::" + it.module).endswith("::" + name)]


def key(it: Definition) -> tuple[Path, str]:
    return (it.path, it.name)


def resolve(path: Path, text: str) -> list[Definition]:
    """The definitions and types of this repository that a text of a file cites."""
    found = []
    if path.suffix == ".antt":
        for name, it in source.definitions(path).items():
            if source.cites(text, name):
                found.append(it)
    for name, (module, _there) in source.imports(path).items():
        if not source.cites(text, name):
            continue
        declared = source.declared_type(module)
        if declared:
            found.append(declared)
            continue
        target = source.spec_file(module)
        if target and _there in source.definitions(target):
            found.append(source.definitions(target)[_there])
    if path.suffix == ".rt":
        found += types_in(path, text)
    return found


def types_in(path: Path, text: str) -> list[Definition]:
    """The types of this repository that a text of code names: of its own crate, or of one that the file uses."""
    crate = path.relative_to(CRATES).parts[0]
    found = [it for name, it in source.types(crate).items() if re.search(rf"\b{name}\b", text)]
    for used, names in USE.findall("\n".join(source.lines_of(path))):
        if (CRATES / used).is_dir():
            for name in re.findall(r"\w+", names):
                if re.search(rf"\b{name}\b", text):
                    found += [it for made in [used, *exported(used)] for it in [source.types(made).get(name)] if it]
    return found


def exported(crate: str) -> list[str]:
    """The crates whose items a crate exports."""
    root = CRATES / crate / "src" / "lib.rt"
    return [it for it in re.findall(r"^pub use (\w+)::", root.read_text(), re.M) if (CRATES / it).is_dir()] if root.is_file() else []


def closure(starts: list[tuple[Path, str]]) -> dict[tuple[Path, str], Definition]:
    """All definitions that these texts cite, and those that these cite in turn."""
    found: dict[tuple[Path, str], Definition] = {}
    waiting = [it for path, text in starts for it in resolve(path, text)]
    while waiting:
        it = waiting.pop()
        if key(it) in found:
            continue
        found[key(it)] = it
        waiting += [other for other in resolve(it.path, it.text) if key(other) not in found]
    return found


def in_reading_order(starts: list[tuple[Path, str]]) -> list[Definition]:
    """The same definitions, each after those that it cites."""
    found: dict[tuple[Path, str], Definition] = {}
    entered: set[tuple[Path, str]] = set()

    def read(it: Definition) -> None:
        if key(it) not in entered:
            entered.add(key(it))
            for other in resolve(it.path, it.text):
                read(other)
            found[key(it)] = it

    for path, text in starts:
        for it in resolve(path, text):
            read(it)
    return list(found.values())


def files_by_imports(starts: list[tuple[Path, str]]) -> dict[Path, Path | None]:
    """The files of specs/ that imports lead to, each with the file that imported it first."""
    found: dict[Path, Path | None] = {}
    waiting: list[tuple[Path, Path | None]] = []
    for path, text in starts:
        for name, (module, _) in source.imports(path).items():
            target = source.spec_file(module)
            if target and source.cites(text, name):
                waiting.append((target, None))
    while waiting:
        path, by = waiting.pop(0)
        if path in found:
            continue
        found[path] = by
        for module, _ in source.imports(path).values():
            target = source.spec_file(module)
            if target and target not in found:
                waiting.append((target, path))
    return found


def clause_texts(spec: str) -> list[tuple[Path, str]]:
    """The texts of a contract: of `CRATE MODULE::FUNCTION [CLAUSE ..]` the signature and the clauses, or those that are named."""
    crate, name, *clauses = spec.split(" ")
    found = named(crate, name)
    if len(found) != 1:
        sys.exit(f"{spec}: {len(found)} functions")
    made = found[0]
    missing = [it for it in clauses if it not in made.clauses]
    if missing:
        sys.exit(f"{spec}: no clause {missing[0]}")
    head = re.split(r"\n\s*(?:ensures|requires)\b", made.head)[0]
    texts = [head] + [text for it, text in made.clauses.items() if not clauses or it in clauses]
    return [(made.path, text) for text in texts]


def count(starts: list[tuple[Path, str]]) -> list[int]:
    """Definitions and their lines; types of the code and their lines; files by imports, and the lines of code in these."""
    known = closure(starts).values()
    words = [it for it in known if it.path.suffix == ".antt"]
    kinds = [it for it in known if it.path.suffix == ".rt"]
    reached = files_by_imports(starts)
    lines = sum(len(source.code_lines(source.lines_of(it))) for it in reached)
    return [len(words), sum(it.lines for it in words), len(kinds), sum(it.lines for it in kinds), len(reached), lines]


def table() -> str:
    rows = ["| promise, and contract | definitions | lines | types of the code | lines |", "|---|---|---|---|---|"]
    for name, specs in PROMISES:
        starts = [it for spec in specs for it in clause_texts(spec)]
        rows.append(f"| {name} | " + " | ".join(f"{it:,}" for it in count(starts)[:4]) + " |")
    return "\n".join(rows)


def statement() -> str:
    """The clauses of the theorem, word for word."""
    return quoted(SURVIVAL + LOOKUPS)


def statement_of_server() -> str:
    """The same of a server."""
    return quoted(SERVED)


def quoted(specs: list[str]) -> str:
    clauses: dict[str, list[str]] = {}
    for spec in specs:
        clauses.setdefault(spec.split("::")[-1].split(" ")[0], []).extend(text.strip("\n") for _, text in clause_texts(spec)[1:])
    said = [line for name, texts in clauses.items() for line in [name, *texts]]
    return "\n".join(["```", *said, "```"])


def starts_of(name: str) -> list[tuple[Path, str]]:
    return clause_texts(name if " " in name else " " + name)


def show(names: list[str], with_imports: bool, together: bool) -> None:
    lists = [starts_of(it) for it in names]
    for starts in [sum(lists, [])] if together else lists:
        for it in in_reading_order(starts):
            print(f"{it.path.relative_to(TOP)}:{it.line}: {it.name} ({it.lines} lines)")
        print("definitions, lines, types of the code, lines, files by imports, lines:", *count(starts))
        if with_imports:
            show_splits(starts)


def idle_imports(starts: list[tuple[Path, str]]) -> dict[Path, set[Path]]:
    """The imports, by their files, that none of the definitions needs which are cited."""
    needed: dict[Path, list[str]] = {}
    for it in closure(starts).values():
        needed.setdefault(it.path, []).append(it.text)
    found: dict[Path, set[Path]] = {}
    for path in files_by_imports(starts):
        used, all_of_it = set(), set()
        for name, (module, _) in source.imports(path).items():
            target = source.spec_file(module)
            if target:
                all_of_it.add(target)
                if any(source.cites(text, name) for text in needed.get(path, [])):
                    used.add(target)
        found[path] = all_of_it - used
    return found


def reached_without(starts: list[tuple[Path, str]], cut: dict[Path, set[Path]]) -> set[Path]:
    """The files that are reached where these imports are in files of their own."""
    found: set[Path] = set()
    waiting = [it for it, by in files_by_imports(starts).items() if by is None]
    while waiting:
        it = waiting.pop()
        if it not in found:
            found.add(it)
            targets = {source.spec_file(module) for module, _ in source.imports(it).values()}
            waiting += [other for other in targets if other and other not in cut.get(it, set())]
    return found


def show_splits(starts: list[tuple[Path, str]]) -> None:
    """Prints which files to split, the most useful first: into the words that are cited and those that need the imports named."""
    idle = idle_imports(starts)
    cut: dict[Path, set[Path]] = {}
    left = reached_without(starts, cut)
    print(f"{len(left)} files by imports; with each file split {len(reached_without(starts, idle))}. To split:")
    while True:
        tries = [(len(reached_without(starts, cut | {path: targets})), str(path), path) for path, targets in idle.items() if path not in cut]
        best = min(tries)
        if best[0] >= len(left):
            return
        path = best[2]
        cut[path] = idle[path]
        left = reached_without(starts, cut)
        lines = [at for at, line in enumerate(source.lines_of(path), 1) if (it := source.IMPORT.match(line)) and source.spec_file(it[1]) in idle[path]]
        print(f"{path.relative_to(TOP)}, lines {', '.join(map(str, lines))}: {len(left)} files are left")


def main(words: list[str]) -> int:
    options = parser(__doc__)
    options.add_argument("--check", action="store_true", help="whether docs/PROOFS.md has the table")
    options.add_argument("--write", action="store_true", help="write the table to docs/PROOFS.md")
    options.add_argument("--imports", action="store_true", help="which files to split so that imports reach less")
    options.add_argument("--together", action="store_true", help="the definitions of all these contracts as one list")
    options.add_argument("contracts", nargs="*", metavar="CONTRACT", help="`[CRATE ]MODULE::FUNCTION[ CLAUSE ..]`, as one word")
    chosen = options.parse_args(words)
    if chosen.contracts:
        show(chosen.contracts, chosen.imports, chosen.together)
        return 0
    blocks = [(PROOFS, "", table), (THEOREM, ": statement", statement), (THEOREM, ": server", statement_of_server)]
    if not (chosen.write or chosen.check):
        print(table())
        return 0
    return sum(put_block(path, BEGIN.format(which), make(), chosen.write) for path, which, make in blocks) and 1
