"""Tries the wrong bodies of crates over the proofs that `rt ci` kept, prints the goal that refuses
each, and writes the page of them all. A crate and those below it have to be proved as they are now.

An edit is refused well where the prover refuses a clause of a contract, an invariant, or a check of
the body (an index, an overflow, a loop that has to end) in a function of a file that the edit
changes. Lines of an edit that `rt` passes over say more of it:

    clause: FUNCTION CLAUSE     the clause that has to refuse it; `clause: FUNCTION` where it has no
                                name, and `invariant` or `check` in its place for one of these
    body: TEXT                  what the wrong body does
    right: TEXT                 after a line `new:`, the right body in the same form, which the
                                prover has to accept

All else shows nothing of a contract and fails: an edit that is proved or not read; a proof file that
names a goal which the edit took away; an answer that doesn't fit its goal, where the prover's own
search proves that goal or isn't asked; and a `requires` of a callee.
"""
from __future__ import annotations

import fcntl
import hashlib
import importlib.machinery
import importlib.util
import json
import os
import re
import resource
import shutil
import subprocess
import sys
import time
from dataclasses import dataclass, field
from pathlib import Path

from pathd_tools.pages.source import CRATES, TOP, crates
from pathd_tools.toolbox import parser

PAGE = CRATES / "EDITS.md"
KINDS = {"must-fail": "gate", "more-edits": "beside"}
NOT_REFUSED = "NO REFUSAL"

# What the prover prints: a goal that no tactic proves, an error in a proof file, and the line of a function after both.
GOAL = re.compile(r"(?:note: )?src/\S+:\d+:\d+: .*?\(`([\w:-]+)`(?:, [^)]*)?\)(.*)")
ANSWER = re.compile(r"(?:\./)?proofs/(\S+)/\w+\.antt:\d+:\d+: error: `([^`]+)`: (.*)")
FUNCTION = re.compile(r"fn (\S+): (?:no proof|not proved)")
UNPROVED = re.compile(r"`search` did not prove ((?:`[^`]+`(?:, | and )?)+)")
GONE = re.compile(r"has no field|is not in scope|has no `|was not admitted|that can be named from here")


@dataclass
class Edit:
    """A wrong body: its crate, its file, which kind of edit it is, and the clause that has to refuse it."""

    path: Path
    function: str = ""
    clause: str | None = None

    def __post_init__(self) -> None:
        text = self.path.read_text()
        if said := re.search(r"^clause: (\S+)(?: (\S+))?$", text, re.M):
            self.function, self.clause = said[1], said[2] or ""

    @property
    def crate(self) -> str:
        return self.path.parent.parent.name

    @property
    def kind(self) -> str:
        return KINDS[self.path.parent.name]

    @property
    def sum(self) -> str:
        return hashlib.sha256(self.path.read_bytes()).hexdigest()[:16]

    @property
    def files(self) -> list[str]:
        return re.findall(r"^file: (\S+)$", self.path.read_text(), re.M)


@dataclass
class Refusal:
    """A goal that the prover refuses: its function, its name, its kind (a clause, an invariant, a check
    of the body, a `requires`, an answer that doesn't fit, or one whose goal is gone), and whether the
    prover found values at which it is false."""

    function: str
    goal: str
    kind: str
    is_false: bool = False

    @property
    def clause(self) -> str:
        """The name of the clause; the empty text where it has none, or where all clauses are one goal."""
        named = re.search(r"-clause-([a-z_]+)$", self.goal)
        return named[1] if named and named[1] != "whole" else ""


@dataclass
class Verdict:
    """What came of an edit: whether it shows something, by which goal, and why not."""

    is_well: bool
    by: str
    why: str = ""
    others: list[str] = field(default_factory=list)


def edits_of(names: list[str]) -> list[Edit]:
    found = [it for name in crates() if not names or name in names for kind in KINDS for it in (CRATES / name / kind).glob("*.edit")]
    order = crates()
    return [Edit(it) for it in sorted(found, key=lambda it: (order.index(it.parent.parent.name), it.name))]


# ---- reading what the prover says


def kind_of(goal: str) -> str:
    """Of which kind a goal is, by its name: `returns..` are the clauses, `invariant_of..`,
    `loop-..-init` and `loop-..-preserved` the invariants of types and loops."""
    if "-requires" in goal:
        return "check" if re.match(r"(index|slice|range|add|sub|mul|div|rem|shl|shr|neg|cast)\b", goal) else "requires"
    if goal.startswith("returns"):
        return "clause"
    if goal.startswith("invariant_of") or re.search(r"^loop-.*-(init|preserved.*)$|^invariant-", goal):
        return "invariant"
    return "check"


def refusals(text: str) -> list[Refusal]:
    """All that the prover refuses, by function. What it says of a function comes before the function's own line."""
    found, waiting = [], []
    for line in text.splitlines():
        if its := ANSWER.match(line):
            fits = "`search`: no proof" in its[3] or "`grind`" in its[3] or "`omega`" in its[3] or "`simp`" in its[3]
            kind = kind_of(its[2]) if fits else "gone" if GONE.search(its[3]) else "answer"
            waiting.append(Refusal(its[1].replace("/", "::"), its[2], kind))
        elif its := GOAL.match(line):
            waiting.append(Refusal("", its[1], kind_of(its[1]), "is false" in its[2]))
        elif its := FUNCTION.match(line):
            function = its[1].partition("::")[2]
            named = [goal for said in UNPROVED.findall(line) for goal in re.findall(r"`([^`]+)`", said)]
            known = {it.goal for it in waiting}
            waiting += [Refusal("", goal, kind_of(goal)) for goal in named if goal not in known]
            found += [Refusal(function, it.goal, it.kind, it.is_false) for it in waiting]
            waiting = []
    return found + waiting


def is_within(function: str, edit: Edit) -> bool:
    """Whether a function is in a file that the edit changes; of a constant it may be anywhere."""
    if re.search(r"^old: .*\bconst ", edit.path.read_text(), re.M):
        return True
    texts = [(CRATES / edit.crate / it).read_text() for it in edit.files if it.startswith("src/")]
    return any(re.search(rf"\bfn {re.escape(function.split('::')[-1])}\b", it) for it in texts)


def judge(edit: Edit, ran: dict) -> Verdict:
    """What an edit shows, by what the prover said of it."""
    if ran.get("unread"):
        return Verdict(False, "", f"it is not read: {ran['unread'][:200]}")
    if ran["status"] == 0:
        return Verdict(False, "", "the prover accepts it")
    if ran.get("is_right_proved") is False:
        return Verdict(False, "", "the prover refuses the right body in this form too")
    found = refusals(ran["output"])
    good = [it for it in found if it.kind in ("clause", "invariant", "check")]
    if edit.clause is not None:
        wanted = [it for it in good if it.function.split("::")[-1] == edit.function and fits_clause(it, edit.clause)]
        others = sorted({f"{it.function} {it.goal}" for it in good if it not in wanted})
        if wanted:
            return Verdict(True, name_of(min(wanted, key=lambda it: not it.is_false)), "", others)
        said = "; ".join(f"{it.function} {it.goal} ({it.kind})" for it in found[:4])
        return Verdict(False, "", f"not by the clause {edit.function} {edit.clause}, but by {said or 'nothing that is named'}")
    clauses = sorted([it for it in good if is_within(it.function, edit)], key=lambda it: (it.kind != "clause", it.kind != "invariant", not it.is_false))
    if clauses:
        return Verdict(True, name_of(clauses[0]), "", sorted({name_of(it) for it in clauses[1:]}))
    said = "; ".join(f"{it.function} {it.goal} ({it.kind})" for it in found[:4])
    return Verdict(False, "", f"by no clause, invariant or check of the body: {said or 'nothing that is named'}")


def fits_clause(it: Refusal, clause: str) -> bool:
    if clause == "check":
        return it.kind == "check"
    if clause == "invariant":
        return it.kind == "invariant"
    return it.kind == "clause" and it.clause in (clause, "")


def name_of(it: Refusal) -> str:
    kind = "" if it.kind == "clause" else f" ({it.kind})"
    return f"{it.function} {it.clause or it.goal}{kind}" if it.kind == "clause" and it.clause else f"{it.function}{kind}"


# ---- trying edits


def load_rt():
    """The program `rt` of the PATH as a module: its functions apply an edit and check a copy of the crate with it."""
    path = os.path.realpath(shutil.which("rt") or sys.exit("there is no rt on the PATH"))
    sys.dont_write_bytecode = True
    loader = importlib.machinery.SourceFileLoader("rt_of_the_kit", path)
    made = importlib.util.module_from_spec(importlib.util.spec_from_loader(loader.name, loader))
    sys.modules[loader.name] = made
    loader.exec_module(made)
    os.chdir(TOP)
    made.rtlib.guarded()
    made.Crate.allowed = made.handles_of(str(TOP))
    made.rtlib.Crate = made.Crate
    return made


@dataclass
class Batch:
    """Edits of one crate that are tried by one check, as no two of them change one function: the texts
    with all of them, and the functions that are checked. All are, where the functions aren't known."""

    edits: list[tuple[Edit, set[str]]]
    texts: dict[str, str]
    functions: set[str]

    def takes(self, crate, edit: Edit, functions: set[str]) -> bool:
        """Whether the edit is in the batch now: it changes other functions, and each of its lines occurs once."""
        if not self.functions or not functions or self.functions & functions:
            return False
        texts = dict(self.texts)
        for path, old, new in pairs_of(edit):
            text = texts.get(path) or (Path(crate.folder) / path).read_text()
            if text.count(old) != 1:
                return False
            texts[path] = text.replace(old, new)
        self.edits.append((edit, functions))
        self.texts, self.functions = texts, self.functions | functions
        return True


def pairs_of(edit: Edit) -> list[tuple[str, str, str]]:
    """The files, the old lines and the new ones of an edit."""
    found, path, old = [], "", ""
    for line in edit.path.read_text().split("\n"):
        if line.startswith("file: "):
            path = line.removeprefix("file: ").strip()
        elif line.startswith("old: "):
            old = line.removeprefix("old: ")
        elif line.startswith("new:"):
            found.append((path, old, line.removeprefix("new:").removeprefix(" ")))
    return found


def provide(rt, crate) -> set[str]:
    """Lays out the libraries below a crate, and the crate's own, as `rt ci` kept them, and returns the names of
    the crate's functions."""
    kept = rt.Kept(rt.rtlib.crates_below(str(TOP)))
    for it in [*crate.below(), crate]:
        # A second name can't be given to a file that has it, and `rt` drops what it can't give.
        shutil.rmtree(os.path.dirname(it.rlib), ignore_errors=True)
        if not kept.give(it, False, kept.key(it)):
            sys.exit(f"{it.name} is not proved as it is now: run rt ci {it.name}")
        kept.is_built(it)
    text = Path(f"{crate.rlib}/toolchain/mir.json").read_text()
    named = {it.partition("::")[2] for it in re.findall(rf'"({crate.name}::[^"]+)"', text)}
    return {it for it in named if "+" not in it.split("::")[-1]}


def functions_of(crate, edit: Edit, names: set[str]) -> set[str]:
    """The functions whose code an edit changes, and the one of its clause; the empty set where they aren't known."""
    found = {it for it in names if it.split("::")[-1] == edit.function} if edit.function else set()
    for path, old, _ in pairs_of(edit):
        if not path.startswith("src/"):
            continue
        text = (Path(crate.folder) / path).read_text()
        own = re.findall(r"^(?! *//).*\bfn (\w+)", text[: text.find(old)] + old, re.M)
        module = path.removeprefix("src/").removesuffix(".rt").replace("/", "::").removesuffix("::mod")
        within = [] if re.search(r"\b(const|static) ", old) or not own else [
            it for it in names if (module == "lib" or it.startswith(f"{module}::")) and (it.split("::")[-1] == own[-1] or f"fn::{own[-1]}::" in it)
        ]
        if not within:
            return set()
        found |= set(within)
    return found


def try_edits(rt, edits: list[Edit]) -> bool:
    """Tries edits of one crate over the libraries that `rt ci` kept; prints each, and returns whether all
    are refused well. One check tries several edits, each in functions of its own. What it does not show
    of an edit is tried again by a check of that edit alone."""
    crate = next(it for it in rt.rtlib.crates_below(str(TOP)) if it.name == edits[0].crate)
    names = provide(rt, crate)
    batches: list[Batch] = []
    is_well = True
    for edit in edits:
        texts, why = rt.read_edit(str(edit.path), crate.folder)
        functions = functions_of(crate, edit, names)
        if why:
            is_well &= done(edit, {"unread": why})
        elif not any(it.takes(crate, edit, functions) for it in batches):
            batches.append(Batch([(edit, functions)], texts, functions))
    for batch in batches:
        ran = run(rt, crate, batch.texts, batch.functions)
        for edit, functions in batch.edits:
            its = part_of(ran, functions) if len(batch.edits) > 1 else ran
            if len(batch.edits) > 1 and not judge(edit, its).is_well and not misfits_of(its):
                its = run(rt, crate, rt.read_edit(str(edit.path), crate.folder)[0], functions)
            is_well &= done(edit, tried_again(rt, crate, edit, functions, its))
    return is_well


def part_of(ran: dict, functions: set[str]) -> dict:
    """What a check of a batch said of some functions: the lines of their answers, and those before each function's own line."""
    kept, waiting = [], []
    for line in ran["output"].splitlines():
        if answer := ANSWER.match(line):
            kept += [line] if answer[1].replace("/", "::") in functions else []
            continue
        waiting.append(line)
        if named := re.match(r"fn \w+::(\S+): ", line):
            kept += waiting if named[1] in functions else []
            waiting = []
    refused = any(re.match(r"fn \S+: (no proof|not proved)", it) for it in kept)
    return {**ran, "status": int(refused), "output": "\n".join(kept)}


def misfits_of(ran: dict) -> list[Refusal]:
    """The answers that don't fit their goals, and those whose goals are gone."""
    return [] if ran["unread"] else [it for it in refusals(ran["output"]) if it.kind in ("answer", "gone")]


def tried_again(rt, crate, edit: Edit, functions: set[str], ran: dict) -> dict:
    """What came of an edit. Where answers don't fit their goals, it is tried once more without these answers,
    so that the prover's own search judges the goals. The right body in its form is tried, too."""
    misfits = misfits_of(ran)
    if misfits and not judge(edit, ran).is_well:
        texts = rt.read_edit(str(edit.path), crate.folder)[0]
        first = ran["output"]
        ran = run(rt, crate, without_answers(crate, texts, misfits), functions, texts)
        ran["first"] = first
    if right := right_form(edit):
        ran["is_right_proved"] = run(rt, crate, rt.edited(right, crate.folder)[0], functions)["status"] == 0
    return ran


def done(edit: Edit, ran: dict) -> bool:
    """Keeps what came of an edit, prints it, and returns whether the edit is refused well."""
    ran = {**ran, "sum": edit.sum, "date": time.strftime("%Y-%m-%d")}
    store(edit, ran)
    return show(edit, judge(edit, ran), ran)


def right_form(edit: Edit) -> str:
    """The edit with the right body in the form of the wrong one; the empty text where it has none."""
    text, count = re.subn(r"^new: .*\nright: (.*)$", r"new: \1", edit.path.read_text(), flags=re.M)
    return text if count else ""


def run(rt, crate, texts: dict, functions: set[str], changed: dict | None = None) -> dict:
    """What the prover says of these functions of the crate, with these texts, and the processor's seconds;
    `changed` are the texts of the edit alone, where `texts` has more."""
    only = [word for it in sorted(functions) for word in ("--only", it)]
    before = resource.getrusage(resource.RUSAGE_CHILDREN)
    done = rt.checked(crate, texts, ["--jobs", "1", *only], None)
    gone = re.search(r"has no function `([^`]+)`", done.stdout)
    if gone and gone[1] in functions and len(functions) > 1:
        # A closure has the name of the call that it is handed to, which an edit may change.
        return run(rt, crate, texts, functions - {gone[1]}, changed)
    after = resource.getrusage(resource.RUSAGE_CHILDREN)
    unread = next((it for it in done.stdout.splitlines() if rt.unread(it, changed or texts)), "")
    seconds = after.ru_utime + after.ru_stime - before.ru_utime - before.ru_stime
    return {"status": done.returncode, "output": done.stdout, "unread": unread, "seconds": round(seconds, 1)}


def without_answers(crate, texts: dict, misfits: list[Refusal]) -> dict:
    """The edited texts, without the answers of these goals and those that cite one of them."""
    made = dict(texts)
    for it in misfits:
        path = f"proofs/{it.function.replace('::', '/')}/Answers.antt"
        kept = Path(crate.folder) / path
        # A function that the edit adds has no answers.
        if path in made or kept.is_file():
            made[path] = without(made.get(path) or kept.read_text(), it.goal)
    return made


def without(text: str, goal: str) -> str:
    """The text of answers without this one, and without those that cite it. Blank lines are between answers."""
    kept = [it for it in text.split("\n\n") if not re.match(rf"(?:--.*\n)*(?:abbrev )?pub {re.escape(goal)} :", it)]
    left = "\n\n".join(kept)
    for it in kept:
        named = re.match(r"(?:--.*\n)*(?:abbrev )?pub (\S+) :", it)
        if named and len(kept) < len(text.split("\n\n")) and re.search(rf"(?<![\w.-]){re.escape(goal)}(?![\w-])", it):
            left = without(left, named[1])
    return left


def kept_at(edit: Edit) -> Path:
    return CRATES / edit.crate / "out" / "edits" / f"{edit.path.stem}.json"


def store(edit: Edit, ran: dict) -> None:
    kept_at(edit).parent.mkdir(parents=True, exist_ok=True)
    kept_at(edit).write_text(json.dumps(ran, indent=1))


def show(edit: Edit, verdict: Verdict, ran: dict) -> bool:
    said = f"refused by {verdict.by}" if verdict.is_well else f"FAILED: {verdict.why}"
    print(f"{edit.crate}/{edit.path.stem} ({edit.kind}): {said} [{ran.get('seconds', 0)} s]", flush=True)
    return verdict.is_well


# ---- the page


def rows_before() -> dict[tuple[str, str], str]:
    """What refused each edit of the page as it is, by crate and edit."""
    found, crate = {}, ""
    for line in PAGE.read_text().splitlines() if PAGE.is_file() else []:
        if head := re.match(r"\*\*`(\w+)`\*\*", line):
            crate = head[1]
        elif re.match(r"[a-z_0-9]+(  |$)", line):
            name, _, by = line.partition(" ")
            found[crate, name] = by.strip()
    return found


def git(*words: str) -> subprocess.CompletedProcess:
    return subprocess.run(["git", *words], cwd=TOP, capture_output=True, text=True)


def is_unchanged(edit: Edit, since: str) -> bool:
    """Whether the edit is what it was at a commit, in the gate or beside it, but for the words of its row and the file's name."""
    for folder in KINDS:
        known = git("show", f"{since}:crates/{edit.crate}/{folder}/{edit.path.name}")
        if known.returncode == 0 and lines_of(known.stdout) == lines_of(edit.path.read_text()):
            return True
    return False


def lines_of(text: str) -> str:
    """The old and the new lines of an edit, and its clause."""
    return re.sub(r"^(body|file): .*\n", "", text, flags=re.M)


def last_try(edit: Edit) -> dict:
    """The last try of an edit as it is now; nothing where it has none."""
    ran = json.loads(kept_at(edit).read_text()) if kept_at(edit).is_file() else {}
    return ran if ran.get("sum") == edit.sum else {}


def row(edit: Edit, before: dict, since: str) -> list[str]:
    """The line of an edit: by its last try, or as the page has it where the edit is unchanged since the commit that wrote the page."""
    name = edit.path.stem
    if ran := last_try(edit):
        verdict = judge(edit, ran)
        return [name, short(verdict.by) if verdict.is_well else NOT_REFUSED]
    return [name, before.get((edit.crate, name), "") if is_unchanged(edit, since) else ""]


def short(by: str) -> str:
    """The function and the clause, without the function's modules."""
    return re.sub(r"^(?:[a-z_0-9]+::)+(?=\w)", "", by)


def when(edits: list[Edit]) -> str:
    """The line with the days on which all edits were tried as they are; that of the page where some were not."""
    days = sorted(last_try(it).get("date", "") for it in edits)
    if days and days[0]:
        return f"All were tried from {days[0]} to {days[-1]}.\n"
    known = re.search(r"^.* were tried from .*\n", PAGE.read_text(), re.M)
    return known[0] if known else ""


def table(found: dict[str, list[list[str]]]) -> str:
    """The lines of edits, by crate, in columns."""
    text = ""
    for crate, rows in found.items():
        wide = max(len(name) for name, _ in rows)
        lines = [f"{name:{wide}}  {by}".rstrip() for name, by in rows]
        text += f"\n**`{crate}`**\n\n```\n" + "".join(it + "\n" for it in lines) + "```\n"
    return text


def write() -> int:
    edits, before = edits_of([]), rows_before()
    since = git("log", "-1", "--format=%H", "--", str(PAGE)).stdout.strip()
    rows = {kind: {} for kind in KINDS.values()}
    for it in edits:
        rows[it.kind].setdefault(it.crate, []).append(row(it, before, since))
    PAGE.write_text(HEAD + "\n" + when(edits) + GATE + table(rows["gate"]) + BESIDE + table(rows["beside"]))
    return 0


HEAD = """# Wrong bodies, and the clauses that refuse them

<!-- written by tools/pathd-tools edits --write -->

Each line is an edit: a wrong body of one function, for what it does. Then come the function and the
clause whose goal the prover refuses; a function alone has one clause without a name. A line without
them is of an edit that was not tried as it is now.
"""

GATE = """
## In the gate

These are in `crates/CRATE/must-fail/`, and `rt ci` tries them.
"""

BESIDE = """
## Beside the gate

These are in `crates/CRATE/more-edits/`, which the gate does not read. `tools/pathd-tools edits
CRATE --beside` tries them.
"""


def main(words: list[str]) -> int:
    options = parser(__doc__)
    options.add_argument("crates", nargs="*", metavar="CRATE", help="the crates whose edits are tried; all, if none is named")
    options.add_argument("--gate", action="append_const", dest="kinds", const="gate", help="the edits of must-fail/ alone")
    options.add_argument("--beside", action="append_const", dest="kinds", const="beside", help="those of more-edits/ alone")
    options.add_argument("--only", action="append", default=[], metavar="EDIT", help="this edit alone")
    options.add_argument("--judge", action="store_true", help="print the last results again, and try nothing")
    options.add_argument("--write", action="store_true", help="write crates/EDITS.md by the last results, and try nothing")
    asked = options.parse_args(words)
    if asked.write:
        return write()
    chosen = [
        it for it in edits_of(asked.crates)
        if (not asked.only or it.path.stem in asked.only) and (not asked.kinds or it.kind in asked.kinds)
    ]
    if asked.judge:
        chosen = [it for it in chosen if kept_at(it).is_file()]
        return not all([show(it, judge(it, ran), ran) for it in chosen for ran in [json.loads(kept_at(it).read_text())]])
    # Two runs that lay out the libraries of one checkout at a time would lose what is kept of them.
    with (TOP / "crates.txt").open() as own:
        fcntl.flock(own, fcntl.LOCK_EX)
        return try_all(chosen)


def try_all(chosen: list[Edit]) -> int:
    """Tries edits, those of one crate after those of another."""
    rt = load_rt()
    return not all([try_edits(rt, [it for it in chosen if it.crate == name]) for name in dict.fromkeys(it.crate for it in chosen)])
