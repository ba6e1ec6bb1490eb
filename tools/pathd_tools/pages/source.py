"""Reads the sources of the repository: functions with their clauses, types, definitions of specs/,
and what these import."""
from __future__ import annotations

import re
from dataclasses import dataclass, field
from functools import cache
from pathlib import Path

from pathd_tools import TOP

CRATES = TOP / "crates"

FUNCTION = re.compile(r"^(\s*)(pub )?(?:pub\([a-z]+\) )?(?:const |unsafe |final )*fn (\w+)")
TYPE = re.compile(r"^(pub )?(?:pub\([a-z]+\) )?(struct|enum|trait|type) (\w+)")
CLAUSE = re.compile(r"^\s*(ensures|requires)\s+(\w+)?\s*\{")
DEFINITION = re.compile(r"^(\s*)(?:unfoldable (?:pub )?|abbrev (?:pub )?|(?:pub )?(?:data|record) (?=.* (?:: Type|where)))([^\s:{]+)(?=\s|$)")
IMPORT = re.compile(r"^\s*(?:pub )?(?:ghost )?use ([\w.◌]+)(?:\.\{([^}]*)\}| as (\w+));?\s*$")
WORD = re.compile(r"[^\s(){}\[\];,λ]+")
# What is no code: comments, texts and single characters.
NO_CODE = re.compile(r"""//[^\n]*|b?"(?:\\.|[^"\\])*"|b?'(?:\\u\{\w*\}|\\x..|\\.|[^'\\\n])'""", re.S)


@dataclass
class Function:
    """A function: where it is, the names of its clauses (an unnamed one is the empty text), and its text up to its body."""

    crate: str
    path: Path
    line: int
    name: str
    is_public: bool
    is_test: bool
    head: str
    clauses: dict[str, str] = field(default_factory=dict)

    @property
    def module(self) -> str:
        """The path that `rt check --only` takes, without the name of a type."""
        return "::".join([*self.path.relative_to(CRATES / self.crate / "src").with_suffix("").parts, self.name])


@dataclass
class Definition:
    """A definition of specs/, or a type of the code: where it is, and its text without comments and blank lines."""

    path: Path
    line: int
    name: str
    text: str

    @property
    def lines(self) -> int:
        return self.text.count("\n") + 1


def uses() -> dict[str, list[str]]:
    """The crates that each crate uses, as crates.txt has them: from the lowest up."""
    rows = (it.split("#")[0].partition(":") for it in (TOP / "crates.txt").read_text().splitlines())
    return {name.split()[0]: used.split() for name, _, used in rows if name.strip()}


def crates() -> list[str]:
    """The crates, in the order of crates.txt, which is from the lowest up."""
    return [it for it in uses() if (CRATES / it).is_dir()]


def is_of_tests(crate: str) -> bool:
    """Whether a crate has tests, or is a program or a library of tests."""
    return crate.startswith("test_")


def libraries() -> list[str]:
    """The crates that are not of tests."""
    return [it for it in crates() if not is_of_tests(it)]


@cache
def lines_of(path: Path) -> tuple[str, ...]:
    return tuple(path.read_text().splitlines())


def masked(text: str) -> str:
    """The text of a file of code with spaces in place of comments, texts and characters."""
    return NO_CODE.sub(lambda it: re.sub(r"[^\n]", " ", it[0]), text)


def code_lines(lines: tuple[str, ...] | list[str]) -> list[str]:
    """The lines that are neither blank nor a comment."""
    return [it for it in lines if it.strip() and not re.match(r"\s*(--|//)", it)]


@cache
def functions(crate: str) -> tuple[Function, ...]:
    found = []
    for path in sorted((CRATES / crate / "src").rglob("*.rt")):
        lines = lines_of(path)
        for at, line in enumerate(lines):
            head = FUNCTION.match(line)
            if head:
                end = end_of_head(lines, at, head[1])
                is_test = any("#[test]" in it for it in lines[max(at - 3, 0):at])
                made = Function(crate, path, at + 1, head[3], bool(head[2]), is_test, "\n".join(lines[at:end]))
                made.clauses = clauses_of(lines[at:end])
                found.append(made)
    return tuple(found)


def end_of_head(lines: tuple[str, ...], at: int, indent: str) -> int:
    """The line at which the body of a function begins, or after which a method without one ends."""
    for end in range(at, len(lines)):
        text = lines[end]
        if end > at and re.match(rf"^{indent}\{{", text):
            return end
        if end >= at and not CLAUSE.match(text) and re.search(r"(\{|\{\}|;)\s*$", text):
            return end + 1
    return len(lines)


def clauses_of(lines: tuple[str, ...]) -> dict[str, str]:
    """The `ensures` clauses by their names, each with its text."""
    found: dict[str, str] = {}
    name = None
    for line in lines:
        clause = CLAUSE.match(line)
        if clause:
            name = (clause[2] or "") if clause[1] == "ensures" else None
        if name is not None and not line.strip().startswith("//"):
            found[name] = found.get(name, "") + line + "\n"
    return found


@cache
def definitions(path: Path) -> dict[str, Definition]:
    """The definitions of a file of specs/, by their names."""
    found: dict[str, Definition] = {}
    lines = lines_of(path)
    starts = []
    for at, line in enumerate(lines):
        head = DEFINITION.match(line)
        if head:
            starts.append((at, head[2]))
    for at, name in starts:
        end = at + 1
        indent = len(lines[at]) - len(lines[at].lstrip())
        while end < len(lines) and not ends(lines, end, indent, name):
            end += 1
        found.setdefault(name, Definition(path, at + 1, name, "\n".join(code_lines(lines[at:end]))))
    return found


def ends(lines: tuple[str, ...], at: int, indent: int, name: str) -> bool:
    """Whether the definition of a name, which begins at an indent, has ended before this line."""
    line = lines[at].strip()
    own = len(lines[at]) - len(lines[at].lstrip())
    if not line or own > indent:
        return False
    if line.startswith("--"):
        later = next((it.strip() for it in lines[at:] if it.strip() and not it.strip().startswith("--")), "")
        return not later.startswith(name + " ")
    return own < indent or line.startswith(("abbrev ", "pub ", "unfoldable ", "infix", "module ", "use ", "data ", "record "))


@cache
def imports(path: Path) -> dict[str, tuple[str, str]]:
    """What a file imports: the name that it uses, with the module and the name there. A module under another name has no name there."""
    found: dict[str, tuple[str, str]] = {}
    for line in lines_of(path):
        it = IMPORT.match(line)
        if not it:
            continue
        if it[3]:
            found[it[3]] = (it[1], "")
        for word in (it[2] or "").split(","):
            word = word.strip()
            if word:
                there, _, here = word.partition(" as ")
                found[here or there] = (it[1], there)
    return found


def spec_file(module: str) -> Path | None:
    """The file of specs/ that a module's path names, if it is one of this repository."""
    parts = module.split(".")
    if len(parts) < 4 or parts[0] != "Rattle" or parts[2] != "specs" or parts[3] == "declared":
        return None
    path = CRATES / parts[1] / "specs" / ("/".join(parts[3:]) + ".antt")
    return path if path.is_file() else None


@cache
def declared_type(module: str) -> Definition | None:
    """The type of the code that a module's path declares, if it is one of this repository."""
    parts = module.split(".")
    if len(parts) < 6 or parts[0] != "Rattle" or parts[3] != "declared" or not (CRATES / parts[1]).is_dir():
        return None
    names = parts[4:]
    for depth in range(len(names) - 1, 0, -1):
        path = CRATES / parts[1] / "src" / ("/".join(names[:depth]) + ".rt")
        if path.is_file():
            return type_in(path, names[depth])
    return None


@cache
def type_in(path: Path, name: str) -> Definition | None:
    lines = lines_of(path)
    for at, line in enumerate(lines):
        head = TYPE.match(line)
        if head and head[3] == name:
            end = at
            while end < len(lines) and not re.match(r"^\}|.*;\s*$|.*\{\}\s*$", lines[end]):
                end += 1
            seen = model_of(lines, name) or without_attributes(code_lines(lines[at:end + 1]))
            return Definition(path, at + 1, name, "\n".join(seen))
    return None


def without_attributes(lines: list[str]) -> list[str]:
    """The lines that are no attribute, such as the text of an error."""
    return [it for it in lines if not it.strip().startswith("#[")]


def model_of(lines: tuple[str, ...], name: str) -> list[str]:
    """What contracts see of a type with a model: the type of its values. None of its fields is seen."""
    for at, line in enumerate(lines):
        if re.match(rf"^impl.* Model for {name}\b", line):
            for text in lines[at:]:
                if re.match(r"\s*ghost Value =", text):
                    return [f"{line} {text.strip()} }}"]
                if text.startswith("}"):
                    break
    return []


@cache
def types(crate: str) -> dict[str, Definition]:
    """The types of a crate that are declared at the left margin, by their names."""
    found = {}
    for path in sorted((CRATES / crate / "src").rglob("*.rt")):
        for line in lines_of(path):
            head = TYPE.match(line)
            if head and head[3] not in found:
                made = type_in(path, head[3])
                if made:
                    found[head[3]] = made
    return found


def cites(text: str, name: str) -> bool:
    """Whether a text uses a name; of an operator, whether it has its sign."""
    if "◌" in name:
        signs = [it for it in name.split("◌") if it.strip()]
        if name == "◌>>=◌" and re.search(r"\bdo\b|←", text):
            return True
        return all(it in text for it in signs)
    return bool(re.search(rf"(?<![\w?']){re.escape(name)}(?![\w?'])", text))
