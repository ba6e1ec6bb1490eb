"""The tests of crates, and the programs whose output is stored beside their sources, each built
without a proof."""
from __future__ import annotations

import difflib
import re
import shutil
import tempfile
from pathlib import Path
from typing import Any

from pathd_tools import bounded, building
from pathd_tools.pages import source
from pathd_tools.pages.source import CRATES
from pathd_tools.testing.jobs import Result

# LLVM's optimization levels, where it is not 1: tests that take longer to run than to compile.
LEVELS = {"test_fuses": 3}
# The seconds that a test may take, a crate's tests together, and a program.
TEST, TESTS, PROGRAM = 120, 1800, 120
# Most lines of a difference that are printed.
MOST_LINES = 40
LINE = re.compile(r"^test .* \.\.\. (\w+)", re.M)


def has_tests(crate: str) -> bool:
    """Whether a crate has tests."""
    return any("#[test]" in path.read_text() for path in (CRATES / crate / "src").rglob("*.rt"))


def is_program(crate: str) -> bool:
    """Whether a crate is a program, whose output is stored."""
    return (CRATES / crate / "src/main.rt").exists()


def size(crate: str) -> int:
    """The bytes of a crate's sources, which say about how long its tests take to be built."""
    return sum(path.stat().st_size for path in (CRATES / crate / "src").rglob("*.rt"))


def tested() -> list[str]:
    """The crates that have tests or a stored output, the largest first."""
    return sorted((it for it in source.crates() if has_tests(it) or is_program(it)), key=size, reverse=True)


def run_tests(crate: str, word: str = "") -> Result:
    """Builds and runs the tests of a crate, all or those whose names have a word."""
    with tempfile.TemporaryDirectory(prefix="pathd-test-") as name:
        folder = Path(name)
        program = folder / f"{crate}_tests"
        try:
            building.build(CRATES / crate, program, LEVELS.get(crate, 1), has_tests=True)
        except building.NotBuilt as why:
            return Result(0, 1, "not built", str(why))
        runner = building.kit_of_rt() / "bin" / "rattle-test"
        chosen = ["--filter", word] if word else []
        return counted(bounded.run([runner, "--seconds", str(TEST), *chosen, program], TESTS, **place(folder)))


def try_tests(crate: str) -> Result:
    """Runs the tests of a crate by `rt try`, which checks each access of memory."""
    return counted(bounded.run(["rt", "try", "--test", "--seconds", str(TESTS)], TESTS, cwd=CRATES / crate))


def counted(done: bounded.Ran) -> Result:
    """How many tests of a run passed, with what it printed but for these."""
    ends = LINE.findall(done.text)
    passed = ends.count("ok")
    failed = len(ends) - passed
    if done.is_late or (done.status != 0 and not failed):
        failed += 1
    late = f"\nthe tests had not ended after {TESTS} s" if done.is_late else ""
    shown = "\n".join(line for line in done.text.splitlines() if not re.match(r"test .* \.\.\. ok$", line))
    return Result(passed, failed, f"{passed} of {passed + failed} tests" if failed else f"{passed} tests", shown + late)


def place(folder: Path) -> dict[str, Any]:
    """A new folder to run a program in, with no more of the environment than the gate gives."""
    data = folder / "data"
    data.mkdir(exist_ok=True)
    env = {"PATH": "/usr/local/bin:/usr/bin:/bin", "HOME": str(data), "TMPDIR": str(data), "LANG": "C.UTF-8"}
    return {"cwd": data, "env": env}


def stored(crate: str, name: str) -> bytes:
    """The bytes of a file that is stored beside a program's sources; none if there is no such file."""
    path = CRATES / crate / name
    return path.read_bytes() if path.is_file() else b""


def run_program(crate: str, program: Path) -> Result:
    """Builds a program, runs it as the gate does, and compares what it prints and its status with what is stored."""
    try:
        building.build(CRATES / crate, program, LEVELS.get(crate, 1))
    except building.NotBuilt as why:
        return Result(0, 1, "not built", str(why))
    with tempfile.TemporaryDirectory(prefix="pathd-test-") as name:
        if (CRATES / crate / "data").is_dir():
            shutil.copytree(CRATES / crate / "data", Path(name) / "data")
        return compared(crate, bounded.run([program, *arguments(crate)], PROGRAM, stored(crate, "stdin"), is_apart=True, **place(Path(name))))


def try_program(crate: str) -> Result:
    """The same by `rt try`, which checks each access of memory."""
    words = ["rt", "try", "--seconds", str(TESTS), "--", *arguments(crate)]
    return compared(crate, bounded.run(words, TESTS, stored(crate, "stdin"), is_apart=True, cwd=CRATES / crate))


def arguments(crate: str) -> list[str]:
    """The words with which a program is run."""
    return stored(crate, "args").decode().splitlines()


def compared(crate: str, done: bounded.Ran) -> Result:
    """What differs between a run of a program and what is stored."""
    wanted, status = stored(crate, "stdout"), int(stored(crate, "status") or b"0")
    if done.output == wanted and done.status == status:
        return Result(1, 0, f"{len(wanted.splitlines())} lines")
    found, lines = (it.decode(errors="replace").splitlines() for it in (done.output, wanted))
    said = [*difflib.unified_diff(lines, found, "stdout", "printed", lineterm="", n=1)][:MOST_LINES]
    said += ["it had not ended in time"] if done.is_late else [f"status {done.status}, and {status} is wanted"]
    return Result(0, 1, "its output differs", "\n".join([*said, *done.errors.decode(errors="replace").splitlines()[-MOST_LINES:]]))
