"""Builds a program of a repository, or the tests of a crate, without proofs: for tests in minutes,
for measurements, and for attacks on wrong bodies.

`rt try` compiles a program without proving it, checks what it does as it runs, and keeps nothing.
Here it is run by a kit whose clang keeps the module that it is given and stops. That module is then
compiled by the kit's own clang without the checks of memory, and linked as `rt run` links. Overflow
and indices are tested at run time as far as `rt try` has them tested. So such a program may be
slower than the proved one, and nothing is known of it.
"""
from __future__ import annotations

import os
import shutil
import tempfile
from collections.abc import Callable, Sequence
from pathlib import Path
from typing import Any

from pathd_tools import bounded

# The stages of a build.
FRONT_END, LLVM, LINKER = "front end", "LLVM", "linker"
TARGET = "x86_64-unknown-linux-gnu"
# Words of rt try's clang that ask for its checks, for their speed of compilation, or for files.
LEFT_OUT = {"-O0", "-fsanitize=address", "-Werror"}
# The seconds that each step of a build may take: a minute is enough on a machine with nothing else to do.
LIMIT = 3600
# The least bytes of a module of a program; `rt try` also compiles small ones of its own.
LEAST = 20_000
KEEPING = """#!/bin/sh
for word in "$@"; do
  case $word in
  *.bc)
    if [ "$(stat -c %s "$word")" -gt {least} ]; then
      cp "$word" '{kept}/module.bc'
      printf '%s\\n' "$@" > '{kept}/words'
      exit 1
    fi
    ;;
  esac
done
exec '{clang}' "$@"
"""


class NotBuilt(SystemExit):
    """Says why a program is not built. It ends a tool that does not catch it."""


def kit_of_rt() -> Path:
    """The folder of the kit whose `rt` is on the PATH."""
    rt = shutil.which("rt")
    if rt is None:
        raise SystemExit("no rt: the toolchain's folder bin/ has to be on the PATH")
    return Path(rt).resolve().parent.parent


def link_all(source: Path, to: Path, but: set[str]) -> None:
    """Makes a folder of links to what another one has, but for these names."""
    to.mkdir(parents=True)
    for it in source.iterdir():
        if it.name not in but:
            (to / it.name).symlink_to(it)


def keeping_kit(kit: Path, folder: Path) -> Path:
    """A kit of links whose clang keeps in the folder `kept` what it is to compile."""
    (folder / "kept").mkdir()
    link_all(kit, folder / "kit", {"bin", "toolchain"})
    # The kit's programs in Python find their kit by their own place.
    link_all(kit / "bin", folder / "kit" / "bin", {"rt", "rtlib.py", "rattle"})
    for name in ("rt", "rtlib.py"):
        shutil.copy(kit / "bin" / name, folder / "kit" / "bin" / name)
    # A prover that does nothing: rt try asks it for a hint alone, at the price of a second front end.
    (folder / "kit" / "bin" / "rattle").symlink_to("/bin/true")
    link_all(kit / "toolchain", folder / "kit" / "toolchain", {"bin"})
    link_all(kit / "toolchain" / "bin", folder / "kit" / "toolchain" / "bin", {"clang"})
    clang = folder / "kit" / "toolchain" / "bin" / "clang"
    clang.write_text(KEEPING.format(least=LEAST, kept=folder / "kept", clang=kit / "toolchain" / "bin" / "clang"))
    clang.chmod(0o755)
    return folder / "kit"


def step(words: Sequence[str | Path], what: str, made: Path, **how: Any) -> None:
    """Runs a step of a build that makes a file, or raises NotBuilt."""
    done = bounded.run(words, LIMIT, **how)
    if done.is_late:
        raise NotBuilt(f"{done.text}{what} had not ended after {LIMIT} s")
    if not made.exists():
        raise NotBuilt(f"{done.text}{what} failed")


def keep_module(crate: Path, kit: Path, kept: Path, has_tests: bool) -> list[str]:
    """Has the module of a program, or of a crate's tests, kept, and answers the words with which it was to be compiled."""
    words = [str(kit / "bin" / "rt"), "try", *(["--test"] if has_tests else []), "--steps", "1", "--seconds", "1"]
    step(words, f"rt try in {crate.name}", kept / "words", cwd=crate, env={**os.environ, "TMPDIR": str(kept.parent)})
    return (kept / "words").read_text().splitlines()


def compiler_words(words: list[str], kit: Path, kept: Path, level: int) -> list[str]:
    """The words by which the kit's clang compiles a module that was kept to `kept`/module.o."""
    clang = kit / "toolchain" / "bin" / "clang"
    left = [word for word in words if word not in LEFT_OUT]
    changed = {"module.bc": str(kept / "module.bc"), "module.o": str(kept / "module.o")}
    sysroot = f"--sysroot={kit / 'toolchain'}"
    return [str(clang), *(sysroot if word.startswith("--sysroot=") else changed.get(word, word) for word in left), f"-O{level}"]


def build(
    crate: Path, program: Path, level: int = 1, has_tests: bool = False, begin: Callable[[str], None] = lambda _: None, objects: Sequence[Path] = ()
) -> None:
    """Builds the program of a crate's folder, or that of its tests, by LLVM at an optimization level; else it raises NotBuilt.

    `begin` is called with the name of each stage as it begins. The objects are linked into the program.
    """
    kit = kit_of_rt()
    with tempfile.TemporaryDirectory(prefix="pathd-build-") as name:
        folder = Path(name)
        begin(FRONT_END)
        words = keep_module(crate, keeping_kit(kit, folder), folder / "kept", has_tests)
        module = folder / "kept" / "module.o"
        begin(LLVM)
        step(compiler_words(words, kit, folder / "kept", level), f"clang for {crate.name}", module, cwd=folder)
        libraries = [str(kit / "c" / it) for it in ("libos_c.a", "liblibc_c.a")]
        begin(LINKER)
        linker = [str(kit / "bin" / "rattle-link"), "--target", TARGET, "--toolchain", str(kit / "toolchain")]
        step([*linker, "-o", str(program), str(module), *objects, *libraries], f"the linker for {crate.name}", program)
