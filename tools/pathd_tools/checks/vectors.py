"""Runs each case of folders against the built program, prints what differs, and counts it.

    tools/pathd-tools vectors [-p PROGRAM] FOLDER..

PROGRAM is crates/pathd/out/pathd if left out, which `rt run` builds. A case is the files NAME.args,
the program's words, one a line; NAME.in, hexadecimal text, which is standard input as it is
where --hex is among the words, and else encodes it; NAME.out, standard output; NAME.err, the line
of standard error that begins with `error:`, which is not compared where the status is 2; and
NAME.status, the exit status. A case may have NAME.note, which says what it is about. A case over a
file has @DEV among its words in place of the file's path, and no NAME.in: NAME.img.gz is the file
before, packed, where there is one, and NAME.after its SHA-256 afterwards, in hexadecimal digits.
"""
from __future__ import annotations

import gzip
import hashlib
import os
import subprocess
import tempfile
from pathlib import Path

from pathd_tools import runs, toolbox

SECONDS = 60
# The status of a run that was ended after these seconds, as the command `timeout` gives it.
TIMED_OUT = 124
# Most characters of an output that are printed where it differs.
MOST_SHOWN = 200


def part(case: Path, ending: str) -> bytes | None:
    """The file of a case with an ending, or None."""
    path = case.with_name(f"{case.name}.{ending}")
    return path.read_bytes() if path.exists() else None


def given_to(case: Path, words: list[str]) -> bytes:
    """The standard input of a case."""
    text = part(case, "in") or b""
    return text if "--hex" in words else bytes.fromhex("".join(text.decode().split()))


def differs(what: str, got: bytes, wanted: bytes) -> str:
    """Says what an output is and what it has to be."""
    shown = [text.decode(errors="replace").strip()[:MOST_SHOWN] or "empty" for text in (got, wanted)]
    return f"{what} is {shown[0]}, not {shown[1]}" if shown[0] != shown[1] else f"{what} differs after {MOST_SHOWN} characters, or in spaces"


def run_case(program: str, case: Path, device: Path) -> list[str]:
    """What differs in a case."""
    args = [os.fsdecode(word) for word in (part(case, "args") or b"").splitlines()]
    words = [str(device) + word.removeprefix("@DEV") if word.startswith("@DEV") else word for word in args]
    device.unlink(missing_ok=True)
    image = part(case, "img.gz")
    if image is not None:
        device.write_bytes(gzip.decompress(image))
    try:
        done = subprocess.run([program, *words], input=given_to(case, args), capture_output=True, check=False, timeout=SECONDS)
        status, out, err = done.returncode, done.stdout, done.stderr
    except subprocess.TimeoutExpired as ended:
        status, out, err = TIMED_OUT, ended.stdout or b"", ended.stderr or b""
    found = []
    wanted = int(part(case, "status") or b"")
    if status != wanted:
        found.append(f"status {status}, not {wanted}")
    if out != part(case, "out"):
        found.append(differs("standard output", out, part(case, "out") or b""))
    errors = b"".join(line + b"\n" for line in err.split(b"\n") if line.startswith(b"error:"))
    if wanted != 2 and errors != (part(case, "err") or b""):
        found.append(differs("standard error", errors, part(case, "err") or b""))
    after = part(case, "after")
    if after is not None and (not device.exists() or hashlib.sha256(device.read_bytes()).hexdigest().encode() != after[:64]):
        found.append("the file differs")
    return found


def run_folder(program: str, folder: str, device: Path) -> int:
    """Runs the cases of a folder, and answers how many differ; a folder without cases is one that does."""
    cases = sorted(path.with_suffix("") for path in Path(folder).glob("*.args"))
    wrong = 0
    for case in cases:
        found = run_case(program, case, device)
        note = (part(case, "note") or b"").decode().strip()
        for it in found:
            print(f"{case}{f' ({note})' if note else ''}: {it}")
        wrong += bool(found)
    print(f"{folder}: {len(cases)} cases, {wrong} differ")
    return wrong if cases else 1


def main(words: list[str]) -> int:
    """Runs the cases of all folders."""
    parser = toolbox.parser(__doc__)
    parser.add_argument("-p", "--program", help="the built program; crates/pathd/out/pathd if left out")
    parser.add_argument("folders", nargs="+", metavar="FOLDER")
    options = parser.parse_args(words)
    program = runs.program_of(options.program)
    with tempfile.TemporaryDirectory() as scratch:
        return 1 if sum([run_folder(program, folder, Path(scratch) / "device") for folder in options.folders]) else 0
