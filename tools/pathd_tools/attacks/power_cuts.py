"""Cuts the power of a server at every moment of a recorded run, and opens what is left.

    tools/pathd-tools power-cuts [--program PROGRAM] [--seed N] [--images N] [--for MINUTES] [--commands N] [--restarts N]
                                 [--ahead N] [--rows N] [--copies N] [--jobs N] [--swallowed KIND]

A server on a real file is recorded by a preloaded library (tools/native/recorded_calls.c) while 6
sessions register, remove, purge, look up and list: each write with its bytes, each sync, each
request and each reply, in order. One of them is a session of the listener for lookups. The server
purges by itself each second what has expired. The sessions send 1 to 128 requests before they read
replies, or as many as --ahead says at the most. A run over a store of version 2 and one over a
store of version 1 are recorded, and after each of them N shorter ones, each over an image that a
power cut at a random moment of the one before it leaves. With --rows the first store has so many
rows, so that a checkpoint has many pieces, with commands on all of these rows between them.

Then images are made of the file after each write and each sync. Of a sector that was written since
the last sync that covers it, an image holds what it held before, what was written, a front of the
new bytes, zeros, 0xA5, an open gate or random bytes, sector by sector. `pathd show` opens the images,
many in one process (tools/native/run_again.c). It has to print the rows and the place of a front of the commands, by the places of their
acknowledgements, that

- holds every command acknowledged before the next call on the device,
- has no command that hadn't come before,
- contains a front of which each lookup and each page that was answered before is the answer.

Openings that write are recorded too, and cut at each of their calls: the next opening has to print
the same. So are upgrades of stores of version 1. Of what cuts leave, copies of random sizes are
made, and recorded and cut in the same way: each image is no store, has no half that is open, or
opens to the whole copy, as it does once the last sync has ended. The store that is copied has to
have the bytes that it had.

With --swallowed every second sync of a kind isn't made (`group`, `gate`, `chunks`, `half`,
`close`): the script then has to find losses, and ends with the status 0 where it does. The sync of
a group that follows another one is of the kind `group`, and also serves the other one's gate. A
lost sync of the kind `close` is covered by the next sync of any kind before the half is used, so
that none is found.

--images says about how many images there are of a seed, --commands how many requests a recorded run
has, and --restarts how many runs there are over what cuts of each of the two leave. Each of --jobs
processes cuts so many openings and upgrades as --openings says, and ends after --enough losses.
--copies is how many copies of each recorded run are made and cut.

With --for all of it is repeated with the next seed until so many minutes have passed.

It needs Python 3 and gcc, and the loopback. It ends with the status 1 where an image opens to
anything else, and prints the first ones.
"""
from __future__ import annotations

import argparse
import multiprocessing
import os
import random
import shutil
import subprocess
import time
from collections import Counter
from collections.abc import Iterator
from pathlib import Path

from pathd_model import model
from pathd_tools import runs
from pathd_tools.recording import Disk, Moment, Recorded, events_of, filled, record

SECTOR = model.SECTOR
LAYOUT, WIDE_LAYOUT = model.Layout(64, 516), model.Layout(2048, 516)
SWALLOWED = ["group", "gate", "chunks", "half", "close"]
# The kinds of losses of syncs that images can show.
FOUND_KINDS = SWALLOWED[:4]
# How many losses show that this script sees those that were made on purpose.
ENOUGH = 20
# How many images are opened together.
FILES = 10


# Images


def fixed_images(held: dict[int, list[bytes]]) -> list[tuple[str, dict[int, bytes]]]:
    """The images in which all sectors that aren't kept for certain fare alike."""
    gate = bytes([model.OPEN]) + bytes(SECTOR - 1)
    alike = {
        "old": lambda versions: versions[0],
        "new": lambda versions: versions[-1],
        "zeros": lambda versions: bytes(SECTOR),
        "0xa5": lambda versions: b"\xa5" * SECTOR,
        "open gates": lambda versions: gate,
        "open gates over new bytes": lambda versions: gate[:1] + versions[-1][1:],
    }
    return [(name, {sector: fare(versions) for sector, versions in held.items()}) for name, fare in alike.items()]


def random_sector(versions: list[bytes], chance: random.Random) -> bytes:
    """Anything that may be found in a sector."""
    fate = chance.randrange(8)
    cut = chance.randrange(SECTOR + 1)
    old, new = chance.choice(versions), versions[-1]
    if fate == 0:
        return new[:cut] + old[cut:]
    if fate == 1:
        return old[:cut] + new[cut:]
    if fate == 2:
        return new[:cut] + bytes([chance.choice((0, 0xA5, model.OPEN, 0xFF))]) * (SECTOR - cut)
    if fate == 3:
        return chance.randbytes(SECTOR)
    if fate == 4:
        return bytes([model.OPEN]) + chance.randbytes(SECTOR - 1)
    return old if fate < 6 else new


def random_image(held: dict[int, list[bytes]], chance: random.Random) -> tuple[str, dict[int, bytes]]:
    """One of three kinds of images of sectors that fare each for itself."""
    kind = chance.choice(("subset", "cut", "any", "any"))
    if kind == "subset":
        return kind, {sector: chance.choice(versions) for sector, versions in held.items()}
    if kind == "any":
        return kind, {sector: random_sector(versions, chance) for sector, versions in held.items()}
    # Bytes up to one are new, and those after it are old.
    sectors = list(held)
    cut = chance.randrange(len(sectors) * SECTOR + 1)
    image = {}
    for number, sector in enumerate(sectors):
        within = min(max(cut - number * SECTOR, 0), SECTOR)
        image[sector] = held[sector][-1][:within] + held[sector][0][within:]
    return kind, image


def with_sectors(kept: bytes, sectors: dict[int, bytes]) -> bytes:
    """What is kept, with these sectors in place of its own."""
    image = bytearray(kept)
    for sector, content in sectors.items():
        image[sector * SECTOR : (sector + 1) * SECTOR] = content
    return bytes(image)


def differing(held: bytes, kept: bytes, among: set[int]) -> set[int]:
    """The sectors among some in which two images differ."""
    return {it for it in among if held[it * SECTOR : (it + 1) * SECTOR] != kept[it * SECTOR : (it + 1) * SECTOR]}


class Cutter:
    """Opens images by `show`, some at one time, each in a file of its own."""

    def __init__(self, program: str, libraries: tuple[str, str], folder: Path, first: bytes, layout: model.Layout) -> None:
        paths = [folder / f"image{number}" for number in range(FILES)]
        self.words, self.upgrade_words = [program, "show", str(paths[0])], [program, "upgrade", str(paths[0])]
        self.library, self.folder = libraries[0], folder
        self.again = runs.Again(libraries[1], self.words, folder)
        self.files = [os.open(path, os.O_RDWR | os.O_CREAT | os.O_TRUNC, 0o644) for path in paths]
        self.keep({0: first})
        self.gates = gates_of(layout)
        self.losses: list[str] = []

    def keep(self, sectors: dict[int, bytes]) -> None:
        """Writes sectors to all files."""
        for file in self.files:
            self.lay(sectors, file)

    def lay(self, sectors: dict[int, bytes], file: int) -> None:
        """Writes sectors to a file."""
        for sector, content in sectors.items():
            os.pwrite(file, content, sector * SECTOR)

    def restore(self, kept: bytes, written: set[int], file: int) -> set[int]:
        """Makes a file what is kept again, and answers which sectors weren't; those that were written are looked at first."""
        held = os.pread(file, len(kept) + SECTOR, 0)
        if len(held) != len(kept):
            raise RuntimeError("the file has another length")
        changed = differing(held, kept, written | self.gates)
        self.lay({sector: kept[sector * SECTOR : (sector + 1) * SECTOR] for sector in changed}, file)
        held = os.pread(file, len(kept) + SECTOR, 0)
        if held != kept:
            more = differing(held, kept, set(range(len(kept) // SECTOR)))
            self.lay({sector: kept[sector * SECTOR : (sector + 1) * SECTOR] for sector in more}, file)
            changed |= more
        return changed

    def open_all(self, kept: bytes, images: list[dict[int, bytes]]) -> Iterator[tuple[tuple[int, bytes, bytes], set[int]]]:
        """What `show` answers of each of these images over what is kept, and which sectors the file had otherwise then."""
        for at in range(0, len(images), FILES):
            together = images[at : at + FILES]
            for image, file in zip(together, self.files):
                self.lay(image, file)
            answers = self.again.run(len(together))
            for answer, image, file in zip(answers, together, self.files):
                yield answer, self.restore(kept, set(image), file)

    def show(self) -> tuple[int, bytes, bytes]:
        """What `show` answers of the first file."""
        return self.again.run()[0]

    def run(self, words: list[str], env: dict | None = None) -> tuple[int, bytes, bytes]:
        """What a command answers."""
        done = subprocess.run(words, capture_output=True, check=False, env={**os.environ, **(env or {})})
        return done.returncode, done.stdout, done.stderr

    def close(self) -> None:
        """Ends the command, and closes the files."""
        self.again.close()
        for file in self.files:
            os.close(file)

    def judge(self, run: Recorded, moment: Moment, answer: tuple[int, bytes, bytes], where: str) -> None:
        """Notes a loss where an answer isn't that of a front that has to be there."""
        status, out, err = answer
        if status != 0 or err:
            self.losses.append(f"{where}: status {status}, {err.decode(errors='replace').strip()}")
            return
        place = int(out.rsplit(b"place ", 1)[1]) - run.start
        if not max(moment.acknowledged, moment.seen) <= place <= moment.come:
            self.losses.append(
                f"{where}: {place} commands, where {moment.acknowledged} were acknowledged, {moment.seen} seen and {moment.come} had come"
            )
        elif runs.digest(out) != run.texts[place]:
            self.losses.append(f"{where}: the rows aren't those after {place} commands")


def layout_for(options: argparse.Namespace) -> model.Layout:
    """The layout of the stores that are cut."""
    return WIDE_LAYOUT if options.rows else LAYOUT


def is_about(kind: str, held: dict[int, list[bytes]], layout: model.Layout) -> bool:
    """Whether sectors that aren't kept for certain are those that a kind of swallowed sync is about; so is any where it is a group's."""
    if kind in ("", "group", "gate"):
        return True
    areas = {sector for half in (0, 1) for sector in range(layout.area(half), layout.gate(half) + (kind != "chunks"))}
    return not areas.isdisjoint(held)


def gates_of(layout: model.Layout) -> set[int]:
    """The sectors that an opening may write."""
    return {layout.gate(half) + after for half in (0, 1) for after in (0, 1)}


def cut_opening(cutter: Cutter, kept: bytes, image: dict[int, bytes], answer: tuple, chance: random.Random, words: list[str]) -> int:
    """Records a command over an image, cuts it at each of its calls, and opens what is left; answers the number of images."""
    log = cutter.folder / "opening"
    log.unlink(missing_ok=True)
    file = cutter.files[0]
    cutter.lay(image, file)
    before = os.pread(file, len(kept), 0)
    cutter.run(words, {"LD_PRELOAD": cutter.library, "RECORD": str(log)})
    everywhere = set(range(len(kept) // SECTOR))
    cutter.restore(kept, everywhere, file)
    disk, count = Disk(before), 0
    for number, call in enumerate(events_of(log)):
        disk.follow(call)
        held = disk.dirty()
        images = fixed_images(held) + [random_image(held, chance) for _ in range(6)] if held else [("old", {})]
        synced = {it: bytes(disk.kept[it * SECTOR : (it + 1) * SECTOR]) for it in differing(disk.kept, kept, everywhere)}
        for (name, _), (again, _) in zip(images, cutter.open_all(kept, [{**synced, **torn} for _, torn in images])):
            count += 1
            if again != answer:
                cutter.losses.append(f"{words[1]} cut at its call {number}, {name}: {again[2].decode(errors='replace').strip()} {again[1][-12:]!r}")
    return count


def cut_run(given: tuple) -> tuple[Counter, list[str]]:
    """Checks the images of a run at each of its points that are a worker's own."""
    program, libraries, folder, run, has_upgrades, worker, each, options = given
    openings = options.openings
    folder.mkdir()
    disk = Disk(run.first)
    cutter = Cutter(program, libraries, folder, run.first, layout_for(options))
    chance = random.Random(f"{options.seed}/{run.name}/{worker}")
    seen: set = set()
    kept, written = run.first, set()
    counts: Counter = Counter()
    for number, call in enumerate(run.calls):
        disk.follow(call)
        if call.letter == "s":
            before, kept = kept, bytes(disk.kept)
            changed = differing(before, kept, written)
            cutter.keep({it: kept[it * SECTOR : (it + 1) * SECTOR] for it in changed})
            written = set(disk.dirty())
            seen.clear()
        elif call.letter == "W":
            written |= set(disk.dirty())
        if call.letter not in "Ws" or number % options.jobs != worker:
            continue
        held = disk.dirty()
        if not is_about(options.swallowed, held, layout_for(options)):
            continue
        images = fixed_images(held) if held else [("old", {})]
        if held:
            images += [random_image(held, chance) for _ in range(max(0, each - len(images)))]
        moment = run.moments[number + 1]
        counts["points"] += 1
        unseen = []
        for name, image in images:
            key = tuple(sorted(image.items()))
            if key not in seen or name == "new":
                unseen.append((name, image))
            seen.add(key)
        # Openings that are cut use the files, too.
        opened = list(cutter.open_all(kept, [image for _, image in unseen]))
        for (name, image), (answer, changed) in zip(unseen, opened):
            counts["images"] += 1
            counts[f"image: {name}"] += 1
            if len(held) > 1 or call.letter == "W":
                counts["within writes"] += 1
            cutter.judge(run, moment, answer, f"{run.name}, call {number}, {name}")
            if not changed <= cutter.gates | set(image):
                cutter.losses.append(f"{run.name}, call {number}, {name}: `show` wrote the sectors {sorted(changed - cutter.gates - set(image))}")
            if changed - set(image) and answer[0] == 0:
                counts["openings that write"] += 1
                if counts["openings that write"] <= openings:
                    counts["images of cut openings"] += cut_opening(cutter, kept, image, answer, chance, cutter.words)
        if has_upgrades and counts["upgrades"] < openings and number % 37 == worker and held:
            counts["upgrades"] += 1
            cut_upgrade(cutter, kept, chance, counts)
        if len(cutter.losses) >= (ENOUGH if options.swallowed else options.enough):
            break
    cutter.close()
    return counts, cutter.losses


def cut_upgrade(cutter: Cutter, kept: bytes, chance: random.Random, counts: Counter) -> None:
    """Cuts an upgrade of what is kept at each of its calls."""
    everywhere, file = set(range(len(kept) // SECTOR)), cutter.files[0]
    answer = cutter.show()
    cutter.restore(kept, everywhere, file)
    upgraded = cutter.run(cutter.upgrade_words)
    if upgraded[0] == 0 and upgraded[1] == b"version 2\n":
        held = os.pread(file, len(kept), 0)
        if model.open_image(held).version != 2:
            cutter.losses.append("an upgraded store isn't of version 2")
        after = cutter.show()
        if after != answer:
            cutter.losses.append("an upgraded store shows something else")
    elif not upgraded[2].endswith(b": the journal is sealed\nerror: device 2\n"):
        cutter.losses.append(f"upgrade: {upgraded}")
    cutter.restore(kept, everywhere, file)
    counts["images of cut upgrades"] += cut_opening(cutter, kept, {}, answer, chance, cutter.upgrade_words)


# Copies


def copy_words(chance: random.Random) -> tuple[list[str], model.Layout]:
    """Words of a copy, and the layout that they ask for."""
    if chance.random() < 0.3:
        rows = chance.choice((63, 64, 500))
        return ["--rows", str(rows)], model.Layout(rows + 1, 1_024)
    layout = model.Layout(chance.choice((8, 40, LAYOUT.checkpoint, 100, 257, WIDE_LAYOUT.checkpoint)), chance.choice((LAYOUT.journal, 517, 2_048)))
    return ["--checkpoint", str(layout.checkpoint), "--journal", str(layout.journal)], layout


def opens_to_nothing(image: bytes, answer: tuple[int, bytes, bytes]) -> bool:
    """Whether an image is none of a store or has no half that is open, and `show` says so."""
    try:
        model.open_image(image)
    except model.NoStore as refused:
        line = runs.last_line(answer[2])
        return answer[:2] == (1, b"") and line == str(refused) and line in ("error: open 1", "error: open 3 1")
    return False


def cut_copy(program: str, libraries: tuple[str, str], folder: Path, old: bytes, chance: random.Random, each: int) -> tuple[Counter, list[str]]:
    """Records a copy of a store, cuts it at each of its calls, and opens what is left."""
    words, layout = copy_words(chance)
    db, place = model.open_image(old).fold()
    store, copied, log = folder / "old", folder / "new", folder / "log"
    store.write_bytes(old)
    for path in (copied, log):
        path.unlink(missing_ok=True)
    env = {**os.environ, "LD_PRELOAD": libraries[0], "RECORD": str(log)}
    done = subprocess.run([program, "copy", str(store), str(copied), *words], env=env, capture_output=True, check=False)
    counts, where = Counter({"copies": 1}), f"copy {' '.join(words)} of {len(db)} rows"
    if store.read_bytes() != old:
        return counts, [f"{where}: the store that is copied has other bytes"]
    is_small = sum(5 + len(row.segment) for row in db.values()) > layout.checkpoint * SECTOR - 32
    wanted = (1, b"", "error: copy 3") if is_small else (0, f"copied {len(db)} rows at place {place}\n".encode(), "")
    if (done.returncode, done.stdout, runs.last_line(done.stderr)) != wanted:
        return counts, [f"{where}: {done.returncode}, {done.stdout}, {done.stderr}"]
    if is_small:
        counts["copies that do not fit"] += 1
        return counts, [f"{where}: bytes were written"] if any(copied.read_bytes()) else []
    calls = [call for call in events_of(log) if call.letter in "WwSs"]
    file = {call.descriptor for call in calls if call.letter == "W"}
    disk = Disk(bytes(layout.sectors * SECTOR))
    (folder / "copy").mkdir()
    cutter = Cutter(program, libraries, folder / "copy", bytes(disk.kept), layout)
    whole = (0, model.show_text(db, place), b"")
    for number, call in enumerate(call for call in calls if call.descriptor in file):
        disk.follow(call)
        if call.letter not in "Ws":
            continue
        held = disk.dirty()
        kept = bytes(disk.kept)
        for opened in cutter.files:
            cutter.restore(kept, set(), opened)
        images = (fixed_images(held) + [random_image(held, chance) for _ in range(each)]) if held else [("kept", {})]
        for (name, image), (answer, _) in zip(images, cutter.open_all(kept, [image for _, image in images])):
            counts["images of cut copies"] += 1
            counts["images of cut copies that open"] += answer == whole
            if answer != whole and not opens_to_nothing(with_sectors(kept, image), answer):
                cutter.losses.append(f"{where}, call {number}, {name}: {answer[0]} {answer[1][-12:]!r} {answer[2]!r}")
    if os.pread(cutter.files[0], len(disk.kept) + 1, 0) != copied.read_bytes() or cutter.show() != whole:
        cutter.losses.append(f"{where}: what is synced is not the whole copy")
    cutter.close()
    shutil.rmtree(folder / "copy")
    return counts, cutter.losses


# The script


def cut_all(
    program: str, libraries: tuple[str, str], folder: Path, run: Recorded, has_upgrades: bool, each: int, options: argparse.Namespace
) -> tuple[Counter, list[str]]:
    """Checks the images of a run in several processes, this number of them within each write."""
    given = [
        (program, libraries, folder / f"images_{worker}", run, has_upgrades, worker, each, options) for worker in range(options.jobs)
    ]
    counts: Counter = Counter()
    losses: list[str] = []
    with multiprocessing.Pool(options.jobs) as pool:
        for of_worker, found in pool.imap_unordered(cut_run, given):
            counts += of_worker
            losses += found
    for worker in range(options.jobs):
        shutil.rmtree(folder / f"images_{worker}")
    return counts, losses


def left_of(run: Recorded, chance: random.Random) -> bytes:
    """What a power cut at a random moment of a run leaves."""
    disk = Disk(run.first)
    for call in run.calls[: chance.randrange(len(run.calls) // 4, len(run.calls))]:
        disk.follow(call)
    held = disk.dirty()
    return with_sectors(disk.kept, random_image(held, chance)[1] if held else {})


def cut_lives(program: str, libraries: tuple[str, str], folder: Path, version: int, options: argparse.Namespace) -> tuple[Counter, list[str]]:
    """Records a run over a store of a version and the runs after power cuts, and cuts each of them."""
    total, losses = Counter(), []
    layout, each = layout_for(options), 0
    first = filled(program, folder, layout, version, options.rows, f"{options.seed}/{version}") if options.rows else None
    restarts = 0 if options.swallowed else options.restarts
    for restart in range(1 + restarts):
        seed = f"{options.seed}/{version}/{restart}"
        commands = options.commands if restart == 0 else options.commands // 4
        run = record(program, libraries[0], folder, seed, commands, layout, version, first, options.swallowed, options.ahead, options.rows)
        letters = Counter(call.letter for call in run.calls)
        words = ", ".join(f"{count} {name}" for name, count in sorted(run.replies.items()))
        from_ = f"version {version}" if restart == 0 else f"what a power cut left, {run.start} commands"
        print(f"server over {from_}: {letters['W']} writes, {letters['s']} syncs, {len(run.texts) - 1} commands; {words}", flush=True)
        # The later runs have a quarter of the first one's writes.
        each = each or max(7, 2 * options.images // (4 + restarts) // letters["W"])
        counts, found = cut_all(program, libraries, folder, run, version == 1 and restart == 0, each, options)
        total += counts + Counter({"recorded runs": 1})
        losses += found
        chance = random.Random(seed)
        for _ in range(0 if options.swallowed else options.copies):
            counts, found = cut_copy(program, libraries, folder, left_of(run, chance), chance, 6)
            total += counts
            losses += found
        if losses:
            break
        first = left_of(run, random.Random(seed))
    return total, losses


def cut_seed(program: str, libraries: tuple[str, str], folder: Path, options: argparse.Namespace) -> tuple[Counter, list[str]]:
    """Records and cuts the runs of a seed, over stores of both versions."""
    total, losses = Counter(), []
    for version in (2, 1):
        counts, found = cut_lives(program, libraries, folder, version, options)
        total += counts
        losses += found
    return total, losses


def main(words: list[str]) -> int:
    """Records, cuts, and prints what was found."""
    options, program = runs.begin(__doc__, words, seed=1, images=100_000, further=0.0, commands=6_000, restarts=3, ahead=128, jobs=2, openings=40, rows=0, copies=4,
                                 enough=200, swallowed=["", *SWALLOWED])
    total, losses = Counter(), []
    with runs.scratch() as folder:
        libraries = runs.compiled("recorded_calls.c", folder), runs.compiled("run_again.c", folder)
        while not losses and (not total or time.monotonic() < options.since + 60 * options.further):
            counts, losses = cut_seed(program, libraries, folder, options)
            total += counts + Counter({"seeds": 1})
            options.seed += 1
    images = sum(total[name] for name in ("images", "images of cut openings", "images of cut upgrades", "images of cut copies"))
    runs.end(options, f"{images} images, {len(losses)} losses", losses, total)
    is_right = bool(losses) == bool(options.swallowed in FOUND_KINDS)
    return 0 if is_right else 1
