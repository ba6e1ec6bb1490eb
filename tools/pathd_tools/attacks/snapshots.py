"""Takes snapshots of a store beside its running server, and opens each of them.

    tools/pathd-tools snapshots [--program PROGRAM] [--kind KIND] [--snapshots N] [--sessions N] [--seed N]

Sessions register, remove and purge as fast as they can, over a store whose journals are so small
that checkpoints come all the time. KIND is

    btrfs      `btrfs subvolume snapshot -r` of the subvolume in which the store is
    reflink    `cp --reflink=always` of the store on btrfs
    xfs        the same on XFS
    lvm        `lvcreate --snapshot` of the volume that is the store
    lvm-ext4   the same of the volume on whose file system, ext4, the store is
    loop       the file of a loop device that is the store, copied while the server is stopped: it has what the kernel gave
               to that device, and not what the kernel still keeps of its writes, so it is what a power cut leaves
    plain      `cp --reflink=never`, which is no snapshot: what comes of it is counted, and nothing is wanted of it

`pathd status` of each snapshot has to print the place and the number of rows, and `pathd show` the
rows, after a front of the commands that has all that were acknowledged before the snapshot was
asked for, and none that was sent after it was made. The commands' order is that of their places.

It needs Python 3, the loopback, a free loop device, and to be run as root, since it mounts a file
system in a file in memory. btrfs needs btrfs-progs, xfs xfsprogs, loop mount, and lvm lvm2 and a kernel with
the device mapper. It ends with the status 1 where a snapshot opens to anything else.
"""
from __future__ import annotations

import os
import random
import re
import shutil
import signal
import struct
import subprocess
import threading
import time
from collections import Counter
from collections.abc import Iterator
from contextlib import contextmanager
from dataclasses import dataclass
from pathlib import Path

from pathd_model import model
from pathd_tools import messages, need, runs
from pathd_tools.systems import must

LAYOUT = model.Layout(64, 516)
KEYS = 60
# The bytes of a file system, and of a loop device that is the store.
DISK_BYTES, LOOP_BYTES = 512 << 20, 1 << 20
NEEDED = {"loop": "losetup", "btrfs": "btrfs", "reflink": "btrfs", "plain": "btrfs", "xfs": "xfs", "lvm": "lvm", "lvm-ext4": "lvm"}
# The refusal of a command after which the rows would have no room: it takes no place.
FULL = b"\xff\x52"
# A command of a session comes after a reply, and after at most this number of seconds.
PAUSE = 0.002


@dataclass(frozen=True)
class Snapshot:
    """A snapshot: its store, the first place that wasn't acknowledged before it, and the moment at which it was made."""

    store: Path
    acknowledged: int
    made: float


class Load:
    """Sessions that register, remove and purge, and what each place has."""

    def __init__(self, server: runs.Server, sessions: int, seed: int) -> None:
        self.server = server
        self.ended = threading.Event()
        self.lock = threading.Lock()
        self.places: dict[int, tuple[float, tuple]] = {}
        self.above = 0
        self.faults: list[str] = []
        self.threads = [threading.Thread(target=self._hold, args=(f"{seed} {number}",)) for number in range(sessions)]
        for thread in self.threads:
            thread.start()

    def _hold(self, seed: str) -> None:
        commands = runs.Commands(seed, KEYS, share=0.2)
        connection = self.server.connect()
        replies = runs.Replies(connection)
        try:
            while not self.ended.is_set():
                command = commands.next()
                sent = time.monotonic()
                connection.sendall(messages.command_frame(command))
                content = replies.next()
                if content == FULL:
                    continue
                if content[0] == model.REFUSED:
                    raise OSError(f"a command was answered by {content.hex()}")
                place = struct.unpack(">QIIII", content[1:])[0]
                with self.lock:
                    self.places[place] = sent, command
                    self.above = max(self.above, place + 1)
                time.sleep(commands.random.random() * PAUSE)
        except OSError as fault:
            self.faults.append(str(fault))
        connection.close()

    def end(self) -> None:
        """Ends the sessions, each after its last reply."""
        self.ended.set()
        for thread in self.threads:
            thread.join()


class Place:
    """Where the store is, and how a snapshot of it is taken."""

    def __init__(self, kind: str, folder: Path) -> None:
        self.kind = kind
        self.folder = folder
        self.mounted: list[Path] = []
        # The server, once it runs.
        self.server: subprocess.Popen | None = None
        self.disk = folder / "disk"
        with self.disk.open("wb") as file:
            file.truncate(LOOP_BYTES if kind == "loop" else DISK_BYTES)
        self.device = must("losetup", "-f", "--show", self.disk).strip()
        self.group = f"pathd-snapshot-{os.getpid()}"
        self.live = folder / "live"
        self.store = self.live / "store"

    def make(self) -> None:
        """Makes the file system or the volume."""
        if self.kind == "loop":
            self.store = Path(self.device)
        elif self.kind.startswith("lvm"):
            must("vgcreate", "-q", self.group, self.device)
            must("lvcreate", "-q", "-n", "live", "-L", "48M", self.group)
            volume = Path(f"/dev/{self.group}/live")
            if self.kind == "lvm":
                self.store = volume
            else:
                must("mkfs.ext4", "-q", volume)
                self._mount(volume, self.live)
        elif self.kind == "xfs":
            must("mkfs.xfs", "-q", self.device)
            self._mount(self.device, self.live)
        else:
            must("mkfs.btrfs", "-q", self.device)
            top = self.folder / "top"
            self._mount(self.device, top)
            must("btrfs", "subvolume", "create", top / "live")
            self.live = top / "live"
            self.store = self.live / "store"

    def _mount(self, device: object, folder: Path) -> None:
        must("mount", "--mkdir", device, folder)
        self.mounted.append(folder)

    def _cut(self, taken: Path) -> None:
        """Copies what the loop device has while the server is stopped."""
        self.server.send_signal(signal.SIGSTOP)
        try:
            shutil.copyfile(self.disk, taken)
        finally:
            self.server.send_signal(signal.SIGCONT)

    def take(self, number: int) -> Path:
        """Takes a snapshot, and answers where its store is."""
        if self.kind == "loop":
            taken = self.folder / f"taken{number}"
            self._cut(taken)
            return taken
        if self.kind == "btrfs":
            taken = self.live.parent / f"taken{number}"
            must("btrfs", "subvolume", "snapshot", "-r", self.live, taken)
            return taken / "store"
        if self.kind.startswith("lvm"):
            must("lvcreate", "-q", "--snapshot", "-n", f"taken{number}", "-L", "8M", f"{self.group}/live")
            return Path(f"/dev/{self.group}/taken{number}")
        taken = self.live / f"taken{number}"
        must("cp", "--reflink=always" if self.kind != "plain" else "--reflink=never", self.store, taken)
        return taken

    def open(self, taken: Path, number: int) -> Path:
        """The store of a snapshot, whose file system may have to be mounted."""
        if self.kind != "lvm-ext4":
            return taken
        folder = self.folder / f"mounted{number}"
        self._mount(taken, folder)
        return folder / "store"

    def close(self) -> None:
        """Takes all of it apart."""
        for folder in reversed(self.mounted):
            subprocess.run(["umount", folder], check=False)
        if self.kind.startswith("lvm"):
            subprocess.run(["vgremove", "-q", "-f", self.group], capture_output=True, check=False)
        subprocess.run(["losetup", "-d", self.device], check=False)


@contextmanager
def place_of(kind: str) -> Iterator[Place]:
    """A place for a store, which is taken apart at the end."""
    with runs.scratch() as folder:
        place = Place(kind, folder)
        try:
            place.make()
            yield place
        finally:
            place.close()


def snapshots_beside(place: Place, load: Load, count: int, chance: random.Random) -> list[Snapshot]:
    """Takes snapshots while the load runs."""
    taken = []
    for number in range(count):
        time.sleep(0.05 + chance.random() * 0.2)
        with load.lock:
            acknowledged = load.above
        store = place.take(number)
        taken.append(Snapshot(store, acknowledged, time.monotonic()))
        if load.faults:
            break
    return taken


class Judge:
    """Compares what a snapshot prints with the fold of the commands."""

    def __init__(self, program: str, load: Load, scratch: Path) -> None:
        self.program, self.load, self.scratch = program, load, scratch
        self.db: dict = {}
        self.folded = 0
        self.seen: Counter = Counter()

    def fold(self, place: int) -> dict:
        """The rows after this number of commands; the numbers have to rise from call to call."""
        if place < self.folded:
            self.db, self.folded = {}, 0
        for at in range(self.folded, place):
            model.apply(self.db, self.load.places[at][1])
        self.folded = place
        return self.db

    def fault_of(self, snapshot: Snapshot, store: Path) -> str | None:
        """What is wrong with a snapshot, if anything is."""
        status = subprocess.run([self.program, "status", store], capture_output=True, text=True, check=False)
        if status.returncode:
            return f"`status` ends with {status.stderr.strip()}"
        lines = dict(line.split(" ", 1) for line in status.stdout.splitlines())
        copy = store
        if not store.is_block_device():
            copy = self.scratch / "copy"
            shutil.copyfile(store, copy)
        shown = subprocess.run([self.program, "show", copy], capture_output=True, check=False)
        if shown.returncode:
            return f"`show` ends with {shown.stderr.decode().strip()}"
        self.seen["with a sealed journal"] += lines["sealed"] == "yes"
        place = int(re.search(rb"place (\d+)\n$", shown.stdout).group(1))
        if place < snapshot.acknowledged:
            return f"place {place}, where {snapshot.acknowledged} was acknowledged"
        if place > self.load.above or any(self.load.places[at][0] > snapshot.made for at in range(snapshot.acknowledged, place)):
            return f"place {place} has a command that was sent later"
        db = self.fold(place)
        if shown.stdout != model.show_text(db, place):
            return f"other rows than after {place} commands"
        if (lines["place"], lines["rows"]) != (str(place), str(len(db))):
            return f"`status` prints {status.stdout!r}"
        self.seen["beyond what was acknowledged"] += place > snapshot.acknowledged
        return None


def main(words: list[str]) -> int:
    """Takes the snapshots, and opens them."""
    options, program = runs.begin(__doc__, words, kind=["btrfs", *sorted(set(NEEDED) - {"btrfs"})], snapshots=40, sessions=6, seed=1)
    need.require("root", NEEDED[options.kind])
    faults = []
    with place_of(options.kind) as place:
        runs.format_store(program, place.store, LAYOUT)
        with runs.Server(program, place.store, notices=place.folder / "notices") as server:
            place.server = server.process
            load = Load(server, options.sessions, options.seed)
            try:
                taken = snapshots_beside(place, load, options.snapshots, random.Random(options.seed))
            finally:
                load.end()
        faults += load.faults
        if sorted(load.places) != list(range(load.above)):
            faults.append("places are missing")
        judge = Judge(program, load, place.folder)
        for number, snapshot in enumerate(taken):
            fault = judge.fault_of(snapshot, place.open(snapshot.store, number))
            if fault:
                faults.append(f"snapshot {number}: {fault}")
    line = (f"{options.kind}: {len(taken)} snapshots of {load.above} commands, {judge.seen['beyond what was acknowledged']} beyond what was acknowledged,"
          f" {judge.seen['with a sealed journal']} with a sealed journal; {len(faults)} went wrong")
    return runs.end(options, line, faults) if options.kind != "plain" else 0
