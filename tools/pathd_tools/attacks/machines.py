"""Three machines with a GlusterFS volume of three replicas, for `tools/pathd-tools replicated`. Each
is a few namespaces: its own network, mounts and processes. All of it is inside of the namespaces of
the tool, so that nothing is left once the tool has ended.

A machine has a link of its own to the tool, over which sessions come, and one to the network of the
volume, which can be cut.
"""
from __future__ import annotations

import hashlib
import re
import socket
import subprocess
import time
from concurrent.futures import ThreadPoolExecutor
from pathlib import Path

from pathd_model import model
from pathd_tools import TOP, runs
from pathd_tools.pages.blocks import blocks
from pathd_tools.systems import OWN_MACHINE, Failed, child_of, must, run, wait_for

PAGE = TOP / "docs" / "operating" / "replicated.md"
COUNT = 3
MOUNT = Path("/srv/paths")
STORE = MOUNT / "store"
# Of a command of GlusterFS, of a server that takes over, and of the repair of a volume, in seconds.
COMMAND, TAKING_OVER, REPAIR = 120.0, 90.0, 120.0
TAKEN = "another process has it open"
# What a standby tries again after: the lock is another's, or the volume is away.
RETRIED = f"{TAKEN}|^error: device 1$"

INIT = """
set -e
mount -t proc proc /proc
mount -t tmpfs tmpfs /run
mkdir -p /run/gluster /run/lock
mount --bind {folder}/hosts /etc/hosts
mount --bind {folder}/lib /var/lib/glusterd
mount --bind {folder}/log /var/log/glusterfs
mount --bind {folder}/srv /srv
# In place of what glusterd asks half a minute long, to be ready for geo-replication.
printf '#!/bin/sh\\necho gsyncd\\n' > {folder}/gsyncd
chmod +x {folder}/gsyncd
for it in /usr/lib/*/glusterfs/gsyncd; do mount --bind {folder}/gsyncd "$it"; done
read -r _
# The shell stays the first process, so that bricks that were killed are gone.
glusterd --no-daemon --log-level WARNING
"""


def block_of(first: str) -> str:
    """The block of the page that begins with these words."""
    return next(it.text for it in blocks(PAGE) if it.text.startswith(first))


class Machine:
    """A machine: m1, m2 or m3."""

    def __init__(self, number: int, folder: Path) -> None:
        self.number, self.folder = number, folder / f"m{number}"
        self.address = f"10.78.{number}.2"
        for name in ("lib", "log", "srv/brick", "srv/paths"):
            (self.folder / name).mkdir(parents=True)
        hosts = [f"10.77.0.{it} m{it}" for it in range(1, COUNT + 1)]
        (self.folder / "hosts").write_text("127.0.0.1 localhost\n" + "\n".join(hosts) + "\n")
        (self.folder / "init.sh").write_text(INIT.format(folder=self.folder))

    @property
    def brick(self) -> Path:
        """The store in the machine's own part of the volume."""
        return self.folder / "srv/brick/paths/store"

    def start(self) -> None:
        """Starts the machine, with its links."""
        with open(self.folder / "said", "ab") as said:
            self._holder = subprocess.Popen([*OWN_MACHINE, "sh", str(self.folder / "init.sh")], stdin=subprocess.PIPE, stdout=said, stderr=said)
        wait_for(lambda: child_of(self._holder, "sh") != "", 10, "a machine")
        self.pid = child_of(self._holder, "sh")
        wait_for(lambda: Path(f"/proc/{self.pid}/ns/net").readlink() != Path("/proc/self/ns/net").readlink(), 10, "a network")
        self._link(f"s{self.number}", "eth0", f"10.77.0.{self.number}/24")
        self._link(f"c{self.number}", "eth1", f"{self.address}/24")
        must("ip", "link", "set", f"s{self.number}", "master", "storage")
        must("ip", "addr", "add", f"10.78.{self.number}.1/24", "dev", f"c{self.number}")
        self.run("ip", "link", "set", "lo", "up")
        self._holder.stdin.write(b"\n")
        self._holder.stdin.close()
        wait_for(lambda: self.gluster("pool", "list", may_fail=True) != "", 60, "glusterd")

    def _link(self, outside: str, inside: str, address: str) -> None:
        must("ip", "link", "add", outside, "type", "veth", "peer", "name", inside, "netns", self.pid)
        must("ip", "link", "set", outside, "up")
        self.run("ip", "addr", "add", address, "dev", inside)
        self.run("ip", "link", "set", inside, "up")

    def within(self, *words: str, is_own: bool = False) -> list[str]:
        """The words of a command within the machine, whose process is seen outside unless it is the machine's own."""
        return ["nsenter", "--target", self.pid, "--mount", "--net", *(["--pid"] if is_own else []), *words]

    def run(self, *words: str, may_fail: bool = False) -> str:
        """Runs a command within the machine; what it prints, or nothing where it fails and may."""
        done = run(*self.within(*words, is_own=True), timeout=COMMAND)
        if done.returncode and not may_fail:
            raise Failed(f"m{self.number}: {' '.join(words)}: {done.stdout}{done.stderr}")
        return "" if done.returncode else done.stdout

    def gluster(self, *words: str, may_fail: bool = False) -> str:
        """Runs `gluster`."""
        return self.run("gluster", "--mode=script", *words, may_fail=may_fail)

    def mount(self) -> None:
        """Mounts the volume, as the page says."""
        wait_for(self._mounts, 60, "a mount")

    def _mounts(self) -> bool:
        self.run("sh", "-ec", block_of("mount"), may_fail=True)
        return "fuse.glusterfs" in self.run("cat", "/proc/mounts")

    def image(self) -> bytes:
        """The store's bytes by this machine's mount, once that is connected again."""
        read: list[bytes] = []
        wait_for(lambda: self._reads(read), REPAIR, "a read of the store")
        return read[0]

    def _reads(self, read: list[bytes]) -> bool:
        done = subprocess.run(self.within("cat", str(STORE)), capture_output=True, timeout=COMMAND, check=False)
        read[:] = [done.stdout]
        return done.returncode == 0

    def cut(self) -> None:
        """Takes the machine off the network of the volume: what is sent is lost."""
        must("ip", "link", "set", f"s{self.number}", "nomaster")

    def join(self) -> None:
        """Puts it there again."""
        must("ip", "link", "set", f"s{self.number}", "master", "storage")

    def kill_brick(self) -> None:
        """Kills the process that has the machine's part of the volume."""
        self.run("sh", "-c", "kill -9 $(cat /run/gluster/vols/paths/*.pid)")

    def end(self) -> None:
        """Ends the machine at once, with all that runs in it but servers."""
        self._holder.kill()
        self._holder.wait()


class Server:
    """A server on a machine, which sessions reach by a link of their own."""

    def __init__(self, program: str, machine: Machine) -> None:
        self.machine = machine
        self._notices = machine.folder / "notices"
        words = machine.within(program, "run", str(STORE), "--listen", f"{machine.address}:0", *runs.RUN_WORDS)
        with open(self._notices, "wb") as lines:
            self.process = subprocess.Popen(words, stdin=subprocess.DEVNULL, stdout=subprocess.DEVNULL, stderr=lines)
        self.port = 0
        wait_for(self._is_settled, COMMAND, "a server")

    def _is_settled(self) -> bool:
        """Whether the server listens, or has ended."""
        found = re.search(rf" at {re.escape(self.machine.address)}:(\d+):", self.said())
        self.port = int(found[1]) if found else 0
        return bool(found) or self.process.poll() is not None

    def said(self) -> str:
        """What it has printed so far."""
        return self._notices.read_text(errors="replace")

    def opened(self) -> int:
        """How many milliseconds it took to open the store."""
        return int(re.search(r" in (\d+) ms:", self.said())[1])

    def connect(self) -> socket.socket:
        """A connection to the server."""
        connection = socket.create_connection((self.machine.address, self.port), COMMAND)
        connection.setsockopt(socket.IPPROTO_TCP, socket.TCP_NODELAY, 1)
        return connection

    def kill(self) -> None:
        """Ends the server at once."""
        self.process.kill()
        self.process.wait()


class Volume:
    """The machines with their volume, and a store on it."""

    def __init__(self, program: str, folder: Path) -> None:
        self._program = program
        must("ip", "link", "add", "storage", "type", "bridge")
        must("ip", "link", "set", "storage", "up")
        self.machines = [Machine(number, folder) for number in range(1, COUNT + 1)]
        with ThreadPoolExecutor() as starting:
            list(starting.map(Machine.start, self.machines))
        self.machines[0].run("sh", "-ec", block_of("gluster --mode=script peer"))
        for machine in self.machines:
            machine.mount()

    def format(self, layout: model.Layout) -> None:
        """Makes a store."""
        sizes = ["--checkpoint", str(layout.checkpoint), "--journal", str(layout.journal)]
        self.machines[0].run(self._program, "format", str(STORE), "--force", *sizes)

    def take_over(self, machine: Machine) -> tuple[Server, float]:
        """Starts a server as soon as no other one has the store; how long that took."""
        begun = time.monotonic()
        while True:
            server = Server(self._program, machine)
            if server.port:
                return server, time.monotonic() - begun
            if not re.search(RETRIED, server.said(), re.M) or time.monotonic() > begun + TAKING_OVER:
                raise Failed(f"m{machine.number} has not taken over after {time.monotonic() - begun:.0f} s: {server.said()}")
            time.sleep(0.2)

    def is_refused(self, machine: Machine) -> bool:
        """Whether a machine can't open the store, as another one has it."""
        done = run(*machine.within(self._program, "status", str(STORE)), timeout=COMMAND)
        return done.returncode == 1 and TAKEN in done.stderr

    def restart_bricks(self) -> None:
        """Starts the bricks that have ended."""
        self.machines[0].gluster("volume", "start", "paths", "force")

    def repair(self) -> float:
        """Waits until each machine has all of the store; how long that took."""
        took = wait_for(self._is_whole, REPAIR, "a repair")
        sums = {hashlib.sha256(it.brick.read_bytes()).hexdigest() for it in self.machines}
        if len(sums) != 1:
            raise Failed("the three parts of the volume have different bytes")
        return took

    def _is_whole(self) -> bool:
        self.machines[0].gluster("volume", "heal", "paths", may_fail=True)
        said = self.machines[0].gluster("volume", "heal", "paths", "info", may_fail=True)
        return re.findall(r"^Number of entries: (.*)$", said, re.M) == ["0"] * COUNT

    def close(self) -> None:
        """Ends all machines."""
        for machine in self.machines:
            machine.end()
