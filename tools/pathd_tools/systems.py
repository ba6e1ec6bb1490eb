"""Systems beside the machine's own, in which tools run commands: a root file system in a folder, and a
container whose first process is systemd. Commands have an environment with nothing of the machine's.
What a tool has tried is a `Tally`. It needs root; `need.require` says what is missing.
"""
from __future__ import annotations

import os
import re
import subprocess
import time
from collections.abc import Callable
from pathlib import Path

from pathd_tools import TOP

ENVIRONMENT = ["env", "-i", "PATH=/usr/local/sbin:/usr/local/bin:/usr/sbin:/usr/bin:/sbin:/bin", "HOME=/root", "LC_ALL=C.UTF-8", "DEBIAN_FRONTEND=noninteractive"]
SHELL = ["bash", "-euo", "pipefail", "-c"]
MIRROR = "http://deb.debian.org/debian"
# Mounts that are gone with the process that made them.
OWN_MOUNTS = ["unshare", "--mount", "--propagation", "private"]
OWN_MACHINE = [*OWN_MOUNTS, "--net", "--pid", "--fork", "--kill-child"]
ALONE = "PATHD_TOOLS_ALONE"
# Services of the machine that a container doesn't start: those that set the clock, devices or the kernel.
MASKED = (
    "systemd-sysctl systemd-modules-load systemd-udevd systemd-udev-trigger systemd-random-seed systemd-timesyncd systemd-binfmt systemd-hwdb-update"
    " systemd-networkd systemd-networkd-wait-online systemd-resolved systemd-logind e2scrub_reap"
)
# The status of systemd-nspawn with --keep-unit where the container restarts.
RESTARTS = 133


class Failed(SystemExit):
    """Something that a tool needs has failed. It ends a tool that does not catch it."""


def run(*words: object, **options: object) -> subprocess.CompletedProcess:
    """Runs a command to its end, with what it prints as text."""
    return subprocess.run([str(word) for word in words], **{"capture_output": True, "text": True, "errors": "replace", "check": False, **options})


def must(*words: object, **options: object) -> str:
    """What a command prints that has to succeed."""
    done = run(*words, **options)
    if done.returncode:
        raise Failed(f"{' '.join(map(str, words))}: status {done.returncode}: {done.stdout}{done.stderr}")
    return done.stdout


def until(is_so: Callable[[], bool], seconds: float = 60) -> bool:
    """Waits until something is so, and answers whether it came to be."""
    end = time.monotonic() + seconds
    while not is_so():
        if time.monotonic() > end:
            return False
        time.sleep(0.1)
    return True


def wait_for(is_so: Callable[[], bool], seconds: float, what: str) -> float:
    """Waits until something is so, which has to come; how long that took."""
    begun = time.monotonic()
    if not until(is_so, seconds):
        raise Failed(f"{what}: not within {seconds:.0f} s")
    return time.monotonic() - begun


def child_of(process: subprocess.Popen, name: str) -> str:
    """The process of this name that another one has started; nothing where there is none."""
    children = Path(f"/proc/{process.pid}/task/{process.pid}/children").read_text().split()
    return next((it for it in children if run("cat", f"/proc/{it}/comm").stdout.strip() == name), "")


def go_alone(namespaces: list[str], tool: str, words: list[str]) -> None:
    """Runs a tool again in namespaces of its own, unless it is in them already, and ends with its status."""
    if os.environ.get(ALONE):
        return
    again, environment = [*namespaces, str(TOP / "tools/pathd-tools"), tool, *words], {**os.environ, ALONE: "1"}
    if "--fork" not in namespaces:
        os.execvpe(again[0], again, environment)
    # `unshare --fork` does not end by SIGTERM, and ends with this process.
    raise SystemExit(subprocess.run(["setpriv", "--pdeathsig", "KILL", *again], env=environment, check=False).returncode)


class Tally:
    """What was tried, and how often it came out otherwise."""

    def __init__(self) -> None:
        self.count = self.wrong = self.left_out = 0

    def expect(self, what: str, is_so: bool, seen: object = "") -> None:
        """Notes what was tried."""
        self.count += 1
        self.wrong += not is_so
        print(f"{'ok' if is_so else 'WRONG'}: {what}" + (f": {seen}" if seen != "" and not is_so else ""), flush=True)

    def expect_success(self, what: str, done: subprocess.CompletedProcess) -> None:
        """Notes whether a command has ended with the status 0."""
        self.expect(what, done.returncode == 0, f"status {done.returncode}: {done.stdout}{done.stderr}")

    def leave_out(self, what: str, why: str) -> None:
        """Notes what can't be tried here."""
        self.left_out += 1
        print(f"left out: {what}: {why}", flush=True)

    def end(self) -> int:
        """Prints the counts; the status."""
        print(f"{self.count} steps, {self.wrong} came out otherwise, {self.left_out} left out")
        return 1 if self.wrong else 0


class Root:
    """A root file system in a folder. A command there has mounts of its own, with the machine's /proc and /dev."""

    def __init__(self, folder: Path) -> None:
        self.folder = folder

    @classmethod
    def made(cls, folder: Path, system: str | None) -> Root:
        """A new Debian 12 in a folder: a copy of the folder `system`, or what debootstrap makes of the mirror."""
        must(*(["cp", "-a", system, folder] if system else ["debootstrap", "--variant=minbase", "bookworm", folder, MIRROR]))
        return cls(folder)

    def path(self, name: str) -> Path:
        """Where this machine has a path of that system: files are read, written and copied there."""
        return self.folder / name.lstrip("/")

    def files(self) -> set[str]:
        """The paths of that system but those of /tmp."""
        return set(must("find", ".", "-xdev", "-path", "./tmp", "-prune", "-o", "-print", cwd=self.folder).splitlines())

    def within(self, *words: object) -> list[str]:
        """The words by which this machine runs a command there."""
        lines = 'mount --rbind /proc "$0/proc"; mount --rbind /dev "$0/dev"; exec chroot "$0" "$@"'
        return [*OWN_MOUNTS, "sh", "-ec", lines, str(self.folder), *ENVIRONMENT, *map(str, words)]

    def run(self, *words: object, **options: object) -> subprocess.CompletedProcess:
        """Runs a command there to its end."""
        return run(*self.within(*words), **options)


class Container(Root):
    """A container over the machine's own system, whose changes are in memory. Its first process is systemd, and its network a loopback.

    Its tool has to be in mounts of its own. Nothing of the machine's services starts there.
    """

    def __init__(self, work: Path) -> None:
        self.work, self.name, self.process = work, work.name, None
        super().__init__(work / "ram" / self.name)
        self._groups, self._before = work / "cgroup", re.search(r"^0::/(.*)$", Path("/proc/self/cgroup").read_text(), re.M)[1]
        must("mount", "--mkdir", "-t", "tmpfs", "-o", "mode=755", "tmpfs", work / "ram")
        must("mkdir", work / "ram/upper", work / "ram/work")
        must("mount", "--mkdir", "-t", "overlay", "-o", "lowerdir=/,upperdir=upper,workdir=work", "overlay", self.folder, cwd=work / "ram")
        must("rm", "-f", *(it for kind in ("systemd/system/*.wants/*", "systemd/system/*.requires/*", "rc?.d/S*") for it in self.path("etc").glob(kind)))
        for unit in MASKED.split():
            must("ln", "-sf", "/dev/null", self.path(f"etc/systemd/system/{unit}.service"))
        # A hierarchy of version 2 with a group for the container, where systemd-nspawn looks for it.
        must("mount", "--mkdir", "-t", "cgroup2", "cgroup2", self._groups)
        (self._groups / self.name).mkdir()
        self._join(self.name)
        run("umount", "-l", "/sys/fs/cgroup")
        must("mount", "-t", "cgroup2", "cgroup2", "/sys/fs/cgroup")

    def _join(self, group: str) -> None:
        """Puts this process into a group of the hierarchy."""
        (self._groups / group / "cgroup.procs").write_text(str(os.getpid()))

    def within(self, *words: object) -> list[str]:
        """The words by which this machine runs a command there."""
        return ["nsenter", "--target", child_of(self.process, "systemd"), "--all", *ENVIRONMENT, *map(str, words)]

    def boot(self, *options: str) -> None:
        """Starts the container, with further options of systemd-nspawn, and waits until its units are started."""
        words = [f"--directory={self.folder}", f"--machine={self.name}", "--register=no", "--keep-unit", "--private-network", "--capability=all"]
        words += ["--system-call-filter=bpf @privileged", "--link-journal=no", "--resolv-conf=off", "--timezone=off", "--console=pipe", *options]
        with open(self.work / "console", "wb") as console:
            self.process = subprocess.Popen(
                ["systemd-nspawn", *words, "--boot"], stdin=subprocess.DEVNULL, stdout=console, stderr=console, env={**os.environ, "SYSTEMD_NSPAWN_UNIFIED_HIERARCHY": "1"}
            )
        # The status is 1 where a unit of the machine has failed.
        if not until(lambda: child_of(self.process, "systemd") != "" and self.run("systemctl", "is-system-running").stdout.strip() in ("running", "degraded")):
            raise Failed(f"the container doesn't start\n{(self.work / 'console').read_text(errors='replace')}")

    def restart(self) -> None:
        """Ends the container by a restart, after which it can boot; systemd-logind, which `systemctl reboot` would ask, is not there."""
        must(*self.within("systemctl", "start", "--no-block", "reboot.target"))
        status, self.process = self.process.wait(), None
        if status != RESTARTS:
            raise Failed(f"the container ended with the status {status}, and not for a restart\n{(self.work / 'console').read_text(errors='replace')}")

    def close(self) -> None:
        """Ends the container. Its first process ends all others of it, and the mounts go with those of the tool."""
        if self.process:
            run("kill", "-KILL", child_of(self.process, "systemd"))
            self.process.kill()
            self.process.wait()
        self._join(self._before)
        until(lambda: run("find", self._groups / self.name, "-depth", "-type", "d", "-exec", "rmdir", "{}", "+").returncode == 0, 5)
        run("umount", "-l", self._groups, self.work / "ram")
        run("rmdir", f"/run/systemd/nspawn/propagate/{self.name}")
