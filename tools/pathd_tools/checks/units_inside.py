"""Tries the steps of docs/operating, and the unit of the gateway, on a system whose first process is
systemd; tools/pathd-tools units starts it in a container. It carries out the blocks of
docs/operating/install.md, first-hour.md and run.md, of docs/WATCHING.md and of the package's README
that are marked by `units`, and those of the first hour that are marked by `steps`. The programs are
those of the Debian packages in out/; `make install` is tried before.

    tools/pathd-tools units-inside --loop DEVICE
    tools/pathd-tools units-inside --after-restart

It installs programs, makes a user, formats stores and kills servers: it is for a container or a
machine that is thrown away. It has to be run as root, with the packages that tools/pathd-tools
units names. The first line runs all steps, the second is for the next start of the same system. It
prints a line for each step, and ends with the status 1 where one did not come out as the page says.
"""
from __future__ import annotations

import argparse
import json
import os
import pickle
import re
import socket
import struct
import subprocess
import tempfile
import time
import urllib.request
from contextlib import suppress
from pathlib import Path

from pathd_model import model
from pathd_tools import TOP, messages, runs, toolbox
from pathd_tools.checks import steps
from pathd_tools.pages.blocks import Block, blocks
from pathd_tools.pages.pages import pages
from pathd_tools.systems import SHELL, Tally, must, run, until

DOCS = TOP / "docs"
NAME = "units"
STORE = Path("/var/lib/pathd/store")
STATE = Path("/var/lib/pathd-units.state")
DROP_IN = Path("/etc/systemd/system/pathd.service.d")
SETTINGS = Path("/etc/default/pathd")
REPORT = Path("/etc/pathd/on-failure")
PORT = 30252
NUMBERS_PORT = 30253
LOOKUPS_PORT = 30254
PATHD = "/usr/bin/pathd"
README = "share/doc/pathd/README.md"
GATEWAY_UNIT = "pathd-gateway.service"
GATEWAY_SETTINGS = Path("/etc/default/pathd-gateway")
GATEWAY_PORT = 30262
LOOKUP = "proto.control_plane.v1.SegmentLookupService/Segments"
CORE = 0x0001_FF00_0000_0110
LEAF = 0x0001_FF00_0000_0111
PAGE_BYTES = 4096
# Segments of now, as the settings bound times after it, and how long after its timestamp one expires.
MADE = int(time.time())
LASTS = 675 * 64 // 2
# The seats of the unit's two listeners.
FULL, FULL_OF_LOOKUPS = 48, 16


STEPS = Tally()


# The places of the blocks that were carried out.
CARRIED_OUT: set[str] = set()


def text_of(page: str) -> str:
    """The text of a page of docs/."""
    return (DOCS / f"{page}.md").read_text(encoding="utf-8")


def block(page: str, heading: str, number: int = 0) -> Block:
    """A block below a heading of a page: the first, or the one of a number from 0."""
    begin = text_of(page).split(f"\n## {heading}\n")[0].count("\n") + 2
    return [it for it in blocks(DOCS / f"{page}.md") if it.line > begin][number]


def run_block(page: str, heading: str, number: int = 0) -> subprocess.CompletedProcess:
    """Runs a block of a page as it is written, at the top of the repository."""
    chosen = block(page, heading, number)
    CARRIED_OUT.add(chosen.place)
    return run(*SHELL, chosen.text, cwd=TOP)


def compare_blocks() -> None:
    """Whether each block that is marked by the name of this tool was carried out."""
    marked = {it.place for page in pages() for it in blocks(page) if it.how == NAME}
    STEPS.expect("each block of a page that names `units` was carried out, and no other", marked == CARRIED_OUT, marked ^ CARRIED_OUT)


def property_of(name: str, unit: str = "pathd.service") -> str:
    """A property of a unit, as `systemctl show` prints it."""
    return must("systemctl", "show", "--value", "-p", name, unit).strip()


def is_served() -> bool:
    """Whether somebody listens at the port."""
    try:
        socket.create_connection(("127.0.0.1", PORT), 2).close()
        return True
    except OSError:
        return False


def is_up() -> bool:
    """Whether the unit is active and its server listens."""
    return property_of("ActiveState") == "active" and is_served()


def is_down() -> bool:
    """Whether the unit has ended, and nothing is to be started."""
    return property_of("ActiveState") in ("inactive", "failed")


def begin(unit: str = "pathd.service") -> bool:
    """Starts a unit anew, without a count of earlier starts, and answers whether it started."""
    run("systemctl", "reset-failed", unit)
    return run("systemctl", "start", unit).returncode == 0


def start() -> bool:
    """Starts the unit anew, and waits until it listens."""
    return begin() and until(is_up)


def stays_down() -> tuple[str, ...]:
    """The state, the status and the starts of the unit, once it has failed to start and time has passed in which it would start again."""
    begin()
    until(is_down)
    time.sleep(7)
    return tuple(property_of(name) for name in ("ActiveState", "ExecMainStatus", "NRestarts"))


def restart(**settings: object) -> bool:
    """Restarts the unit with these settings, and waits until it listens."""
    set_settings(**settings)
    must("systemctl", "restart", "pathd")
    return until(is_up)


def drop_in(name: str, text: str) -> Path:
    """Adds a file to the unit, and answers its path."""
    DROP_IN.mkdir(exist_ok=True)
    path = DROP_IN / f"{name}.conf"
    path.write_text(text)
    must("systemctl", "daemon-reload")
    return path


def take_away(path: Path) -> None:
    """Takes a file of the unit away."""
    path.unlink()
    must("systemctl", "daemon-reload")


def set_settings(**settings: object) -> None:
    """Writes the settings of the unit, with the core ASes of the page."""
    lines = ["CORES=1-ff00:0:110", *(f"{name}={value}" for name, value in settings.items())]
    SETTINGS.write_text("".join(line + "\n" for line in lines))


def journal(unit: str, since: float, *more: str) -> str:
    """What a unit wrote since a moment of this run, of which further words of journalctl choose."""
    must("journalctl", "--sync")
    return run("journalctl", "-o", "cat", "--no-pager", *(["-u", unit] if unit else []), "--since", f"@{since:.3f}", *more).stdout


class Session:
    """A session with the server."""

    def __init__(self, host: str = "127.0.0.1", timeout: float = 10, port: int = PORT) -> None:
        self.socket = socket.create_connection((host, port), timeout)
        self.read = runs.Replies(self.socket).next

    def ask(self, request: bytes) -> bytes:
        """The reply to a request."""
        self.socket.sendall(request)
        return self.read()

    def __enter__(self) -> Session:
        return self

    def __exit__(self, *_ended: object) -> None:
        self.socket.close()


def row(number: int, made: int = MADE) -> tuple:
    """The registration of one row, which is another for each number."""
    return ("register", ((model.DOWN, messages.make_segment([messages.Hop(CORE, 0, 1 + number), messages.Hop(LEAF, 1, 0)], made)),))


class Rows:
    """The rows that were acknowledged: what the store has to hold."""

    def __init__(self) -> None:
        self.db: dict = {}
        self.place = 0
        self.number = 0

    def register(self, session: Session) -> bytes:
        """Registers one more row, and answers the reply."""
        command = row(self.number)
        reply = session.ask(messages.command_frame(command))
        self.number += 1
        if reply[0] == 0x81:
            self.take(command, reply)
        return reply

    def take(self, command: tuple, reply: bytes) -> None:
        """Takes a command that was acknowledged."""
        self.place = struct.unpack(">QIIII", reply[1:])[0] + 1
        model.apply(self.db, command)

    def register_many(self, count: int) -> None:
        """Registers more rows, each of which has to be acknowledged."""
        with Session() as session:
            for _ in range(count):
                reply = self.register(session)
                if reply[0] != 0x81:
                    raise SystemExit(f"a registration was answered by {reply.hex()}")

    def has_all(self, shown: str) -> bool:
        """Whether each row that was acknowledged is in what `show` prints."""
        wanted = set(model.show_text(self.db, self.place).decode().splitlines()[:-1])
        return wanted <= set(shown.splitlines())


ROWS = Rows()


def shown(store: Path = STORE) -> str:
    """What `show` prints of a store at rest."""
    return must(PATHD, "show", store)


# The steps, each a part of the page


def first_hour() -> None:
    """The first hour, as it is written, before anything is installed."""
    with tempfile.TemporaryDirectory() as folder:
        environment = {**os.environ, "TMPDIR": folder}
        for it, fault in steps.carry_out(DOCS / "operating/first-hour.md", (NAME, steps.NAME), environment, Path(folder), {}):
            STEPS.expect(f"the first hour: the block {it.place} runs", not fault, fault)
            CARRIED_OUT.update([it.place] if it.how == NAME else [])


def install_programs() -> None:
    """'Steps': from the repository, and then by the package, which stays; and the README that it installs."""
    done = run_block("operating/install", "Steps", 1)
    STEPS.expect("the block of the repository installs the program", done.returncode == 0 and os.access("/usr/local/bin/pathd", os.X_OK), done.stdout + done.stderr)
    must("make", "-C", TOP, "uninstall")
    left = [it for it in Path("/usr/local").rglob("*pathd*") if not it.is_dir()]
    STEPS.expect("`make uninstall` leaves none of its files", not left, left)
    done = run_block("operating/install", "Steps")
    STEPS.expect("the block of the package installs it", done.returncode == 0 and os.access(PATHD, os.X_OK), done.stdout + done.stderr)
    CARRIED_OUT.add(blocks(TOP / "deploy/debian/README.md")[0].place)
    done = run(*SHELL, blocks(Path("/usr") / README)[0].text, cwd="/", stdin=subprocess.DEVNULL)
    STEPS.expect_success("the block of the README that it installs shows the program at work", done)


def install() -> None:
    """'The store', as it is written."""
    install_programs()
    begun = time.time()
    STEPS.expect_success("the block of 'The store' runs", run_block("operating/install", "The store"))
    STEPS.expect("the unit is active, and the server listens", until(is_up), run("systemctl", "status", "pathd").stdout)
    text = journal("pathd", begun)
    STEPS.expect("the journal has `ready` and the line of the address", "ready" in text and "at 127.0.0.1:30252: version 2, place 0, 0 rows" in text, text)
    STEPS.expect("the file has its room on the disk", STORE.stat().st_blocks * 512 >= STORE.stat().st_size)
    made = STORE.stat().st_ino
    ROWS.register_many(3)
    done = run_block("operating/install", "The store")
    STEPS.expect("the block runs again, and leaves the store and its server", done.returncode == 0 and STORE.stat().st_ino == made and until(is_up), done.stdout + done.stderr)
    text = SETTINGS.read_text()
    STEPS.expect("the settings have the core ASes", "\nCORES=1-ff00:0:110\n" in text, text)
    must("systemctl", "stop", "pathd")
    SETTINGS.write_text(text.replace("CORES=1-ff00:0:110", "CORES="))
    begun = time.time()
    STEPS.expect("without core ASes it doesn't start", run("systemctl", "start", "pathd").returncode != 0)
    STEPS.expect("the journal says why", "--cores: '' is no ISD-AS" in journal("pathd", begun), journal("pathd", begun))
    must("systemctl", "stop", "pathd")
    SETTINGS.write_text(text)
    start()


def look_at_walls_of(unit: str, user: str, port: int, descriptors: int) -> list[str]:
    """The user, the rights and the limits of a unit's process; the words before a line of the shell in its view."""
    pid = property_of("MainPID", unit)
    status = dict(line.split(":\t", 1) for line in Path(f"/proc/{pid}/status").read_text().splitlines() if ":\t" in line)
    uid = must("id", "-u", user).strip()
    STEPS.expect(f"{unit} runs as the user {user}", status["Uid"].split() == [uid] * 4, status["Uid"])
    STEPS.expect("it has no capability, no new privileges, and a filter of calls", (int(status["CapEff"], 16), int(status["CapBnd"], 16), status["NoNewPrivs"], status["Seccomp"]) == (0, 0, "1", "2"), status)
    within = ["nsenter", "-t", pid, "-m", "sh", "-c"]
    for path in ("/etc", "/usr/bin", "/usr/local/bin", "/var/lib", "/home", "/opt"):
        STEPS.expect(f"in its view {path} can't be written", run(*within, f"touch {path}/.pathd-units").returncode != 0)
    devices = run(*within, "find /dev -type b").stdout
    STEPS.expect("in its view /dev has no block device", devices == "", devices)
    listens = must("ss", "-Hltnp", f"sport = :{port}")
    STEPS.expect("it listens at 127.0.0.1 alone", listens.count("\n") == 1 and f"127.0.0.1:{port}" in listens, listens)
    limits = Path(f"/proc/{pid}/limits").read_text()
    STEPS.expect(f"it may have {descriptors} descriptors", re.search(rf"Max open files +{descriptors} +{descriptors}", limits) is not None, limits)
    done = run("systemd-analyze", "verify", f"/usr/lib/systemd/system/{unit}")
    lines = [line for line in done.stderr.splitlines() if "pathd" in line]
    STEPS.expect(f"systemd-analyze verify prints nothing of {unit}", not lines, lines)
    return within


def look_at_walls() -> None:
    """What 'Installing' says of the unit: its user, its rights, its limits."""
    within = look_at_walls_of("pathd.service", "pathd", PORT, 256)
    STEPS.expect("in its view /var/lib/pathd can be written", run(*within, "touch /var/lib/pathd/.new && rm /var/lib/pathd/.new").returncode == 0)
    controllers = Path("/sys/fs/cgroup/cgroup.controllers").read_text().split()
    group = Path("/sys/fs/cgroup" + property_of("ControlGroup"))
    for controller, file, wanted in (("memory", "memory.max", str(2 << 30)), ("pids", "pids.max", "128")):
        if controller in controllers:
            STEPS.expect(f"{file} is {wanted}", (group / file).read_text().strip() == wanted)
        else:
            STEPS.leave_out(f"{file} of the unit", f"this hierarchy of cgroups has no controller {controller}")
    done = run("systemd-analyze", "verify", "/usr/lib/systemd/system/pathd-failed@.service")
    STEPS.expect("systemd-analyze verify prints nothing of pathd-failed@.service", "pathd" not in done.stderr, done.stderr)
    rated = re.search(r"exposure level for pathd.service: (\S+)", must("systemd-analyze", "security", "--no-pager", "pathd.service"))
    said = re.search(r"rates its exposure as ([0-9]+\.[0-9]+)", text_of("operating/install").replace("\n", " "))
    STEPS.expect("its exposure is rated as the page says", bool(rated and said) and rated.group(1) == said.group(1), (rated and rated.group(1), said and said.group(1)))


def fill_sessions() -> None:
    """All sessions of both listeners under the limits of the unit, and one more of each."""
    nothing = messages.lookup_frame(LEAF, CORE)
    seats = {PORT: FULL, LOOKUPS_PORT: FULL_OF_LOOKUPS}
    held = [Session(port=port) for port, count in seats.items() for _ in range(count)]
    STEPS.expect("48 and 16 sessions are served at one time under the unit's limits", all(session.ask(nothing)[0] == 0x82 for session in held))
    for port in seats:
        with Session(port=port) as one_more:
            STEPS.expect(f"one more at {port} gets 0x61", one_more.read() == b"\xff\x61")
    STEPS.expect("a command at the listener for lookups gets 0x64", held[-1].ask(messages.command_frame(row(0))) == b"\xff\x64")
    for session in held:
        session.socket.close()


def restarted(count: int) -> bool:
    """Whether the unit was started again this number of times, and listens."""
    return until(lambda: property_of("NRestarts") == str(count) and is_up(), 90)


def stop_and_kill() -> None:
    """'Stopping', and 'Statuses' of docs/CLI.md: what the unit does after each end."""
    ROWS.register_many(40)
    must("systemctl", "stop", "pathd")
    STEPS.expect("systemctl stop: the unit is inactive, with success", (property_of("ActiveState"), property_of("Result")) == ("inactive", "success"))
    text = shown()
    STEPS.expect("what was acknowledged is shown after SIGTERM", ROWS.has_all(text) and text.endswith(f"place {ROWS.place}\n"), text[-60:])
    for count, signal in enumerate(("KILL", "ABRT", "SEGV"), 1):
        if count == 1:
            start()
        pid = property_of("MainPID")
        ROWS.register_many(40)
        must("systemctl", "kill", "-s", signal, "--kill-whom=main", "pathd")
        STEPS.expect(f"SIG{signal}: the unit is started again", restarted(count) and property_of("MainPID") != pid, property_of("NRestarts"))
    must("systemctl", "restart", "pathd")
    STEPS.expect("systemctl restart: it returns once the server listens again", is_up())
    must("systemctl", "stop", "pathd")
    text = shown()
    STEPS.expect("what was acknowledged is shown after SIGKILL, SIGABRT and SIGSEGV", ROWS.has_all(text) and text.endswith(f"place {ROWS.place}\n"), text[-60:])
    start()
    must("kill", "-TERM", property_of("MainPID"))
    until(is_down)
    time.sleep(3)
    STEPS.expect("SIGTERM that systemctl didn't send: the unit stays down", (property_of("ActiveState"), property_of("Result")) == ("inactive", "success"))


def end_by_status() -> None:
    """The status 1, after which the unit is started again; the statuses 2 and 3, after which it stays down; and too many starts."""
    begun = time.time()
    with socket.create_server(("127.0.0.1", PORT)):
        STEPS.expect("status 1, as the address is in use: the start fails", not begin() and property_of("ExecMainStatus") == "1")
        STEPS.expect("it is started again meanwhile", until(lambda: int(property_of("NRestarts")) >= 2))
    STEPS.expect("it is up by itself once the address is free", until(is_up))
    STEPS.expect("the journal has `error: net`", "error: net" in journal("pathd", begun), journal("pathd", begun))
    must("systemctl", "stop", "pathd")
    words = drop_in("words", f"[Service]\nExecStart=\nExecStart={PATHD} run\n")
    STEPS.expect("status 2, of words that can't be read: the unit stays down", stays_down() == ("failed", "2", "0"))
    take_away(words)
    set_settings(STORE="/var/lib/pathd/none")
    begun = time.time()
    STEPS.expect("status 3, as there is no store: the unit stays down", stays_down() == ("failed", "3", "0"))
    said = journal("pathd", begun, "-p", "err")
    STEPS.expect("the journal has the reason as an error", "cannot open /var/lib/pathd/none" in said and "error: device 1" in said, said)
    set_settings()
    start_too_often()


def start_too_often() -> None:
    """The limit of starts, with 5 in place of 24, and what runs then."""
    report = Path("/run/pathd-reported")
    REPORT.parent.mkdir(exist_ok=True)
    REPORT.write_text(f'#!/bin/sh\necho "$1" >{report}\n')
    REPORT.chmod(0o755)
    limit = drop_in("limit", "[Unit]\nStartLimitBurst=5\n[Service]\nRestartSec=1\n")
    start()
    begun = time.time()
    for count in range(1, 5):
        must("systemctl", "kill", "-s", "KILL", "--kill-whom=main", "pathd")
        if not restarted(count):
            break
    STEPS.expect("until then nothing is reported", not report.exists())
    must("systemctl", "kill", "-s", "KILL", "--kill-whom=main", "pathd")
    STEPS.expect("a start beyond the limit isn't made", until(lambda: property_of("ActiveState") == "failed") and property_of("NRestarts") == "5", (property_of("Result"), property_of("NRestarts")))
    STEPS.expect("OnFailure= runs /etc/pathd/on-failure with the unit's name", until(report.exists, 20) and until(lambda: report.read_text() == "pathd.service\n", 5))
    said = journal("", begun, "-t", "pathd", "-p", "alert")
    STEPS.expect("the journal has its line of priority `alert`", "pathd.service has failed" in said, said)
    REPORT.unlink()
    take_away(limit)
    STEPS.expect("`systemctl reset-failed pathd` and a start serve again", start())


def register_expiring(seconds: int, number: int) -> None:
    """Registers a row that expires soon."""
    command = row(60_000 + number, int(time.time()) - LASTS + seconds)
    with Session() as session:
        reply = session.ask(messages.command_frame(command))
    STEPS.expect(f"a row is taken that expires in {seconds} seconds", reply[0] == 0x81 and reply[9:13] == b"\0\0\0\1", reply.hex())


def purged(counts: str) -> bool:
    """Whether the block of 'Purging' prints these counts."""
    done = run_block("operating/run", "Purging")
    return done.returncode == 0 and re.search(rf"^place \d+: 0 inserted, 0 updated, 0 kept, {counts}$", done.stdout, re.M) is not None


def purge() -> None:
    """'Purging', as it is written, and the server's own purges."""
    STEPS.expect("the settings have the server purge each five seconds", "--purge 5" in (TOP / "deploy/pathd.default").read_text())
    STEPS.expect("the block of 'Purging' runs, and its purge prints the counts", restart() and purged("0 purged"))
    register_expiring(3, 1)
    time.sleep(5)
    STEPS.expect("without `--purge` a purge by hand drops the row that has expired", purged("1 purged"))
    restart(OPTIONS="--purge 1")
    register_expiring(3, 2)
    time.sleep(10)
    STEPS.expect("with `--purge 1` the server has dropped it before", purged("0 purged"))
    restart()


def back_up() -> None:
    """The part 'Back up and restore', at rest."""
    copy = Path("/var/tmp/copy")
    words = ["flock", "--shared", "--nonblock", STORE, "cp", STORE, copy]
    done = run(*words)
    STEPS.expect("a copy beside a server isn't made, with the status 1", done.returncode == 1 and not copy.exists(), done.stderr)
    ROWS.register_many(5)
    must("systemctl", "stop", "pathd")
    must(*words)
    status = must(PATHD, "status", copy)
    text = shown()
    STEPS.expect("`status` of a copy at rest prints its place", f"place {text.split()[-1]}\n" in status, status)
    start()
    with Session() as session:
        session.ask(messages.command_frame(row(59_000)))
    must("systemctl", "stop", "pathd")
    must("cp", "--sparse=never", copy, STORE)
    must("chown", "pathd:pathd", STORE)
    STEPS.expect("after a restore the server listens, and has what the copy had", start())
    must("systemctl", "stop", "pathd")
    STEPS.expect("what a restored store shows", shown() == text)
    copy.unlink()
    start()


def watch() -> None:
    """The page of numbers: its numbers under the unit."""
    begun = time.time()
    done = run_block("WATCHING", "Setting up")
    STEPS.expect("the block of 'Setting up' runs, and with `--status` the unit starts", done.returncode == 0 and until(is_up), done.stdout + done.stderr)
    text = journal("pathd", begun)
    STEPS.expect("the journal has the line of the second address", f"pathd: status at 127.0.0.1:{NUMBERS_PORT}" in text, text)
    before = runs.numbers(NUMBERS_PORT)
    ROWS.register_many(3)
    after = runs.numbers(NUMBERS_PORT)
    more = {name: after[name] - before[name] for name in ("pathd_rows", "pathd_commands_total", 'pathd_replies_total{kind="registered"}')}
    STEPS.expect("the numbers have three registrations more", set(more.values()) == {3.0}, more)
    STEPS.expect("they say that the store takes commands", after["pathd_stopped"] == 0)
    take_away(DROP_IN / "status.conf")
    must("systemctl", "stop", "pathd")
    STEPS.expect("without the option it starts and nothing listens there", start() and must("ss", "-Hltn", f"sport = :{NUMBERS_PORT}") == "")


def look_up_by_gateway() -> int:
    """How many segments a lookup by Connect finds; -1 where it has no response."""
    body = json.dumps({"srcIsdAs": str(CORE), "dstIsdAs": str(LEAF)}).encode()
    request = urllib.request.Request(f"http://127.0.0.1:{GATEWAY_PORT}/{LOOKUP}", body, {"Content-Type": "application/json"})
    try:
        with urllib.request.urlopen(request, timeout=30) as answer:
            found = json.load(answer).get("segments", {})
    except OSError:
        return -1
    return sum(len(listed["segments"]) for listed in found.values())


def serve_by_gateway() -> None:
    """'Running it' of docs/GATEWAY.md: the unit of the gateway, before the server."""
    packages = list(TOP.glob("out/pathd-gateway_*.deb"))
    if not packages:
        STEPS.leave_out(GATEWAY_UNIT, "there is no package of it")
        return
    done = run("dpkg", "--install", *packages)
    STEPS.expect("the gateway's package is installed, and has made its user", done.returncode == 0 and run("id", "pathd-gateway").returncode == 0, done.stderr)
    begun = time.time()
    STEPS.expect("the unit of the gateway starts", begin(GATEWAY_UNIT) and property_of("ActiveState", GATEWAY_UNIT) == "active", run("systemctl", "status", GATEWAY_UNIT).stdout)
    STEPS.expect("the journal has the line of its address", until(lambda: f"serves at 127.0.0.1:{GATEWAY_PORT}" in journal("pathd-gateway", begun)), journal("pathd-gateway", begun))
    STEPS.expect("a lookup by Connect finds segments", look_up_by_gateway() > 0)
    within = look_at_walls_of(GATEWAY_UNIT, "pathd-gateway", GATEWAY_PORT, 4096)
    as_its_user = "setpriv --reuid pathd-gateway --regid pathd-gateway --clear-groups"
    STEPS.expect("its user can read /etc/pathd-gateway, and can't write it", run(*within, f"{as_its_user} ls /etc/pathd-gateway").returncode == 0 and run(*within, f"{as_its_user} touch /etc/pathd-gateway/.new").returncode != 0)
    end_gateway()
    done = run("dpkg", "--purge", "pathd-gateway")
    STEPS.expect("its package is removed, and its unit with it", done.returncode == 0 and property_of("LoadState", GATEWAY_UNIT) == "not-found", done.stderr)


def end_gateway() -> None:
    """What the unit of the gateway does after each end, and where the server is away."""
    begun = time.time()
    done = run("systemctl", "reload", GATEWAY_UNIT)
    STEPS.expect("systemctl reload: it reads its files again", done.returncode == 0 and until(lambda: "were read again" in journal("pathd-gateway", begun)), journal("pathd-gateway", begun))
    must("systemctl", "stop", "pathd")
    STEPS.expect("while the server is away lookups have no response, and the gateway goes on", look_up_by_gateway() == -1 and property_of("ActiveState", GATEWAY_UNIT) == "active")
    start()
    STEPS.expect("once it is back they have one", until(lambda: look_up_by_gateway() > 0))
    must("systemctl", "kill", "-s", "KILL", "--kill-whom=main", GATEWAY_UNIT)
    STEPS.expect("SIGKILL: the gateway is started again", until(lambda: property_of("NRestarts", GATEWAY_UNIT) == "1" and look_up_by_gateway() > 0), property_of("NRestarts", GATEWAY_UNIT))
    must("systemctl", "stop", GATEWAY_UNIT)
    STEPS.expect("systemctl stop: its unit is inactive, with success", (property_of("ActiveState", GATEWAY_UNIT), property_of("Result", GATEWAY_UNIT)) == ("inactive", "success"))
    GATEWAY_SETTINGS.write_text("OPTIONS=--none\n")
    STEPS.expect("status 2, of words that can't be read: its start fails", not begin(GATEWAY_UNIT))
    time.sleep(5)
    ended = tuple(property_of(name, GATEWAY_UNIT) for name in ("ActiveState", "ExecMainStatus", "NRestarts"))
    STEPS.expect("it stays down then", ended == ("failed", "2", "0"), ended)
    GATEWAY_SETTINGS.unlink()


def lost_pages(device: str, disk: Path) -> int:
    """How many pages of a device read otherwise than its disk has them."""
    with open(device, "rb") as held, disk.open("rb") as kept:
        pages = iter(lambda: (held.read(PAGE_BYTES), kept.read(PAGE_BYTES)), (b"", b""))
        return sum(page[0] != page[1] for page in pages)


class Volume:
    """A loop device over a file in a file system of its own, which can be left without room: then its writes fail."""

    def __init__(self, device: str) -> None:
        self.device = device
        self.folder = Path("/var/tmp/small")
        self.disk = self.folder / "disk"
        self.filler = self.folder / "filler"
        self.layout = model.Layout(64, 4096)
        self.folder.mkdir()
        must("mount", "-t", "tmpfs", "-o", "size=6m", "tmpfs", self.folder)
        with self.disk.open("wb") as file:
            file.truncate(-(-self.layout.sectors // 8) * PAGE_BYTES)
        must("losetup", device, self.disk)

    def take_room(self, pages: int) -> None:
        """Leaves room for a number of pages."""
        free = os.statvfs(self.folder).f_bavail
        self.filler.write_bytes(bytes(PAGE_BYTES) * (free - pages))

    def give_room(self) -> None:
        """Mends the disk."""
        self.filler.unlink()

    def close(self) -> None:
        """Takes the device apart."""
        must("losetup", "-d", self.device)
        must("umount", self.folder)
        self.folder.rmdir()


def serve_volume(device: str) -> None:
    """A volume as DEV under the unit, by the lines of the page for its service."""
    service = block("operating/install", "A volume as DEV").text.partition("[Service]\n")[2].replace("/dev/DISK", device)
    must("chown", "pathd", device)
    must("runuser", "-u", "pathd", "--", PATHD, "format", device, "--checkpoint", "64", "--journal", "4096")
    set_settings(STORE=device)
    begun = time.time()
    begin()
    STEPS.expect("the unit as it is doesn't see a volume: `error: device 1`", until(lambda: "error: device 1" in journal("pathd", begun)), journal("pathd", begun))
    must("systemctl", "stop", "pathd")
    drop_in("volume", f"[Service]\n{service}")
    STEPS.expect("with the three lines of the page it serves the volume", start(), run("systemctl", "status", "pathd").stdout)


def fail_device(device: str, by_hand: bool) -> None:
    """The page 'After a device fault': a disk without room, the same after it was mended, and the store opened again."""
    volume = Volume(device)
    rows = Rows()
    serve_volume(device)
    rows.register_many(20)
    with open(device, "rb"):
        begun = time.time()
        volume.take_room(12)
        with Session() as session:
            replies = [rows.register(session) for _ in range(200)]
            last = {reply[:2] for reply in replies if reply[0] == 0xFF}
            STEPS.expect("commands are answered by 0x62 and 0x54 once the disk is full", last == {b"\xff\x62", b"\xff\x54"}, last)
            found = session.ask(messages.lookup_frame(CORE, LEAF))
            STEPS.expect("lookups go on", found[0] == 0x82 and len(found) > 1000)
        STEPS.expect("the journal has the line of the fault", "the store has stopped at a fault of its device; lookups go on" in journal("pathd", begun), journal("pathd", begun))
        STEPS.expect("the unit stays active", property_of("ActiveState") == "active")
        must("systemctl", "stop", "pathd")
        volume.give_room()
        lost = lost_pages(device, volume.disk)
        STEPS.expect("the kernel still gives pages that the disk doesn't have", lost > 0)
        if by_hand:
            must("sh", "-c", "sync; echo 3 > /proc/sys/vm/drop_caches")
            STEPS.expect(f"after `sync` and drop_caches none of {lost} such pages is left", lost_pages(device, volume.disk) == 0)
        STEPS.expect("the next start opens the store", start(), journal("pathd", begun))
        STEPS.expect("after the unit's start no such page is left", lost_pages(device, volume.disk) == 0)
        rows.register_many(20)
        must("systemctl", "stop", "pathd")
    text = shown(Path(device))
    beyond = int(text.split()[-1]) - rows.place
    STEPS.expect("what was acknowledged before and after the fault is shown", rows.has_all(text) and beyond == 0, text[-60:])
    volume.close()
    take_away(DROP_IN / "volume.conf")
    set_settings()


def reaches(source: str, host: str, *more: object, numbers: bool = False) -> int:
    """How many connections from a network namespace a server answers, or the page of its numbers; '' is the server's own."""
    probing = [TOP / "tools/pathd-tools", "units-inside", "--probe", host, *more]
    asking = ["curl", "--silent", "--max-time", "5", f"http://{host}:{NUMBERS_PORT}/metrics"]
    said = run(*(["ip", "netns", "exec", source] if source else []), *(asking if numbers else probing), timeout=60).stdout
    return int("\npathd_rows " in said) if numbers else int(said)


def probe(host: str, count: int) -> int:
    """Opens connections to a server, and counts those that are answered while all are held."""
    held = []
    for _ in range(count):
        with suppress(OSError):
            session = Session(host, 2)
            if session.ask(messages.lookup_frame(LEAF, CORE))[0] == 0x82:
                held.append(session)
    return len(held)


def all_reach(numbers: bool = False) -> tuple[int, ...]:
    """Whether the server is reached from itself, from 192.0.2.0/24 and from another network: 1 where it is."""
    return tuple(reaches(source, host, numbers=numbers) for source, host in (("", "127.0.0.1"), ("near", "192.0.2.1"), ("far", "198.51.100.1")))


def limit_access() -> None:
    """'Access': the unit's addresses, and the firewall."""
    for name, net in (("near", "192.0.2"), ("far", "198.51.100")):
        must("ip", "netns", "add", name)
        must("ip", "link", "add", name, "type", "veth", "peer", "name", "peer", "netns", name)
        must("ip", "address", "add", f"{net}.1/24", "dev", name)
        must("ip", "link", "set", name, "up")
        must("ip", "-n", name, "address", "add", f"{net}.2/24", "dev", "peer")
        must("ip", "-n", name, "link", "set", "peer", "up")
        must("ip", "-n", name, "link", "set", "lo", "up")
    set_settings(LISTEN=f"0.0.0.0:{PORT}", OPTIONS=f"--status 0.0.0.0:{NUMBERS_PORT}")

    def allow(addresses: str) -> tuple[int, ...]:
        drop_in("access", f"[Service]\n{addresses}")
        must("systemctl", "stop", "pathd")
        start()
        return all_reach()

    begun = time.time()
    seen = allow("")
    if "does not support BPF/cgroup firewalling" in must("journalctl", "-b", "-o", "cat", "--no-pager", "--since", f"@{begun - 600:.0f}"):
        STEPS.leave_out("IPAddressAllow=", "systemd finds no support of the kernel")
    else:
        STEPS.expect("with the unit's IPAddressAllow= the loopback alone reaches a server at 0.0.0.0", seen == (1, 0, 0), seen)
        seen = all_reach(numbers=True)
        STEPS.expect("the same holds for the address of its numbers", seen == (1, 0, 0), seen)
        seen = allow("IPAddressAllow=192.0.2.0/24\n")
        STEPS.expect("with IPAddressAllow=192.0.2.0/24 these addresses do, too", seen == (1, 1, 0), seen)
    seen = allow("IPAddressAllow=any\n")
    STEPS.expect("with IPAddressAllow=any all do", seen == (1, 1, 1), seen)
    STEPS.expect_success("the block of 'Access' runs", run_block("operating/run", "Access"))
    seen = all_reach()
    STEPS.expect("by the firewall's rules 192.0.2.0/24 and the loopback reach it, and no other address", seen == (1, 1, 0), seen)
    seats = reaches("near", "192.0.2.1", "--connections", 20)
    STEPS.expect("by these rules an address has at most 8 connections", seats == 8, seats)
    STEPS.expect("others are served beside them", reaches("", "127.0.0.1") == 1)
    seen = all_reach(numbers=True)
    STEPS.expect("these rules are for the port of sessions alone", seen == (1, 1, 1), seen)
    must("nft", "delete", "table", "inet", "pathd")
    take_away(DROP_IN / "access.conf")
    STEPS.expect("after the drop-in and the table were taken away the unit serves as before", restart())
    for name in ("near", "far"):
        must("ip", "netns", "delete", name)


def after_restart() -> None:
    """What the next start of the system finds: the unit is enabled."""
    STEPS.expect("after a restart of the system the unit is active by itself", until(is_up))
    must("systemctl", "stop", "pathd")
    STEPS.expect("what was acknowledged before the restart is shown", pickle.loads(STATE.read_bytes()).has_all(shown()))


def main(words: list[str]) -> int:
    """Tries all steps."""
    parser = toolbox.parser(__doc__)
    parser.add_argument("--loop", help="a loop device that is free")
    parser.add_argument("--after-restart", action="store_true")
    parser.add_argument("--probe", help=argparse.SUPPRESS)
    parser.add_argument("--connections", type=int, default=1, help=argparse.SUPPRESS)
    options = parser.parse_args(words)
    if options.probe:
        print(probe(options.probe, options.connections))
        return 0
    if options.after_restart:
        after_restart()
    else:
        first_hour()
        install()
        look_at_walls()
        fill_sessions()
        stop_and_kill()
        end_by_status()
        purge()
        back_up()
        watch()
        serve_by_gateway()
        must("systemctl", "stop", "pathd")
        fail_device(options.loop, by_hand=True)
        fail_device(options.loop, by_hand=False)
        start()
        limit_access()
        compare_blocks()
        ROWS.register_many(20)
        STATE.write_bytes(pickle.dumps(ROWS))
    return STEPS.end()
