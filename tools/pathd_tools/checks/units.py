"""Tries the steps of docs/operating and the units of deploy/ in a container of this machine's own
system, whose first process is systemd: the first hour, installing by `make` and by the Debian
packages, the unit's walls, purges, stops and signals, statuses, a backup, the gateway, a volume as
DEV, a fault of that device, the firewall, and a restart of the container.
`tools/pathd-tools units-inside` has the list, and runs the blocks of those pages as they are written.

    tools/pathd-tools units [PROGRAM [GATEWAY]]

PROGRAM is crates/pathd/out/pathd if left out, which `rt run` builds. GATEWAY is
gateway/out/pathd-gateway if left out, which `gateway/build` builds; where it is not there the unit of
the gateway is left out. It has to be run as root, on Debian 12 with systemd-container,
python3-protobuf, protobuf-compiler, nftables, iproute2, curl and make (tools/pathd-tools need says
what is missing), and a free loop device, which nobody else may take meanwhile.

The container's root is an overlay in memory over the machine's /, its network has nothing but a
loopback and what the steps make, and all of it is gone at the end. The one setting of the machine's
kernel that is written is drop_caches. What the container's cgroups can't do, as MemoryMax= where the
machine has the memory controller in a hierarchy of version 1, is printed as left out. On a machine
that was started by systemd it was not tried.
"""
from __future__ import annotations

import os
import signal
import sys
import tempfile
from contextlib import ExitStack
from pathlib import Path

from pathd_tools import TOP, need, runs, systems, toolbox
from pathd_tools.systems import must, run

REPOSITORY = "/srv/pathd"
# The files of an earlier installation on this machine, and of its accounts.
INSTALLED = "var/lib/pathd var/log/journal usr/local/bin/pathd usr/local/bin/pathd-gateway etc/default/pathd etc/default/pathd-gateway".split()
ACCOUNTS = "etc/passwd etc/group etc/shadow etc/gshadow".split()
# systemd-nspawn lets nobody write the kernel's settings. 'After a fault' writes one of them, drop_caches, and so they are opened once systemd has started.
OPEN_SETTINGS = "[Service]\nType=oneshot\nExecStart=mount -o remount,bind,rw /proc/sys\nRemainAfterExit=yes\n[Unit]\nBefore=pathd.service\n"


def furnish(container: systems.Container, program: str, gateway: Path) -> None:
    """Puts the packages there, and the parts of the repository that the pages name."""
    repository = container.path(REPOSITORY)
    for folder in (repository / "crates/pathd/out", repository / "out"):
        folder.mkdir(parents=True)
    must("cp", program, repository / "crates/pathd/out/pathd")
    must("cp", "-r", *TOP.glob("*.md"), *(TOP / it for it in ("Makefile", "deploy", "docs", "clients", "tools")), repository)
    packages = {"pathd": ["deb", f"PROGRAM={program}"]} | ({"pathd-gateway": ["gateway-deb", f"GATEWAY={gateway}"]} if os.access(gateway, os.X_OK) else {})
    for name, words in packages.items():
        must("make", "--silent", "-C", TOP, *words)
        must("cp", *TOP.glob(f"out/{name}_{must(TOP / 'deploy/debian/version').strip()}_*.deb"), repository / "out")
    must("rm", "-rf", *(container.path(it) for it in INSTALLED))
    run("sed", "-i", r"/^pathd\(-gateway\)\?:/d", *(container.path(it) for it in ACCOUNTS))
    container.path("etc/systemd/system/open-settings.service").write_text(OPEN_SETTINGS)
    container.path("etc/systemd/system/multi-user.target.wants/open-settings.service").symlink_to("../open-settings.service")


def give_back(loop: str, owner: str) -> None:
    """Gives the loop device back. Its node is the machine's own, and a page gives it to the user pathd."""
    if "/small/disk" in run("losetup", "-nO", "BACK-FILE", loop).stdout:
        run("losetup", "-d", loop)
    must("chown", owner, loop)


def main(words: list[str]) -> int:
    """Tries all steps, restarts the container, and looks again."""
    parser = toolbox.parser(__doc__)
    parser.add_argument("program", nargs="?", metavar="PROGRAM", help="the built program [crates/pathd/out/pathd]")
    parser.add_argument("gateway", nargs="?", type=Path, default=TOP / "gateway/out/pathd-gateway", metavar="GATEWAY", help="the built gateway [gateway/out/pathd-gateway]")
    options = parser.parse_args(words)
    need.require("root", "losetup", "nspawn", "nft", "ip", "make", "curl", "protoc", "python3-protobuf")
    program = runs.program_of(options.program)
    systems.go_alone(systems.OWN_MOUNTS, "units", words)
    signal.signal(signal.SIGTERM, lambda number, _: sys.exit(128 + number))
    with tempfile.TemporaryDirectory(prefix="pathd-units.") as work, ExitStack() as ending:
        loop = must("losetup", "-f").strip()
        ending.callback(give_back, loop, must("stat", "-c", "%u:%g", loop).strip())
        container = systems.Container(Path(work))
        ending.callback(container.close)
        furnish(container, program, options.gateway.resolve())
        container.boot(f"--bind={loop}")
        steps = [f"{REPOSITORY}/tools/pathd-tools", "units-inside"]
        status = container.run(*steps, "--loop", loop, capture_output=False).returncode
        container.restart()
        container.boot(f"--bind={loop}")
        return status or container.run(*steps, "--after-restart", capture_output=False).returncode
