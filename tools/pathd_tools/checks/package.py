"""Makes the Debian packages, and installs, runs, upgrades, removes and purges them in a new system of
Debian 12 that debootstrap makes. Then it makes all packages with their checksums.

    tools/pathd-tools package [--system FOLDER] [--gateway GATEWAY] [PROGRAM]

PROGRAM is crates/pathd/out/pathd if left out, which `rt run` builds. GATEWAY is
gateway/out/pathd-gateway if left out, which `gateway/build` builds; where it is not there its
package and those of the clients are left out. FOLDER is a system that debootstrap has made before
(`--variant=minbase bookworm FOLDER`); it is copied, and not changed. Without it one is fetched from
deb.debian.org. It has to be run as root, on Debian 12 with debootstrap, make, git, binutils,
lintian, python3-setuptools and python3-wheel. No service is started there, as the new system has no
systemd; `tools/pathd-tools units` tries the units of the packages.
"""
from __future__ import annotations

import os
import shutil
import tempfile
from pathlib import Path

from pathd_tools import TOP, need, runs, systems, toolbox
from pathd_tools.systems import must, run

SETTING = "CORES=1-ff00:0:110"
STORE = "/var/lib/pathd/store"
# A store is made and served, the probe is answered, and a purge is acknowledged without a client.
SERVES = """cd /var/lib/pathd
as="setpriv --reuid pathd --regid pathd --clear-groups"
$as pathd format store --new --checkpoint 64 --journal 516
$as pathd run store --listen 127.0.0.1:39252 --cores 1-ff00:0:110 --sessions 2 &
MAINPID=$! /usr/lib/pathd/pathd-probe --wait 127.0.0.1:39252
pathd ask 127.0.0.1:39252 purge --at-once | grep -x "place 0: 0 inserted, 0 updated, 0 kept, 0 purged"
wait $!"""
# The gateway serves as its user, and ends by SIGTERM.
ANSWERS = """setpriv --reuid pathd-gateway --regid pathd-gateway --clear-groups \\
  pathd-gateway --listen 127.0.0.1:0 --pathd 127.0.0.1:39254 >/tmp/lines 2>&1 &
for _ in $(seq 600); do grep -q "^serves at 127" /tmp/lines && break; sleep 0.1; done
cat /tmp/lines
kill $!
wait $!"""


def make(*words: object) -> str:
    """Makes packages; what `make` prints."""
    return must("make", "-C", TOP, "--silent", *words)


class Trial(systems.Tally):
    """The packages in a new system."""

    def __init__(self, root: systems.Root) -> None:
        super().__init__()
        self.root, self.before = root, set[str]()

    def inside(self, what: str, lines: str) -> None:
        """Runs lines of the shell in the new system, which have to succeed."""
        self.expect_success(what, self.root.run(*systems.SHELL, lines))

    def install(self, name: str, *words: object) -> None:
        """Makes a package twice by these words of `make`, and installs it."""
        deb = TOP / f"out/{name}_{must(TOP / 'deploy/debian/version').strip()}_{must('dpkg', '--print-architecture').strip()}.deb"
        first, second = (make(*words) + must("sha256sum", deb) for _ in range(2))
        self.expect(f"{name}: the package has the same bytes when it is made again", first == second, first + second)
        self.expect_success(f"{name}: lintian finds no error", run("lintian", "--fail-on", "error", "--allow-root", deb))
        shutil.copy(deb, self.root.path(f"tmp/{name}.deb"))
        self.before = self.root.files()
        self.inside(f"{name}: it is installed", f"dpkg --install /tmp/{name}.deb")
        self.inside(f"{name}: dpkg finds its files as they were made", f'[ -z "$(dpkg --verify {name})" ]')
        self.inside(f"{name}: no file names /usr/local", f"! dpkg -L {name} | grep -v /doc/ | xargs -d '\\n' grep -Is /usr/local/")

    def remove(self, name: str, kept: set[str]) -> None:
        """Installs it again, removes and purges it; what is kept then."""
        settings = self.root.path(f"etc/default/{name}")
        settings.write_text(SETTING + "\n")
        self.inside(f"{name}: it is installed again", f"dpkg --install /tmp/{name}.deb")
        self.inside(f"{name}: it is removed", f"dpkg --remove {name}")
        self.expect(f"{name}: the settings are kept", settings.read_text() == SETTING + "\n")
        self.inside(f"{name}: it is purged", f"dpkg --purge {name}")
        # Debian's tools for accounts leave copies of their files, such as /etc/passwd-.
        left = {it for it in self.root.files() - self.before if not (it.startswith("./etc/") and it.endswith("-"))}
        self.expect(f"{name}: what is left is {' '.join(sorted(kept))}", left == kept, sorted(left))

    def program(self, program: str) -> None:
        """The package of the program."""
        self.install("pathd", "deb", f"PROGRAM={program}")
        doc = self.root.path("usr/share/doc/pathd")
        self.inside("the user is there, and the folder is its own", '[ "$(stat -c %U:%G:%a /var/lib/pathd)" = pathd:pathd:700 ]')
        self.inside("the settings have no core ASes", "grep -qx CORES= /etc/default/pathd")
        self.expect_success("each link of its pages leads to something, and no block needs the repository", run(TOP / "tools/pathd-tools", "installed", "--folder", doc))
        self.inside("the program prints its help", "pathd --help")
        self.expect_success("its example shows the program at work", run("/usr/bin/python3", doc / "examples/try", "--once", program))
        self.inside("a store is made and served, the probe is answered, and a purge is acknowledged without a client", SERVES)
        store = must("sha256sum", self.root.path(STORE))
        self.remove("pathd", {"./var/lib/pathd", f".{STORE}"})
        self.expect("the store is as it was", must("sha256sum", self.root.path(STORE)) == store)

    def gateway(self, gateway: Path) -> None:
        """The package of the gateway."""
        self.install("pathd-gateway", "gateway-deb", f"GATEWAY={gateway}")
        folder = 'id pathd-gateway && [ "$(stat -c %U:%G:%a /etc/pathd-gateway)" = root:pathd-gateway:750 ]'
        self.inside("its user is there, and reads the folder of certificates and trust", folder)
        words = 'pathd-gateway --version | grep "^pathd-gateway [0-9]" && pathd-gateway --help | grep -e --most-segments'
        self.inside("the gateway prints its version and its help", words)
        self.inside("the gateway serves as its user, and ends by SIGTERM", ANSWERS)
        self.root.path("etc/pathd-gateway/server.key").touch()
        self.remove("pathd-gateway", {"./etc/pathd-gateway", "./etc/pathd-gateway/server.key"})

    def checksums(self, program: str, gateway: Path) -> None:
        """All packages, with their checksums."""
        made, again = (make("packages", f"PROGRAM={program}", f"GATEWAY={gateway}") for _ in range(2))
        self.expect("five packages have checksums", made.count("\n") == 5, made)
        self.expect("all packages have the same bytes when they are made again", made == again)
        self.expect_success("the checksums are those of the packages", run("sha256sum", "--check", "--quiet", "SHA256SUMS", cwd=TOP / "out"))


def main(words: list[str]) -> int:
    """Makes the packages, and tries them."""
    parser = toolbox.parser(__doc__)
    parser.add_argument("program", nargs="?", metavar="PROGRAM", help="the built program [crates/pathd/out/pathd]")
    parser.add_argument("--system", metavar="FOLDER", help="a system that debootstrap has made")
    parser.add_argument("--gateway", type=Path, default=TOP / "gateway/out/pathd-gateway", metavar="GATEWAY", help="the built gateway [gateway/out/pathd-gateway]")
    options = parser.parse_args(words)
    need.require("root", "make", "lintian", *([] if options.system else ["debootstrap"]))
    program, gateway = runs.program_of(options.program), options.gateway.resolve()
    with tempfile.TemporaryDirectory(prefix="pathd-package.") as work:
        trial = Trial(systems.Root.made(Path(work) / "root", options.system))
        trial.program(program)
        if os.access(gateway, os.X_OK):
            trial.gateway(gateway)
            trial.checksums(program, gateway)
        else:
            trial.leave_out("the packages of the gateway and the clients", f"there is no {gateway}")
    return trial.end()
