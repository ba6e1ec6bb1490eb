"""Has headless Chromium show the page of plots of a running server, and looks at what it shows.

    tools/pathd-tools plots-shown [PROGRAM] [--seconds S] [--pictures FOLDER] [--system FOLDER]

A load is put on the server meanwhile. The page has to show that commands are accepted, and a value
for each plot, without an error and without a request to anything else. It has to fit a screen of 360
pixels. The server is killed then: the page has to say that it does not answer. It is started again,
and the page has to go on by itself.

--pictures writes plots.png and plots-dark.png into a folder, after S seconds of the load [10]. Those
of docs/ are made with 280 seconds. --system names the root of a system of Debian with Chromium, which
is copied; without it Chromium is the machine's own. It needs Debian's chromium, or root and that
system, gcc and Python 3, and stays on the loopback.
"""
from __future__ import annotations

import argparse
import base64
import json
import os
import subprocess
import tempfile
import threading
import time
from collections.abc import Callable, Iterator
from contextlib import contextmanager, suppress
from itertools import cycle
from pathlib import Path
from typing import Any

from pathd_model import model
from pathd_tools import need, runs, toolbox
from pathd_tools.load.load import compiled
from pathd_tools.systems import Failed, Root, wait_for

# A store in which a load makes checkpoints.
LAYOUT = model.Layout(2048, 20480)
# What the load does by turns: how many requests a second, and for how many seconds.
TURNS = [(900, 30), (2400, 20), (300, 15), (1500, 25)]
LOAD = ["--sessions", "6", "--rows", "600", "--mix", "lookup=6,register=2,fresh=1"]
# How long the page may take to say something else, in seconds.
PATIENCE = 15.0
# What the page says of the server, and the values of its plots, as expressions on it.
STATE = "document.querySelector('#state').textContent"
VALUES = "[...document.querySelectorAll('section b')].map((it) => it.textContent).join()"
# How the first begins where commands are accepted, and where the server is away.
WELL, AWAY = "commands are accepted", "the server has not answered since"
# Sizes of a window, in pixels: of a large screen, and of a small phone.
SCREEN, PHONE = (1200, 900), (360, 740)


class Browser:
    """A page in headless Chromium, which messages of its protocol ask over two pipes."""

    def __init__(self, within: Callable[..., list[str]], profile: Path) -> None:
        asked, self._asking = os.pipe()
        self._answers, answering = os.pipe()
        # Chromium reads at the descriptor 3, and writes at 4.
        moved = ["bash", "-c", f'exec "$@" 3<&{asked} 4>&{answering}', "bash"]
        words = within("chromium", "--headless=new", "--no-sandbox", "--disable-gpu", "--remote-debugging-pipe", f"--user-data-dir={profile}")
        self.process = subprocess.Popen([*moved, *words], pass_fds=(asked, answering), stdin=subprocess.DEVNULL, stderr=subprocess.DEVNULL)
        os.close(asked)
        os.close(answering)
        self._count, self._rest, self._page = 0, b"", ""
        self.events: list[dict] = []
        target = self.ask("Target.createTarget", url="about:blank")["targetId"]
        self._page = self.ask("Target.attachToTarget", targetId=target, flatten=True)["sessionId"]
        for domain in ("Page", "Log", "Runtime", "Network"):
            self.ask(f"{domain}.enable")

    def ask(self, method: str, **params: object) -> dict:
        """The result of a method. What the page reports meanwhile is kept."""
        self._count += 1
        message = {"id": self._count, "method": method, "params": params} | ({"sessionId": self._page} if self._page else {})
        os.write(self._asking, json.dumps(message).encode() + b"\0")
        while True:
            answer = json.loads(self._next())
            if answer.get("id") == self._count:
                if "error" in answer:
                    raise Failed(f"{method}: {answer['error']['message']}")
                return answer["result"]
            self.events.append(answer)

    def _next(self) -> bytes:
        """The next message of the browser."""
        while b"\0" not in self._rest:
            piece = os.read(self._answers, 1 << 16)
            if not piece:
                raise Failed("the browser ended")
            self._rest += piece
        message, _, self._rest = self._rest.partition(b"\0")
        return message

    def value(self, expression: str) -> Any:
        """The value of an expression on the page."""
        return self.ask("Runtime.evaluate", expression=expression, returnByValue=True)["result"].get("value")

    def resize(self, size: tuple[int, int]) -> None:
        """Gives the page a window of this size."""
        self.ask("Emulation.setDeviceMetricsOverride", width=size[0], height=size[1], deviceScaleFactor=1, mobile=False)

    def write_picture(self, path: Path, scheme: str) -> None:
        """Writes a picture of the whole page in a color scheme."""
        self.ask("Emulation.setEmulatedMedia", features=[{"name": "prefers-color-scheme", "value": scheme}])
        self.resize(SCREEN)
        self.resize((SCREEN[0], self.value("document.body.offsetHeight")))
        path.write_bytes(base64.b64decode(self.ask("Page.captureScreenshot", format="png")["data"]))

    def asked_for(self) -> set[str]:
        """What the page has loaded."""
        sent = [it["params"] for it in self.events if it.get("method") == "Network.requestWillBeSent"]
        return {it["request"]["url"] for it in sent if not it["request"]["url"].startswith("data:")}

    def faults(self) -> list[str]:
        """What the page has said of errors."""
        logged = [it["params"]["entry"]["text"] for it in self.events if it.get("method") == "Log.entryAdded"]
        thrown = [it["params"]["exceptionDetails"]["exception"]["description"] for it in self.events if it.get("method") == "Runtime.exceptionThrown"]
        return logged + thrown

    def end(self) -> None:
        """Ends the browser."""
        with suppress(Failed, OSError):
            self.ask("Browser.close")
        self.process.kill()
        self.process.wait()


@contextmanager
def loaded(program: Path, port: int) -> Iterator[None]:
    """Puts a load on a server until the end, in a thread: the turns one after the other."""
    is_over = threading.Event()

    def put() -> None:
        for number, (rate, seconds) in enumerate(cycle(TURNS)):
            words = ["--rate", str(rate), "--seconds", str(seconds), "--made", str(number * 1_000_000)]
            process = subprocess.Popen([program, "127.0.0.1", str(port), *LOAD, *words], stdout=subprocess.DEVNULL, stderr=subprocess.DEVNULL)
            while process.poll() is None and not is_over.wait(0.1):
                pass
            process.kill()
            process.wait()
            if is_over.is_set():
                return

    thread = threading.Thread(target=put)
    thread.start()
    try:
        yield
    finally:
        is_over.set()
        thread.join()


def await_state(browser: Browser, start: str) -> None:
    """Waits until the page says so of the server."""
    wait_for(lambda: str(browser.value(STATE)).startswith(start), PATIENCE, start)


def look(browser: Browser, at: str) -> None:
    """Looks at the page while the server is loaded."""
    browser.resize(SCREEN)
    browser.ask("Page.navigate", url=at)
    await_state(browser, WELL)
    wait_for(lambda: "\u2013" not in str(browser.value(VALUES)), PATIENCE, "a value for each plot")
    browser.resize(PHONE)
    width = browser.value("document.documentElement.scrollWidth")
    if width > PHONE[0]:
        raise Failed(f"the page is {width} pixels wide on a screen of {PHONE[0]}")
    browser.resize(SCREEN)


@contextmanager
def started(folder: Path, system: str | None) -> Iterator[Browser]:
    """A browser of the machine's own Chromium, or of that of a copy of another system."""
    with tempfile.TemporaryDirectory(prefix="pathd-plots.") as root:
        within = Root.made(Path(root) / "root", system).within if system else lambda *words: list(words)
        browser = Browser(within, Path("/tmp/profile") if system else folder / "profile")
        try:
            yield browser
        finally:
            browser.end()


def try_page(program: str, folder: Path, options: argparse.Namespace) -> None:
    """Shows the page of a loaded server, and of one that is killed and started again."""
    store = folder / "store"
    runs.format_store(program, store, LAYOUT)
    status = runs.free_port()
    at = f"http://127.0.0.1:{status}/"
    words = ["--status", f"127.0.0.1:{status}"]
    with started(folder, options.system) as browser:
        with runs.Server(program, store, words) as server, loaded(compiled(folder), server.port):
            look(browser, at)
            end = time.monotonic() + options.seconds
            while time.monotonic() < end:
                await_state(browser, WELL)
                time.sleep(0.5)
            for name, scheme in [("plots", "light"), ("plots-dark", "dark")] if options.pictures else []:
                browser.write_picture(options.pictures / f"{name}.png", scheme)
            faults = browser.faults()
        await_state(browser, AWAY)
        with runs.Server(program, store, words):
            await_state(browser, WELL)
        others = {it for it in browser.asked_for() if it not in (at, f"{at}metrics", f"{at}readyz")}
    if faults or others:
        raise Failed(f"the page has said {faults}, and has asked for {sorted(others)}")


def main(words: list[str]) -> int:
    """Tries the page, and writes the pictures that are asked for."""
    parser = toolbox.parser(__doc__)
    parser.add_argument("program", nargs="?", metavar="PROGRAM", help="the built program [crates/pathd/out/pathd]")
    parser.add_argument("--seconds", type=float, default=10, help="how long the load is put on before the pictures are made [%(default)s]")
    parser.add_argument("--pictures", type=Path, metavar="FOLDER", help="write the pictures to this folder")
    parser.add_argument("--system", metavar="FOLDER", help="a system of Debian with Chromium")
    options = parser.parse_args(words)
    need.require("root" if options.system else "chromium", "gcc")
    program = runs.program_of(options.program)
    with runs.scratch() as folder:
        try_page(program, folder, options)
    return 0
