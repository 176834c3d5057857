"""A headless browser, driven by the protocol of Chrome's developer tools over a pair of pipes.

https://chromedevtools.github.io/devtools-protocol/ has its calls. A page's console, its exceptions and what its policy refuses are kept,
so that a test sees them.
"""
from __future__ import annotations

import base64
import contextlib
import json
import os
import pathlib
import select
import shutil
import subprocess
import tempfile
import time
from collections.abc import Iterator
from typing import Any

NAMES = ["chromium", "chromium-browser", "google-chrome", "google-chrome-stable"]
MOST_SECONDS = 60
KEY_CODES = {"ArrowDown": 40, "ArrowUp": 38, "PageDown": 34, "PageUp": 33, "Home": 36, "End": 35}
# Its sandbox doesn't start for root in a container; what it opens here are pages that the tests make.
QUIET = [
    "--headless=new", "--no-sandbox", "--disable-gpu", "--disable-dev-shm-usage", "--no-first-run", "--disable-extensions",
    "--disable-background-networking", "--disable-component-update", "--hide-scrollbars", "--remote-debugging-pipe",
]


def found() -> str | None:
    """The browser's program, or None where there is none."""
    return next(filter(None, map(shutil.which, NAMES)), None)


class Browser:
    """One browser with one tab; it ends with the block that it is made for."""

    def __init__(self, program: str) -> None:
        self.room = tempfile.TemporaryDirectory(ignore_cleanup_errors=True)
        down, self.to_browser = os.pipe()
        self.from_browser, up = os.pipe()
        self.process = subprocess.Popen(
            ["sh", "-c", f'exec "$0" "$@" 3<&{down} 4>&{up}', program, *QUIET, f"--user-data-dir={self.room.name}", "about:blank"],
            pass_fds=[down, up], stdin=subprocess.DEVNULL, stdout=subprocess.DEVNULL, stderr=subprocess.DEVNULL,
        )
        os.close(down)
        os.close(up)
        self.numbered, self.unread, self.loaded = 0, b"", False
        self.session: str | None = None
        self.faults: list[str] = []

    def __enter__(self) -> Browser:
        target = self.call("Target.createTarget", url="about:blank")["targetId"]
        self.session = self.call("Target.attachToTarget", targetId=target, flatten=True)["sessionId"]
        for domain in ("Page", "Runtime", "Log", "Network"):
            self.call(f"{domain}.enable")
        self.call("Performance.enable", timeDomain="threadTicks")
        self.size(1500, 900)
        return self

    def __exit__(self, *_: object) -> None:
        # It ends with all that it started, so that nobody writes into its folder any more.
        self.session = None
        with contextlib.suppress(RuntimeError, OSError):
            self.call("Browser.close")
        self.process.terminate()
        self.process.wait()
        os.close(self.to_browser)
        os.close(self.from_browser)
        self.room.cleanup()

    def call(self, method: str, **given: Any) -> Any:
        """Calls the browser, and waits for its answer."""
        self.numbered += 1
        asked = {"id": self.numbered, "method": method, "params": given}
        if self.session:
            asked["sessionId"] = self.session
        text = json.dumps(asked).encode() + b"\0"
        while text:
            text = text[os.write(self.to_browser, text):]
        while True:
            answer = self.read()
            if answer.get("id") == self.numbered:
                if "error" in answer:
                    raise RuntimeError(f"{method}: {answer['error']['message']}")
                return answer["result"]
            self.note(answer)

    def read(self) -> dict[str, Any]:
        """The next message of the browser."""
        until = time.monotonic() + MOST_SECONDS
        while b"\0" not in self.unread:
            if not select.select([self.from_browser], [], [], max(0, until - time.monotonic()))[0]:
                raise RuntimeError("the browser doesn't answer")
            more = os.read(self.from_browser, 1 << 20)
            if not more:
                raise RuntimeError("the browser has ended")
            self.unread += more
        text, self.unread = self.unread.split(b"\0", 1)
        message: dict[str, Any] = json.loads(text)
        return message

    def note(self, event: dict[str, Any]) -> None:
        """Keeps what went wrong in the page, and what it asked of a network."""
        method, told = event.get("method"), event.get("params", {})
        if method == "Runtime.exceptionThrown":
            self.faults.append(str(told["exceptionDetails"].get("exception", {}).get("description")))
        elif method == "Runtime.consoleAPICalled":
            self.faults.append("console: " + " ".join(str(part.get("value")) for part in told["args"]))
        elif method == "Log.entryAdded":
            self.faults.append("log: " + told["entry"]["text"])
        elif method == "Network.requestWillBeSent" and told["request"]["url"].split(":")[0] not in ("file", "about", "data"):
            self.faults.append("fetches " + told["request"]["url"][:80])
        elif method == "Page.javascriptDialogOpening":
            self.faults.append("dialog: " + told["message"])
        elif method == "Page.loadEventFired":
            self.loaded = True

    def size(self, width: int, height: int) -> None:
        self.call("Emulation.setDeviceMetricsOverride", width=width, height=height, deviceScaleFactor=1, mobile=False)

    def scheme(self, name: str) -> None:
        """Has the reader's system be light or dark."""
        self.call("Emulation.setEmulatedMedia", features=[{"name": "prefers-color-scheme", "value": name}])

    def open(self, path: str | pathlib.Path, place: str = "") -> float:
        """Opens a file; answers how many seconds it took until its first picture was drawn."""
        self.load("about:blank")
        self.faults = []
        start = time.monotonic()
        self.load(pathlib.Path(path).resolve().as_uri() + place)
        self.settle()
        return time.monotonic() - start

    def load(self, address: str) -> None:
        self.loaded = False
        self.call("Page.navigate", url=address)
        while not self.loaded:
            self.note(self.read())

    def settle(self) -> None:
        """Waits until the page has drawn what it wants to draw."""
        self.value("new Promise((done) => requestAnimationFrame(() => requestAnimationFrame(() => done(1))))")

    def value(self, code: str) -> Any:
        """The value of an expression in the page."""
        done = self.call("Runtime.evaluate", expression=code, returnByValue=True, awaitPromise=True)
        if "exceptionDetails" in done:
            raise RuntimeError(done["exceptionDetails"]["exception"]["description"])
        return done["result"].get("value")

    @contextlib.contextmanager
    def inside(self) -> Iterator[None]:
        """Asks the frame of the page that has a process of its own, and not the page. What went wrong in it before is told then."""
        page = self.session
        frame = next(it["targetId"] for it in self.call("Target.getTargets")["targetInfos"] if it["type"] == "iframe")
        self.session = self.call("Target.attachToTarget", targetId=frame, flatten=True)["sessionId"]
        try:
            for domain in ("Runtime", "Log", "Network"):
                self.call(f"{domain}.enable")
            yield
        finally:
            self.session = page

    @contextlib.contextmanager
    def counting(self) -> Iterator[None]:
        """Has the browser count how often each part of a page's code runs; `runs` then tells it. The page is opened within."""
        self.call("Profiler.enable")
        self.call("Profiler.startPreciseCoverage", callCount=True, detailed=True)
        try:
            yield
        finally:
            self.call("Profiler.disable")

    def spent(self) -> float:
        """How many milliseconds of a processor the page's own thread has had since the page was opened."""
        metrics = self.call("Performance.getMetrics")["metrics"]
        return 1000.0 * float(next(it["value"] for it in metrics if it["name"] == "TaskDuration"))

    def runs(self) -> int:
        """How often parts of the page's code ran since this was asked last, all together."""
        scripts = self.call("Profiler.takePreciseCoverage")["result"]
        functions = [function for script in scripts if script["url"].startswith("file:") for function in script["functions"]]
        return sum(part["count"] for function in functions for part in function["ranges"])

    def press(self, *keys: str) -> None:
        for key in keys:
            known = {"windowsVirtualKeyCode": KEY_CODES.get(key, ord(key[0].upper())), "key": key}
            if len(key) == 1:
                known["text"] = key
            self.call("Input.dispatchKeyEvent", type="keyDown", **known)
            self.call("Input.dispatchKeyEvent", type="keyUp", key=key)
        self.settle()

    def click(self, x: float, y: float) -> None:
        for kind in ("mousePressed", "mouseReleased"):
            self.call("Input.dispatchMouseEvent", type=kind, x=x, y=y, button="left", clickCount=1)
        self.settle()

    def picture(self, path: str | pathlib.Path) -> None:
        """Writes what is seen to a file."""
        shot = self.call("Page.captureScreenshot", format="png")
        pathlib.Path(path).write_bytes(base64.b64decode(shot["data"]))
