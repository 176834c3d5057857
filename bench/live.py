#!/usr/bin/env python3
"""Measures a click on the page of raftbench-live in a headless browser (Debian's `chromium`), in scripts of 20, 1,000 and 10,000 directives: from
the click until what it did is drawn, at the end and in the middle, for an edit that meets the old run again and for one that never does.

Prints the median and the worst time on the clock, and of the median click where it went: the program, Python, transport, and the browser. Says where
a median is above the goal, and ends with 1 then: 30 ms at 20 directives, 100 at 10,000, on an idle machine. Also says after how long the buttons of all
nodes say what these may do, and what a restart would lose.

    bench/live.py [ROUNDS [DIRECTIVES ..]]     RAFTBENCH names a program that is built elsewhere
"""
from __future__ import annotations

import contextlib
import dataclasses
import os
import pathlib
import statistics
import subprocess
import sys
import tempfile
import threading
import time
from collections.abc import Iterator
from typing import Any

TOP = pathlib.Path(__file__).resolve().parents[1]

sys.dont_write_bytecode = True
sys.path[:1] = [str(TOP)]

from live import branch, live, server  # noqa: E402
from live.guard import ADDRESS, Guard  # noqa: E402
from live.program import Program  # noqa: E402
from live.server import Handler, Served  # noqa: E402
from live.session import Session  # noqa: E402
from live.shell import files_of, found_assets  # noqa: E402
from live.somerows import RowServer  # noqa: E402
from tests.harness import PROGRAM  # noqa: E402
from tests.page.browser import Browser, found  # noqa: E402

DIRECTIVES = [20, 1_000, 10_000]
GOALS = {20: 30.0, 1_000: 100.0, 10_000: 100.0}
BEGIN = [b"add-nodes 3 voters=(1,2,3) index=10", b"campaign 1", b"stabilize"]
AGAIN = [b"propose 1 x%d", b"process-ready 1", b"deliver-msgs 2 type=MsgApp", b"process-ready 2", b"stabilize", b"tick-heartbeat 1", b"stabilize"]
# Clicks a button, and answers when the click was, when its answer began and ended, when what it did was drawn, and when all buttons of nodes were right.
CLICK = """(selector, where) => new Promise((done) => {
  performance.clearResourceTimings();
  const clicked = performance.now();
  const told = document.getElementById("where");
  const look = () => {
    if (told.textContent.startsWith(where)) {
      seen.disconnect();
      requestAnimationFrame(() => setTimeout(() => {
        const drawn = performance.now();
        const asked = performance.getEntriesByType("resource").find(({ name }) => name.endsWith("/do"));
        const known = () => {
          if (document.querySelector("#state [aria-busy='true']")) {
            setTimeout(known, 1);
          } else {
            done([clicked, asked.startTime, asked.responseEnd, drawn, performance.now()]);
          }
        };
        known();
      }));
    }
  };
  const seen = new MutationObserver(look);
  seen.observe(told, { childList: true, characterData: true, subtree: true });
  document.querySelector(selector).click();
})"""


class Watch(threading.local):
    """Adds up the milliseconds of some calls of a thread; one within another counts once."""

    def __init__(self) -> None:
        self.took, self.depth = 0.0, 0

    @contextlib.contextmanager
    def on(self) -> Iterator[None]:
        start = time.perf_counter()
        self.depth += 1
        try:
            yield
        finally:
            self.depth -= 1
            self.took += 0 if self.depth else 1000 * (time.perf_counter() - start)


OF_PROGRAM = Watch()


class TimedProgram(Program):
    def page(self, data: bytes) -> tuple[int, bytes, str]:
        with OF_PROGRAM.on():
            return super().page(data)


class TimedSession(Session):
    def line(self) -> bytes:
        with OF_PROGRAM.on():
            return super().line()


class TimedRowServer(RowServer):
    def _body(self) -> bytes:
        with OF_PROGRAM.on():
            return super()._body()


class TimedServed(Served):
    """`spent` are the milliseconds of the program, and of all, of the last thing that was done."""

    spent = (0.0, 0.0)


class TimedHandler(Handler):
    served: TimedServed

    def do(self, asked: dict[str, Any]) -> bytes:
        OF_PROGRAM.took, start = 0.0, time.perf_counter()
        answer = super().do(asked)
        self.served.spent = (OF_PROGRAM.took, 1000 * (time.perf_counter() - start))
        return answer


@dataclasses.dataclass(frozen=True)
class Click:
    """Milliseconds of a click, by where they went; and until the buttons say again what nodes may do, and would lose."""

    whole: float
    program: float
    python: float
    transport: float
    browser: float
    known: float


def script_of(count: int) -> bytes:
    more = [AGAIN[at % len(AGAIN)].replace(b"%d", b"%d" % at) for at in range(count - len(BEGIN))]
    return b"".join(head + b"\n----\n\n" for head in BEGIN + more)


@contextlib.contextmanager
def serving(path: pathlib.Path) -> Iterator[tuple[str, TimedServed]]:
    """The server, in this process, so that its parts can be timed."""
    for module, timed in ((branch, TimedSession), (live, TimedRowServer), (server, TimedHandler)):
        vars(module)[timed.__bases__[0].__name__] = timed
    guard, playing = Guard(), live.Live(path, TimedProgram(pathlib.Path(PROGRAM)))
    playing.warm()
    served = TimedServed(playing, files_of(found_assets(TOP)), guard)
    listening = server.Server(served, 0)
    thread = threading.Thread(target=listening.serve_forever, daemon=True)
    thread.start()
    try:
        yield f"http://{ADDRESS}:{listening.server_address[1]}/#key={guard.key}", served
    finally:
        listening.shutdown()
        listening.server_close()
        served.language.close()
        playing.close()


class Measured:
    """A page whose clicks are measured."""

    def __init__(self, browser: Browser, address: str, served: TimedServed) -> None:
        self.browser, self.served = browser, served
        browser.call("Emulation.setEmulatedMedia", features=[{"name": "prefers-reduced-motion", "value": "reduce"}])
        browser.load("about:blank")
        browser.load(address)
        self.until("document.getElementById('panes')?.hidden === false")

    def until(self, code: str) -> None:
        while not self.browser.value(code):
            time.sleep(0.05)

    def rest(self, count: int) -> None:
        """Waits until all of the page is there, and its buttons say what nodes may do."""
        self.until(f"document.getElementById('where').textContent.includes(' of {count},')")
        self.until("document.querySelector('#state [aria-busy=\"true\"]') === null")
        time.sleep(0.2)

    def go(self, place: int, count: int) -> None:
        self.browser.value(f"location.hash = '#{place}', 1")
        self.until(f"document.getElementById('where').textContent.startsWith('step {place} of')")
        self.rest(count)

    def click(self, key: str, place: int) -> Click:
        clicked, asked, answered, drawn, known = self.browser.value(f"({CLICK})('[data-key=\"{key}\"]', 'step {place} of ')")
        program, served = self.served.spent
        return Click(drawn - clicked, program, served - program, answered - asked - served, asked - clicked + drawn - answered, known - clicked)


def shown(what: str, clicks: list[Click], most: float) -> bool:
    """Prints times in milliseconds, and answers whether the median is at most so much."""
    middle = sorted(clicks, key=lambda it: it.whole)[len(clicks) // 2]
    median = statistics.median(it.whole for it in clicks)
    parts = f"program {middle.program:6.1f}, Python {middle.python:6.1f}, transport {middle.transport:6.1f}, browser {middle.browser:6.1f}"
    known = statistics.median(it.known for it in clicks)
    worst = max(it.whole for it in clicks)
    print(f"  {what:44} {median:7.1f} ms, worst {worst:7.1f}; {parts}; buttons {known:6.1f}{f'; above {most:g} ms' if median > most else ''}", flush=True)
    return median <= most


def measure(browser: Browser, count: int, rounds: int) -> bool:
    """At rest `stabilize` changes nothing, so the old run is met at once; another leader is never forgotten."""
    with tempfile.TemporaryDirectory() as room:
        path = pathlib.Path(room, "script.txt")
        path.write_bytes(subprocess.run([PROGRAM, "rewrite", "-"], input=script_of(count), stdout=subprocess.PIPE, check=True).stdout)
        with serving(path) as (address, served):
            page = Measured(browser, address, served)
            print(f"{count:,} directives, rows of {len(served.live.branches[1].whole().raw):,} bytes")
            middle = count // 14 * 7 + 3
            cases = [("at the end", count, "stabilize"), ("in the middle, meets again", middle, "stabilize"), ("in the middle, never does", middle, "tick-election 3")]
            return all([is_soon_enough(page, count, rounds, *case) for case in cases])


def is_soon_enough(page: Measured, count: int, rounds: int, what: str, place: int, key: str) -> bool:
    """Inserts a directive by its button, and undoes that, some times."""
    put, undone = list[Click](), list[Click]()
    for _ in range(rounds):
        page.go(place, count)
        put.append(page.click(key, place + 1))
        page.rest(count + 1)
        undone.append(page.click("undo", place))
        page.rest(count)
    most = GOALS.get(count, 100.0)
    return all([shown(what, put, most), shown(f"{what}, undone", undone, most)])


def main() -> int:
    rounds, *sizes = [int(word) for word in sys.argv[1:]] or [10]
    if not (program := found()):
        sys.exit("no browser is here: Debian has one as chromium")
    if "RAFTBENCH" not in os.environ:
        # The wrapper builds where that is needed.
        subprocess.run([TOP / "raftbench", "--help"], stdout=subprocess.DEVNULL, check=True)
    with Browser(program) as browser:
        return 0 if all([measure(browser, count, rounds) for count in sizes or DIRECTIVES]) else 1


if __name__ == "__main__":
    sys.exit(main())
