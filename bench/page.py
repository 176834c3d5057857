#!/usr/bin/env python3
"""Measures the page of 20,000 directives in a headless browser (Debian's `chromium`): from its opening until its first picture is drawn,
and from a key until the picture of the next step is, at its beginning, in its middle and at its end.

The program writes the page. Prints medians and worst times, on the clock and of a processor by the page's own thread, and how many
elements come and go in a step. Says where the median of a processor is above 3 s or 50 ms, and ends with 1 then.

    bench/page.py [ROUNDS]     RAFTBENCH names a program that is built elsewhere
"""
import os
import pathlib
import statistics
import subprocess
import sys
import tempfile

TOP = pathlib.Path(__file__).resolve().parents[1]

sys.dont_write_bytecode = True
sys.path[:1] = [os.path.dirname(os.path.dirname(os.path.abspath(__file__)))]

from tests.page.browser import Browser, found  # noqa: E402
from tests.harness import PROGRAM  # noqa: E402
from tests.page.reader import STEPS  # noqa: E402
from tests.page.scripts import LONG  # noqa: E402

MOST_TO_OPEN, MOST_TO_STEP = 3000, 50
OPENINGS = 3
# Where steps are taken: the place in the address, and the key.
PLACES = [
    ("at the beginning", "#1", "ArrowDown"), ("in the middle", "#10000", "ArrowDown"), ("ten at a time", "#10000", "PageDown"),
    ("at the end", "#20000", "ArrowUp"), ("from event to event", "#10000.1", "ArrowRight"),
]


def page_in(room: pathlib.Path) -> pathlib.Path:
    """The page's file."""
    script, page = room / "long", room / "page.html"
    script.write_bytes(LONG)
    with open(page, "wb") as output:
        subprocess.run([PROGRAM, "page", script], stdout=output, check=True)
    return page


def is_soon_enough(what: str, clock: list[float], spent: list[float], most: float) -> bool:
    """Prints times in milliseconds, and answers whether the median of those of a processor is at most so much."""
    median = statistics.median(spent)
    told = f"{statistics.median(clock):7.1f} ms, worst {max(clock):7.1f} ms; of a processor {median:7.1f} ms, worst {max(spent):7.1f} ms"
    print(f"  {what:24} {told}{f', above {most} ms' if median > most else ''}")
    return median <= most


def is_opened_soon(browser: Browser, page: pathlib.Path) -> bool:
    clock, spent = [], []
    for _ in range(OPENINGS):
        clock.append(1000 * browser.open(page))
        spent.append(browser.spent())
    return is_soon_enough("opening", clock, spent, MOST_TO_OPEN)


def is_stepped_soon(browser: Browser, page: pathlib.Path, rounds: int, where: str, place: str, key: str) -> bool:
    browser.open(page, place)
    clock, spent, most = [], [], 0
    for _ in range(rounds):
        before = browser.spent()
        step = browser.value(f"({STEPS})({key!r}, 1)")
        spent.append(browser.spent() - before)
        clock += step["times"]
        most = max(most, *step["touched"])
    is_soon = is_soon_enough(f"a step {where}", clock, spent, MOST_TO_STEP)
    print(f"  {'':24} at most {most} elements come and go")
    return is_soon


def main() -> int:
    rounds = int(sys.argv[1]) if len(sys.argv) > 1 else 50
    if not (program := found()):
        sys.exit("no browser is here: Debian has one as chromium")
    if "RAFTBENCH" not in os.environ:
        # The wrapper builds where that is needed.
        subprocess.run([TOP / "raftbench", "--help"], stdout=subprocess.DEVNULL, check=True)
    with tempfile.TemporaryDirectory() as room, Browser(program) as browser:
        page = page_in(pathlib.Path(room))
        print(f"20,000 directives, {page.stat().st_size:,} bytes")
        right = [is_opened_soon(browser, page), *(is_stepped_soon(browser, page, rounds, *place) for place in PLACES)]
    return 0 if all(right) else 1


if __name__ == "__main__":
    sys.exit(main())
