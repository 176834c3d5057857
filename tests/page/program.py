"""What `raftbench page` writes, byte for byte beside the page that is made of the plain bench's rows, and how it ends: as `run` does. The plain
bench knows no reasons, hints and warnings: they are those of `trace` and `check`.
"""
from __future__ import annotations

import json
import pathlib
import re
import subprocess
import tempfile
import time
from collections.abc import Sequence

from tests.harness import PROGRAM
from tests.page.scripts import HOSTILE, LESS, LONG, LOST, MANY, TOUR, long_page, mismatched, page_of, same, to_and_fro
from tests.page.plain_steps import DIRECTIVES, EVENTS_TOO

# The format of the rows that the program writes.
FORMAT = EVENTS_TOO
FAILED = b"raftbench: input or output failed\n"
PAST_ROOM = b"raftbench: a page has room for 60000000 bytes of rows: divide the script, or see a part of it by chart\n"
MOST_SECONDS = 120
# A row that says something about others.
REMARK = re.compile(rb',\n(\["(?:reason|hint|warning)",.*?\])(?=,\n|\]\n)')
SLIPS = b"""campain 1
----
error: unknown directive "campain"

add-nodes 2 voters=(1,2) index=10
----
ok

campaign 1
raft-state
----
INFO 1 became candidate at term 1
campaign 2
"""
# Scripts that are refused.
REFUSED = {
    "BadLine": b"add-nodes =x\n----\n",
    "NoSeparator": b"# one node\nadd-nodes 1\n",
    "LineTooLong": b"raft-state\n----\n" + b"x" * 65_537 + b"\n",
    "TooLong": b"# a line\n" * 500_000,
    "TooManyDirectives": b"raft-state\n----\n\n" * 20_001,
}


def found() -> pathlib.Path | None:
    """The program, where it is built."""
    return PROGRAM if PROGRAM.exists() else None


def answer(words: Sequence[str | pathlib.Path], given: bytes = b"") -> tuple[bytes, bytes, int]:
    """What the program writes to these words, what it says of itself, and its status."""
    done = subprocess.run([PROGRAM, *words], input=given, capture_output=True, timeout=MOST_SECONDS)
    return done.stdout, done.stderr, done.returncode


def put(room: str | pathlib.Path, name: str, data: bytes) -> pathlib.Path:
    path = pathlib.Path(room) / name
    path.write_bytes(data)
    return path


def without_remarks(page: bytes) -> bytes:
    """A page without the rows that the plain bench doesn't know."""
    return REMARK.sub(b"", page)


def writes_the_plain_page(what: str, words: Sequence[str | pathlib.Path], given: bytes, page: str, status: int) -> None:
    output, errors, came = answer(["page", *words], given)
    same(f"the page of {what}", without_remarks(output), page.encode())
    same(f"how the page of {what} ends", (errors, came), (b"", status))


def pages_are_those_of_the_plain_rows() -> None:
    scripts = {path.name: (path.read_bytes(), 0) for path in TOUR}
    scripts |= {"hostile.txt": (HOSTILE, 1), "mismatch.txt": (mismatched()[0], 1), "many.txt": (MANY, 1), "lost.txt": (LOST, 1), "empty.txt": (b"", 0)}
    with tempfile.TemporaryDirectory() as room:
        for name, (data, status) in scripts.items():
            writes_the_plain_page(name, [put(room, name, data)], b"", page_of(data, name, FORMAT), status)


def remarks(data: bytes, room: str) -> list[list[int | str]]:
    """The rows of a script's page that say something about others."""
    page = answer(["page", put(room, "remarks.txt", data)])[0]
    return [json.loads(row) for row in REMARK.findall(page)]


def reasons_are_those_of_traces() -> None:
    with tempfile.TemporaryDirectory() as room:
        for path in TOUR:
            trace = answer(["trace", path])[0].decode().splitlines()
            reasons = [item["reason"] for item in map(json.loads, trace) if "reason" in item]
            told = [str(text) for name, text in (row[:2] for row in remarks(path.read_bytes(), room)) if name == "reason"]
            same(f"the reasons of {path.name}", [re.sub("^(?:ignored|refused|lost): ", "", text) for text in told], reasons)


def hints_and_warnings_are_those_of_check() -> None:
    with tempfile.TemporaryDirectory() as room:
        rows = [row for row in remarks(SLIPS, room) if row[0] != "reason"]
        lines = answer(["check", "--color", "never", put(room, "remarks.txt", SLIPS)])
        told = (lines[0] + lines[1]).decode()
    same("the hint", rows[0], ["hint", 'did you mean "campaign"?'])
    same("whether check gives it", 'did you mean "campaign"?' in told, True)
    found = [["warning", int(line), text] for line, text in re.findall(r"remarks\.txt:(\d+): warning: (.*)", told)]
    same("the warnings", rows[1:], found)
    same("the lines of the warnings", [row[1] for row in rows[1:]], [10, 13])


def names_are_told_as_they_are() -> None:
    data = TOUR[0].read_bytes()
    with tempfile.TemporaryDirectory() as room:
        for name in ("<!--<script>&'\"", "ключ \u202e.txt"):
            writes_the_plain_page(name, [put(room, name, data)], b"", page_of(data, name, FORMAT), 0)
    writes_the_plain_page("standard input", ["-"], data, page_of(data, "standard input", FORMAT), 0)


def every_changes_no_page() -> None:
    data, page = HOSTILE, page_of(HOSTILE, "standard input", FORMAT)
    """It is taken, with any text, and nothing is done with it."""
    for words in (["--every", "1", "-"], ["-", "--every", "0"], ["-", "--every=many"]):
        writes_the_plain_page(" ".join(words), words, data, page, 1)


def refusals_are_those_of_run() -> None:
    with tempfile.TemporaryDirectory() as room:
        cases: list[list[str | pathlib.Path]] = [[], [room], [f"{room}/none"]]
        cases += [[put(room, name, data)] for name, data in REFUSED.items()]
        for words in cases:
            wanted = answer(["run", *words])
            same(f"whether run refuses {words}", (wanted[0], wanted[2] > 1), (b"", True))
            same(f"what is answered to {words}", answer(["page", *words]), wanted)


def full_devices_are_told() -> None:
    with open("/dev/full", "wb") as full:
        done = subprocess.run([PROGRAM, "page", TOUR[0]], stdout=full, stderr=subprocess.PIPE, timeout=MOST_SECONDS)
    same("what is said of a full device", (done.stderr, done.returncode), (FAILED, 4))


def readers_that_go_away_are_told() -> None:
    """Who reads some and goes away has a beginning of the page, of which a pipe holds a part alone."""
    whole = page_of(HOSTILE, "standard input", FORMAT).encode()
    for count in (0, 1, 4096, 30_000):
        with subprocess.Popen([PROGRAM, "page", "-"], stdin=subprocess.PIPE, stdout=subprocess.PIPE, stderr=subprocess.PIPE) as running:
            assert running.stdin and running.stdout and running.stderr
            running.stdin.write(HOSTILE)
            running.stdin.close()
            came = running.stdout.read(count)
            running.stdout.close()
            same("what is said of a reader that has gone", (running.stderr.read(), running.wait(MOST_SECONDS)), (FAILED, 4))
        same("what came", came, whole[:count])


def twenty_thousand_directives_are_written() -> None:
    page = long_page(FORMAT)
    with tempfile.TemporaryDirectory() as room:
        path = put(room, "long", LONG)
        start = time.monotonic()
        output, errors, status = answer(["page", path])
        seconds = time.monotonic() - start
    same("the page of 20,000 directives", (without_remarks(output), errors, status), (page.encode(), b"", 0))
    print(f"the page of 20,000 directives, {len(page):,} bytes, is written in {seconds:.2f} s")


def large_pages_are_refused() -> None:
    """Nothing is written of a page that has no room, whether one directive is too much or all of them are; other documents have room."""
    for name, data in (("one directive", to_and_fro(1, 1000)), ("directives", to_and_fro(400, 1))):
        same(f"the page of {name} with too many rows", answer(["page", "-"], data), (b"", PAST_ROOM, 3))
    few = to_and_fro(1, 10)
    writes_the_plain_page("a few rounds", ["-"], few, page_of(few, "standard input", FORMAT), 0)


def rows_of_events_take_little() -> None:
    """What changed after each event, beside what changed after each directive."""
    for name, data in {**{path.name: path.read_bytes() for path in TOUR}, "many": MANY, "lost": LOST, "less": LESS}.items():
        events, directives = (len(page_of(data, name, format)) - len(page_of(b"", name, format)) for format in (EVENTS_TOO, DIRECTIVES))
        same(f"whether the rows of {name} are less than twice as long", events < 2 * directives, True)


WRITTEN = [
    pages_are_those_of_the_plain_rows, reasons_are_those_of_traces, hints_and_warnings_are_those_of_check, names_are_told_as_they_are,
    every_changes_no_page, large_pages_are_refused, refusals_are_those_of_run, full_devices_are_told, readers_that_go_away_are_told, rows_of_events_take_little,
    twenty_thousand_directives_are_written,
]
