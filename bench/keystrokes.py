#!/usr/bin/env python3
"""Measures one key in an editor: a letter put into a document of 200, 10,000 and 20,000 directives, and taken out again, at its
beginning, in its middle and at its end.

Each change is sent to `raftbench lsp` over a pipe as editors send it, a range and its new text, and the diagnostics that are
published for it are read before the next is sent. A letter changes a comment, what is expected of a directive, or a directive, so
that it is another; none changes a state. At last a digit of the first directive changes, and with it every state. Then a letter in a
document of 1,000 mismatches, each of 600 lines on both sides. Prints the median and the worst time in microseconds; and what it takes to
open the document.

    bench/keystrokes.py [ROUNDS]     RAFTBENCH names a program that is built elsewhere
"""
import os
import pathlib
import statistics
import subprocess
import sys
import tempfile
import time
from typing import Any

sys.dont_write_bytecode = True
sys.path[:1] = [os.path.dirname(os.path.dirname(os.path.abspath(__file__)))]

from bench import measured  # noqa: E402
from tests.editors import client  # noqa: E402

PROGRAM = pathlib.Path(os.environ.get("RAFTBENCH", measured.PROGRAM))
DIRECTIVES = (200, 10_000, 20_000)
NODES = "add-nodes 3 voters=(1,2,3) index=10\n----\n\n"
STATE = "# as it stands\nraft-state\n----\n\n"
LEVEL = "log-level info\n----\n\n"
URI = "file:///script.txt"
# The lines of a block above its head, of its head, and of the first line that is expected.
COMMENT, HEAD, EXPECTED = 0, 1, 3
# How many long mismatches, and how many lines each has on either side.
MISMATCHES, LONG = 1_000, 600
# The letter stands in `index=1`, so that it stays a number that is allowed.
DIGIT = len("add-nodes 3 voters=(1,2,3) index=1")


def script_of(directives: int) -> str:
    """A script of so many directives, each of which expects what it gives."""
    with tempfile.NamedTemporaryFile("w") as script:
        script.write(NODES + "".join(STATE if i % 2 else LEVEL for i in range(1, directives)))
        script.flush()
        # Its status says that the script expected something else.
        return subprocess.run([PROGRAM, "rewrite", script.name], stdout=subprocess.PIPE, text=True).stdout


def change(line: int, character: int, old: str, new: str) -> dict[str, Any]:
    """A change that puts `new` in the place of `old`, which stands there."""
    start = {"line": line, "character": character}
    return {"range": {"start": start, "end": {"line": line, "character": character + len(old)}}, "text": new}


class Document:
    """A document that is open in a server. Its version counts its changes."""

    def __init__(self, server: client.Client, text: str) -> None:
        self.server = server
        self.version = 1
        self.took = self.published(client.opened(URI, text))

    def published(self, message: dict[str, Any]) -> int:
        """Sends it, and gives the nanoseconds until diagnostics of this version came. Exits where others came."""
        start = time.perf_counter_ns()
        self.server.send(message)
        answer = self.server.receive()
        took = time.perf_counter_ns() - start
        if answer.get("method") != "textDocument/publishDiagnostics" or answer["params"].get("version") != self.version:
            sys.exit(f"{answer!r} came")
        return took

    def key(self, line: int, character: int, old: str, new: str) -> int:
        self.version += 1
        return self.published(client.changed(URI, self.version, change(line, character, old, new)))


def show(kind: str, times: list[int]) -> None:
    print(f"  {kind:24} median {statistics.median_high(times) / 1000:9.1f} us, worst {max(times) / 1000:9.1f} us")


def measure_key(document: Document, kind: str, place: tuple[int, int], old: str, new: str, rounds: int) -> None:
    times = []
    for _ in range(rounds):
        times.append(document.key(*place, old, new))
        times.append(document.key(*place, new, old))
    show(kind, times)


def measure(directives: int, rounds: int) -> None:
    text = script_of(directives)
    comments = [i for i, line in enumerate(text.split("\n")) if line == "# as it stands"]
    with client.Client(PROGRAM) as server:
        server.begin()
        document = Document(server, text)
        print(f"{directives} directives, {len(text)} bytes; opened in {document.took / 1000:.1f} us")
        for name, block in ("first", comments[0]), ("middle", comments[len(comments) // 2]), ("last", comments[-1]):
            measure_key(document, f"a comment, {name}", (block + COMMENT, 2), "", "x", rounds)
            measure_key(document, f"an expectation, {name}", (block + EXPECTED, 0), "", "x", rounds)
            measure_key(document, f"a directive, {name}", (block + HEAD, 4), "", "x", rounds)
        measure_key(document, "every state", (0, DIGIT), "0", "1", max(1, rounds // 20))


def measure_mismatches(rounds: int) -> None:
    """A letter in the last of many long mismatches, which alone is compared again."""
    quiet = ["add-nodes 1 voters=(1) index=10", "campaign 1", "stabilize", *["propose 1 a"] * LONG, "stabilize"]
    expected = "".join(f"{line}\n" for line in range(LONG))
    text = "".join(f"{head} log-level=none\n----\nok\n\n" if head[0] != "p" else f"{head}\n----\nok\n\n" for head in quiet)
    text += f"raft-log 1\n----\n{expected}\n" * MISMATCHES
    with client.Client(PROGRAM) as server:
        server.begin()
        document = Document(server, text)
        print(f"{MISMATCHES} mismatches of {LONG} lines, {len(text)} bytes; opened in {document.took / 1000:.1f} us")
        measure_key(document, "an expectation, last", (text.count("\n") - 2, 0), "", "x", max(1, rounds // 20))


def main() -> None:
    rounds = int(sys.argv[1]) if len(sys.argv) > 1 else 100
    if "RAFTBENCH" not in os.environ:
        measured.build()
    for directives in DIRECTIVES:
        measure(directives, rounds)
    measure_mismatches(rounds)


if __name__ == "__main__":
    main()
