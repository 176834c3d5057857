"""Holds the instructions of a run under a stated number: they are the same whatever else the machine does. valgrind's callgrind counts them, on
scripts of bench/cluster.py, and in a conversation with an editor; where it isn't, this says so.
"""
import re
import shutil
import subprocess
import tempfile
from collections.abc import Callable, Iterator
from functools import partial

from bench import cluster
from bench.measured import record
from tests.editors.client import changed, framed, notification, opened, request, unframed
from tests.harness import PROGRAM, Result

MOST_SECONDS = 120
# In millions, by the name that the script has in bench/cluster.py: a fifth above what docs/MEASURES.md has. So what takes twice as long is noticed, and no
# function has to be written for its few instructions.
MOST = {
    "10,000 single steps": 56,
    "20,000 single steps": 112,
    "10,000 single steps, a session": 78,
    "5,000 proposals, quiet": 184,
    "5,000 proposals at debug": 320,
}
# Whose outputs are not the expected ones, so that the report has them all.
DIFFERING = {"5,000 proposals at debug"}
# EDITS edits of a document that has MISMATCHES mismatches of LINES lines each. Together they may take as many instructions as opening the document, which
# compares every mismatch once. If each edit compared every mismatch again, they would take EDITS times as many.
MISMATCHES, LINES, EDITS = 100, 200, 8
URI = "file:///script.txt"


def counted(words: list[str], sent: bytes = b"") -> tuple[int, bytes, int]:
    """The instructions of the program with these words and this input, what it writes, and its status."""
    call = ["valgrind", "--tool=callgrind", "--callgrind-out-file=/dev/null", str(PROGRAM), *words]
    done = subprocess.run(call, input=sent, capture_output=True, timeout=MOST_SECONDS)
    found = re.search(rb"Collected : (\d+)", done.stderr)
    assert found, done.stderr
    return int(found[1]), done.stdout, done.returncode


def conversation(edits: int) -> bytes:
    """A document that is opened and edited so often: a letter in the last expectation, and the first mismatch, each taken out and put back. The first line
    and the last of each expectation are others than the output's."""
    quiet = ["add-nodes 1 voters=(1) index=10", "campaign 1", "stabilize", *["propose 1 a"] * LINES, "stabilize"]
    heads = [f"{head} log-level=none" if head[0] != "p" else head for head in quiet]
    front = "".join(f"{head}\n----\nok\n\n" for head in heads)
    same = "".join(f'1/{index} "a"\n' for index in range(12, 10 + LINES))
    blocks = [f"raft-log 1\n----\nx{number}\n{same}x\n\n" for number in range(MISMATCHES)]
    text = front + "".join(blocks)
    line, last = front.count("\n"), text.count("\n") - 2
    first, second = {"line": line, "character": 0}, {"line": line + blocks[0].count("\n"), "character": 0}
    place, end = {"line": last, "character": 0}, {"line": last, "character": 1}
    each = [{"range": {"start": place, "end": place}, "text": "x"}, {"range": {"start": place, "end": end}, "text": ""},
            {"range": {"start": first, "end": second}, "text": ""}, {"range": {"start": first, "end": first}, "text": blocks[0]}]
    changes = [changed(URI, version, each[version % len(each)]) for version in range(4, 4 + edits)]
    bodies = [request(0, "initialize", capabilities={}), notification("initialized"), opened(URI, text), *changes, request(1, "shutdown"), notification("exit")]
    return b"".join(map(framed, bodies))


def wrong_of_edits() -> tuple[str, ...]:
    """What is wrong with the edits, which leave the text as it was."""
    opening, _, _ = counted(["lsp"], conversation(0))
    both, came, status = counted(["lsp"], conversation(EDITS))
    published = [it["params"]["diagnostics"] for it in unframed(came) if it.get("method") == "textDocument/publishDiagnostics"]
    counts = [len(it) for it in published]
    said = f"{(both - opening) / 1e6:.1f} million instructions, at most {opening / 1e6:.1f} as for opening it; status {status}; {counts} diagnostics"
    print(f"edits among mismatches: {said}")
    due = [MISMATCHES, *[MISMATCHES, MISMATCHES, MISMATCHES - 1, MISMATCHES] * (EDITS // 4)]
    is_held = both <= 2 * opening and status == 0 and counts == due and published[0] == published[-1]
    return () if is_held else (said,)


def wrong_of_script(name: str, most: int) -> tuple[str, ...]:
    """What is wrong with the run of a script."""
    heads, (subcommand, *_) = {it: (heads, words) for it, heads, words in cluster.WORK}[name]
    with tempfile.NamedTemporaryFile() as script:
        record(script.name, cluster.script_of(heads))
        instructions, _, status = counted([subcommand, script.name])
    said = f"{instructions / 1e6:.1f} million instructions, at most {most}; status {status}"
    print(f"{name}: {said}")
    return () if instructions <= most * 1_000_000 and status == (name in DIFFERING) else (said,)


LOOKS: dict[str, Callable[[], tuple[str, ...]]] = {name: partial(wrong_of_script, name, most) for name, most in MOST.items()}
LOOKS["edits among mismatches"] = wrong_of_edits


def results(word: str) -> Iterator[Result]:
    """Each script whose instructions are limited, and the edits."""
    for name, look in LOOKS.items():
        if word in name:
            yield Result(name, look()) if shutil.which("valgrind") else Result(name, missing="valgrind")
