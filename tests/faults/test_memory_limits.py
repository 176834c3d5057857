"""Runs the program with little memory: with `ulimit -v`, from the least address space with which it runs an empty script on upwards, and on
scripts that print gigabytes or keep them. It ends with 5, one line on standard error and no output, or answers as with ample memory; a session
refuses the edits that find none and answers everything else. No run ends by a signal, and none takes long.
"""
import os
import resource
import subprocess
import tempfile
import time
from collections.abc import Callable, Iterator

from tests.harness import PROGRAM, Result
from tests.page.program import PAST_ROOM
from tests.page.scripts import to_and_fro

# The output, the errors and the status.
Answer = tuple[bytes, bytes, int]
NO_MEMORY = b"raftbench: out of memory\n"
KIB = 1024
# The most that the program may need for an empty script, and for a session on it.
MOST_FOR_NOTHING = 8 * 1024
MOST_SECONDS = 60


def script_of(*heads: str) -> bytes:
    return "".join(f"{head}\n----\n\n" for head in heads).encode()


ELECTED = ["add-nodes 3 voters=(1,2,3) index=10", "campaign 1", "stabilize log-level=none", "log-level none"]
QUIET = script_of(*ELECTED, *["propose 1 abcdefgh", "stabilize"] * 300, "log-level debug", "raft-log 1", "raft-state")
# What is printed has no bound but the script's: 5,000 entries, and logs of them again and again.
GIGABYTES = script_of(*ELECTED, *["propose 1 " + "x" * 64] * 5000, "stabilize", *["raft-log 1 log-level=debug"] * 9000)
# Two followers that take each other for the leader hand proposals to and fro, and each hop is shown.
ROUNDS = script_of(
    "add-nodes 2 voters=(1,2) index=10", "send-snapshot 1 2", "send-snapshot 2 1", "deliver-msgs 1 2", "process-ready 1 2", "deliver-msgs 1 2",
    *["propose 1 " + "x" * 500] * 4096, *["stabilize rounds=1000"] * 100,
)
# Nothing of it is shown: directive 5,006 says so, and behind it the log is asked for again and again.
SILENT = script_of(*ELECTED, *["propose 1 " + "x" * 64] * 5000, "stabilize", "log-level none", *["raft-log 1"] * 9000)
# A leader of 32 nodes that ticks before it sends anything: it has half a million messages to send.
UNSENT = script_of(
    "log-level none", f"add-nodes 32 voters=({','.join(map(str, range(1, 33)))}) index=10", "campaign 1", "stabilize",
    *["tick-heartbeat 1"] * 16000,
)
EDIT = b"insert 5 2\nraft-state\n----\n"


def result(name: str, problem: str | None) -> Result:
    return Result(name, (problem,) if problem else ())


def answer(words: list[str], given: bytes, limit: int | None = None) -> Answer:
    """The output, what stands on standard error, and the status, with so many KiB of addresses."""
    narrow = None if limit is None else lambda: resource.setrlimit(resource.RLIMIT_AS, (limit * KIB, limit * KIB))
    done = subprocess.run([PROGRAM, *words], input=given, capture_output=True, timeout=MOST_SECONDS, preexec_fn=narrow)
    return done.stdout, done.stderr, done.returncode


def least_for(words: list[str], given: bytes, right: Answer) -> int:
    """The least number of KiB, in steps of 64, with which the answer is right."""
    low, high = 0, MOST_FOR_NOTHING // 64
    while high - low > 1:
        middle = (low + high) // 2
        low, high = (low, middle) if answer(words, given, middle * 64) == right else (middle, high)
    return high * 64


def wrong_in_steps(
    words: list[str], given: bytes, first: int, step: int, is_right: Callable[[Answer, Answer], bool] | None = None,
) -> tuple[str | None, int]:
    """What is wrong with some limit from the first on, up to one with which the answer is right; and how many there were."""
    ample, limit, tried = answer(words, given), first, 0
    while True:
        came = answer(words, given, limit)
        tried += 1
        if came == ample:
            return None, tried
        if came != (b"", NO_MEMORY, 5) and not (is_right and is_right(came, ample)):
            return f"with {limit} KiB: {came[0][:200]!r}, {came[1]!r}, {came[2]}", tried
        limit += step


def is_session_with_refusals(came: Answer, ample: Answer) -> bool:
    """Whether a session that answers two reports and an edit between them refused the edit alone."""
    report = ample[0][:ample[0].index(b"done ")]
    return came == (report + b"refused OutOfMemory\n" + report, b"", 1)


def check_least() -> tuple[str | None, int]:
    """An empty script, and the least that it takes."""
    least = max(least_for(words, given, right) for words, given, right in (
        (["run", "-"], b"", (b"0 directives, 0 mismatches\n", b"", 0)), (["session", os.devnull], b"report\n", (b"0 directives, 0 mismatches\n", b"", 0)),
    ))
    print(f"an empty script takes {least} KiB of addresses")
    return (None if least < MOST_FOR_NOTHING else "an empty script takes more"), least


def check_steps(least: int) -> Iterator[Result]:
    """Little memory and then more."""
    cases: list[tuple[str, list[str], bytes, Callable[[Answer, Answer], bool] | None]] = [
        ("run", ["run", "-"], QUIET, None), ("rewrite", ["rewrite", "-"], QUIET, None),
        ("session", ["session", "SCRIPT", "--every", "1"], b"report\n" + EDIT + b"report\n", is_session_with_refusals),
    ]
    for name, words, given, is_right in cases:
        with tempfile.NamedTemporaryFile() as script:
            script.write(QUIET)
            script.flush()
            words = [script.name if word == "SCRIPT" else word for word in words]
            wrong, tried = wrong_in_steps(words, given, least, 64, is_right)
        print(f"{name}: {tried} limits")
        yield result(name, wrong)


def ends_soon(name: str, mode: str, script: bytes, limit: int) -> str | None:
    """What is wrong, where a script that takes more than there is has to end with 5."""
    with tempfile.NamedTemporaryFile() as file:
        file.write(script)
        file.flush()
        begun = time.monotonic()
        came = answer([mode, file.name], b"report\n", limit)
    print(f"{mode} of {name} in {limit} KiB: {time.monotonic() - begun:.2f} s")
    return None if came == (b"", NO_MEMORY, 5) else f"{mode} of {name} in {limit} KiB: {came[0][:200]!r}, {came[1]!r}, {came[2]}"


def check_ends() -> Iterator[Result]:
    """Scripts that print gigabytes, or whose nodes keep more than there is memory for, end soon."""
    for name, script in (("gigabytes of logs", GIGABYTES), ("gigabytes of rounds", ROUNDS)):
        yield result(f"run of {name} in 50,000 KiB", ends_soon(name, "run", script, 50_000))
        for mode in ("run", "rewrite", "session"):
            yield result(f"{mode} of {name}", ends_soon(name, mode, script, 500_000))
    for mode in ("run", "session"):
        yield result(f"{mode} of messages", ends_soon("messages that nobody takes", mode, UNSENT, 40_000))


def check_page() -> str | None:
    """A page that has no room, by one directive or by many, is refused within 200 MiB."""
    for script in (to_and_fro(1, 1000), to_and_fro(400, 1)):
        came = answer(["page", "-"], script, 200 * KIB)
        if came != (b"", PAST_ROOM, 3):
            return f"{came[0][:200]!r}, {came[1]!r}, {came[2]}"
    return None


def check_edit() -> str | None:
    """An edit after which a session would print gigabytes is refused; the session goes on, and a later edit is made."""
    show, edit = b"show 5006\n", b"replace 5006 2\nlog-level debug\n----\n"
    with tempfile.NamedTemporaryFile() as file:
        file.write(SILENT)
        file.flush()
        begun = time.monotonic()
        came = answer(["session", file.name], show + edit + show + b"remove 14006\n", 500_000)
    print(f"an edit that prints gigabytes: {time.monotonic() - begun:.2f} s")
    wanted = b"output 1\nok\nrefused OutOfMemory\noutput 1\nok\ndone executed=5 mismatches=14005\n", b"", 1
    return None if came == wanted else f"an edit that prints gigabytes: {came[0][:200]!r}, {came[1]!r}, {came[2]}"


def results(word: str) -> Iterator[Result]:
    """All of them: the later ones take what the first one finds."""
    problem, least = check_least()
    yield result("an empty script", problem)
    yield from check_steps(least)
    yield from check_ends()
    yield result("pages that have no room", check_page())
    yield result("an edit that prints gigabytes", check_edit())
