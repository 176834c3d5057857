"""Holds a conversation with `raftbench session` over pipes: each answer is read before the next command is sent, so a
session that waits for more, or keeps an answer back, is found out.
"""
import os
import pathlib
import select
import subprocess
import tempfile
import time
from collections.abc import Iterator
from typing import IO

from tests.harness import PROGRAM, Result

MOST_SECONDS = 20

# One node, and eleven directives that leave every state alone.
SCRIPT = (
    "add-nodes 1 voters=(1) index=10\n----\nINFO 1 started at 1/10 with voters=(1)\n\n"
    + "log-level debug\n----\nok\n\n" * 11
)
NODE = '1 follower term=0 vote=0 lead=0 commit=10 applied=10 content=0:""'

# What is sent, and what is answered before anything more is sent.
TALK = [
    ("report\n", "12 directives, 0 mismatches\n"),
    # Checkpoints stand at 0, 4, 8 and 12: it goes on from 4, and the old place 8 agrees.
    ("insert 6 2\nraft-state\n----\n", "done executed=5 mismatches=1\n"),
    ("show 6\n", f"output 1\n{NODE}\n"),
    ("report\n", f"mismatch 6\n+ {NODE}\n13 directives, 1 mismatches\n"),
    ("expect 3 1\nno\n", "done executed=0 mismatches=2\n"),
    ("show 0\n", "refused NoSuchPlace\n"),
    ("show 14\n", "refused NoSuchPlace\n"),
    ("accept\n", "done executed=0 mismatches=0\n"),
    # Checkpoints stand at 0, 4, 8, 9 and 13: it goes on from 4, and the old place 8 agrees.
    ("remove 6\n", "done executed=3 mismatches=0\n"),
    ("insert 99 3\nlog-level info\n----\nok\n", "refused NoSuchPlace\n"),
    ("replace 2 1\nlog-level info\n", "refused NoSeparator at line 1\n"),
    ("replace 2 7\nlog-level info\n----\nok\n\nlog-level info\n----\nok\n", "refused NotOneBlock\n"),
    ("expect 1 2\na\n----\n", "refused BadExpectation\n"),
    ("sing\n", "refused BadCommand\n"),
    ("report\n", "12 directives, 0 mismatches\n"),
    ("rewrite\n", SCRIPT),
    ("script\n", SCRIPT),
    # A session takes as many commands as come.
    ("\n" * 200_000 + "report\n", "12 directives, 0 mismatches\n"),
]


def read_answer(pipe: IO[bytes], length: int) -> bytes:
    """As many bytes, or what came until the time is over."""
    answer, end = b"", time.monotonic() + MOST_SECONDS
    while len(answer) < length and (left := end - time.monotonic()) > 0:
        if not select.select([pipe], [], [], left)[0]:
            break
        more = os.read(pipe.fileno(), length - len(answer))
        if not more:
            break
        answer += more
    return answer


def problem_of(program: subprocess.Popen[bytes], sent: str, wanted: str) -> str:
    """What is wrong with the answer to a command, or nothing."""
    assert program.stdin and program.stdout
    program.stdin.write(sent.encode())
    program.stdin.flush()
    answer = read_answer(program.stdout, len(wanted.encode()))
    return "" if answer == wanted.encode() else f"{sent!r}: {answer.decode(errors='replace')!r} came, and not {wanted!r}"


def results(word: str) -> Iterator[Result]:
    """Each command in its turn, up to the first wrong answer, and the end."""
    with tempfile.TemporaryDirectory() as room:
        path = pathlib.Path(room) / "script"
        path.write_text(SCRIPT)
        with subprocess.Popen([PROGRAM, "session", path, "--every", "4"], stdin=subprocess.PIPE, stdout=subprocess.PIPE, bufsize=0) as program:
            for number, (sent, wanted) in enumerate(TALK, 1):
                problem = problem_of(program, sent, wanted)
                yield Result(f"command {number}", (problem,) if problem else ())
                if problem:
                    break
            try:
                rest, _ = program.communicate(timeout=MOST_SECONDS)
            except subprocess.TimeoutExpired:
                program.kill()
                rest = b"no end"
            status = program.wait(MOST_SECONDS)
    yield Result("the end", () if (rest, status) == (b"", 0) else (f"{rest!r}, and status {status}",))
