#!/usr/bin/env python3
"""Measures a conversation with the built program over pipes, on scripts of 1,000 and nearly 10,000 directives: the time
to start, ten edits in turn with the answer of each read before the next is sent, and the report. Then an edit at the beginning
of 10,000 single steps that changes all states, beside a run of them and a start of a session; each time is the least of some.

    bench/session.py
"""
import os
import subprocess
import sys
import tempfile
import time

sys.dont_write_bytecode = True
sys.path[:1] = [os.path.dirname(os.path.dirname(os.path.abspath(__file__)))]

from bench import cluster  # noqa: E402
from bench.measured import PROGRAM, ask, build, record, start_session, write_file  # noqa: E402

EDITS = 10
TIMES = 5
# Directive 2 adds the nodes; whatever follows is then of other indexes.
OTHER_NODES = b"replace 2 3\nadd-nodes 3 voters=(1,2,3) index=11\n----\nok\n"


def script_of(directives: int) -> bytes:
    blocks = ["add-nodes 3 voters=(1,2,3) index=10 log-level=none\n----\nok\n\n"]
    while len(blocks) < directives:
        blocks.append("raft-state log-level=none\n----\nok\n\n" if len(blocks) % 2 else "log-level info\n----\nok\n\n")
    return "".join(blocks).encode()


def changed_at_once(path: str) -> tuple[float, float, float]:
    """How long a run takes, the start of a session, and an edit that changes all states, with its answer."""
    start = time.perf_counter()
    subprocess.run([PROGRAM, "run", path], stdout=subprocess.DEVNULL, check=True)
    run = (time.perf_counter() - start) * 1e3
    start = time.perf_counter()
    program = start_session(path)
    ask(program, b"sing\n")
    started = (time.perf_counter() - start) * 1e3
    answer, took = ask(program, OTHER_NODES)
    if not answer.startswith(b"done executed=10000 "):
        sys.exit(f"{answer!r} came")
    assert program.stdin
    program.stdin.close()
    program.wait()
    return run, started, took / 1e6


def measure_first_edit() -> None:
    with tempfile.NamedTemporaryFile() as script:
        record(script.name, cluster.script_of(cluster.single_steps(10000)))
        all_times = [changed_at_once(script.name) for _ in range(TIMES)]
    run, started, took = (min(times[at] for times in all_times) for at in range(3))
    print(f"10,000 single steps: run {run:.2f} ms, a session starts in {started:.2f} ms, an edit that changes all states {took:.2f} ms: {took / run:.2f} times the run")


def main() -> None:
    build()
    for directives in (1000, 9990):
        with tempfile.NamedTemporaryFile() as script:
            write_file(script.name, script_of(directives))
            start = time.perf_counter()
            program = start_session(script.name)
            answer, _ = ask(program, b"show 1\n")
            assert program.stdin and program.stdout
            program.stdout.readline()
            started = (time.perf_counter() - start) * 1e3
            took = []
            for i in range(EDITS):
                place = 2 + i * (directives - 2) // EDITS
                answer, time_taken = ask(program, b"insert %d 3\nraft-state log-level=none\n----\nok\n" % place)
                if not answer.startswith(b"done "):
                    sys.exit(f"{answer!r} came")
                took.append(time_taken / 1e6)
            answer, report = ask(program, b"report\n")
            program.stdin.close()
            program.wait()
            print(f"{directives:5} directives: start {started:.2f} ms, {EDITS} edits {sum(took):.2f} ms (worst {max(took):.2f} ms), report {report / 1e6:.2f} ms")
    measure_first_edit()


if __name__ == "__main__":
    main()
