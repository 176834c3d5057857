#!/usr/bin/env python3
"""Measures the built program: the time to start, and scripts of `raft-state` and `log-level` under `run` and
`rewrite`. Prints the best wall time of some runs and the peak memory.

    bench/program.py [RUNS]
"""
import os
import sys
import tempfile

sys.dont_write_bytecode = True
sys.path[:1] = [os.path.dirname(os.path.dirname(os.path.abspath(__file__)))]

from bench.measured import build, compiled, watched_run, write_file  # noqa: E402


def script_of(directives: int) -> bytes:
    blocks = ["add-nodes 3 voters=(1,2,3) index=10\n----\n\n"]
    while len(blocks) < directives:
        blocks.append("raft-state\n----\n\n" if len(blocks) % 2 else "log-level info\n----\nok\n\n")
    return "".join(blocks).encode()


def measured(watched: str, words: list[str], runs: int) -> tuple[float, float]:
    """The best wall time in seconds, and the most memory in KiB."""
    told = [watched_run(watched, words) for _ in range(runs)]
    if any(status not in (0, 1) for _, _, status in told):
        sys.exit(f"raftbench {' '.join(words)} ended with {max(status for _, _, status in told)}")
    return min(took for took, _, _ in told) / 1e9, max(memory for _, memory, _ in told)


def main() -> None:
    runs = int(sys.argv[1]) if len(sys.argv) > 1 else 20
    build()
    with tempfile.TemporaryDirectory() as room:
        watched = compiled(room, "watched")
        path = os.path.join(room, "script")
        write_file(path, b"")
        best, most = measured(watched, ["run", path], runs)
        print(f"start: {best * 1e3:.2f} ms, {most} KiB")
        for directives in (1000, 5000, 10000):
            write_file(path, script_of(directives))
            for mode in ("run", "rewrite"):
                best, most = measured(watched, [mode, path], runs)
                print(f"{mode:8} {directives:6} directives: {best * 1e3:7.2f} ms, {best * 1e6 / directives:6.2f} us a directive, {most} KiB")


if __name__ == "__main__":
    main()
