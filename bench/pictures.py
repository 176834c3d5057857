#!/usr/bin/env python3
"""Counts the instructions that `run`, `page` and `chart` take for the same script, under valgrind's callgrind, and their memory: three nodes, and
proposals that each reach all of them. Instructions are the same whatever else the machine does.

    bench/pictures.py [PROPOSALS]
"""
import os
import re
import subprocess
import sys
import tempfile

sys.dont_write_bytecode = True
sys.path[:1] = [os.path.dirname(os.path.dirname(os.path.abspath(__file__)))]

from bench.measured import PROGRAM, build, compiled, watched_run, write_file  # noqa: E402

BEFORE = b"log-level none\n----\nok\n\nadd-nodes 3 voters=(1,2,3) index=10\n----\nok\n\ncampaign 1\n----\nok\n\nstabilize\n----\nok\n\n"
ROUND = b"propose 1 value\n----\nok\n\nstabilize\n----\nok\n\n"


def instructions(words: list[str]) -> int:
    """How many instructions the program takes for these words."""
    call = ["valgrind", "--tool=callgrind", "--callgrind-out-file=/dev/null", PROGRAM, *words]
    told = subprocess.run(call, stdin=subprocess.DEVNULL, stdout=subprocess.DEVNULL, stderr=subprocess.PIPE).stderr.decode()
    found = re.search(r"Collected : (\d+)", told)
    if not found:
        sys.exit(f"raftbench {' '.join(words)} was not counted: {told}")
    return int(found[1])


def main() -> None:
    rounds = int(sys.argv[1]) if len(sys.argv) > 1 else 1000
    build()
    with tempfile.TemporaryDirectory() as room:
        watched = compiled(room, "watched")
        path = os.path.join(room, "script")
        write_file(path, BEFORE + rounds * ROUND)
        for mode in ("run", "page", "chart"):
            _, memory, _ = watched_run(watched, [mode, path])
            print(f"{mode:5} {rounds} proposals: {instructions([mode, path]) / 1e6:.1f} million instructions, {memory} KiB")


if __name__ == "__main__":
    main()
