"""Runs the tools of nodes/, and scripts on nodes, for several tests."""
from __future__ import annotations

import os
import subprocess
import tempfile
from collections.abc import Sequence

from plain.script import Block
from raftbench_nodes.compare.comparison import Comparison, Outcome, run_beside
from raftbench_nodes.compare.judge import Judge
from raftbench_nodes.compare.script import Step, blocks_of
from raftbench_nodes.process.process import Process
from tests.harness import TESTS, TOP

PLAIN = str(TOP / "nodes" / "plain")
BAD = str(TESTS / "nodes" / "bad_node.py")
PROGRAM = Judge().program
JOBS = min(4, len(os.sched_getaffinity(0)))
# What the tools remember, for these tests alone.
CACHE = tempfile.TemporaryDirectory()


def tool(name: str, *words: object, **environment: str) -> tuple[str, str, int]:
    """Runs a tool of nodes/: its output, its standard error and its status."""
    environment.setdefault("XDG_CACHE_HOME", CACHE.name)
    done = subprocess.run([TOP / "nodes" / name, *map(str, words)], capture_output=True, text=True, errors="replace", timeout=600, env={**os.environ, **environment})
    return done.stdout, done.stderr, done.returncode


def directives(*heads: str | Step) -> list[Block]:
    """The blocks of heads, or of steps."""
    return blocks_of([Step(head) if isinstance(head, str) else head for head in heads])


def beside(command: str | Sequence[str], blocks: Sequence[Block], comparison: Comparison) -> Outcome:
    """Runs one script on a new process."""
    process = Process(command)
    try:
        return run_beside(blocks, process, comparison)
    finally:
        process.close()
