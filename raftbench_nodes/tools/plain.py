"""raftbench-nodes plain: serves the reference's nodes by the protocol of docs/OWN-NODES.md, if asked with a planted bug."""
from __future__ import annotations

import os
import sys
from typing import Sequence

from plain.node import Node

from ..bugs.registry import BUGS
from ..output import StandardOutput
from ..protocol.adapter import Adapter

USAGE = """usage: raftbench-nodes plain               the node as it is
       raftbench-nodes plain --bug NAME    with a planted bug, by its name
       raftbench-nodes plain --bugs        lists the bugs, and what each does
"""


def run(words: Sequence[str]) -> int:
    """Answers calls until its input ends."""
    if list(words) == ["--bugs"]:
        print("\n".join(f"{name:36}{bug.__doc__}" for name, bug in BUGS.items()))
        return 0
    if words and (len(words) != 2 or words[0] != "--bug" or words[1] not in BUGS):
        print(USAGE, end="", file=sys.stdout if list(words) in (["-h"], ["--help"]) else sys.stderr)
        return 0 if list(words) in (["-h"], ["--help"]) else 2
    adapter, rest, output = Adapter(BUGS[words[1]] if words else Node), b"", StandardOutput()
    # Calls may come in batches: everything that has arrived is answered at once.
    while data := os.read(0, 1 << 16):
        *lines, rest = (rest + data).split(b"\n")
        answers = b"".join(filter(None, (adapter.line(line) for line in lines)))
        while answers:
            answers = answers[output.write(answers):]
    return 0
