"""What a restart of each node would lose, in the words of `raftbench check --why` (docs/USING.md, "Reasons")."""
from __future__ import annotations

import re
from collections.abc import Iterable

from .blocks import new_block
from .chunks import Blocks
from .program import Program

LOST = re.compile(r"^\+ INFO (\d+) restarted at .*\n\^   lost: (.*)$", re.MULTILINE)


def losses(program: Program, blocks: Blocks, ids: Iterable[str]) -> dict[str, str]:
    """By node, what it would lose if it restarted after these directives. A node that would lose nothing isn't in it."""
    last = len(blocks) - 1
    before = blocks.with_these(last, last + 1, [blocks[last].closed()]).text
    # A node loses only what is its own, so all of them may restart at once.
    restart = new_block([f"restart {' '.join(ids)} log-level=info".encode()], (), b"\n")
    report = program.check(before + restart.text, before.count(b"\n") + 1, "--why").report
    return dict(LOST.findall(report))
